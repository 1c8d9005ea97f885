"""Stored cases: how a topic is read, and the answers that the model gives to the commands that it knows."""
import hashlib
import os
import re
from typing import NamedTuple

from model.generator import generated_script
from model.happening import Happening, NotKnown
from model.judge import verdict_on
from model.listing import ListedWorld
from model.player import run_of
from model.report import audited, byte_lines, letter_lines, premises_line, report_lines, sum_line
from model.told_bytes import FORMS, change_lines, exact_lines, told_digest, told_text
from model.values import Party
from model.world import Refused

TOP = os.path.dirname(os.path.dirname(os.path.dirname(os.path.realpath(__file__))))
FOLDER = os.path.join(TOP, "crates", "qu_cases", "data", "cases")
# The file with the names that all topics use.
NAMES = "names"
CLIENT = re.compile(r"c(\d+)")
# The words of `qu` that sum the run of a generated script up.
SUMMED = re.compile(r"sim --gen[ =](\d+)")


class Case(NamedTuple):
    """A stored case: its name, command and words, its input and its answer."""

    name: str
    command: str
    words: str
    text: str
    stored: str


def topics():
    return sorted(name for name in os.listdir(FOLDER) if name != NAMES)


def read_file(name):
    with open(os.path.join(FOLDER, name), encoding="utf-8") as file:
        return file.read()


# ---- bytes by names


def bytes_of(text, names):
    """The bytes that words spell, in hexadecimal digits and by names. Raises NotKnown where one spells none."""
    data = b""
    for line in text.split("\n"):
        for word in line.split("#")[0].split():
            spelled, _, times = word.partition("*")
            try:
                data += (names[spelled] if spelled in names else bytes.fromhex(spelled)) * int(times or 1)
            except ValueError:
                raise NotKnown(f"no bytes: {word}") from None
    return data


def read_names(text, names):
    """Adds the names that a text gives to bytes."""
    for line in text.split("\n"):
        if not line.startswith("#") and " = " in line:
            name, words = line.split(" = ", 1)
            names[name] = bytes_of(words, names)


def names_for(head=""):
    """The bytes of the names that all topics use, and of those at the head of one."""
    names = {}
    read_names(read_file(NAMES), names)
    read_names(head, names)
    return names


def read_case(text):
    asked, _, stored = text.partition("----\n")
    line, _, below = asked.partition("\n")
    _, _, lines = below.partition("\n")
    name, _, rest = line.partition(" ")
    command, _, words = rest.partition(" ")
    return Case(name, command, words, lines, stored.rstrip())


def read_topic(topic):
    """The cases of a topic, and its names with their bytes."""
    head, *cases = read_file(topic).split("== ")
    return [read_case(case) for case in cases], names_for(head)


# ---- answers


def told(data, lines_of, lists=False):
    """What a program writes for a script, and its status: `lines_of` has the lines for the world of its run. Where it
    `lists` what happens, it does so up to a refusal."""
    try:
        lines, status = lines_of(run_of(data, ListedWorld)), 0
    except Refused as refused:
        front = lines_of(refused.world) if lists and refused.world else []
        lines, status = [*front, str(refused)], 3
    return "".join(f"{line}\n" for line in lines) + f"status {status}"


def world_of(data):
    """The world behind the run of a script. Raises NotKnown where it is refused."""
    try:
        return run_of(data, ListedWorld)
    except Refused as refused:
        raise NotKnown(str(refused)) from None


def letters_told(world):
    return "\n".join([f"{world.events} events", *letter_lines(world)])


def injected_told(world):
    """The letters of a run in which the bytes of a letter are injected where this one delivers it."""
    other = ListedWorld(world.setup)
    for event, *needs in world.happened:
        getattr(other, event)(*needs)
    return letters_told(other)


def points_told(world):
    points = world.points_in_order()
    return f"{' '.join(['points', *map(str, points)])}\n{verdict_on(points, world)}"


def reported_told(words, world):
    """The report of a run and the line that sums it up, by the audit's answer, or by the one that the words say."""
    number, _, premises = words.partition(" ")
    return "\n".join([*report_lines(world, premises), sum_line(number, world, premises)])


def listed_words_told(data, words):
    """What qu-letters writes for a script, and its status."""
    lines = {"": ListedWorld.lines, "digests": letter_lines, "bytes": byte_lines}.get(words)
    return told(data, lines, lists=True) if lines else "usage: qu-letters [digests | bytes]\nstatus 2"


def events_told(command, words, text, names):
    """The answer of a command that takes a setup and lines of events."""
    setup, _, lines = text.partition("\n\n")
    client = CLIENT.fullmatch(words.split(" ")[0])
    faulty = {Party("c", int(client.group(1)))} if client and command in ("audit", "ordered") else set()
    try:
        happening = Happening(setup, frozenset(faulty), lambda spelled: bytes_of(spelled, names))
    except Refused as refused:
        raise NotKnown(str(refused)) from None
    for line in filter(None, lines.split("\n")):
        happening.take(line)
    if command == "listed":
        return "\n".join(happening.world.lines_without_points())
    premises = [] if command == "events" else [premises_line(audited(happening.world))]
    points = [] if command == "audit" else [points_told(happening.world)]
    return "\n".join([*happening.told, *premises, *points])


def changes_told(part, text, names):
    """What bytes are, and what they are with each of the changes below them."""
    spelled = [line for line in text.split("\n") if not line.startswith("at ")]
    data = bytes_of("\n".join(spelled), names)
    lines = [told_text(part, data)]
    for line in text.split("\n"):
        if line.startswith("at "):
            place, words = line.removeprefix("at ").split(" ", 1)
            piece = None if words == "each" else bytes_of(words, names)
            lines += change_lines(part, data, int(place), words, piece)
    return "\n".join(lines)


def bytes_told(command, part, text, names):
    """The answer of a command that reads a part of a frame, or a frame."""
    if part and part not in FORMS:
        raise NotKnown(f"no part of a frame: {part}")
    if command == "changes":
        return changes_told(part, text, names)
    data = bytes_of(text, names)
    return told_text(part, data) if command == "decode" else "\n".join(exact_lines(part, data))


def generated_told(words):
    """How many lines a generated script has, its length and its digest, and some of its lines."""
    number, *places = map(int, words.split())
    script = generated_script(number)
    lines = script.splitlines()
    digest = hashlib.sha256(script.encode()).hexdigest()
    return "\n".join([f"{len(lines)} lines, {len(script)} {digest}", *(f"{at} {lines[at - 1]}" for at in places)])


def answer(command, words, text, names):
    """The answer of a case. Raises NotKnown where the model has none: it does not know the command, or what it asks."""
    data = text.encode()
    if command == "sim":
        return told(data, report_lines)
    if (command, words) == ("spelled", "sim"):
        return told(bytes_of(text, names), report_lines)
    if command == "qu-letters":
        return listed_words_told(data, words)
    if command in ("letters", "injected", "order"):
        world = world_of(data)
        return {"letters": letters_told, "injected": injected_told, "order": points_told}[command](world)
    if command == "reported":
        return reported_told(words, world_of(data))
    summed = SUMMED.fullmatch(words)
    if command == "qu" and summed:
        return told(generated_script(int(summed[1])).encode(), lambda world: [sum_line(summed[1], world)])
    if command in ("events", "listed", "audit", "ordered"):
        return events_told(command, words, text, names)
    if command == "generated":
        return generated_told(words)
    if command in ("decode", "exact", "changes"):
        return bytes_told(command, words, text, names)
    if command == "digest":
        return told_digest(words, bytes_of(text, names))
    raise NotKnown(f"the model does not know the command {command}")


def answer_of(case, names):
    """The answer of a stored case. Raises NotKnown where the model has none."""
    return answer(case.command, case.words, case.text, names).rstrip()
