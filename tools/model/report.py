"""The report of a run, and its letters and points as lines."""
import hashlib

from model.judge import ran
from model.kinds import COUNTER
from model.values import (
    BAD_NAME, EXISTS, FULL, MISSING, OVER, PLAIN_BYTES, TOO_LONG, UNDER, WRONG_KIND, Items)

# The words of the refusals of a part, by their numbers.
REFUSAL_WORDS = {OVER: "over", UNDER: "under", TOO_LONG: "too long", EXISTS: "exists", MISSING: "missing",
                 BAD_NAME: "bad name", FULL: "full", WRONG_KIND: "wrong kind"}
# The methods whose bytes are no name.
OF_CONTENT = ("put", "append")


def content_words(content):
    return content.hex() or "-"


def name_words(name):
    """A name; bytes that no plain character stands for are told by their digits, and no bytes by `%` alone."""
    return "".join(chr(byte) if byte in PLAIN_BYTES else f"%{byte:02x}" for byte in name) or "%"


def listing_words(entries):
    return ",".join(f"{name_words(name)}={number}" for name, number in entries) or "-"


def item_words(item):
    if isinstance(item, int):
        return str(item)
    return content_words(item) if isinstance(item, bytes) else listing_words(item)


def part_words(part):
    words_of = content_words if part.method in OF_CONTENT else name_words
    told = (str(argument) if isinstance(argument, int) else words_of(argument) for argument in part.arguments)
    return " ".join([part.method, str(part.object), *told])


def operation_words(body):
    return " + ".join(map(part_words, body.parts))


def answer_words(answer):
    if isinstance(answer, Items):
        return " + ".join(map(item_words, answer.items))
    return f"{REFUSAL_WORDS[answer.number]} at {answer.position}"


def audited(world):
    """The audit's answer in words."""
    forged = world.audit.forged
    return "hold" if forged is None else f"forged {forged}"


def premises_line(premises):
    return f"premises {premises}"


def point_words(point):
    """A point, with the update where its client is faulty."""
    return f"point {point.name}" + (f" faulty {operation_words(point.body)}" if point.faulty else "")


def told_points(world, premises):
    """The points, where the premises hold; else none."""
    return world.points_in_order() if premises == "hold" else []


def timeline(world, premises):
    """The calls, points and ends of a run by event; at one event, calls stand first and ends last."""
    told = []
    for operation in world.operations:
        name = f"{operation.client}.{operation.number}"
        told.append((operation.event, 0, len(told), f"call {name} {operation_words(operation.body)}"))
        end = world.ends.get((operation.client, operation.number))
        if end is not None:
            line = f"gaveup {name}" if end.answer is None else f"reply {name} {answer_words(end.answer)}"
            told.append((end.event, 2, len(told), line))
    for point in told_points(world, premises):
        told.append((point.event, 1, len(told), point_words(point)))
    return [line for *_, line in sorted(told)]


def open_names(world):
    """The operations without an end, in order."""
    names = sorted((operation.client, operation.number) for operation in world.operations)
    return [name for name in names if name not in world.ends]


def count_words(world):
    given_up = sum(end.answer is None for end in world.ends.values())
    return (f"calls {len(world.operations)} done {len(world.ends) - given_up} gaveup {given_up} "
            f"open {len(open_names(world))}")


def report_lines(world, premises=None):
    """The report, by the audit's answer, or by another one in words."""
    bounds = world.bounds
    premises = premises or audited(world)
    return [
        f"bounds b {bounds.faults} n {bounds.replicas} q {bounds.quorum} r {bounds.repair}",
        *timeline(world, premises), *(f"open {client}.{number}" for client, number in open_names(world)),
        premises_line(premises), f"end {count_words(world)}"]


def sum_line(number, world, premises=None):
    """The line that sums a run up as that of the script of a number, with the counters behind the points."""
    premises = premises or audited(world)
    points = told_points(world, premises)
    values, _ = ran(points, world.setup.kinds)
    counters = [value for kind, value in zip(world.setup.kinds, values, strict=True) if kind == COUNTER]
    return (f"gen {number} {count_words(world)} points {len(points)} sum {sum(counters)} "
            f"premises {premises.split()[0]}")


def route_lines(world, text_of):
    """Of each letter its number, event, sender, receiver and length, and what `text_of` tells of its bytes."""
    return [f"{number} {event} {letter.sender} {letter.receiver} {len(letter.text)} {text_of(letter.text)}"
            for number, (event, letter) in enumerate(world.letters, 1)]


def letter_lines(world):
    """The letters by their digests."""
    return route_lines(world, lambda text: hashlib.sha256(text).hexdigest())


def byte_lines(world):
    """The letters by their bytes."""
    return route_lines(world, content_words)


def point_lines(world):
    return [str(point) for point in world.points_in_order()]
