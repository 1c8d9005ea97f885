"""Reads what the listing does not tell: faulty parties from a script, where a premise fails from a report."""
import re

from picture.faults import Malformed
from picture.frames import ANSWER, NUM, OPERATION
from picture.listing import Party, lines_of

OBJECT = r"object \d+ (?:counter|blob|dir)"
SETUP = ("bounds 0*[1-3]", r"seed \d+", r"clients \d+", OBJECT)
FAULTY = re.compile(r"faulty (replica|client) 0*(\d{1,2})")
BOUNDS = re.compile(rf"bounds b {NUM} n {NUM} q {NUM} r {NUM}")
OF = rf"{NUM}\.{NUM}"
SAID = re.compile(rf"call {OF} {OPERATION}|point {OF}(?: faulty {OPERATION})?|reply {OF} {ANSWER}|gaveup {OF}")
AFTER = re.compile(rf"open {OF}|premises hold|end calls {NUM} done {NUM} gaveup {NUM} open {NUM}")
BROKEN = re.compile(rf"premises (?:(forged) ({NUM})|(collide) ({NUM}) ({NUM}))")


def said_lines(data):
    """The lines of a script that say something, by their numbers and with one space between their words; and behind
    them without end the line that is not there, which has no word."""
    number = 0
    for number, line in lines_of(data):
        words = [word for word in line.split(" ") if word]
        if words and not words[0].startswith("#"):
            yield number, " ".join(words)
    while True:
        yield number + 1, ""


def read_faulty(data, file):
    """The faulty parties that the first lines of a script name. Raises Malformed where its setup is none."""
    lines = said_lines(data)
    for form in SETUP:
        number, line = next(lines)
        if not re.fullmatch(form, line):
            raise Malformed(number, "unknown line", file)
    faulty = set()
    for _, line in lines:
        found = FAULTY.fullmatch(line)
        if found:
            faulty.add(Party(found.group(1), int(found.group(2))))
        elif faulty or not re.fullmatch(OBJECT, line):
            break
    return faulty


def read_broken(data, file, run):
    """The events of a run that break a premise by its report, with a word for each. Raises Malformed where a line of
    the report has no known form, or tells of another run."""
    lines = lines_of(data)
    if not lines or not BOUNDS.fullmatch(lines[0][1]):
        raise Malformed(1, "unknown line", file)
    said, told, broken = said_by(run), 0, {}
    for number, line in lines[1:]:
        if SAID.fullmatch(line):
            if told >= len(said) or said[told] != line:
                raise Malformed(number, "other run", file)
            told += 1
        else:
            broken.update(broken_by(line, number, file))
    if told < len(said):
        raise Malformed(len(lines), "other run", file)
    return broken


def broken_by(line, number, file):
    """The events that a line of a report behind its timeline tells as broken."""
    found = BROKEN.fullmatch(line)
    if found:
        word = f"premises {found.group(1) or found.group(3)}"
        return {int(event): word for event in (found.group(2), found.group(4), found.group(5)) if event}
    if not AFTER.fullmatch(line):
        raise Malformed(number, "unknown line", file)
    return {}


def said_by(run):
    """The calls, points and ends of a run as lines of a report, in their order."""
    points = {}
    for point in run.points:
        points.setdefault(point.event, []).append(point.line)
    said = []
    for event in run.events:
        if event.kind == "call":
            said.append(f"call {event.operation} {event.asked}")
        said += points.get(event.number, [])
        if event.ends:
            said.append(f"gaveup {event.ends}" if event.answer is None else f"reply {event.ends} {event.answer}")
    return said
