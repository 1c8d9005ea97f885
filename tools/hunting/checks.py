"""What is looked at in each run: that calls and replies have an order, that the points are one, and that the program
writes what the model does."""
from typing import NamedTuple

from model.reading import decode
from model.report import letter_lines, report_lines
from model.script import read_script
from model.values import Party, Request

from hunting import order
from hunting.linear import NEVER, Timed, Undecided, disorder
from hunting.reports import Malformed, read_report

# The checks, in the order in which they are told: how a program ends, the search for an order, the points, the report
# and the letters against the model.
STATUS, ORDER, POINTS, REPORT, LETTERS = CHECKS = ("status", "order", "points", "report", "letters")
# In their place: what is sought occurs.
SOUGHT = "sought"
COLUMNS = 160


class Wanted(NamedTuple):
    """A run that is looked at: its plain script, the lines of its setup and the kinds of its objects, the updates that
    faulty clients asked for, and what the model reports and sends."""

    script: str
    setup: list
    kinds: tuple
    of_faulty: list
    report: list
    letters: list


def wanted_of(front):
    """The run of a front."""
    world = front.world
    return Wanted(front.script(), front.setup_lines, front.setup.kinds, updates_of_faulty(world), report_lines(world),
                  letter_lines(world))


class Failure(NamedTuple):
    """What a check found: which check, and what is wrong in words."""

    check: str
    words: str


def updates_of_faulty(world):
    """The updates that faulty clients asked some replica for, each once: they may have taken effect, or not."""
    asked = {}
    for text in world.injected:
        frame = decode(text)
        if isinstance(frame, Request) and frame.body.kind == "act" and Party("c", frame.client) in world.setup.faulty:
            asked[frame.client, frame.number, frame.body] = None
    return [Timed(f"{client}.{number} of a faulty client", body, -1, NEVER, None) for client, number, body in asked]


def timed(report):
    """The operations of a report, of which those that were given up count as without a reply."""
    return [Timed(each.name, each.body, each.begun, NEVER if each.answer is None else each.ended, each.answer)
            for each in report.operations.values()]


def first_difference(written, wanted):
    """Words for the first line that differs."""
    at = next((at for at, (one, other) in enumerate(zip(written, wanted)) if one != other),
              min(len(written), len(wanted)))
    lines = (lines[at][:COLUMNS] if at < len(lines) else "no line" for lines in (written, wanted))
    return "line {} is `{}`, and by the model `{}`".format(at + 1, *lines)


def order_failures(report, wanted, told):
    """The failures that calls, replies and points tell without the model. Where the premises do not hold, nothing is
    promised of them."""
    failures = []
    if not report.holds:
        return failures
    try:
        words = disorder(timed(report) + wanted.of_faulty, wanted.kinds)
        failures += [Failure(ORDER, words)] if words else []
    except Undecided:
        told.append("undecided")
    words = order.fault_in(report, wanted.kinds)
    return failures + ([Failure(POINTS, words)] if words else [])


def failures_of(wanted, programs, told):
    """What is wrong with a run by the programs. Adds to `told` where the search for an order came to no end."""
    written = programs.report(wanted.script)
    if written.status != 0:
        last = written.lines[-1][:COLUMNS] if written.lines else "nothing"
        return [Failure(STATUS, f"the program ends with status {written.status} and wrote {last}")]
    reader = read_script("".join(f"{line}\n" for line in wanted.setup).encode()).reader
    try:
        failures = order_failures(read_report(written.lines, reader), wanted, told)
    except Malformed as line:
        failures = [Failure(REPORT, f"no line of a report: {line}")]
    if written.lines != wanted.report:
        failures.append(Failure(REPORT, first_difference(written.lines, wanted.report)))
    digests = programs.digests(wanted.script)
    if digests is not None and digests.lines != wanted.letters:
        failures.append(Failure(LETTERS, first_difference(digests.lines, wanted.letters)))
    return failures
