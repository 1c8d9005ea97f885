"""Reads the report of a run: the calls with their ends, the points, and whether the premises hold."""
import re
from dataclasses import dataclass
from typing import NamedTuple, Optional

from model.kinds import ASKS
from model.script import Unknown, words_of
from model.values import Body

NAME = r"(\d+\.\d+)"
CALL = re.compile(rf"call {NAME} (.+)")
REPLY = re.compile(rf"reply {NAME} (.+)")
GAVE_UP = re.compile(rf"gaveup {NAME}")
OPEN = re.compile(rf"open {NAME}")
POINT = re.compile(rf"point {NAME}(?: faulty (.+))?")
LAST_LINES = ("premises ", "end calls ", "bounds ")


class Malformed(Exception):
    """A line of a report that has no known form, or does not fit those before it."""


@dataclass
class Operation:
    """An operation: where its call stands in the report and where its end does (None: it has none), what it asks, and
    the words of its answer (None: it was given up, or has none)."""

    name: str
    begun: int
    body: Body
    ended: Optional[int] = None
    answer: Optional[str] = None

    @property
    def client(self):
        return int(self.name.split(".")[0])


class ToldPoint(NamedTuple):
    """A point by its place in the report; `body` is what an update of a faulty client does, else None."""

    place: int
    name: str
    body: Optional[Body]


@dataclass
class Report:
    """The operations of a report by their names, and its points; `holds` tells whether the premises hold."""

    operations: dict
    points: list
    holds: bool


def body_of(reader, text):
    """The body of an operation in words, by the reader of its script's setup. Raises Malformed."""
    words, parts = words_of(text.encode()), []
    try:
        reader.read_part(words, parts)
        while words:
            words.next()
            reader.read_part(words, parts)
    except Unknown as unknown:
        raise Malformed(f"{unknown}: {text}") from None
    return Body("query" if parts[0].method in ASKS else "act", tuple(parts))


def operation_with(operations, name, line):
    """The operation of this name, which has no end so far. Raises Malformed where there is none."""
    operation = operations.get(name)
    if operation is None or operation.ended is not None:
        raise Malformed(line)
    return operation


def read_report(lines, reader):
    """The Report of these lines. Raises Malformed."""
    report = Report({}, [], "premises hold" in lines)
    for place, line in enumerate(lines):
        if called := CALL.fullmatch(line):
            if called[1] in report.operations:
                raise Malformed(line)
            report.operations[called[1]] = Operation(called[1], place, body_of(reader, called[2]))
        elif point := POINT.fullmatch(line):
            report.points.append(ToldPoint(place, point[1], body_of(reader, point[2]) if point[2] else None))
        elif replied := REPLY.fullmatch(line):
            operation = operation_with(report.operations, replied[1], line)
            operation.ended, operation.answer = place, replied[2]
        elif given_up := GAVE_UP.fullmatch(line):
            operation_with(report.operations, given_up[1], line).ended = place
        elif still_open := OPEN.fullmatch(line):
            operation_with(report.operations, still_open[1], line)
        elif not line.startswith(LAST_LINES):
            raise Malformed(line)
    return report
