"""Reads what qu-letters writes: docs/letters.md has the form of each line."""
import re
from dataclasses import dataclass, field

from picture.faults import Malformed
from picture.frames import ANSWER, NUM, OPERATION, Frame, count_of, frame_of

PARTY = rf"(?:replica|client) {NUM}"
COUNTED = (r"not counted, (?:not fetched|another kind|answered before)"
           rf"|counted(?:, found(?:, held)?(?:, wakes {NUM}\.{NUM})?)?")
EVENT = re.compile(rf"event (?P<number>{NUM}) (?P<words>.+?)(?:, (?P<counted>{COUNTED}))?(?P<waits>, waits)?"
                   rf"(?:, (?P<over>round {NUM} (?:agreed|split|timed out))"
                   rf"(?P<without>(?:, without object {NUM} of replica {NUM})*))?"
                   rf"(?:, (?P<rests>rests {NUM} ticks?))?(?:, asks (?P<asks>all|the preferred|the others))?"
                   rf"(?:, ends (?P<ends>{NUM}\.{NUM}) (?:with (?P<answer>{ANSWER})|given up))?")
CALL = re.compile(rf"call (({NUM})\.{NUM}) ({OPERATION})")
TICK = re.compile(rf"tick client ({NUM})")
DELIVER = re.compile(rf"deliver ({NUM}) to ({PARTY})(, ignored)?")
INJECT = re.compile(rf"inject ({count_of('byte')}) to ({PARTY})(?:, ignored| as ({PARTY}): (.+))")
POINT = re.compile(rf"  point (({NUM})\.{NUM})( faulty {OPERATION})?")
LETTER = re.compile(rf"  letter ({NUM}) ({PARTY}) to ({PARTY}): (.+)")
REFUSED = re.compile(rf"line {NUM}: [a-z ]+")


@dataclass(frozen=True, order=True)
class Party:
    """A client or a replica; clients stand before replicas."""

    kind: str
    number: int

    @property
    def short(self):
        return f"{self.kind[0]}{self.number}"


@dataclass
class Letter:
    """A letter: the event that sent it, and those that deliver it."""

    number: int
    sender: Party
    receiver: Party
    frame: Frame
    line: str
    sent_at: int
    delivered_at: list = field(default_factory=list)


@dataclass
class Event:
    """An event: its kind is call, tick, deliver or inject. `letter` is the number of what is delivered, `again` whether
    it was before; `claimed` the party that injected bytes name; `frame` what a party takes; `counted` whether a version
    counts that was fetched, and what it brings about; `waits` whether a request waits; `over` the client's round that
    is over and why, `without` the replicas that are left out; `rests` how long it rests, `asks` whom it asks; `ends`
    the operation that is done here, `answer` its answer (None: given up); `sends` the numbers of the letters that it
    sends.
    """

    number: int
    kind: str
    party: Party
    line: str
    operation: str = ""
    asked: str = ""
    letter: int = 0
    again: bool = False
    size: str = ""
    claimed: Party | None = None
    frame: Frame | None = None
    ignored: bool = False
    counted: str = ""
    waits: bool = False
    over: str = ""
    without: list = field(default_factory=list)
    rests: str = ""
    asks: str = ""
    ends: str = ""
    answer: str | None = None
    sends: list = field(default_factory=list)


@dataclass(frozen=True)
class Point:
    """An operation that takes effect, on the line of its client, at an event; `line` is its line of a report."""

    operation: str
    party: Party
    faulty: bool
    event: int
    line: str


@dataclass
class Run:
    """What a listing tells: events and letters by their numbers, which begin with 1, the points in their order, and the
    line of the script at which the run ended, if it is refused."""

    events: list = field(default_factory=list)
    letters: list = field(default_factory=list)
    points: list = field(default_factory=list)
    refused: str = ""

    def letter(self, number):
        return self.letters[number - 1]

    def event(self, number):
        return self.events[number - 1]

    def parties(self):
        """The parties that the listing names, clients first."""
        of_letters = [party for letter in self.letters for party in (letter.sender, letter.receiver)]
        of_events = [party for event in self.events for party in (event.party, event.claimed) if party]
        return sorted(set(of_letters + of_events))


def party_of(words):
    kind, number = words.split()
    return Party(kind, int(number))


def read_listing(data):
    """The run that these bytes list. Raises Malformed at the first line that has no known form or does not fit the
    lines before it."""
    run = Run()
    for number, line in lines_of(data):
        if run.refused:
            raise Malformed(number, "line behind the refusal")
        if line.startswith("event "):
            read_event(run, line, number)
        elif line.startswith("  letter "):
            read_letter(run, line, number)
        elif line.startswith("  point "):
            read_point(run, line, number)
        else:
            read_refusal(run, line, number)
    return run


def read_refusal(run, line, number):
    if not REFUSED.fullmatch(line):
        raise Malformed(number, "unknown line")
    if number == 1:
        raise Malformed(1, f"refused script, which qu-letters answers by `{line}`")
    run.refused = line


def lines_of(data):
    """The lines of a text by their numbers; the last may lack its line feed."""
    lines = data.split(b"\n")
    if lines[-1] == b"":
        lines.pop()
    return [(number, line.decode("ascii", "replace")) for number, line in enumerate(lines, 1)]


def read_event(run, line, number):
    found = EVENT.fullmatch(line)
    if not found:
        raise Malformed(number, "unknown line")
    if int(found["number"]) != len(run.events) + 1:
        raise Malformed(number, f"event out of order, {len(run.events) + 1} is next")
    event = event_of(run, found["words"], line, number)
    event.counted, event.waits = found["counted"] or "", bool(found["waits"])
    event.over, event.rests, event.asks = found["over"] or "", found["rests"] or "", found["asks"] or ""
    event.without = re.findall(r"replica (\d+)", found["without"] or "")
    event.ends, event.answer = found["ends"] or "", found["answer"]
    run.events.append(event)


def event_of(run, words, line, number):
    """The event of these words, without what it ends."""
    at = len(run.events) + 1
    call = CALL.fullmatch(words)
    if call:
        client = Party("client", int(call.group(2)))
        return Event(at, "call", client, line, operation=call.group(1), asked=call.group(3))
    tick = TICK.fullmatch(words)
    if tick:
        return Event(at, "tick", Party("client", int(tick.group(1))), line)
    inject = INJECT.fullmatch(words)
    if inject:
        claimed = party_of(inject.group(3)) if inject.group(3) else None
        frame = known_frame(inject.group(4), number) if claimed else None
        return Event(at, "inject", party_of(inject.group(2)), line, size=inject.group(1), claimed=claimed, frame=frame,
                     ignored=not claimed)
    deliver = DELIVER.fullmatch(words)
    if not deliver:
        raise Malformed(number, "unknown line")
    letter = letter_sent(run, int(deliver.group(1)), party_of(deliver.group(2)), number)
    again = bool(letter.delivered_at)
    letter.delivered_at.append(at)
    return Event(at, "deliver", letter.receiver, line, letter=letter.number, again=again, frame=letter.frame,
                 ignored=bool(deliver.group(3)))


def letter_sent(run, letter, receiver, number):
    if not 1 <= letter <= len(run.letters):
        raise Malformed(number, f"no such letter, {letter} was not sent before")
    found = run.letter(letter)
    if found.receiver != receiver:
        receiver = found.receiver
        raise Malformed(number, f"other receiver, letter {letter} goes to {receiver.kind} {receiver.number}")
    return found


def known_frame(words, number):
    frame = frame_of(words)
    if not frame:
        raise Malformed(number, "unknown frame")
    return frame


def read_point(run, line, number):
    found = POINT.fullmatch(line)
    if not found:
        raise Malformed(number, "unknown line")
    if not run.events:
        raise Malformed(number, "point before the first event")
    if run.events[-1].sends:
        raise Malformed(number, "point behind a letter")
    client = Party("client", int(found.group(2)))
    run.points.append(Point(found.group(1), client, bool(found.group(3)), run.events[-1].number, line.strip()))


def read_letter(run, line, number):
    found = LETTER.fullmatch(line)
    if not found:
        raise Malformed(number, "unknown line")
    if not run.events:
        raise Malformed(number, "letter before the first event")
    if int(found.group(1)) != len(run.letters) + 1:
        raise Malformed(number, f"letter out of order, {len(run.letters) + 1} is next")
    event, sender = run.events[-1], party_of(found.group(2))
    if sender != event.party:
        raise Malformed(number, f"other sender, event {event.number} is at {event.party.kind} {event.party.number}")
    frame = known_frame(found.group(4), number)
    letter = Letter(len(run.letters) + 1, sender, party_of(found.group(3)), frame, line.strip(), event.number)
    run.letters.append(letter)
    event.sends.append(letter.number)
