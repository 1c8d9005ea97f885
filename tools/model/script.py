"""Reads scripts: a setup, and the lines that make events."""
import string
from typing import NamedTuple

from model.kinds import ASKS
from model.values import (
    BLOB, COUNTER, DIR, LAST_VALUE, MOST_CONTENT, MOST_NAME, MOST_PARTS, PLAIN_BYTES, Body, Bounds, Part, Party)
from model.world import MOST_EVENTS, Refused, Setup

MOST_BYTES = 1 << 24
MOST_FAULTS, LAST_CLIENT, MOST_OBJECTS = 3, 64, 64
# The first word of each setup line that stands once, with the limits of its number.
SETUP = (("bounds", 1, MOST_FAULTS), ("seed", 0, LAST_VALUE), ("clients", 1, LAST_CLIENT))
SETUP_WORDS = ("bounds", "seed", "clients", "object", "faulty")
# So many digits tell that a number is too large.
MANY_DIGITS = 21


class Unknown(Exception):
    """A line cannot stand, for a reason of this kind."""


class Line(NamedTuple):
    """A line that makes events, or changes what flows take: its number, its first word, and what the word needs."""

    number: int
    word: str
    needs: tuple


def need(condition, kind):
    if not condition:
        raise Unknown(kind)


# ---- what a word has to be


def number_of(word, low=0, high=LAST_VALUE):
    need(word.isascii() and word.isdigit(), "bad number")
    value = int(word.lstrip("0")[:MANY_DIGITS] or 0)
    need(value <= LAST_VALUE, "bad number")
    need(low <= value <= high, "over limit")
    return value


def bytes_of(word):
    digits = "" if word == "-" else word
    need(word and len(digits) % 2 == 0 and all(digit in string.hexdigits for digit in digits), "bad hex")
    return bytes.fromhex(digits)


def content_of(word):
    """The bytes that an operation writes."""
    content = bytes_of(word)
    need(len(content) <= MOST_CONTENT, "over limit")
    return content


def name_of(word):
    """A name: its characters, and bytes by two digits behind `%`."""
    plain, *coded = word.split("%")
    good = all(len(piece) >= 2 and set(piece[:2]) <= set(string.hexdigits) for piece in coded)
    need(word and good, "bad name")
    pieces = [plain, *(piece[2:] for piece in coded)]
    need(set("".join(pieces).encode()) <= PLAIN_BYTES, "bad name")
    name = plain.encode() + b"".join(bytes.fromhex(piece[:2]) + piece[2:].encode() for piece in coded)
    need(len(name) <= MOST_NAME, "over limit")
    return name


# What each method and each question needs behind its object.
ARGUMENTS = {
    "add": (number_of,), "take": (number_of,), "put": (content_of,), "append": (content_of,),
    "link": (name_of, number_of), "unlink": (name_of,), "read": (), "cat": (), "find": (name_of,), "list": ()}


# ---- the words of a line


class Words:
    """The words of a line, each of which is looked at before the next one is."""

    def __init__(self, line):
        self.words = [word for word in line.split(b" ") if word]

    def __bool__(self):
        return bool(self.words)

    def next(self):
        need(self.words, "wrong count")
        word = self.words.pop(0)
        need(all(0x20 <= byte <= 0x7e for byte in word), "not ascii")
        return word.decode("ascii")

    def one_of(self, words):
        word = self.next()
        need(word in words, "unknown word")
        return word

    def of_part(self):
        """The next word of a part of an operation."""
        word = self.next()
        need(word != "+", "wrong count")
        return word

    def each(self, read):
        """What all words say that are left, one at least."""
        said = [read(self.next())]
        while self.words:
            said.append(read(self.next()))
        return said

    def end(self):
        if self.words:
            self.next()
            raise Unknown("wrong count")


def words_of(line):
    """The words of a line of a script."""
    return Words(line)


class LineReader:
    """Reads one line after another, each by what the setup lines before it say. Each call raises Unknown, with the
    kind, at the first word from the left that cannot stand."""

    def __init__(self):
        self.numbers, self.bounds, self.kinds, self.faulty, self.behind = {}, None, [], [], False

    def setup(self):
        numbers, faulty = self.numbers, frozenset(self.faulty)
        return Setup(self.bounds, numbers["seed"], numbers["clients"], tuple(self.kinds), faulty)

    def expected(self):
        """The setup line that has to stand next, or None where there is none."""
        if len(self.numbers) < len(SETUP):
            return SETUP[len(self.numbers)][0]
        return None if self.kinds else "object"

    def read_line(self, words):
        """What a line behind the setup needs, as its first word and a tuple; None for other lines."""
        if not words:
            return None
        first = words.next()
        if first.startswith("#"):
            while words:
                words.next()
            return None
        expected = self.expected()
        need(expected in (None, first), f"expected {expected}")
        if first not in SETUP_WORDS:
            needs = self.read_event(first, words)
            self.behind = True
            return first, needs
        if expected in ("bounds", "seed", "clients"):
            self.read_setup(words)
        elif first == "object":
            self.read_object(words)
        else:
            need(first == "faulty", "out of order")
            self.read_faulty(words)
        return None

    # ---- setup lines

    def read_setup(self, words):
        """Reads the number of the next of the first three lines."""
        word, low, high = SETUP[len(self.numbers)]
        number = number_of(words.next(), low, high)
        words.end()
        self.numbers[word] = number
        if word == "bounds":
            self.bounds = Bounds.of(number)

    def read_object(self, words):
        """Reads of which kind the next object is."""
        need(not self.faulty and not self.behind, "out of order")
        number = number_of(words.next())
        need(number == len(self.kinds), "out of order")
        need(number < MOST_OBJECTS, "over limit")
        kind = words.one_of((COUNTER, BLOB, DIR))
        words.end()
        self.kinds.append(kind)

    def read_faulty(self, words):
        """Reads which party is faulty: replicas stand before clients, and both rise."""
        need(not self.behind, "out of order")
        kind = words.one_of(("replica", "client"))[0]
        others = [other for other in self.faulty if other.kind == kind]
        need(kind == "c" or len(others) == len(self.faulty), "out of order")
        word = words.next()
        number = number_of(word)
        need(all(other.number < number for other in others), "out of order")
        party = self.replica(word) if kind == "r" else self.client(word)
        need(kind == "c" or len(others) < self.bounds.faults, "over limit")
        words.end()
        self.faulty.append(party)

    # ---- parties

    def party(self, words):
        kind = words.one_of(("replica", "client"))
        return self.replica(words.next()) if kind == "replica" else self.client(words.next())

    def replica(self, word):
        number = number_of(word)
        need(number < self.bounds.replicas, "no such actor")
        return Party("r", number)

    def client(self, word):
        number = number_of(word, 1, LAST_CLIENT)
        need(number <= self.numbers["clients"], "no such actor")
        return Party("c", number)

    def correct(self, party):
        """The number of a party, which has to be a correct one."""
        need(party not in self.faulty, "no such actor")
        return party.number

    # ---- lines that make events

    def read_event(self, first, words):
        """What the first word of the line needs, as a tuple."""
        readers = {
            "call": self.read_call, "deliver": self.read_deliver, "flow": self.read_flow, "tick": self.read_tick,
            "wake": self.read_wake, "inject": self.read_inject, "hold": self.read_replicas, "free": self.read_replicas,
            "lose": self.read_lose, "fake": self.read_fake}
        need(first in readers, "unknown word")
        needs = readers[first](words)
        words.end()
        return needs

    def read_call(self, words):
        """A client, and the body of its operation."""
        client, parts = self.correct(self.client(words.next())), []
        self.read_part(words, parts)
        while words:
            need(words.next() == "+" and len(parts) < MOST_PARTS, "wrong count")
            self.read_part(words, parts)
        return client, Body("query" if parts[0].method in ASKS else "act", tuple(parts))

    def read_part(self, words, before):
        """Adds a part to those before it: updates stand behind updates, queries behind queries, and objects rise."""
        method = words.of_part()
        need(method in ARGUMENTS, "unknown word")
        need(all((method in ASKS) == (part.method in ASKS) for part in before), "out of order")
        known = number_of(words.of_part(), 0, MOST_OBJECTS - 1)
        need(known < len(self.kinds), "no such object")
        need(all(part.object < known for part in before), "out of order")
        before.append(Part(known, method, tuple(read(words.of_part()) for read in ARGUMENTS[method])))

    def read_deliver(self, words):
        """The numbers of letters."""
        return (words.each(number_of),)

    def read_flow(self, words):
        """How many letters at most, if the line says it."""
        return (number_of(words.next()),) if words else ()

    def read_tick(self, words):
        """A client, and how many ticks, if the line says it."""
        client = self.correct(self.client(words.next()))
        return (client, number_of(words.next(), 1, MOST_EVENTS)) if words else (client,)

    def read_wake(self, words):
        """A client."""
        return (self.correct(self.client(words.next())),)

    def read_inject(self, words):
        """A party and bytes."""
        return self.party(words), bytes_of(words.next())

    def read_replicas(self, words):
        """A set of replicas."""
        return (set(words.each(self.replica)),)

    def read_lose(self, _words):
        return ()

    def read_fake(self, words):
        """The replica that lies and the client, by number; `show`, `echo` or `far`; the replica whose histories are
        shown, or None; and the replicas for which HMACs are right, or None for all."""
        replica, client = self.replica(words.next()), self.client(words.next())
        how = words.one_of(("show", "echo", "far"))
        shown = None if how == "far" else self.correct(self.replica(words.next()))
        readers = None
        if words:
            need(words.next() == "for", "wrong count")
            readers = {party.number for party in words.each(self.replica)}
        return replica.number, client.number, how, shown, readers


class Script(NamedTuple):
    """A setup, its lines in their order, and what reads further lines."""

    setup: Setup
    lines: tuple
    reader: LineReader


def read_script(data):
    """The script of these bytes. Raises Refused with the first line that cannot stand, and the kind; a setup line that
    is missing at the end is told at the line behind the last."""
    if len(data) > MOST_BYTES:
        raise Refused("too long", 1)
    lines = data.split(b"\n")
    if lines[-1] == b"":
        lines.pop()
    reader, events = LineReader(), []
    for number, line in enumerate(lines, 1):
        try:
            said = reader.read_line(words_of(line))
        except Unknown as unknown:
            raise Refused(str(unknown), number) from None
        if said:
            events.append(Line(number, *said))
    if reader.expected():
        raise Refused(f"expected {reader.expected()}", len(lines) + 1)
    return Script(reader.setup(), tuple(events), reader)
