"""Makes a script that fails smaller, as long as it fails in the same way.

Lines by name are taken away, so that what is left says the same as before; a line that cannot stand any more goes too.
"""
import re
import textwrap
import time

from model.world import Refused

from hunting.front import Front, KeepingWorld, Unplayable

COLUMNS = 110
# How many letters a line of a script that is written has at most.
MOST_LETTERS = 8
AMOUNT = re.compile(r"\b(add|take) (\d+) (\d+)\b")


def front_of(setup, lines, world_kind=KeepingWorld):
    """The front of these lines, and those of them that could stand."""
    front, kept = Front(setup, world_kind), []
    for line in lines:
        try:
            front.take(line)
        except Unplayable:
            continue
        kept.append(line)
    return front, kept


def apart(lines):
    """The same lines, in which each letter is delivered by a line of its own."""
    words = [line.split() for line in lines]
    each = [[f"deliver {letter}" for letter in said[1:]] if said[0] == "deliver" else [line]
            for said, line in zip(words, lines, strict=True)]
    return [line for said in each for line in said]


def without_flows(setup, lines):
    """The same lines, with all letters of flows delivered by name."""
    front, spelled = Front(setup), []
    for line in lines:
        first, *words = line.split()
        if first != "flow":
            front.take(line)
            spelled.append(line)
            continue
        most = int(words[0]) if words else None
        while most != 0 and (number := front.player.next_letter()) is not None:
            spelled.append(f"deliver {front.names.name(number)}")
            front.take(spelled[-1])
            most = None if most is None else most - 1
    return spelled


def together(lines):
    """The same lines, with letters that follow each other delivered by one line."""
    merged = []
    for line in lines:
        before = merged[-1].split() if merged else [""]
        if line.startswith("deliver ") and before[0] == "deliver" and len(before) <= MOST_LETTERS:
            merged[-1] += line.removeprefix("deliver")
        else:
            merged.append(line)
    return merged


class Smallest:
    """A script that fails, which becomes smaller. `failure` is what is wrong with it, of which the check stays the
    same; `failures` gives what is wrong with the run of a front, whose world is of this kind; `left` tells whether
    there is time."""

    def __init__(self, setup, lines, failure, failures, seconds, world_kind=KeepingWorld):
        self.setup, self.lines, self.failure, self.world_kind = setup, apart(lines), failure, world_kind
        self.failures, self.until, self.tried = failures, time.monotonic() + seconds, set()

    def left(self):
        return time.monotonic() < self.until

    def try_with(self, setup, lines):
        """Takes these lines in the place of those that there are, where they fail in the same way."""
        mark = hash((*setup, *lines))
        if mark in self.tried or not self.left():
            return False
        self.tried.add(mark)
        try:
            front, kept = front_of(setup, lines, self.world_kind)
        except Refused:
            return False
        same = [each for each in self.failures(front) if each.check == self.failure.check]
        if not same:
            return False
        self.setup, self.lines, self.failure = setup, kept, same[0]
        return True

    def make(self):
        """Makes it as small as time allows."""
        self.take_away()
        self.fewer_parties()
        self.smaller_numbers()
        self.try_with(self.setup, without_flows(self.setup, self.lines))
        size = None
        while size != (len(self.setup), len(self.lines)) and self.left():
            size = (len(self.setup), len(self.lines))
            self.take_away()
            self.fewer_parties()
        self.lines = together(self.lines)

    def take_away(self):
        """Takes lines away, many at once and then few, the last ones first."""
        many = max(1, len(self.lines) // 2)
        while self.left():
            at = len(self.lines)
            while at > 0 and self.left():
                at = min(at, len(self.lines))
                self.try_with(self.setup, self.lines[:max(0, at - many)] + self.lines[at:])
                at -= many
            if many == 1:
                return
            many = max(1, many // 2)

    def fewer_parties(self):
        """Takes lines of the setup away: parties are correct again, and the last client and the last object go."""
        for at in range(len(self.setup) - 1, -1, -1):
            if self.setup[at].startswith("faulty"):
                self.try_with(self.setup[:at] + self.setup[at + 1:], self.lines)
        while True:
            at = max(at for at, line in enumerate(self.setup) if line.startswith("object"))
            if at == 3 or not self.try_with(self.setup[:at] + self.setup[at + 1:], self.lines):
                break
        while (count := int(self.setup[2].split()[1])) > 1:
            if not self.try_with([*self.setup[:2], f"clients {count - 1}", *self.setup[3:]], self.lines):
                break

    def smaller_numbers(self):
        """Has operations add and take 1, where that will do."""
        for at, line in enumerate(self.lines):
            smaller = AMOUNT.sub(r"\1 \2 1", line)
            if smaller != line and at < len(self.lines):
                self.try_with(self.setup, [*self.lines[:at], smaller, *self.lines[at + 1:]])

    def texts(self, head):
        """The plain script and the one by name, with what is wrong with it as comments."""
        told = textwrap.wrap(f"{head} The check `{self.failure.check}` finds: {self.failure.words}.", COLUMNS)
        front, _ = front_of(self.setup, self.lines, self.world_kind)
        self.failures(front)
        comments = "".join(f"# {line}\n" for line in told)
        return comments + front.script(), comments + "".join(f"{line}\n" for line in [*self.setup, *self.lines])
