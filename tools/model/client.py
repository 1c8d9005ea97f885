"""A correct client: its rounds and rests, and what it keeps of replies."""
from collections import Counter
from typing import NamedTuple, Optional

from model.classes import classify, trimmed
from model.values import (
    COPY, LAST_ROUND, METHOD, MOST_SETS, NEEDED, NEEDS, NOT_CURRENT, Already, Body, Done, Letter, Mended, ObjectSet,
    Party, Refusal, Reply, Request, Sealed, Told)

WORD_64 = (1 << 64) - 1
WORD_32 = (1 << 32) - 1
MOST_DOUBLINGS = 10
# The verdicts that fit what is asked.
FITTING = {"act": (Done, Already), "query": (Told,), "mend": (Mended,)}


class Backoff:
    """How long a client rests, by a generator of the PCG family (XSH RR 64/32) with the client as its stream."""

    MULTIPLIER = 6364136223846793005

    def __init__(self, seed, client):
        self.increment = (client << 1 | 1) & WORD_64
        self.state = (seed + self.increment) & WORD_64
        self.advance()

    def advance(self):
        self.state = (self.state * self.MULTIPLIER + self.increment) & WORD_64

    def word(self):
        """The next word of 32 bits."""
        old = self.state
        self.advance()
        mixed, turn = ((old >> 18 ^ old) >> 27) & WORD_32, old >> 59
        return (mixed >> turn | mixed << (32 - turn)) & WORD_32

    def ticks(self, ended_round):
        """The ticks of the rest behind a round."""
        return 1 + self.word() % (1 << min(ended_round, MOST_DOUBLINGS))


class Ended(NamedTuple):
    """An operation is over, with an answer, or given up without one."""

    answer: Optional[tuple]


class Entry:
    """A sealed history that is kept, with the number and the round of its reply. A newer one is another object, even
    where it is equal."""

    __slots__ = ("told_in", "sealed")

    def __init__(self, told_in: tuple, sealed: Sealed):
        self.told_in, self.sealed = told_in, sealed


class Client:
    """A client. Each call gives the letters that it sends; `ended` says whether it ended the operation, and how.

    A place is a pair of an object and a replica. `entries` has the newest Entry of each place, `left_out` those that
    this operation's sets do not hold any more, `sent` those of this round's sets by place, and `added` the objects that
    this operation's sets show beside its own. `operation` is the Body of the operation under way, or None; `rest` is
    how many ticks of a rest are left; `request` is the round's request. `asked` has the replicas to which it went, and
    `counted` the first reply of each replica to it.
    """

    def __init__(self, number, keys, bounds, seed):
        self.me, self.keys, self.bounds = number, keys, bounds
        self.party, self.backoff = Party("c", number), Backoff(seed, number)
        self.entries, self.left_out, self.added = {}, set(), set()
        self.number = self.round = self.rest = 0
        self.operation = self.request = self.ended = None
        self.sent, self.asked, self.counted = {}, set(), {}

    def invoke(self, body):
        """Begins an operation of a client that has none."""
        self.ended = None
        self.left_out.clear()
        self.added.clear()
        self.number += 1
        self.round, self.operation = 1, body
        return self.begin_round()

    def step(self, text):
        """Takes bytes."""
        self.ended = None
        reply = self.keys.frame_for(self.party, text)
        if not isinstance(reply, Reply) or reply.client != self.me:
            return []
        told_in = (reply.number, reply.round)
        for sealed in reply.shown:
            place = (sealed.history.object, reply.replica)
            if place not in self.entries or self.entries[place].told_in <= told_in:
                self.entries[place] = Entry(told_in, sealed)
        is_current = self.operation is not None and self.rest == 0 and told_in == (self.number, self.round)
        if not is_current or reply.replica in self.counted:
            return []
        self.counted[reply.replica] = reply
        return self.look()

    def tick(self):
        """Takes a tick of its clock."""
        self.ended = None
        if self.operation is None:
            return []
        if self.rest > 0:
            self.rest -= 1
            if self.rest > 0:
                return []
            self.round += 1
            return self.begin_round()
        others = set(range(self.bounds.replicas)) - self.asked
        return self.ask(others) if others else self.end_round()

    def ask(self, replicas):
        """Sends the round's request to these replicas."""
        self.asked |= set(replicas)
        receivers = [Party("r", replica) for replica in sorted(replicas)]
        return [Letter(self.party, receiver, self.keys.signed(self.request, self.party, receiver))
                for receiver in receivers]

    def kept(self, target):
        """The entries of an object that are not left out, by place."""
        return {place: entry for place, entry in sorted(self.entries.items())
                if place[0] == target and entry not in self.left_out}

    def begin_round(self):
        sets = self.shown()
        objects, body, replicas = self.operation.objects, self.operation, range(self.bounds.replicas)
        if all(len(entries) >= self.bounds.quorum for entries in sets.values()):
            classes = {known: classify(sets, known, self.bounds).code for known in sets}
            needed = [classify(sets, known, self.bounds).needed for known in sets if classes[known] == NEEDS]
            if needed and len(sets) < MOST_SETS:
                self.added.add(needed[0])
                return self.begin_round()
            if all(classes[known] == METHOD for known in objects):
                replicas = self.preferred(objects[0])
            else:
                body = Body("mend", target=self.target(classes))
        shown = tuple(ObjectSet(known, entries) for known, entries in sets.items())
        self.request = Request(self.me, self.number, self.round, shown, body)
        self.asked, self.counted = set(), {}
        return self.ask(replicas)

    def shown(self):
        """The entries of the round's sets by object: those that are named, rising, in odd rounds trimmed."""
        sets, self.sent = {}, {}
        for known in sorted({*self.operation.objects, *self.added}):
            kept = self.kept(known)
            entries = tuple(entry.sealed for entry in kept.values())
            sets[known] = trimmed(entries, self.bounds) if self.round % 2 == 1 else entries
            self.sent |= {place: entry for place, entry in kept.items() if entry.sealed in sets[known]}
        return sets

    @staticmethod
    def target(classes):
        """The object that is mended, by the classes of those that are named: copies come last."""
        first = [known for known, code in classes.items() if code not in (METHOD, COPY)]
        return first[0] if first else [known for known, code in classes.items() if code == COPY][0]

    def preferred(self, target):
        """The replicas that are asked first for an object."""
        count = self.bounds.replicas
        return [replica for replica in range(count) if (replica - target) % count < self.bounds.quorum]

    def look(self):
        """Ends the operation or the round, where the replies that count say so."""
        quorum, kind = self.bounds.quorum, self.request.body.kind
        verdicts = (reply.verdict for reply in self.counted.values())
        fitting = Counter(verdict for verdict in verdicts if isinstance(verdict, FITTING[kind]))
        verdict, most = fitting.most_common(1)[0] if fitting else (None, 0)
        if most >= quorum:
            return self.end_round() if kind == "mend" else self.end(verdict.answer)
        silent = len(self.asked - set(self.counted))
        if len(self.counted) >= quorum and most + silent < quorum:
            return self.end_round()
        return []

    def end_round(self):
        self.leave_out()
        self.add_needed()
        if self.round == LAST_ROUND:
            return self.end(None)
        verdicts = [reply.verdict for reply in self.counted.values()]
        if any(isinstance(verdict, Refusal) and verdict.number == NOT_CURRENT for verdict in verdicts):
            self.rest = self.backoff.ticks(self.round)
            return []
        self.round += 1
        return self.begin_round()

    def leave_out(self):
        """Leaves out entries that replies name as culled, as long as a quorum is left of their object."""
        named = Counter(place for reply in self.counted.values() for place in reply.culled)
        for place in sorted(named, key=lambda place: (-named[place], place[0], -place[1])):
            entry = self.sent.get(place)
            if entry is not None and entry is self.entries[place]:
                if len(self.kept(place[0])) - 1 >= self.bounds.quorum:
                    self.left_out.add(entry)

    def add_needed(self):
        """Adds the objects of which enough replies say that they have to be shown, lower ones first."""
        needed = Counter(reply.verdict.object for reply in self.counted.values()
                         if isinstance(reply.verdict, Refusal) and reply.verdict.number == NEEDED)
        for known in sorted(needed):
            named = {*self.operation.objects, *self.added}
            if needed[known] > self.bounds.faults and len(named) < MOST_SETS:
                self.added.add(known)

    def end(self, answer):
        self.operation, self.ended = None, Ended(answer)
        return []
