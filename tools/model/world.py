"""A run: all parties, the letters that they sent, and the events so far."""
from typing import NamedTuple, Optional

from model.audit import Audit
from model.client import Client
from model.keys import Keys
from model.points import Point, Points
from model.reading import decode
from model.replica import Replica
from model.values import Body, Bounds, Letter, Party
from model.writing import write_body

MOST_EVENTS = 20_000
MOST_BYTES = 1 << 31


class Refused(Exception):
    """A script or an event is refused: the kind, the line of the script, or 0 where it is not known yet, and the world
    as it is then, or None where nothing ran."""

    def __init__(self, kind, line=0, world=None):
        super().__init__(f"line {line}: {kind}")
        self.kind, self.line, self.world = kind, line, world


class Setup(NamedTuple):
    """Who takes part in a run: clients are numbered up to `clients`, `kinds` has the kind of each object, and `faulty`
    is a set of parties."""

    bounds: Bounds
    seed: int
    clients: int
    kinds: tuple
    faulty: frozenset


class Operation(NamedTuple):
    """An operation of a correct client, and the event of its invocation."""

    client: int
    number: int
    body: Body
    event: int


class End(NamedTuple):
    """The end of an operation: its event, its last round, and its answer, or None where it was given up."""

    event: int
    round: int
    answer: Optional[tuple]


class Sent(NamedTuple):
    """A letter with the event that sent it."""

    event: int
    letter: Letter


class World:
    """Letter L is `letters[L - 1]`; `delivered` has the numbers of those that were delivered. `ends` has the End of an
    operation by its client and number."""

    def __init__(self, setup):
        self.setup, self.bounds = setup, setup.bounds
        self.keys = Keys(setup.seed, setup.bounds, setup.clients)
        self.replicas = {number: Replica(number, self.keys, self.bounds, setup.kinds)
                         for number in range(self.bounds.replicas) if Party("r", number) not in setup.faulty}
        self.clients = {number: Client(number, self.keys, self.bounds, setup.seed)
                        for number in range(1, setup.clients + 1) if Party("c", number) not in setup.faulty}
        self.events = self.bytes = 0
        self.letters, self.delivered = [], set()
        self.operations, self.ends = [], {}
        self.audit, self.points = Audit(setup.faulty, self.keys), Points(self.bounds)

    def is_correct(self, party):
        """Whether the setup has this party, and as a correct one."""
        return party.number in (self.replicas if party.kind == "r" else self.clients)

    def letter(self, number):
        """The letter with this number. Raises Refused where there is none."""
        if not 1 <= number <= len(self.letters):
            raise Refused("no such letter")
        return self.letters[number - 1].letter

    # ---- events; each raises Refused, and changes nothing, where it cannot happen

    def invoke(self, number, body):
        client = self.clients[number]
        if client.operation is not None:
            raise Refused("busy")
        self.begin_event()
        letters = client.invoke(body)
        self.operations.append(Operation(number, client.number, body, self.events))
        self.end_event(letters)

    def deliver(self, number):
        letter = self.letter(number)
        self.begin_event()
        self.delivered.add(number)
        self.hand(letter.receiver, letter.text)

    def inject(self, party, text):
        self.begin_event()
        if self.is_correct(party):
            self.audit.injected(self.events, party, text)
        self.hand(party, text)

    def tick(self, number):
        self.begin_event()
        self.end_client_event(self.clients[number], self.clients[number].tick())

    # ---- parts of events

    def begin_event(self):
        if self.events >= MOST_EVENTS:
            raise Refused("too many events")
        if self.bytes >= MOST_BYTES:
            raise Refused("too many bytes")
        self.events += 1

    def hand(self, party, text):
        if self.is_correct(party) and party.kind == "c":
            self.end_client_event(self.clients[party.number], self.clients[party.number].step(text))
        elif self.is_correct(party):
            self.step_replica(self.replicas[party.number], text)

    def step_replica(self, replica, text):
        before = {known: len(history.candidates) for known, history in replica.histories.items()}
        letters = replica.step(text)
        for handled in replica.handled:
            self.audit.handled(self.events, handled.kept)
            self.points.handled(handled.request)
        for known, history in replica.histories.items():
            for candidate in history.candidates[before[known]:]:
                self.points.accepted(self.events, known, candidate, replica.number)
        self.end_event(letters)

    def end_client_event(self, client, letters):
        if client.ended is not None:
            self.ends[client.me, client.number] = End(self.events, client.round, client.ended.answer)
        self.end_event(letters)

    def end_event(self, letters):
        for letter in letters:
            self.letters.append(Sent(self.events, letter))
            self.bytes += len(letter.text)
        self.audit.sent(letters)

    # ---- the points

    def points_in_order(self):
        """The points of updates and of completed queries, in the printed order."""
        points = [Point(event, client, number, body, Party("c", client) in self.setup.faulty)
                  for event, client, number, body in self.points.updates()]
        replied = self.first_replies()
        for operation in self.operations:
            end = self.ends.get((operation.client, operation.number))
            if operation.body.kind == "query" and end is not None and end.answer is not None:
                event = replied.get((operation.client, operation.number, end.round))
                if event is not None:
                    points.append(Point(event, operation.client, operation.number, operation.body, False))
        return sorted(points, key=lambda point: (point.event, point.client, point.number, write_body(point.body)))

    def first_replies(self):
        """The first event at which a replica answers a round, by client, number and round."""
        first = {}
        for event, letter in self.letters:
            if letter.sender.kind == "r" and letter.receiver.kind == "c":
                reply = decode(letter.text)
                first.setdefault((reply.client, reply.number, reply.round), event)
        return first
