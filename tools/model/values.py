"""The values that parties hold and send.

Objects, replicas, clients, times and numbers are plain numbers; digests and HMACs are bytes of length 32.
"""
from dataclasses import dataclass
from typing import NamedTuple, Optional

LAST_TIME = 1 << 62
LAST_VALUE = (1 << 64) - 1
MOST_CANDIDATES = 1024
# The parts of an operation, and the objects of the sets of a request, at most.
MOST_PARTS, MOST_SETS = 4, 8
LAST_ROUND = 64
# The bytes that stand for themselves where names are written.
PLAIN_BYTES = frozenset(b"ABCDEFGHIJKLMNOPQRSTUVWXYZabcdefghijklmnopqrstuvwxyz0123456789._-")
DIGEST_SIZE = 32
NO_DIGEST = bytes(DIGEST_SIZE)

# The kinds of objects, by their words in scripts.
COUNTER, BLOB, DIR = "counter", "blob", "dir"
# The bytes of a blob, the entries of a directory and the bytes of a name, at most.
MOST_CONTENT, MOST_ENTRIES, MOST_NAME = 4096, 256, 255
# The codes of the classes.
METHOD, INLINE_METHOD, COPY, INLINE_BARRIER, BARRIER, NEEDS = 1, 2, 3, 4, 5, 6
# The numbers of refusals of a part of an operation.
OVER, UNDER, TOO_LONG, EXISTS, MISSING, BAD_NAME, FULL, WRONG_KIND = 3, 4, 5, 6, 7, 8, 9, 12
# The numbers of a replica's refusals.
HISTORY_FULL, THIN, NEEDED, STALE = 11, 13, 15, 16
NOT_CURRENT, NOT_METHOD, SPENT, TIME_SPENT, UNKNOWN_OBJECT, SOUND = 22, 23, 24, 25, 26, 27
REFUSALS = (HISTORY_FULL, THIN, NEEDED, STALE, NOT_CURRENT, NOT_METHOD, SPENT, TIME_SPENT, UNKNOWN_OBJECT, SOUND)


class Bounds(NamedTuple):
    """How many replicas may lie, how many there are, make a quorum, and have to show what may be repaired."""

    faults: int
    replicas: int
    quorum: int
    repair: int

    @staticmethod
    def of(faults):
        return Bounds(faults, 5 * faults + 1, 4 * faults + 1, 2 * faults + 1)


class Party(NamedTuple):
    """A replica (`r`) or a client (`c`)."""

    kind: str
    number: int

    def __str__(self):
        return f"{self.kind}{self.number}"


class Stamp(NamedTuple):
    """A stamp; stamps compare field by field. `act` is empty where there is no digest of an act, which is least."""

    time: int
    barrier: int
    client: int
    act: bytes
    sets: bytes


class Candidate(NamedTuple):
    """A stamp, the stamp on which it rests, and its group: pairs of an object and a time."""

    stamp: Stamp
    prior: Stamp
    group: tuple = ()

    def member(self, object_number):
        """The stamp of the candidate of its group on an object that the group lists."""
        return self.stamp._replace(time=dict(self.group)[object_number])


OPENING = Stamp(0, 0, 0, b"", NO_DIGEST)
OPENING_CANDIDATE = Candidate(OPENING, OPENING)


class History:
    """What a replica accepted of an object, never changed in place; `spelling` are its bytes, once they are known."""

    __slots__ = ("object", "replica", "candidates", "spelling")

    def __init__(self, object_number, replica, candidates=(OPENING_CANDIDATE,), spelling=None):
        self.object, self.replica, self.candidates, self.spelling = object_number, replica, candidates, spelling

    @property
    def latest(self):
        return self.candidates[-1].stamp

    def with_candidate(self, candidate):
        return History(self.object, self.replica, self.candidates + (candidate,))

    def of_replica(self, replica):
        """The same history in the name of another replica."""
        return History(self.object, replica, self.candidates)


class Sealed(NamedTuple):
    """A history with an HMAC for each replica of the setup."""

    history: History
    hmacs: tuple


class ObjectSet(NamedTuple):
    """What the sets of a request have of an object: sealed histories, replicas rising."""

    object: int
    entries: tuple


class Items(NamedTuple):
    """An answer that tells items: numbers, bytes, or pairs of a name and a number by rising names."""

    items: tuple


class RefusedPart(NamedTuple):
    """An answer that refuses: at which part of the operation, and the number of the refusal."""

    position: int
    number: int


class KeptRow(NamedTuple):
    """What a version keeps of a client: its last update by number and digest, and the answer."""

    number: int
    act: bytes
    answer: tuple


class State(NamedTuple):
    """An object's kind and value; pairs of a client and its kept row, clients rising; and of an object and a stamp, the
    links, objects rising."""

    kind: str
    value: object
    kept: tuple = ()
    links: tuple = ()

    def row(self, client):
        """The kept row of a client, or None."""
        return dict(self.kept).get(client)

    def linked(self, stamp, others):
        """The same state with links to these objects, as the version with this stamp has them."""
        return self._replace(links=tuple(sorted({**dict(self.links), **dict.fromkeys(others, stamp)}.items())))


class Part(NamedTuple):
    """A part of an operation: the object, what is asked of it, and what this needs: a number, bytes, a name."""

    object: int
    method: str
    arguments: tuple = ()


class Body(NamedTuple):
    """What a request asks for: an `act` or a `query` of parts, or to `mend` a target."""

    kind: str
    parts: tuple = ()
    target: Optional[int] = None

    @property
    def objects(self):
        """The objects of its parts, rising."""
        return [part.object for part in self.parts]


@dataclass(frozen=True)
class Done:
    """An act was performed: pairs of an object and the stamp of its candidate, objects rising, and the answer."""

    stamps: tuple
    answer: tuple


@dataclass(frozen=True)
class Told:
    """A query is answered: pairs of an object and the stamp of the version that was read, and the answer."""

    stamps: tuple
    answer: tuple


@dataclass(frozen=True)
class Already:
    """An act was performed before, with this answer."""

    answer: tuple


@dataclass(frozen=True)
class Mended:
    """An object was mended by a candidate with this stamp."""

    object: int
    stamp: Stamp


@dataclass(frozen=True)
class Refusal:
    """A request is refused: the number of the refusal, its object, and the stamp, class or number that it carries."""

    number: int
    object: int
    carried: object = None


class Request(NamedTuple):
    """A client asks for the body, upon the sets: an ObjectSet for each object."""

    client: int
    number: int
    round: int
    sets: tuple
    body: Body


class Reply(NamedTuple):
    """A replica answers: a verdict, rising pairs of object and replica that it culled, and its sealed histories."""

    replica: int
    client: int
    number: int
    round: int
    verdict: object
    culled: tuple
    shown: tuple


class Fetch(NamedTuple):
    """A replica asks another one for a version."""

    replica: int
    object: int
    stamp: Stamp


class Fetched(NamedTuple):
    """A replica sends a version that was asked for."""

    replica: int
    object: int
    stamp: Stamp
    state: State


class Letter(NamedTuple):
    """The bytes of a frame, with who sends them and to whom."""

    sender: Party
    receiver: Party
    text: bytes


def sender_of(frame):
    """The party that a frame names as its sender."""
    return Party("c", frame.client) if isinstance(frame, Request) else Party("r", frame.replica)
