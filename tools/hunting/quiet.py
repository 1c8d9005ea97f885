"""Quiet endings: behind a random beginning all is free and delivered, and each client does what it can."""
from model.values import BLOB, COUNTER, DIR

from hunting.checks import COLUMNS, STATUS, Failure
from hunting.front import Unplayable

QUIET = "quiet"
# So often a client is helped on until it is idle: it has 64 rounds, each of which takes two ticks or a rest at most.
MOST_HELPS = 400
UPDATES = {COUNTER: "add {} 1", BLOB: "put {} 01", DIR: "link {} q{} 1"}
QUERIES = {COUNTER: "read {}", BLOB: "cat {}", DIR: "list {}"}


def take(front, line):
    """Adds a line that can stand, or none."""
    try:
        front.take(line)
        return True
    except Unplayable:
        return False


def settle(front, number):
    """Has all letters delivered, and ticks and wakes a client, until it is idle."""
    client = front.world.clients[number]
    for _ in range(MOST_HELPS):
        if not take(front, "flow") or client.operation is None:
            return
        take(front, f"wake {number}" if client.rest > 0 else f"tick {number}")


def ending(front):
    """Adds a quiet ending, and gives the operations that were called for in it, as pairs of a client and a number."""
    clients, called = sorted(front.world.clients), []
    take(front, " ".join(["free", *map(str, range(front.world.bounds.replicas))]))
    for number in clients:
        settle(front, number)
    for number in clients:
        for known, kind in enumerate(front.setup.kinds):
            for words in (UPDATES[kind], QUERIES[kind]):
                if take(front, f"call {number} {words.format(known, number)}"):
                    called.append((number, front.world.clients[number].number))
                    settle(front, number)
    return called


def rounds_of(front, called):
    """How many rounds the model needed for each of these operations that it answered."""
    ends = [front.world.ends.get(name) for name in called]
    return [end.round for end in ends if end is not None and end.answer is not None]


def finds(script, called, programs):
    """The operations among these that a program does not answer, as Failures."""
    written = programs.report(script)
    if written.status != 0:
        last = written.lines[-1][:COLUMNS] if written.lines else "nothing"
        return [Failure(STATUS, f"the program ends with status {written.status} and wrote {last}")]
    names = [f"{client}.{number}" for client, number in called]
    lines = set(written.lines)
    return [Failure(QUIET, f"{word} {name} in a quiet ending") for name in names for word in ("gaveup", "open")
            if f"{word} {name}" in lines]
