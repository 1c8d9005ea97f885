"""The script of a number, as `gen N` has to write it: a setup, and 400 operations one after another."""
from typing import NamedTuple

SETUP = """bounds 1
seed {number}
clients 4
object 0 counter
object 1 counter
object 2 counter
object 3 counter
object 4 counter
object 5 counter
object 6 blob
object 7 dir
faulty replica 5
"""
OPERATION = """call {client} {words}
flow
tick {client}
flow
wake {client}
flow
tick {client}
flow
"""
# What clients 1 to 4 ask of the counters that have a next one, of the last counter, the blob and the directory.
COUNTER = ("add {object} {amount}", "add {object} {amount}", "take {object} 1 + add {next} 1", "read {object}")
LAST_COUNTER = ("add 5 {amount}", "add 5 {amount}", "add 0 1 + take 5 1", "read 5")
BLOB = ("put 6 {turn:02x}", "append 6 {turn:02x}", "cat 6", "cat 6")
DIRECTORY = ("link 7 n{turn} {turn}", "find 7 n{turn}", "unlink 7 n{turn}", "list 7")
# The table of each object, by its number.
ASKED = (*[COUNTER] * 5, LAST_COUNTER, BLOB, DIRECTORY)


class Called(NamedTuple):
    """An operation: its place from 1 on, its client, and how often all clients were called before."""

    place: int
    client: int
    turn: int


def operation_text(number, called):
    """The lines of an operation of the script of a number."""
    target = (called.turn + number) % 8
    words = ASKED[target][called.client - 1].format(object=target, next=target + 1, turn=called.turn,
                                                    amount=1 + called.turn % 7)
    lie = f"fake 5 {called.client} far\n" if called.place % 10 == 0 else ""
    return OPERATION.format(client=called.client, words=words) + lie


def generated_script(number):
    called = [Called(4 * turn + client, client, turn) for turn in range(100) for client in (1, 2, 3, 4)]
    return SETUP.format(number=number) + "".join(operation_text(number, each) for each in called)
