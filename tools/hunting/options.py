"""What random scripts are like."""
from typing import NamedTuple

from model.values import BLOB, COUNTER, DIR


class Options(NamedTuple):
    """Who takes part, how many operations correct clients are called for, and how often, in a hundred: a letter is
    lost, comes once more or out of order; a replica is held, or a faulty party sends something, where a step is made.

    `clients` counts faulty ones too, and one client is always correct.
    """

    faults: int = 1
    clients: int = 4
    objects: tuple = (COUNTER, COUNTER, BLOB, DIR)
    faulty_replicas: int = 1
    faulty_clients: int = 1
    operations: int = 16
    lose: int = 10
    repeat: int = 5
    reorder: int = 30
    hold: int = 3
    lie: int = 12


# The words of the options that are numbers, with the least and the greatest number, and what each is.
NUMBERS = {
    "faults": (1, 3, "how many replicas may lie"),
    "clients": (1, 64, "how many clients there are, faulty ones too"),
    "faulty_replicas": (0, 3, "how many replicas are faulty, at most"),
    "faulty_clients": (0, 63, "how many clients are faulty, at most"),
    "operations": (0, 1000, "for how many operations correct clients are called"),
    "lose": (0, 100, "how many letters in a hundred are lost"),
    "repeat": (0, 100, "how often in a hundred a letter comes once more"),
    "reorder": (0, 100, "how many letters in a hundred come out of order"),
    "hold": (0, 100, "how often in a hundred a replica is held or freed"),
    "lie": (0, 100, "how often in a hundred a faulty party sends something"),
}
KINDS = (COUNTER, BLOB, DIR)
