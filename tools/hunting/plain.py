"""Whole scripts by name."""
from model.script import SETUP_WORDS

from hunting.front import Front, KeepingWorld, Unplayable


def is_of_setup(line):
    first = (line.split() or [""])[0]
    return first in SETUP_WORDS or first == "" or first.startswith("#")


def split(text):
    """The lines of the setup, with those that say nothing among and before them, and the lines behind."""
    lines = text.splitlines()
    count = next((at for at, line in enumerate(lines) if not is_of_setup(line)), len(lines))
    return lines[:count], lines[count:]


def front_of_text(text, world_kind=KeepingWorld):
    """The front of a script by name. Raises Unplayable, with a line's number, or Refused where the setup is."""
    setup, lines = split(text)
    front = Front(setup, world_kind)
    for number, line in enumerate(lines, len(setup) + 1):
        try:
            front.take(line)
        except Unplayable as why:
            raise Unplayable(f"line {number}: {why}") from None
    return front
