"""What replicas showed in the letters of a run, as `qu-letters bytes` writes these."""
import re
from functools import cached_property

from model.reading import decode
from model.values import Reply

# Number, event, sender, receiver, length and bytes of a letter.
LETTER = re.compile(r"([1-9]\d*) [1-9]\d* [rc]\d+ [rc]\d+ (\d+) (-|(?:[0-9a-f]{2})+)")


class Lacking(Exception):
    """The letters lack what is asked for, or are none."""


def read_letter(place, line):
    """The number and the bytes of a letter. Raises Lacking where the line, with this place, is none."""
    found = LETTER.fullmatch(line)
    text = bytes.fromhex(found.group(3).strip("-")) if found else b""
    if found is None or int(found.group(2)) != len(text):
        raise Lacking(f"line {place} of the letters is not NUMBER EVENT FROM TO LENGTH HEX, as qu-letters bytes has it")
    return int(found.group(1)), text


class Letters:
    """The letters that a source of bytes has, which is read when they are first asked for."""

    def __init__(self, source):
        self.source = source

    @cached_property
    def shown(self):
        """The number of a letter and a sealed history that it shows, in the order of the letters."""
        shown = []
        for place, line in enumerate(self.source.read().decode("ascii", "replace").splitlines(), 1):
            number, text = read_letter(place, line)
            frame = decode(text)
            if isinstance(frame, Reply):
                shown += [(number, sealed) for sealed in frame.shown]
        return shown

    def history(self, replica, object_number, letter=None):
        """The sealed history of an object that a replica showed last, or in this letter. Raises Lacking."""
        for number, sealed in reversed(self.shown):
            history = sealed.history
            if (history.replica, history.object) == (replica, object_number) and letter in (None, number):
                return sealed
        shows = "no letter shows" if letter is None else f"letter {letter} does not show"
        raise Lacking(f"{shows} object {object_number} of replica {replica}")

    def stamp(self, object_number, time, barrier, client):
        """The one stamp of an object, among the histories that are shown, with these fields. Raises Lacking."""
        found = {candidate.stamp for _, sealed in self.shown if sealed.history.object == object_number
                 for candidate in sealed.history.candidates if candidate.stamp[:3] == (time, barrier, client)}
        words = f"{'barrier' if barrier else 'time'} {time} of client {client}"
        if not found:
            raise Lacking(f"no letter shows object {object_number} at {words}")
        if len(found) > 1:
            digests = "; ".join(f"act {stamp.act.hex() or '-'} sets {stamp.sets.hex()}" for stamp in sorted(found))
            raise Lacking(f"object {object_number} has several stamps {words}, so say which: {digests}")
        return found.pop()
