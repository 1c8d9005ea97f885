"""Bytes as stored cases tell them: what the front of a text is, or which field of it fails."""
from typing import NamedTuple

from model.keys import ACT_TAG, FRAME_TAG, digest, history_digest, sets_digest
from model.reading import (
    ASKS, METHODS, Reader, Unread, read_answer, read_candidate, read_frame, read_history, read_parts, read_sets,
    read_stamp, read_state)
from model.report import part_words
from model.told_frames import told_answer, told_frame, told_sets, told_stamp, told_state
from model.values import DIGEST_SIZE
from model.writing import (
    u16, u64, write_answer, write_candidate, write_history, write_parts, write_sets, write_stamp, write_state)

# The objects that acts and queries know here; candidates are of the first.
KNOWN = (5, 63)


class Form(NamedTuple):
    """How a part of a frame is read, told in words, and written."""

    read: object
    told: object
    write: object


def told_group(group):
    return " group" + "".join(f" {object_number}:{time}" for object_number, time in group) if group else ""


def told_candidate(candidate):
    return f"{told_stamp(candidate.stamp)} on {told_stamp(candidate.prior)}{told_group(candidate.group)}"


def told_history(history):
    head = f"history {history.object} r{history.replica} {len(history.candidates)}"
    return f"{head} to {told_stamp(history.latest)}"


def told_parts(parts):
    return "".join(f" {part_words(part)}" for part in parts)


FORMS = {
    "stamp": Form(read_stamp, told_stamp, write_stamp),
    "candidate": Form(lambda reader: read_candidate(reader, KNOWN[0]), told_candidate, write_candidate),
    "history": Form(read_history, told_history, write_history),
    "sets": Form(read_sets, told_sets, write_sets),
    "act": Form(lambda reader: read_parts(reader, KNOWN, METHODS), told_parts, write_parts),
    "query": Form(lambda reader: read_parts(reader, KNOWN, ASKS), told_parts, write_parts),
    "answer": Form(read_answer, told_answer, write_answer),
    "state": Form(read_state, told_state, write_state)}


def read_part(part, text):
    """The value at the front of a text, and where it ends. A frame is the whole text. Raises Unread."""
    if not part:
        return read_frame(text)[0], len(text)
    reader = Reader(text)
    return FORMS[part].read(reader), reader.at


def told_text(part, text):
    """What a text is, or how the first field that fails does."""
    try:
        value, end = read_part(part, text)
    except Unread as unread:
        return str(unread)
    told = FORMS[part].told if part else told_frame
    return told(value) + (f" to {end}" if end < len(text) else "")


def short_place(part, text):
    """Where a text that is cut is short. Raises KeyError where it is not."""
    try:
        read_part(part, text)
    except Unread as unread:
        return {"Short": unread.place}[unread.why]
    raise KeyError(part)


def told_cuts(part, text):
    """The places at which cuts of a text are short, each once, with the cut where it is another one."""
    told, last = [], None
    for cut in range(len(text)):
        place = short_place(part, text[:cut])
        if place != last:
            told.append(str(cut) if cut == place else f"{cut}:{place}")
        last = place
    return " ".join(["short at", *told])


def exact_lines(part, text):
    """What a text is, where its cuts are short, and what it is with a byte more."""
    value, end = read_part(part, text)
    if part and FORMS[part].write(value) != text[:end]:
        raise ValueError("not as it was read")
    return [told_text(part, text), told_cuts(part, text), f"and a byte: {told_text(part, text + bytes(1))}"]


def changed(text, place, piece):
    return text[:place] + piece + text[place + len(piece):]


def change_lines(part, text, place, words, piece):
    """What a text is where a piece of it is another one; or, where there is no piece, where its answer changes over all
    that a byte can be."""
    if piece is not None:
        return [f"{place} {words}: {told_text(part, changed(text, place, piece))}"]
    lines, last = [], None
    for byte in range(256):
        told = told_text(part, changed(text, place, bytes([byte])))
        if told != last:
            lines.append(f"{place} from {byte:02x}: {told}")
        last = told
    return lines


def told_digest(words, text):
    """The digest of a text under a tag, of a history, of sets, of a frame, or of an act of a client by its number.
    Raises ValueError where the words ask for none."""
    what, *numbers = words.split(" ")
    if what == "history":
        return history_digest(read_part(what, text)[0]).hex()
    if what == "sets":
        return sets_digest(read_part(what, text)[0]).hex()
    if what == "frame":
        return digest(FRAME_TAG, text[:-DIGEST_SIZE]).hex()
    if what == "act":
        client, number = map(int, numbers)
        return digest(ACT_TAG, u16(client) + u64(number) + text).hex()
    return digest(int(what), text).hex()
