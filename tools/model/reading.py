"""Reads bytes: `decode` gives a frame, or None where the bytes are none; what begins with `read_` tells by Unread which
field fails, and how."""
from model.kinds import is_good_name
from model.values import (
    BLOB, COUNTER, DIGEST_SIZE, DIR, INLINE_METHOD, LAST_ROUND, LAST_TIME, MOST_CANDIDATES, MOST_CONTENT, MOST_ENTRIES,
    MOST_PARTS, MOST_SETS, NEEDS, NO_DIGEST, NOT_CURRENT, NOT_METHOD, OPENING, REFUSALS, SPENT, WRONG_KIND, Already,
    Body, Candidate, Done, Fetch, Fetched, History, Items, KeptRow, Mended, ObjectSet, Part, Refusal, RefusedPart,
    Reply, Request, Sealed, Stamp, State, Told)
from model.writing import (
    ASK_CODES, BYTES_CODE, FETCH_KIND, FETCHED_KIND, KIND_CODES, LISTING_CODE, METHOD_CODES, NUMBER_CODE, REPLY_KIND,
    REQUEST_KIND, VERSION)

MOST_BYTES = 1 << 25
LAST_CLIENT, LAST_REPLICA, LAST_OBJECT = 64, 15, 63
# How many replicas a setup may have.
REPLICA_COUNTS = (6, 11, 16)
# How many pairs a group may have.
GROUP_SIZES = (0, 2, 3, 4)
MOST_ROWS, MOST_LINKS, MOST_CULLED = 64, 64, 128
# The numbers of refusals that an answer may carry.
ANSWER_REFUSALS = (*range(3, 10), WRONG_KIND)
METHODS = {code: method for method, code in METHOD_CODES.items()}
ASKS = {code: ask for ask, code in ASK_CODES.items()}
KINDS = {code: kind for kind, code in KIND_CODES.items()}
# The size of what stands before the candidates of a history: object, replica and count.
HISTORY_HEAD = 5
# The histories that were read before, by what stands before their candidates.
known_histories = {}


class Unread(Exception):
    """A field fails: Short, Kind, Range, Order or Rest, at the place of its first byte."""

    def __init__(self, why, place):
        super().__init__(f"{why} at {place}")
        self.why, self.place = why, place


def need(condition, why, place):
    if not condition:
        raise Unread(why, place)


class Reader:
    """The front of a text that is still to be read, from the place `at` on. Each call raises Unread where the text does
    not fit."""

    def __init__(self, text):
        self.text, self.at = text, 0

    def take(self, size):
        piece = self.text[self.at:self.at + size]
        need(len(piece) == size, "Short", self.at)
        self.at += size
        return piece

    def number(self, size, low, high, why="Range"):
        place = self.at
        value = int.from_bytes(self.take(size), "big")
        need(low <= value <= high, why, place)
        return value

    def u8(self, low=0, high=(1 << 8) - 1):
        return self.number(1, low, high)

    def u16(self, low=0, high=(1 << 16) - 1):
        return self.number(2, low, high)

    def u64(self, low=0, high=(1 << 64) - 1):
        return self.number(8, low, high)

    def one_of(self, numbers):
        """A byte that is one of these numbers."""
        place, value = self.at, self.u8()
        need(value in numbers, "Range", place)
        return value

    def digest(self):
        return self.take(DIGEST_SIZE)

    def object(self, known=range(LAST_OBJECT + 1), above=-1):
        """An object that is one of these, and above another one."""
        place, value = self.at, self.u16(0, LAST_OBJECT)
        need(value in known, "Range", place)
        need(value > above, "Order", place)
        return value

    def replica(self):
        return self.u8(0, LAST_REPLICA)

    def client(self, above=0):
        """A client that is above another one."""
        place, value = self.at, self.u16(1, LAST_CLIENT)
        need(value > above, "Order", place)
        return value


# ---- stamps and histories


def read_stamp(reader, last_barrier=1):
    time, place = reader.u64(0, LAST_TIME), reader.at
    barrier = reader.u8(0, last_barrier)
    need(not (barrier and time == 0), "Range", place)
    place = reader.at
    client = reader.u16(0, LAST_CLIENT)
    need((client == 0) == (time == 0), "Range", place)
    place = reader.at
    has_act = reader.u8(0, 1)
    need(not (has_act and (barrier or time == 0)), "Range", place)
    act, place = reader.digest() if has_act else b"", reader.at
    sets = reader.digest()
    need(time > 0 or sets == NO_DIGEST, "Range", place)
    return Stamp(time, barrier, client, act, sets)


def read_plain_stamp(reader):
    """A stamp of no barrier."""
    return read_stamp(reader, 0)


def read_group(reader, object_number, stamp):
    """The group of a candidate of this object with this stamp: pairs of an object and a time, objects rising."""
    place, group = reader.at, []
    size = reader.one_of(GROUP_SIZES)
    need(size == 0 or not stamp.barrier and stamp != OPENING, "Range", place)
    for _ in range(size):
        member = reader.object(above=group[-1][0] if group else -1)
        group.append((member, reader.u64(1, LAST_TIME)))
    need(not group or (object_number, stamp.time) in group, "Range", place)
    return tuple(group)


def read_candidate(reader, object_number, before=None):
    """A candidate of this object; of a history it is the opening one, or above the stamp of the one `before`."""
    place, stamp = reader.at, read_stamp(reader)
    if before is not None:
        need(before or stamp == OPENING, "Range", place)
        need(not before or stamp > before[-1].stamp, "Order", place)
    place, prior = reader.at, read_stamp(reader)
    need(prior == OPENING if stamp == OPENING else prior < stamp and not prior.barrier, "Range", place)
    return Candidate(stamp, prior, read_group(reader, object_number, stamp))


def read_history(reader, known=range(LAST_OBJECT + 1), above=(-1, -1), of_replica=None):
    """A history of a known object; its object and its replica are above others, and the replica is the one that is
    given. Equal ones that are read again are the same object."""
    begin = reader.at
    object_number, place = reader.object(known, above[0]), reader.at
    replica = reader.replica()
    need(of_replica in (None, replica), "Range", place)
    need(replica > above[1], "Order", place)
    found = known_histories.setdefault(reader.text[begin:begin + HISTORY_HEAD], [])
    for history in found:
        if reader.text.startswith(history.spelling, begin):
            reader.at = begin + len(history.spelling)
            return history
    candidates = []
    for _ in range(reader.u16(1, MOST_CANDIDATES)):
        candidates.append(read_candidate(reader, object_number, candidates))
    found.append(History(object_number, replica, tuple(candidates), reader.text[begin:reader.at]))
    return found[-1]


def read_sealed(reader, *rules):
    history = read_history(reader, *rules)
    return Sealed(history, tuple(reader.digest() for _ in range(reader.one_of(REPLICA_COUNTS))))


def read_sets(reader):
    sets = []
    for _ in range(reader.u8(1, MOST_SETS)):
        object_number, entries = reader.object(above=sets[-1].object if sets else -1), []
        for _ in range(reader.u8(0, LAST_REPLICA + 1)):
            last = entries[-1].history.replica if entries else -1
            entries.append(read_sealed(reader, (object_number,), (-1, last)))
        sets.append(ObjectSet(object_number, tuple(entries)))
    return tuple(sets)


# ---- what is asked


def read_content(reader):
    return reader.take(reader.u16(0, MOST_CONTENT))


def read_name(reader):
    return reader.take(reader.u8())


def read_entries(reader, is_named_well=lambda name: True):
    """Pairs of a name and a number, names rising."""
    entries = []
    for _ in range(reader.u16(0, MOST_ENTRIES)):
        place, name = reader.at, read_name(reader)
        need(is_named_well(name), "Range", place)
        need(not entries or name > entries[-1][0], "Order", place)
        entries.append((name, reader.u64()))
    return tuple(entries)


# What each method and each ask has behind its code.
ARGUMENT_READERS = {
    "add": (Reader.u64,), "take": (Reader.u64,), "put": (read_content,), "append": (read_content,),
    "link": (read_name, Reader.u64), "unlink": (read_name,), "read": (), "cat": (), "find": (read_name,), "list": ()}


def read_parts(reader, known, methods):
    """Parts on known objects, objects rising, each with one of these methods by its code."""
    parts = []
    for _ in range(reader.u8(1, MOST_PARTS)):
        object_number = reader.object(known, parts[-1].object if parts else -1)
        method = methods[reader.one_of(methods)]
        parts.append(Part(object_number, method, tuple(read(reader) for read in ARGUMENT_READERS[method])))
    return tuple(parts)


def read_body(reader, sets):
    code, known = reader.u8(1, 3), [part.object for part in sets]
    if code == 1:
        return Body("act", read_parts(reader, known, METHODS))
    if code == 2:
        return Body("query", read_parts(reader, known, ASKS))
    return Body("mend", target=reader.object(known))


# ---- answers and states


def read_item(reader):
    code = reader.one_of((NUMBER_CODE, BYTES_CODE, LISTING_CODE))
    return {NUMBER_CODE: Reader.u64, BYTES_CODE: read_content, LISTING_CODE: read_entries}[code](reader)


def read_answer(reader):
    if reader.u8(0, 1) == 0:
        return Items(tuple(read_item(reader) for _ in range(reader.u8(1, MOST_PARTS))))
    return RefusedPart(reader.u8(0, MOST_PARTS - 1), reader.one_of(ANSWER_REFUSALS))


def read_directory(reader):
    """The value of a directory, all of whose names are good."""
    return read_entries(reader, is_good_name)


def read_state(reader):
    kind = KINDS[reader.one_of(KINDS)]
    value = {COUNTER: Reader.u64, BLOB: read_content, DIR: read_directory}[kind](reader)
    kept, links = [], []
    for _ in range(reader.u8(0, MOST_ROWS)):
        client = reader.client(kept[-1][0] if kept else 0)
        number, act = reader.u64(), reader.digest()
        kept.append((client, KeptRow(number, act, read_answer(reader))))
    for _ in range(reader.u8(0, MOST_LINKS)):
        links.append((reader.object(above=links[-1][0] if links else -1), read_stamp(reader)))
    return State(kind, value, tuple(kept), tuple(links))


# ---- frames


def read_stamps(reader):
    """Pairs of an object and a stamp, objects rising."""
    stamps = []
    for _ in range(reader.u8(1, MOST_PARTS)):
        stamps.append((reader.object(above=stamps[-1][0] if stamps else -1), read_stamp(reader)))
    return tuple(stamps)


def read_verdict(reader):
    code = reader.u8(1, 5)
    if code in (1, 2):
        stamps = read_stamps(reader)
        return (Done if code == 1 else Told)(stamps, read_answer(reader))
    if code == 3:
        return Already(read_answer(reader))
    if code == 4:
        object_number = reader.object()
        return Mended(object_number, read_stamp(reader))
    number, object_number, carried = reader.one_of(REFUSALS), reader.object(), None
    if number == NOT_CURRENT:
        carried = read_stamp(reader)
    elif number == NOT_METHOD:
        carried = reader.u8(INLINE_METHOD, NEEDS)
    elif number == SPENT:
        carried = reader.u64()
    return Refusal(number, object_number, carried)


def read_culled(reader):
    """Pairs of an object and a replica, rising."""
    culled = []
    for _ in range(reader.u8(0, MOST_CULLED)):
        place, pair = reader.at, (reader.object(), reader.replica())
        need(not culled or pair > culled[-1], "Order", place)
        culled.append(pair)
    return tuple(culled)


def read_shown(reader, replica):
    """Sealed histories of a replica, objects rising."""
    shown = []
    for _ in range(reader.u8(0, MOST_SETS)):
        last = shown[-1].history.object if shown else -1
        shown.append(read_sealed(reader, range(LAST_OBJECT + 1), (last, -1), replica))
    return tuple(shown)


def read_request(reader):
    client, number, asked_in = reader.client(), reader.u64(1), reader.u8(1, LAST_ROUND)
    sets = read_sets(reader)
    return Request(client, number, asked_in, sets, read_body(reader, sets))


def read_reply(reader):
    replica, client, number, asked_in = reader.replica(), reader.client(), reader.u64(), reader.u8(1, LAST_ROUND)
    verdict, culled = read_verdict(reader), read_culled(reader)
    return Reply(replica, client, number, asked_in, verdict, culled, read_shown(reader, replica))


def read_fetch(reader):
    return Fetch(reader.replica(), reader.object(), read_plain_stamp(reader))


def read_fetched(reader):
    return Fetched(*read_fetch(reader), read_state(reader))


READERS = {REQUEST_KIND: read_request, REPLY_KIND: read_reply, FETCH_KIND: read_fetch, FETCHED_KIND: read_fetched}


def read_frame(text):
    """A frame and its HMAC. Raises Unread where the text is none."""
    need(len(text) <= MOST_BYTES, "Range", 0)
    reader = Reader(text)
    reader.number(1, VERSION, VERSION, "Kind")
    frame = READERS[reader.number(1, min(READERS), max(READERS), "Kind")](reader)
    hmac = reader.digest()
    need(reader.at == len(text), "Rest", reader.at)
    return frame, hmac


def signed_frame(text):
    """A frame and its HMAC, or None where the text is no frame."""
    try:
        return read_frame(text)
    except Unread:
        return None


def decode(text):
    """The frame of a text, whether its HMAC is right or not, or None where the text is no frame."""
    signed = signed_frame(text)
    return signed and signed[0]
