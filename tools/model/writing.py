"""The bytes of values. Each call takes a value and gives its one spelling."""
from model.values import (
    BLOB, COUNTER, DIR, NOT_CURRENT, NOT_METHOD, SPENT, Already, Done, Fetch, Items, Mended, Reply, Request, Told)

VERSION = 1
REQUEST_KIND, REPLY_KIND, FETCH_KIND, FETCHED_KIND = 1, 2, 3, 4
BODY_CODES = {"act": 1, "query": 2, "mend": 3}
METHOD_CODES = {"add": 1, "take": 2, "put": 3, "append": 4, "link": 5, "unlink": 6}
ASK_CODES = {"read": 1, "cat": 2, "find": 3, "list": 4}
NUMBER_CODE, BYTES_CODE, LISTING_CODE = 1, 2, 3
KIND_CODES = {COUNTER: 1, BLOB: 2, DIR: 3}


def u8(number):
    return number.to_bytes(1, "big")


def u16(number):
    return number.to_bytes(2, "big")


def u64(number):
    return number.to_bytes(8, "big")


def write_stamp(stamp):
    act = u8(1) + stamp.act if stamp.act else u8(0)
    return u64(stamp.time) + u8(stamp.barrier) + u16(stamp.client) + act + stamp.sets


def write_group(group):
    return u8(len(group)) + b"".join(u16(object_number) + u64(time) for object_number, time in group)


def write_candidate(candidate):
    return write_stamp(candidate.stamp) + write_stamp(candidate.prior) + write_group(candidate.group)


def write_history(history):
    """The bytes of a history, which are made once."""
    if history.spelling is None:
        head = u16(history.object) + u8(history.replica) + u16(len(history.candidates))
        history.spelling = head + b"".join(map(write_candidate, history.candidates))
    return history.spelling


def write_sealed(sealed):
    return write_history(sealed.history) + u8(len(sealed.hmacs)) + b"".join(sealed.hmacs)


def write_sets(sets, write_entry=write_sealed):
    """Sets, whose entries are written by `write_entry`."""
    text = u8(len(sets))
    for part in sets:
        text += u16(part.object) + u8(len(part.entries)) + b"".join(map(write_entry, part.entries))
    return text


def write_histories(sets):
    """Sets without their HMACs, as they are digested."""
    return write_sets(sets, lambda entry: write_history(entry.history))


def write_content(content):
    """Bytes with their number before them."""
    return u16(len(content)) + content


def write_name(name):
    return u8(len(name)) + name


def write_entries(entries):
    """Pairs of a name and a number."""
    return u16(len(entries)) + b"".join(write_name(name) + u64(number) for name, number in entries)


# What each method and each ask writes behind its code.
ARGUMENT_WRITERS = {
    "add": (u64,), "take": (u64,), "put": (write_content,), "append": (write_content,), "link": (write_name, u64),
    "unlink": (write_name,), "read": (), "cat": (), "find": (write_name,), "list": ()}


def write_parts(parts):
    text = u8(len(parts))
    for part in parts:
        text += u16(part.object) + u8({**METHOD_CODES, **ASK_CODES}[part.method])
        for write, argument in zip(ARGUMENT_WRITERS[part.method], part.arguments, strict=True):
            text += write(argument)
    return text


def write_body(body):
    return u8(BODY_CODES[body.kind]) + (u16(body.target) if body.kind == "mend" else write_parts(body.parts))


def write_item(item):
    if isinstance(item, int):
        return u8(NUMBER_CODE) + u64(item)
    return u8(BYTES_CODE) + write_content(item) if isinstance(item, bytes) else u8(LISTING_CODE) + write_entries(item)


def write_answer(answer):
    if isinstance(answer, Items):
        return u8(0) + u8(len(answer.items)) + b"".join(map(write_item, answer.items))
    return u8(1) + u8(answer.position) + u8(answer.number)


def write_state(state):
    write_value = {COUNTER: u64, BLOB: write_content, DIR: write_entries}[state.kind]
    text = u8(KIND_CODES[state.kind]) + write_value(state.value) + u8(len(state.kept))
    for client, row in state.kept:
        text += u16(client) + u64(row.number) + row.act + write_answer(row.answer)
    text += u8(len(state.links))
    for object_number, stamp in state.links:
        text += u16(object_number) + write_stamp(stamp)
    return text


def write_verdict(verdict):
    if isinstance(verdict, (Done, Told)):
        head = u8(1 if isinstance(verdict, Done) else 2) + u8(len(verdict.stamps))
        stamps = (u16(object_number) + write_stamp(stamp) for object_number, stamp in verdict.stamps)
        return head + b"".join(stamps) + write_answer(verdict.answer)
    if isinstance(verdict, Already):
        return u8(3) + write_answer(verdict.answer)
    if isinstance(verdict, Mended):
        return u8(4) + u16(verdict.object) + write_stamp(verdict.stamp)
    writers = {NOT_CURRENT: write_stamp, NOT_METHOD: u8, SPENT: u64}
    carried = writers[verdict.number](verdict.carried) if verdict.number in writers else b""
    return u8(5) + u8(verdict.number) + u16(verdict.object) + carried


def write_request(request):
    head = u16(request.client) + u64(request.number) + u8(request.round)
    return head + write_sets(request.sets) + write_body(request.body)


def write_reply(reply):
    head = u8(reply.replica) + u16(reply.client) + u64(reply.number) + u8(reply.round)
    culled = b"".join(u16(object_number) + u8(replica) for object_number, replica in reply.culled)
    shown = b"".join(map(write_sealed, reply.shown))
    return head + write_verdict(reply.verdict) + u8(len(reply.culled)) + culled + u8(len(reply.shown)) + shown


def write_frame(frame):
    """All bytes of a frame before its HMAC."""
    if isinstance(frame, Request):
        return u8(VERSION) + u8(REQUEST_KIND) + write_request(frame)
    if isinstance(frame, Reply):
        return u8(VERSION) + u8(REPLY_KIND) + write_reply(frame)
    wanted = u8(frame.replica) + u16(frame.object) + write_stamp(frame.stamp)
    if isinstance(frame, Fetch):
        return u8(VERSION) + u8(FETCH_KIND) + wanted
    return u8(VERSION) + u8(FETCHED_KIND) + wanted + write_state(frame.state)
