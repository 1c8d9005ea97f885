"""Frames in words, as the command `events` of stored cases tells them."""
from model.report import content_words, listing_words, operation_words
from model.values import (
    BARRIER, BLOB, COPY, COUNTER, DIR, HISTORY_FULL, INLINE_BARRIER, INLINE_METHOD, NEEDED, NEEDS, NOT_CURRENT,
    NOT_METHOD, OPENING, SOUND, SPENT, STALE, THIN, TIME_SPENT, UNKNOWN_OBJECT, Already, Done, Fetch, Items, Mended,
    Reply, Request, Told)

REFUSAL_NAMES = {
    HISTORY_FULL: "HistoryFull", THIN: "Thin", NEEDED: "Needs", STALE: "Stale", NOT_CURRENT: "NotCurrent",
    NOT_METHOD: "NotMethod", SPENT: "Spent", TIME_SPENT: "TimeSpent", UNKNOWN_OBJECT: "UnknownObject", SOUND: "Sound"}
CLASS_NAMES = {INLINE_METHOD: "InlineMethod", COPY: "Copy", INLINE_BARRIER: "InlineBarrier", BARRIER: "Barrier",
               NEEDS: "Needs"}


def told_stamp(stamp):
    if stamp == OPENING:
        return "opening"
    barrier = " barrier" if stamp.barrier else ""
    return f"{stamp.time}{barrier} c{stamp.client} act {stamp.act.hex() or '-'} sets {stamp.sets.hex()}"


def told_item(item):
    if isinstance(item, int):
        return str(item)
    return f"bytes {content_words(item)}" if isinstance(item, bytes) else f"listing {listing_words(item)}"


def told_answer(answer):
    if isinstance(answer, Items):
        return "ok" + "".join(f" {told_item(item)}" for item in answer.items)
    return f"refused {answer.number} at {answer.position}"


def told_verdict(verdict):
    if isinstance(verdict, (Done, Told)):
        stamps = (f" {object_number} at {told_stamp(stamp)}" for object_number, stamp in verdict.stamps)
        name = "done" if isinstance(verdict, Done) else "told"
        return f"{name}{''.join(stamps)} {told_answer(verdict.answer)}"
    if isinstance(verdict, Already):
        return f"already {told_answer(verdict.answer)}"
    if isinstance(verdict, Mended):
        return f"mended {verdict.object} {told_stamp(verdict.stamp)}"
    name, target = REFUSAL_NAMES[verdict.number], f"ObjectId({verdict.object})"
    if verdict.number == NOT_CURRENT:
        return f"{name}({target}) {told_stamp(verdict.carried)}"
    if verdict.number == NOT_METHOD:
        return f"{name}({target}, {CLASS_NAMES[verdict.carried]})"
    if verdict.number == SPENT:
        return f"{name}({target}, {verdict.carried})"
    return f"{name}({target})"


def told_value(state):
    words_of = {COUNTER: str, BLOB: content_words, DIR: listing_words}[state.kind]
    return f"{state.kind} {words_of(state.value)}"


def told_state(state):
    words = told_value(state)
    for client, row in state.kept:
        words += f" kept c{client} {row.number} {row.act.hex()} {told_answer(row.answer)}"
    return words + "".join(f" link {known} at {told_stamp(stamp)}" for known, stamp in state.links)


def told_sizes(sealed):
    """How many candidates and how many HMACs a sealed history has."""
    return f"{len(sealed.history.candidates)}/{len(sealed.hmacs)}"


def told_sets(sets):
    words = "sets"
    for part in sets:
        entries = (f" r{entry.history.replica}/{told_sizes(entry)}" for entry in part.entries)
        words += f" {part.object}:{''.join(entries)}"
    return words


def told_request(request):
    words = f"request c{request.client} {request.number} round {request.round} {told_sets(request.sets)}"
    if request.body.kind == "mend":
        return f"{words} mend {request.body.target}"
    return f"{words} {operation_words(request.body)}"


def told_reply(reply):
    words = f"reply r{reply.replica} c{reply.client} {reply.number} round {reply.round} {told_verdict(reply.verdict)}"
    culled = "".join(f" {object_number}/r{replica}" for object_number, replica in reply.culled)
    shown = "".join(f" {sealed.history.object}/{told_sizes(sealed)}" for sealed in reply.shown)
    return f"{words} culled{culled} shown{shown}"


def told_frame(frame):
    if isinstance(frame, Request):
        return told_request(frame)
    if isinstance(frame, Reply):
        return told_reply(frame)
    words = f"r{frame.replica} {frame.object} at {told_stamp(frame.stamp)}"
    return f"fetch {words}" if isinstance(frame, Fetch) else f"fetched {words} {told_state(frame.state)}"
