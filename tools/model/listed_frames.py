"""Frames in words, as qu-letters lists them."""
from model.report import answer_words
from model.told_frames import told_value
from model.values import (
    BARRIER, COPY, HISTORY_FULL, INLINE_BARRIER, INLINE_METHOD, NEEDED, NEEDS, NOT_CURRENT, NOT_METHOD, SOUND, SPENT,
    STALE, THIN, TIME_SPENT, UNKNOWN_OBJECT, Already, Done, Fetch, Mended, Reply, Request, Told)

REFUSAL_WORDS = {
    HISTORY_FULL: "history full", THIN: "thin", NEEDED: "needs", STALE: "stale", NOT_CURRENT: "not current",
    SPENT: "spent", TIME_SPENT: "time spent", UNKNOWN_OBJECT: "unknown object", SOUND: "sound"}
CLASS_WORDS = {INLINE_METHOD: "inline method", COPY: "copy", INLINE_BARRIER: "inline barrier", BARRIER: "barrier",
               NEEDS: "needs"}


def counted(number, word):
    """A number of things, by the word for one of them."""
    return f"{number} {word}{'' if number == 1 else 's'}"


def listed_party(party):
    return f"{'replica' if party.kind == 'r' else 'client'} {party.number}"


def listed_stamp(stamp):
    if stamp.time == 0:
        return "opening"
    return f"{'barrier' if stamp.barrier else 'time'} {stamp.time} of client {stamp.client}"


def listed_verdict(verdict):
    if isinstance(verdict, (Done, Told)):
        stamps = (f", object {object_number} at {listed_stamp(stamp)}" for object_number, stamp in verdict.stamps)
        name = "done" if isinstance(verdict, Done) else "told"
        return f"{name} {answer_words(verdict.answer)}{''.join(stamps)}"
    if isinstance(verdict, Already):
        return f"already {answer_words(verdict.answer)}"
    if isinstance(verdict, Mended):
        return f"mended {verdict.object} at {listed_stamp(verdict.stamp)}"
    if verdict.number == NOT_METHOD:
        return f"not of class METHOD {verdict.object} but {CLASS_WORDS[verdict.carried]}"
    words = f"{REFUSAL_WORDS[verdict.number]} {verdict.object}"
    if verdict.number == NOT_CURRENT:
        return f"{words} latest {listed_stamp(verdict.carried)}"
    return f"{words} at {verdict.carried}" if verdict.number == SPENT else words


def listed_request(request):
    asked = f"mend object {request.body.target}" if request.body.kind == "mend" else request.body.kind
    words = f"request {request.client}.{request.number} round {request.round}, {asked}"
    for part in request.sets:
        replicas = "".join(f" {entry.history.replica}" for entry in part.entries)
        words += f", object {part.object} shown by{replicas or ' none'}"
    return words


def listed_reply(reply):
    words = f"reply {reply.client}.{reply.number} round {reply.round}, {listed_verdict(reply.verdict)}"
    words += "".join(f", culled object {object_number} of replica {replica}" for object_number, replica in reply.culled)
    for sealed in reply.shown:
        words += f", shows object {sealed.history.object} with {counted(len(sealed.history.candidates), 'candidate')}"
    return words


def listed_frame(frame):
    if isinstance(frame, Request):
        return listed_request(frame)
    if isinstance(frame, Reply):
        return listed_reply(frame)
    version = f"object {frame.object} at {listed_stamp(frame.stamp)}"
    if isinstance(frame, Fetch):
        return f"fetch {version}"
    clients = counted(len(frame.state.kept), "client")
    return f"fetched {version}, {told_value(frame.state)}, {clients}, {counted(len(frame.state.links), 'link')}"
