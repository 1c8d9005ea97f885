"""What each event did, in a few words, and the mark that stands for it."""
import re

# The marks, each with what it says, in the order of the legend.
MARKS = {
    "call": "an operation begins",
    "end": "it ends",
    "tick": "a tick of a client's clock",
    "step": "a client takes a letter",
    "rests": "a client begins to rest",
    "done": "done: an act is performed, or was",
    "told": "told or already: nothing is added",
    "refused": "a replica refuses",
    "barrier": "mended: a barrier is added",
    "copy": "mended: a copy, or what was found, is added",
    "waits": "a request waits, and fetches",
    "sent": "a version is sent",
    "counted": "a version that was fetched counts",
    "silent": "no answer",
    "ignored": "ignored: nothing changes",
}
VERDICT_MARKS = {"done": "done", "told": "told", "already": "told"}
# A word of 40 characters or more, of which the first 32 are shown, and the marks behind it.
LONG_WORD = re.compile(r"([^ ]{32})[^ ]{7,}[^ ;,:]([;,:]*)(?= |$)")


def mark_of(event, run):
    """The name of the mark of an event."""
    if event.kind == "call":
        return "call"
    if event.ignored:
        return "ignored"
    if event.party.kind == "client":
        return mark_of_client(event)
    reply = reply_sent(event, run)
    if not reply:
        return mark_without_reply(event)
    if reply.verdict.startswith("mended "):
        return "barrier" if reply.stamp.startswith("barrier ") else "copy"
    return VERDICT_MARKS.get(reply.verdict.split()[0], "refused")


def mark_of_client(event):
    """The name of the mark of an event at a client."""
    if event.ends:
        return "end"
    if event.over and event.rests:
        return "rests"
    return "tick" if event.kind == "tick" else "step"


def mark_without_reply(event):
    """The name of the mark of an event at which a replica sends no reply."""
    if event.waits:
        return "waits"
    if event.counted:
        return "ignored" if event.counted.startswith("not ") else "counted"
    return "sent" if event.sends else "silent"


def reply_sent(event, run):
    """The reply that an event sends, or None."""
    frames = (run.letter(number).frame for number in event.sends)
    return next((frame for frame in frames if frame.kind == "reply"), None)


def words_of(event, run):
    """What an event did, beside its party: what came, what was told or ended, and the letters that it sends."""
    parts = [came(event, run)]
    made = made_words(event, run)
    if made:
        parts[0] += ": " + made
    elif event.party.kind == "replica" and not event.ignored and not event.sends:
        parts[0] += ": no answer"
    parts += [words for words in (over(event), event.rests) if words]
    if event.ends:
        answer = "given up" if event.answer is None else f"with {event.answer}"
        parts.append(f"ends {event.ends} {answer}")
    if event.sends:
        parts.append(sent(event, run))
    return shortened("; ".join(parts))


def shortened(words):
    """Words of which long ones, as the bytes of a blob or the entries of a directory, are cut."""
    return LONG_WORD.sub(r"\1..\2", words)


def over(event):
    """Which round is over, unless its answer ends the operation, and the replicas whose entries are left out."""
    if not event.over or event.answer is not None:
        return ""
    return event.over + "".join(f", without r{replica}" for replica in event.without)


def made_words(event, run):
    """What a replica made of what came: whether it counts, whether a request waits, and what is told."""
    reply = reply_sent(event, run)
    made = [event.counted, "waits" if event.waits else "", told(reply) if reply else ""]
    return ", ".join(words for words in made if words)


def came(event, run):
    if event.kind == "call":
        return f"call {event.operation} {event.asked}"
    if event.kind == "tick":
        return "tick"
    if event.kind == "inject":
        head = f"{event.size} injected" + (f" as {event.claimed.short}" if event.claimed else "")
    else:
        head = f"letter {event.letter} of {run.letter(event.letter).sender.short}{' again' if event.again else ''}"
    if event.ignored:
        return f"{head}, ignored"
    return f"{head}, {frame_words(event.frame)}"


def frame_words(frame):
    if frame.kind == "request":
        return f"{frame.body.replace(' object', '')} {frame.operation} round {frame.round}"
    if frame.kind == "reply":
        return f"{frame.operation} round {frame.round}: {told(frame)}"
    return short_parties(version_words(frame.text))


def version_words(text):
    """A fetch, or what was fetched: which version, and its value."""
    return re.sub(r", \d+ clients?, \d+ links?$", "", text.replace(" object ", " "))


def told(reply):
    """A verdict without the object of its stamp, and the replicas whose entries were left out."""
    words = short_parties(reply.verdict.replace(", object 0 at ", " at "))
    return words + "".join(f", culls r{replica}" for replica in reply.culled)


def sent(event, run):
    first, last = event.sends[0], event.sends[-1]
    numbers = f"{first}" if first == last else f"{first} to {last}"
    frame = run.letter(first).frame
    if not event.asks:
        return f"sends {numbers}"
    return f"round {frame.round} asks {event.asks} by {numbers}"


def short_parties(words):
    return re.sub(r"\b(client|replica) (\d+)", lambda found: found.group(1)[0] + found.group(2), words)
