"""Histories of invocations and completions, for checkers of other makers."""
import json

from picture.listing import read_listing

# Behind an operation that was given up, a client goes on as another process, since the operation may still take effect:
# each time its number is greater by this.
STEP = 64
# The first process of faulty clients, each of whose updates is one that may take effect at any time.
FAULTY = 100_000
# A greater number has an `N` behind it in EDN.
LAST_LONG = (1 << 63) - 1


# What is asked with bytes or a name first, and what is answered by bytes or entries: these stay words, and all else are
# numbers.
OF_BYTES, OF_NAMES, TOLD_WORDS = ("put", "append"), ("link", "unlink", "find"), ("cat", "list")


def parts_of(text):
    """The parts of an operation in words: what is asked, of which object, with what."""
    parts = []
    for part in text.split(" + "):
        method, known, *rest = part.split(" ")
        words = 1 if method in OF_NAMES or method in OF_BYTES else 0
        parts.append([method, int(known), *rest[:words], *map(int, rest[words:])])
    return parts


def answered(parts, answer):
    """The parts with the item that each was told behind it, and the refusal, if the answer is one."""
    if " at " in answer:
        words, _, place = answer.rpartition(" at ")
        return {"value": parts, "refused": [words, int(place)]}
    items = [item if part[0] in TOLD_WORDS else int(item)
             for part, item in zip(parts, answer.split(" + "), strict=True)]
    return {"value": [[*part, item] for part, item in zip(parts, items, strict=True)]}


def history_of(listing):
    """The entries of the history of a run, of which this is the listing; each is a dict. Raises Malformed."""
    run, entries, processes, asked = read_listing(listing), [], {}, {}
    for event in run.events:
        if event.kind == "call":
            client = event.party.number
            asked[event.operation] = parts_of(event.asked)
            add(entries, "invoke", event, processes.setdefault(client, client), event.operation,
                {"value": asked[event.operation]})
        if event.ends:
            client = int(event.ends.split(".")[0])
            parts, process = asked[event.ends], processes[client]
            if event.answer is None:
                add(entries, "info", event, process, event.ends, {"value": parts})
                processes[client] += STEP
            else:
                add(entries, "ok", event, process, event.ends, answered(parts, event.answer))
    return faulty_entries(run) + entries


def add(entries, kind, event, process, name, rest):
    entries.append({"type": kind, "process": process, "f": "txn", "operation": name, "event": event.number, **rest})


def faulty_entries(run):
    """The updates of faulty clients that took effect: invoked before all else, by a process each, and without an
    answer."""
    entries = []
    for process, point in enumerate((point for point in run.points if point.faulty), FAULTY):
        parts = parts_of(point.line.split(" faulty ")[1])
        for kind in ("invoke", "info"):
            entries.append({"type": kind, "process": process, "f": "txn", "operation": point.operation, "event": 0,
                            "value": parts})
    return entries


def json_lines(entries):
    return [json.dumps({"index": index, **entry}) for index, entry in enumerate(entries)]


def edn_of(value, is_word=False):
    """A value in EDN: words are strings, or keywords where they are of few."""
    if isinstance(value, str):
        return f":{value}" if is_word else json.dumps(value)
    if isinstance(value, list):
        return f"[{' '.join(edn_of(each, at == 0 and len(value) > 1) for at, each in enumerate(value))}]"
    return f"{value}N" if value > LAST_LONG else str(value)


def edn_lines(entries):
    lines = []
    for index, entry in enumerate(entries):
        fields = [f":index {index}", f":time {entry['event']}", f":type :{entry['type']}",
                  f":process {entry['process']}", ":f :txn", f":operation {json.dumps(entry['operation'])}",
                  ":value [" + " ".join(map(edn_of, entry["value"])) + "]"]
        if "refused" in entry:
            words, place = entry["refused"]
            fields.append(f":refused [:{words.replace(' ', '-')} {place}]")
        lines.append("{" + ", ".join(fields) + "}")
    return lines
