"""The limits: that the table of them has the constants whose numbers are clauses, each with its crate and its number,
and no others; and that pages tell the same numbers."""
import re

from checking.texts import CRATE, PROTOCOL, README, crate_of, joined, line_at, section

ROW = re.compile(rf"(?m)^\| [^|]+ \| ([^|]+) \| `([A-Z_]+)` \(`({CRATE})`\) \|$")
CLAUSE = re.compile(r"\b([A-Z][A-Z_]+) ≡ ([^}]*?) *\}")
# What pages tell of limits in their sentences and in other tables: what stands around the number of each.
TOLD = [
    (README, "MOST_FAULTS", "B replicas may lie, from 1 to {}:"),
    (README, "LAST_CLIENT", "clients 1 to K, at most {} "),
    (README, "LAST_CLIENT", "client (0, or above {})"),
    (README, "OBJECT_IDS", "One to {} such lines, for objects 0"),
    (README, "MOST_PARTS", "An operation is on {} objects at most"),
    (README, "MOST_TICKS", "or N of them, from 1 to {} "),
    (README, "CONTENT_LIMIT", "there would be more than {} bytes"),
    (README, "CONTENT_LIMIT", "a part of an OP takes {} bytes at most"),
    (README, "CONTENT_LIMIT", "a part of an OP has more than {} bytes"),
    (README, "ENTRIES_LIMIT", "there are {} entries"),
    (README, "NAME_LIMIT", "NAME is for 1 to {} bytes"),
    (README, "NAME_LIMIT", "a NAME more than {},"),
    (README, "LAST_TIME", "one of the greatest time, {} "),
    (README, "LAST_ROUND", "for at most {} rounds"),
    (README, "SCRIPT_LIMIT", "the script has more than {};"),
    (README, "MOST_CALLS", "at most {} of them, on threads"),
    (README, "MOST_CALLS", "more than {} calls"),
    (README, "EVENT_LIMIT", "a run has {} at most"),
    (README, "BYTE_LIMIT", "the letters sent so far have {} bytes or more"),
    (README, "PIECE", "each read asks for {} bytes"),
    (PROTOCOL, "MOST_PARTS", "An operation has one to {} parts"),
    (PROTOCOL, "OBJECT_IDS", "parts, on objects below {} that rise"),
    (PROTOCOL, "CONTENT_LIMIT", "more than {} bytes |"),
    (PROTOCOL, "CONTENT_LIMIT", "BYTES are {} at most"),
    (PROTOCOL, "CONTENT_LIMIT", "in a method, an item or a state: a count u16 (0 to {})"),
    (PROTOCOL, "ENTRIES_LIMIT", "there are {} entries"),
    (PROTOCOL, "ENTRIES_LIMIT", "**Entries**: a count u16 (0 to {})"),
    (PROTOCOL, "NAME_LIMIT", "the name has no byte or more than {},"),
    (PROTOCOL, "NAME_LIMIT", "it has {} bytes at most"),
    (PROTOCOL, "LAST_TIME", "Times go up to {}."),
    (PROTOCOL, "LAST_TIME", "has a time after {} |"),
    (PROTOCOL, "LAST_TIME", "the latest time is {} |"),
    (PROTOCOL, "LAST_TIME", "| time | u64 | 0 to {} |"),
    (PROTOCOL, "HISTORY_LIMIT", "It holds up to {} candidates"),
    (PROTOCOL, "HISTORY_LIMIT", "history holds {} candidates"),
    (PROTOCOL, "HISTORY_LIMIT", "| count | u16 | 1 to {} |"),
    (PROTOCOL, "OBJECTS_LIMIT", "while fewer than {} are named"),
    (PROTOCOL, "LAST_ROUND", "After round {} the operation"),
    (PROTOCOL, "LAST_ROUND", "round u8 (1 to {})"),
    (PROTOCOL, "CULLED_LIMIT", "count u8 (0 to {}) and so many culled pairs"),
    (PROTOCOL, "TEXT_LIMIT", "**Frame.** At most {} bytes"),
    (PROTOCOL, "MOST_DOUBLINGS", "2^min(round, {})"),
    (PROTOCOL, "EVENT_LIMIT", "ends after {} events"),
    (PROTOCOL, "BYTE_LIMIT", "once its letters have {} bytes or more"),
    (PROTOCOL, "LAST_CLIENT", "`clients K` (1 to {})"),
    (PROTOCOL, "OBJECT_IDS", "one to {} lines `object I KIND`"),
    (PROTOCOL, "MOST_TICKS", "`tick C N` (N from 1 to {})"),
    (PROTOCOL, "SCRIPT_LIMIT", "A text of more than {} ("),
]
IN_WORDS = {"two": 2, "three": 3, "four": 4, "eight": 8}


def number_of(words):
    """The number that a clause or a page tells, or none: 2 ^ 63 - 1, 2^24, 20,000, 16 MiB or four."""
    if words in IN_WORDS:
        return IN_WORDS[words]
    found = re.fullmatch(r"([0-9,]+)(?: ?\^ ?([0-9]+))?(?: - ([0-9]+))?( MiB)?", words.strip())
    if not found:
        return None
    number = int(found.group(1).replace(",", "")) ** int(found.group(2) or 1) - int(found.group(3) or 0)
    return number * 2 ** 20 if found.group(4) else number


def limits_in(texts):
    """The constants whose numbers are clauses, each with its crate and its number."""
    known = {}
    for path, text in texts.items():
        found = re.search(r"(?ms)^pub fn limits_are_these\(\)(.*?)^\{", text) if path.endswith(".rt") else None
        for clause in CLAUSE.finditer(found.group(1) if found else ""):
            known[clause.group(1)] = (crate_of(path), number_of(clause.group(2)))
    return known


def check_limits(texts):
    table, first = section(texts[PROTOCOL], "## Limits")
    known, told = limits_in(texts), {}
    for row in ROW.finditer(table):
        number, name, crate = row.groups()
        told[name] = first + line_at(table, row.start()) - 1
        if name not in known or known[name][0] != crate:
            yield (PROTOCOL, told[name],
                   f"the table of limits has {name}, of which {crate} has no clause in limits_are_these")
        elif number_of(number) != known[name][1]:
            yield PROTOCOL, told[name], f"the table of limits has {number} for {name}, which is {known[name][1]}"
    for name, (crate, _) in sorted(known.items()):
        if name not in told:
            yield PROTOCOL, first, f"the table of limits lacks {name} of {crate}"


def check_told(texts):
    """That each sentence of `TOLD` stands in its page, with the number of its limit."""
    known = {name: number for name, (_, number) in limits_in(texts).items()}
    for doc, name, words in TOLD:
        before, after = map(re.escape, words.split("{}"))
        told = re.findall(before + r"([0-9,^]+(?: MiB)?|[a-z]+)" + after, joined(texts[doc]))
        if not told:
            yield doc, 1, f"does not tell {name}, as \"{words}\""
        for number in told:
            if number_of(number) != known.get(name):
                yield doc, 1, f"tells {number} of {name}, which is {known.get(name)}"
