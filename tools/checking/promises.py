"""The table of promises: that each call in it, and each clause beside it, stands in the crate of its heading."""
import re

from checking.definitions import NAME, WORD, parts_of
from checking.first_page import CLAUSE
from checking.texts import CRATE, PROMISES, crate_of, kind_of

FUNCTION = re.compile(r"(?m)^[ \t]*(?:pub(?:\([a-z]+\))? )?(?:const )?fn ([a-z_0-9]+)")


def parts_of_records(texts):
    """The names of the parts of each record of specs/."""
    return {part.name: set(re.findall(rf"(?m)^ +pub ({NAME}) :", part.text))
            for path, text in texts.items() if path.endswith(".antt") and kind_of(path) == "specs"
            for part in parts_of(text) if part.name and "record" in part.words}


def clauses_by_call(texts):
    """For each crate the names of its functions, each with the names of its clauses, and of the parts of a record that
    is a clause."""
    found, records = {}, parts_of_records(texts)
    for path, text in texts.items():
        if not path.endswith(".rt") or kind_of(path) != "src":
            continue
        heads = list(FUNCTION.finditer(text))
        for head, after in zip(heads, heads[1:] + [None]):
            body = text[head.end():after.start() if after else len(text)]
            names = found.setdefault(crate_of(path), {}).setdefault(head.group(1), set())
            for clause in CLAUSE.finditer(body):
                names |= {clause.group(2)} | records.get(WORD.search(body, clause.end()).group(), set())
    return found


def check_promises(texts):
    known, crates = clauses_by_call(texts), []
    for number, line in enumerate(texts[PROMISES].splitlines(), 1):
        if line.startswith("#"):
            crates = re.findall(rf"`({CRATE})`", line)
        cells = line.split(" | ")
        if not crates or len(cells) != 3 or cells[0] == "| call":
            continue
        calls = [name.split("::")[-1] for name in re.findall(r"`([A-Za-z_0-9:]+)`", cells[0])]
        clauses = set()
        for call in calls:
            homes = [known[crate][call] for crate in crates if call in known.get(crate, {})]
            if not homes:
                yield PROMISES, number, f"names the call {call}, which {', '.join(crates)} does not have"
            clauses.update(*homes)
        for clause in re.findall(r"`([a-z_0-9]+)`", cells[1]):
            if clause not in clauses:
                yield PROMISES, number, f"names the clause {clause}, which {', '.join(calls)} does not have"
