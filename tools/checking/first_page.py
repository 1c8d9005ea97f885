"""The first page: that its tables list the files of specs/ upon which the clauses of the program rest, and no more."""
import re

from checking.definitions import BUILDS, NAME, WORD, imports_of, parts_of, path_of
from checking.texts import CRATE, FIRST_PAGE, section

CLAUSE = re.compile(r"\b(requires|ensures)\*?\s*([a-z_0-9]*)\s*\{")
TOP_CALL, ORDER_CALL = ("crates/qu_cli/src/top.rt", "qu"), ("crates/qu_safety/src/order.rt", "order_of")
# The headings of the page, each with the clauses whose definitions it lists: the file of a call, the call, and the
# clauses (none: all of them). What a heading lists, no later one does.
CLAIMS = [
    ("## What to read, in this order", [(*TOP_CALL, ["headline"]), (*ORDER_CALL, [])]),
    ("## What is read and written", [(*TOP_CALL, [])]),
]


class Definitions:
    """The definitions of a file by their names, those of constructors by their types', and what the file imports."""

    def __init__(self, text):
        self.of = {}
        for part in parts_of(text):
            if part.name:
                self.of[part.name] = part
            if "data" in part.words:
                for built in BUILDS.finditer(part.text):
                    self.of.setdefault(built.group(1), part)
        self.imports, self.modules = imports_of(text)


def used_in(text, definitions, path):
    """The definitions that a piece of a file speaks of, each as a path and a name."""
    for word in set(WORD.findall(text)):
        if word in definitions.of:
            yield path, definitions.of[word].name
        elif word in definitions.imports:
            module, name = definitions.imports[word]
            yield path_of(module), name
    for alias, module in definitions.modules.items():
        for found in re.finditer(rf"\b{alias}\.({NAME})", text):
            yield path_of(module), found.group(1)


def clauses_of(text, call, wanted):
    """The texts of the clauses of a function that have these names, or of all."""
    start = re.search(rf"\bfn {call}\b", text).start()
    end = text.find("\n}", start)
    for found in CLAUSE.finditer(text, start, end):
        if wanted and found.group(2) not in wanted:
            continue
        depth, at = 0, found.end() - 1
        while True:
            depth += {"{": 1, "}": -1}.get(text[at], 0)
            if depth == 0:
                break
            at += 1
        yield text[found.end():at]


def rested_upon(texts, claims, known):
    """The files of specs/ that these clauses rest upon, each with what leads there. What is taken apart is kept in
    `known`."""
    files, left, seen = {}, [], set()
    for path, call, wanted in claims:
        code = Definitions("")
        code.imports, code.modules = imports_of(texts[path])
        for clause in clauses_of(texts[path], call, wanted):
            left += [(each, f"`{call}`") for each in used_in(clause, code, path)]
    while left:
        (path, name), by = left.pop()
        # what rt declares of the types of code stands in no file
        if (path, name) in seen or path not in texts:
            continue
        seen.add((path, name))
        if path not in known:
            known[path] = Definitions(texts[path])
        files.setdefault(path, f"`{name}`, which {by} cites")
        if name in known[path].of:
            left += [(each, f"`{name}`") for each in used_in(known[path].of[name].text, known[path], path)]
        elif name in known[path].imports:
            module, inner = known[path].imports[name]
            left.append(((path_of(module), inner), f"`{name}`"))
    return files


def check_page(texts):
    earlier, known = set(), {}
    for heading, claims in CLAIMS:
        page, first = section(texts[FIRST_PAGE], heading)
        rows = {"crates/" + found.group(1): first + page.count("\n", 0, found.start()) for found in
                re.finditer(rf"(?m)^\| [0-9]+ \| `({CRATE}/specs/[A-Za-z]+\.antt)`", page)}
        files = {path: why for path, why in rested_upon(texts, claims, known).items() if path not in earlier}
        for path, why in sorted(files.items()):
            if path not in rows:
                yield FIRST_PAGE, first, f"does not list {path[len('crates/'):]}: it states {why}"
        for path, line in rows.items():
            if path not in files:
                yield FIRST_PAGE, line, f"lists {path[len('crates/'):]}, upon which none of these clauses rests"
        earlier |= set(files)
