"""The documents: that each file or folder that one of them names exists."""
import os
import re

from checking.texts import CRATE, README, TOP, line_at, read_crates, walk

# Paths that stand for many, and folders that a run makes.
PATTERNS = re.compile(r"NAME|PATH|/F/|/T/|SCRIPT|FOLDER|TOPIC|\.\.\.|^out/|/out/|^/")
# What stands between two names of one list: "`qu_x`, `specs/A` and `specs/B`".
BETWEEN = re.compile(r"`(?:,| and|, and)?\s+$")
FOLDERS = ("crates", "docs", "tools", "examples", "src", "specs", "proofs", "must-fail", "wrong", "data", ".", "..",
           ".ci")


def paths_in(text):
    """What a document names in backquotes or links to, as far as it has the form of a path: its place, the path,
    whether it is a link, and the crate in whose list it stands, if there is one."""
    crate, last = None, 0
    for found in re.finditer(r"`([^`\n]+)`", text):
        words = found.group(1).split()
        if not BETWEEN.search(text[last - 1:found.start()] if last else ""):
            crate = None
        last = found.end()
        named = re.match(rf"({CRATE})(?:/|$)", found.group(1))
        crate = named.group(1) if named else crate
        of = re.match(rf" of\s+`({CRATE})`", text[found.end():])
        for word in words:
            is_path = re.fullmatch(r"[A-Za-z_0-9.\-/]+", word) and (
                "/" in word.rstrip("/") or word.endswith((".rt", ".antt", ".md")))
            if is_path and not (len(words) > 1 and word.startswith("..")):
                yield found.start(), word, False, of.group(1) if of else crate
    for found in re.finditer(r"\]\(([^)#\s]+)(?:#[^)]*)?\)", text):
        if not re.match(r"[a-z]+:", found.group(1)):
            yield found.start(), found.group(1), True, None


class Places:
    """What documents may name: all files and folders, by their full paths and by what crates have below them."""

    def __init__(self, crates):
        self.crates = crates
        self.all = set()
        for path in walk("crates"):
            parts = path.split("/")
            self.all |= {"/".join(parts[:size]) for size in range(1, len(parts) + 1)}

    def has(self, path, doc, is_link):
        """Whether a path exists from the folder of a document, or from the top."""
        # examples/ at the top is the folder of data of qu_cases
        starts = {os.path.dirname(doc), os.path.dirname(doc).replace("crates/qu_cases/data", "examples")}
        return any(os.path.lexists(os.path.join(TOP, os.path.normpath(os.path.join(start, path))))
                   for start in starts | (set() if is_link else {"", "crates"}))

    def with_it(self, path):
        """The crates that have this file or folder, or this file of definitions or lemmas without its ending."""
        path = os.path.normpath(path)
        if "/" not in path:
            return {each.split("/")[1] for each in self.all if each.endswith("/" + path)}
        first, _, rest = path.partition("/")
        if first in self.crates:
            return {first} if any(f"crates/{path}{end}" in self.all for end in ("", ".antt", ".rt")) else set()
        return {crate for crate in self.crates for end in ("", ".antt", ".rt")
                if f"crates/{crate}/{path}{end}" in self.all}


def is_path(word, crates):
    """Whether a word with a slash is a path, and no two words of which either may be said."""
    first = word.split("/")[0]
    return first in crates or first in FOLDERS or word.endswith((".rt", ".antt", ".md", ".edit", ".txt"))


def check_documents(texts):
    crates = read_crates(texts)
    places = Places(crates)
    for doc, text in sorted(texts.items()):
        if doc != README and not re.match(r"docs/[^/]*\.md$|crates/qu_cases/data/.*\.md$", doc):
            continue
        for at, path, is_link, crate in paths_in(text):
            if PATTERNS.search(path) or not (is_link or is_path(path, crates)) or places.has(path, doc, is_link):
                continue
            found = set() if is_link else places.with_it(path)
            if not found:
                yield doc, line_at(text, at), f"names {path}, which does not exist"
            elif crate in crates and crate not in found:
                yield doc, line_at(text, at), f"names {path} of {crate}, and {', '.join(sorted(found))} has it"
