"""The files of the repository, and the parts of their paths and of pages."""
import os
import re

TOP = os.path.dirname(os.path.dirname(os.path.dirname(os.path.realpath(__file__))))
CRATES = "crates.txt"
README = "README.md"
ARCHITECTURE = "docs/architecture.md"
FIRST_PAGE = "docs/first-page.md"
PROMISES = "docs/promises.md"
PROOF = "docs/central-proof.md"
PROTOCOL = "docs/protocol.md"
TESTING = "docs/testing.md"
CASES = "crates/qu_cases/"
EXAMPLES = CASES + "data/"

# The endings of the files that are read; those of tools/ have none, or that of Python.
READ = (".rt", ".antt", ".edit", ".md", ".txt")
# The names of crates in documents.
CRATE = r"(?:qu|kind)[a-z_]*"


def walk(*folders):
    """The files below these folders, but for what rt made."""
    for folder in folders:
        for at, below, files in os.walk(os.path.join(TOP, folder)):
            below[:] = sorted(name for name in below if name != "out")
            for name in sorted(files):
                yield os.path.relpath(os.path.join(at, name), TOP)


def read_all():
    """The texts of the repository by their paths."""
    texts = {}
    for path in [*walk("crates", "docs", "tools"), README, CRATES]:
        if path.endswith(READ) or path.startswith("tools/") or path in (CASES + "stdin", CASES + "stdout"):
            with open(os.path.join(TOP, path), encoding="utf-8") as file:
                texts[path] = file.read()
    return texts


def crate_of(path):
    parts = path.split("/")
    return parts[1] if parts[0] == "crates" and len(parts) > 2 else ""


def kind_of(path):
    """src, specs or proofs, for a file of a crate."""
    parts = path.split("/")
    return parts[2] if crate_of(path) and len(parts) > 3 else ""


def line_at(text, at):
    return text.count("\n", 0, at) + 1


def joined(text):
    """A text on one line, with one space between two words."""
    return " ".join(text.split())


def section(text, heading):
    """The text below a heading, up to the next one, and the number of the heading's line."""
    begin = text.find(heading + "\n")
    end = text.find("\n## ", begin + 3)
    return (text[begin:end if end >= 0 else len(text)], line_at(text, begin)) if begin >= 0 else ("", 1)


def read_crates(texts):
    """Each crate of crates.txt with its line and the crates that it stands on."""
    crates = {}
    for number, line in enumerate(texts[CRATES].splitlines(), 1):
        name, _, below = line.split("#")[0].partition(":")
        if name.split():
            crates[name.split()[0]] = (number, below.split())
    return crates
