"""How long files, crates and lines may be."""
import re

from checking.texts import PROMISES, crate_of, kind_of

FILE_LINES, CRATE_LINES, COLUMNS, ROW_COLUMNS = 500, 4000, 120, 200


def check_columns(path, text):
    """The lines of a document: rows of tables, and what is set off, may be longer."""
    for number, line in enumerate(text.splitlines(), 1):
        is_free = line.startswith(("|", "    ", "!["))
        most = (ROW_COLUMNS if path == PROMISES else len(line)) if is_free else COLUMNS
        if len(line) > most:
            yield path, number, f"{len(line)} columns, {most} at most"


def check_lengths(texts):
    crates = {}
    for path, text in texts.items():
        if path.endswith(".md"):
            yield from check_columns(path, text)
        if not path.endswith((".rt", ".antt")) and not path.startswith("tools/"):
            continue
        count = text.count("\n")
        if count > FILE_LINES:
            yield path, FILE_LINES + 1, f"{count} lines, {FILE_LINES} at most"
        if kind_of(path) in ("src", "specs", "proofs"):
            crates[crate_of(path)] = crates.get(crate_of(path), 0) + count
        if kind_of(path) in ("src", "specs") or path.startswith("tools/"):
            yield from check_code(path, text)
    for crate, count in sorted(crates.items()):
        if count > CRATE_LINES:
            yield f"crates/{crate}", 1, f"{count} lines of code, definitions and proofs, {CRATE_LINES} at most"


def check_code(path, text):
    """The lines of code and of definitions: imports and attributes may be longer."""
    for number, line in enumerate(text.splitlines(), 1):
        if len(line) > COLUMNS and not re.match(r"\s*(pub )?(ghost )?use |\s*#\[", line):
            yield path, number, f"{len(line)} columns, {COLUMNS} at most"
