"""The crates: that crates.txt and the tables of the page on crates have the same ones below the same headings, each
heading with the same sentence, and that a crate imports what stands below it."""
import os
import re

from checking.texts import ARCHITECTURE, CRATE, CRATES, TOP, crate_of, joined, read_crates

MOST_CRATES = 72
# How code, definitions and proofs name another crate.
IMPORTED = re.compile(r"\bRattle\.([a-z_0-9]+)\.|\b([a-z_0-9]+)::|\buse ([a-z_0-9]+)\b")
# A heading of crates.txt: `# Base: names of parties, ..`
HEADING = re.compile(r"# ([A-Z][^:]*): (.+)")


class Room:
    """A heading, with its line, the lines of its sentence, and its crates, each of these with its line."""

    def __init__(self, name, line, *said):
        self.name, self.line, self.said, self.crates = name, line, list(said), {}

    def sentence(self):
        """What it says, as behind a colon: the page begins a sentence and ends it, and crates.txt need not."""
        said = joined(" ".join(self.said)).rstrip(".")
        return said[:1].lower() + said[1:]


def rooms_listed(text):
    """The rooms of crates.txt; the first one has no name, and what stands above all headings."""
    rooms = [Room("", 1)]
    for number, line in enumerate(text.splitlines(), 1):
        heading = HEADING.fullmatch(line.strip())
        if heading:
            rooms.append(Room(heading.group(1), number, heading.group(2)))
        elif line.split("#")[0].strip():
            rooms[-1].crates[line.split(":")[0].split()[0]] = number
    return rooms


def rooms_told(text):
    """The rooms of the page: the headings below which a table of crates stands, behind a paragraph."""
    rooms, is_said = [Room("", 1)], False
    for number, line in enumerate(text.splitlines(), 1):
        if line.startswith("## "):
            rooms.append(Room(line[len("## "):], number))
            is_said = False
        elif re.match(rf"\| `{CRATE}`", line):
            rooms[-1].crates.update((name, number) for name in re.findall(rf"`({CRATE})`", line.split("|")[1]))
        elif not line or line.startswith("|"):
            is_said = bool(rooms[-1].said)
        elif not is_said:
            rooms[-1].said.append(line)
    return [room for room in rooms if room.crates]


def check_rooms(texts):
    listed, told = rooms_listed(texts[CRATES]), rooms_told(texts[ARCHITECTURE])
    for doc, rooms in ((CRATES, listed), (ARCHITECTURE, told)):
        for room in rooms:
            if room.crates and not room.name:
                yield doc, room.line, f"has crates below no heading: {', '.join(room.crates)}"
    of = {room.name: room for room in told if room.name}
    names = [room.name for room in listed if room.name]
    if names != list(of):
        yield ARCHITECTURE, 1, f"has the headings {', '.join(of)}, and {CRATES} has {', '.join(names)}"
    for room in listed:
        if room.name in of:
            yield from differences(room, of[room.name])


def differences(listed, told):
    """What a room of crates.txt and that of the page do not have alike."""
    if listed.sentence() != told.sentence():
        yield ARCHITECTURE, told.line, f"says of {told.name} other words than {CRATES}: {listed.sentence()}"
    for name, line in listed.crates.items():
        if name not in told.crates:
            yield CRATES, line, f"lists {name}, which the table below {told.name} in {ARCHITECTURE} lacks"
    for name, line in told.crates.items():
        if name not in listed.crates:
            yield ARCHITECTURE, line, f"tells of {name}, which {CRATES} does not list below {listed.name}"


def check_crates(texts):
    crates = read_crates(texts)
    if len(crates) > MOST_CRATES:
        yield CRATES, 1, f"{len(crates)} crates, {MOST_CRATES} at most"
    imported = {}
    for path, text in texts.items():
        if crate_of(path) and path.endswith((".rt", ".antt")):
            imported.setdefault(crate_of(path), set()).update(
                name for found in IMPORTED.finditer(text) for name in found.groups())
    for name, (line, below) in crates.items():
        if not os.path.isdir(os.path.join(TOP, "crates", name)):
            yield CRATES, line, f"lists {name}, and there is no crates/{name}"
        for other in below:
            if other not in imported.get(name, ()):
                yield CRATES, line, f"{name} does not import {other}"
    for name in sorted(set(imported) - set(crates)):
        yield CRATES, 1, f"does not list crates/{name}"
