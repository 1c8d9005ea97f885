"""The wrong bodies: that each edit can be applied, and how many there are of a crate and in all."""
from checking.texts import crate_of, kind_of

LEAST_OF_CRATE, MOST_OF_CRATE, MOST_OF_ALL = 3, 5, 66


def check_edits(texts):
    counts = {}
    for path, text in texts.items():
        if path.endswith(".edit"):
            yield from check_edit(path, text, texts)
            if path.split("/")[2] == "must-fail":
                counts[crate_of(path)] = counts.get(crate_of(path), 0) + 1
    for crate, count in sorted(counts.items()):
        if count > MOST_OF_CRATE:
            yield f"crates/{crate}/must-fail", 1, f"{count} edits, {MOST_OF_CRATE} at most"
        if count < LEAST_OF_CRATE:
            yield f"crates/{crate}/must-fail", 1, f"{count} edits, {LEAST_OF_CRATE} at least, or none"
    if sum(counts.values()) > MOST_OF_ALL:
        yield "crates", 1, f"{sum(counts.values())} edits in must-fail/, {MOST_OF_ALL} at most"


def check_edit(path, text, texts):
    """That each old text stands once in its file, as the places before it have made that."""
    made, target, old = dict(texts), None, None
    is_tried_by_the_gate = path.split("/")[2] == "must-fail"
    for number, line in enumerate(text.split("\n"), 1):
        word, _, rest = line.partition(":")
        if word == "file":
            target = f"crates/{crate_of(path)}/{rest.strip()}"
            if target not in made:
                yield path, number, f"{target} does not exist"
            elif is_tried_by_the_gate and kind_of(target) != "src":
                yield path, number, "an edit that the gate tries changes code alone"
        elif line.startswith("old: ") and target in made:
            old = line[len("old: "):]
            if made[target].count(old) != 1:
                yield path, number, f"the old text stands {made[target].count(old)} times in {target}"
        elif word == "new" and target in made and old is not None:
            made[target] = made[target].replace(old, rest[1:], 1)
