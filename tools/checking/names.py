"""The names of definitions: that no two definitions of specs/ have one."""
from checking.definitions import parts_of
from checking.texts import kind_of

# Names that stand in specs/ twice, and why they have to.
TWICE = {}


def check_names(texts):
    homes = {}
    for path, text in texts.items():
        if path.endswith(".antt") and kind_of(path) == "specs":
            for part in parts_of(text):
                if part.name and part.words:
                    homes.setdefault(part.name, []).append((path, part.line))
    for name, places in sorted(homes.items()):
        if len(places) > 1 and name not in TWICE:
            path, line = places[-1]
            others = ", ".join(f"{other}:{at}" for other, at in places[:-1])
            yield path, line, f"`{name}` has a meaning already: {others}"
