"""The page on the central proof: that each name in it is one of a definition, a lemma, a field, a call, a clause or a
crate."""
import re

from checking.definitions import NAME, parts_of
from checking.promises import clauses_by_call
from checking.texts import PROOF, kind_of, line_at, read_crates

# A field of a record or a constructor of a data type.
FIELD = re.compile(rf"(?m)^ +(?:pub )?({NAME}) :")


def names_in(texts):
    """All names that the page may cite."""
    names = set(read_crates(texts))
    for path, text in texts.items():
        if path.endswith(".antt") and kind_of(path) in ("specs", "proofs"):
            for part in parts_of(text):
                names.add(part.name)
                if part.words & {"record", "data"}:
                    names.update(FIELD.findall(part.text))
    for calls in clauses_by_call(texts).values():
        names.update(calls, *calls.values())
    return names


def check_proof_page(texts):
    known = names_in(texts)
    page = texts[PROOF]
    # the names of stored cases stand behind the word for them
    for found in re.finditer(r"(?<!case )`([A-Za-z_][A-Za-z_0-9'-]*)`", page):
        if found.group(1) not in known:
            yield PROOF, line_at(page, found.start()), f"names `{found.group(1)}`, which nothing has"
