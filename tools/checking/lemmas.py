"""The lemmas: that something rests upon each, that a statement stands in one file, and that above qu_base none opens
the sizes of quorums."""
import re

from checking.definitions import BUILDS, NAME, WORD, imports_of, parts_of, path_of
from checking.texts import crate_of, kind_of, line_at

SIZES = ("replicas", "quorum", "repair", "is_replica_count")
# Lemmas that are meant as examples: their files, their names, and what each shows.
EXAMPLES = {
    ("crates/qu_chain/proofs/ExampleRun.antt", "laws_met"): "the laws of single objects can be met",
    ("crates/qu_chain/proofs/ExampleRun.antt", "joint_met"): "the laws of several objects can be met, by the same run",
    ("crates/qu_chain/proofs/ExampleRun.antt", "decides"): "in that run something is decided",
}
# A statement that is shorter may stand in several files.
STATEMENT = 60

# A name of a lemma in code: `using(qu_base::proofs::Lists::list_laws)`.
CITED = re.compile(rf"\b([a-z_0-9]+)::proofs((?:::{NAME})+)")
BINDER = re.compile(r"[({]((?:[^\s(){}:]+ )+): ")


def is_of_lemmas(path):
    """Whether a file has lemmas, and neither answers to the goals of a function nor names of modules."""
    parts = path.split("/")
    return kind_of(path) == "proofs" and parts[3][0].isupper() and parts[-1] != "Lib.antt"


class Lemmas:
    """The parts of the files of lemmas by their names, and of each part what it cites."""

    def __init__(self, texts):
        self.parts, self.homes, self.imports, self.aliases = {}, {}, {}, {}
        for path, text in texts.items():
            if not is_of_lemmas(path):
                continue
            parts = parts_of(text)
            self.parts.update({(path, part.name): part for part in parts if part.name})
            self.homes[path] = homes_in(parts)
            self.imports[path], self.aliases[path] = imports_of(text)

    def cited_in(self, path, part):
        """The lemmas that a part cites, each with the path of its file."""
        text = " ".join((part.text, *part.around))
        words = set(WORD.findall(text))
        for word in words & self.homes[path].keys():
            yield path, self.homes[path][word]
        for word in words & self.imports[path].keys():
            yield self.home(*self.imports[path][word])
        for each in named_under(self.aliases[path], text):
            yield self.home(*each)

    def home(self, module, name):
        """The lemma that has this name in a module: a constructor stands for its type."""
        path = path_of(module)
        return path, self.homes.get(path, {}).get(name, name)


def named_under(aliases, text):
    """What a text names of the modules that it imports under a name, each as a module and a name there."""
    for alias, module in aliases.items():
        if is_of_lemmas(path_of(module)):
            for found in re.finditer(rf"(?<![^\s(){{}}\[\];,]){re.escape(alias)}\.({NAME})", text):
                yield module, found.group(1)


def homes_in(parts):
    """The names of a file, each with the name of its part: that of a constructor is its type's."""
    homes = {part.name: part.name for part in parts if part.name}
    for part in parts:
        if "data" in part.words:
            for built in BUILDS.finditer(part.text):
                homes.setdefault(built.group(1), part.name)
    return homes


def cited_outside(texts):
    """What contracts, definitions and answers to goals cite, each as a module and a name there."""
    for path, text in texts.items():
        if not path.endswith((".rt", ".antt")) or is_of_lemmas(path):
            continue
        if ".proofs." in text:
            names, aliases = imports_of(text)
            yield from names.values()
            yield from named_under(aliases, text)
        for found in CITED.finditer(text) if "::proofs::" in text else ():
            crate = crate_of(path) if found.group(1) == "crate" else found.group(1)
            *modules, name = found.group(2).split("::")[1:]
            yield ".".join([crate, "proofs", *modules]), name


def check_cited(texts):
    """That contracts, answers to goals or examples rest upon each lemma, by itself or by others."""
    lemmas = Lemmas(texts)
    left, reached = [*EXAMPLES, *(lemmas.home(*each) for each in cited_outside(texts))], set()
    # an operator is written without the marks of its places
    left += [each for each in lemmas.parts if "◌" in each[1]]
    while left:
        each = left.pop()
        if each in lemmas.parts and each not in reached:
            reached.add(each)
            left += lemmas.cited_in(each[0], lemmas.parts[each])
    for (path, name), part in lemmas.parts.items():
        if (path, name) not in reached:
            yield path, part.line, f"nothing rests upon `{name}`"
    for path, name in EXAMPLES:
        if (path, name) not in lemmas.parts:
            yield path, 1, f"has no lemma `{name}`, which is listed as an example"


def meaning(said, part, parts, path):
    """What a lemma with this statement says: the words, and what those are that they do not say themselves."""
    bound = {name for found in BINDER.finditer(said) for name in found.group(1).split()}
    of = {}
    for module in part.around:
        of.update(parameters(module))
    # what a file defines within a module is made of its parameters, and means something in this file alone
    of.update({other.name: path for other in parts if other.name and other.around})
    return said, frozenset((word, of[word]) for word in set(WORD.findall(said)) - bound if word in of)


def parameters(module):
    """The parameters of a module by its first lines, each with its type."""
    of, depth, start = {}, 0, 0
    for at, letter in enumerate(module):
        if letter in "({":
            depth, start = depth + 1, start if depth else at + 1
        elif letter in ")}":
            depth -= 1
            names, _, kind = module[start:at].partition(" : ")
            if not depth and kind:
                of.update({name: " ".join(kind.split()) for name in names.split()})
    return of


def check_stated(texts):
    """That no two files have a lemma with the same statement, word for word."""
    homes = {}
    for path, text in texts.items():
        # the files of invariants state what loops keep, and have no lemmas
        if kind_of(path) != "proofs" or not path.endswith(".antt") or path.endswith("/Invariants.antt"):
            continue
        parts = parts_of(text)
        for part in parts:
            said = part.statement() if part.is_lemma() else ""
            if len(said) >= STATEMENT and not said.endswith("Type 0"):
                homes.setdefault(meaning(said, part, parts, path), []).append((path, part))
    for places in homes.values():
        for path, part in places:
            others = ", ".join(f"{other}:{it.line} `{it.name}`" for other, it in places if other != path)
            if others:
                yield path, part.line, f"`{part.name}` states what stands elsewhere too: {others}"


def check_sizes(texts):
    """That above qu_base no proof opens the sizes of quorums."""
    opens = re.compile(r"(?m)^[ \t]*unfolding ([^\n]*)|\bunfolding\(([^)]*)\)")
    for path, text in texts.items():
        if not path.endswith((".rt", ".antt")) or crate_of(path) == "qu_base" or "unfolding" not in text:
            continue
        for found in opens.finditer(text):
            words = re.split(r"[\s,:]+", found.group(1) or found.group(2) or "")
            for size in SIZES:
                if size in words:
                    yield (path, line_at(text, found.start()),
                           f"opens `{size}`: above qu_base, proofs use the four facts about sizes alone")
