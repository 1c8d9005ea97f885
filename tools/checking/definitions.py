"""A file of definitions or lemmas, taken apart: what it imports, and its parts, each with its name."""
import re
from dataclasses import dataclass
from functools import lru_cache

from checking.texts import line_at

# A name of the logic: any characters but those that part words.
NAME = r"[^\s(){}\[\];,.:]+"
WORD = re.compile(r"[^\s(){}\[\];,.]+")
IMPORT = re.compile(rf"(?m)^[ \t]*(?:pub )?(?:ghost )?use Rattle\.([^\s{{}};]+?)"
                    rf"(?:\.\{{([^}}]*)\}}| as ({NAME}));?[ \t]*$")
USE = re.compile(r"(?m)^[ \t]*(?:pub )?(?:ghost )?use .*$")
COMMENT = re.compile(r"(?m)(^|\s)--\s.*$")
# The line with which a part begins: a module, a type or a list of rules, or a name with what it is.
HEAD = re.compile(rf"(?m)^( *)(?:(module) |((?:(?:abbrev|pub|unfoldable) )*)"
                  rf"(?:(record|data|ruleset) ({NAME})|({NAME}) :(?= |$)))")
# A constructor of a data type.
BUILDS = re.compile(rf"(?m)^ +({NAME}) :")


@dataclass
class Part:
    """A definition or a lemma with its body; the beginning of a module; or what stands before the first of them."""
    line: int
    text: str
    indent: int = 0
    name: str = ""
    # abbrev, unfoldable and pub; and record, data, ruleset or module
    words: frozenset = frozenset()
    # the beginnings of the modules around it, with their parameters
    around: tuple = ()

    def is_lemma(self):
        """Whether it has a statement and a proof, as far as its first line tells."""
        return bool(self.name) and not self.words & {"abbrev", "unfoldable", "record", "data", "ruleset"}

    def statement(self):
        """What stands behind its name and above its clauses, on one line."""
        lines = self.text.split("\n")
        said = [lines[0].partition(" :")[2]]
        for line in lines[1:]:
            if not line.startswith(" " * (self.indent + 1)):
                break
            said.append(line)
        return " ".join(" ".join(said).split())


@lru_cache(maxsize=None)
def parts_of(text):
    """The parts of a file in their order, without comments and imports."""
    # each comment and import leaves its empty line, so that lines keep their numbers
    text = COMMENT.sub(r"\1", USE.sub("", text))
    heads = list(heads_of(text))
    starts = [head.start() for head, _ in heads] + [len(text)]
    parts, around = [Part(1, text[:starts[0]])], []
    for (head, indent), after in zip(heads, starts[1:]):
        around = [module for module in around if module.indent < indent]
        words = frozenset((head.group(3) or "").split() + [head.group(2) or head.group(4) or ""]) - {""}
        parts.append(Part(line_at(text, head.start()), text[head.start():after], indent,
                          head.group(5) or head.group(6) or "", words, tuple(module.text for module in around)))
        if head.group(2):
            around.append(parts[-1])
    return tuple(parts)


def heads_of(text):
    """The lines with which parts begin, each with its indent: those of fields and constructors stand deeper."""
    # the modules that are open, each with its indent and that of what stands in it, 0 until the first of that comes
    modules = []
    for head in HEAD.finditer(text):
        indent = len(head.group(1))
        while modules and modules[-1][0] >= indent:
            modules.pop()
        if modules and not modules[-1][1]:
            modules[-1] = (modules[-1][0], indent)
        if indent == (modules[-1][1] if modules else 0):
            if head.group(2):
                modules.append((indent, 0))
            yield head, indent


def imports_of(text):
    """The names that a text imports, each with its module and its name there; and modules under a name."""
    names, modules = {}, {}
    for found in IMPORT.finditer(text):
        if found.group(3):
            modules[found.group(3)] = found.group(1)
            continue
        for each in found.group(2).split(","):
            old, _, new = each.strip().partition(" as ")
            names[(new or old).strip()] = (found.group(1), old.strip())
    return names, modules


def path_of(module):
    """The file of a module as imports name it."""
    return "crates/" + module.replace(".", "/") + ".antt"
