"""The crates of the repository, and what a program is made of."""
import hashlib
import os
import shutil

TOP = os.path.dirname(os.path.dirname(os.path.dirname(os.path.realpath(__file__))))
CODE, PROOFS = ("src",), ("src", "specs", "proofs")


def read_lines(top=TOP):
    """The lines of crates.txt, each with a crate and the crates on which it stands."""
    with open(os.path.join(top, "crates.txt"), encoding="utf-8") as lines:
        return list(lines)


def name_in(line):
    """The crate that a line is about, or no name."""
    return next(iter(line.split("#")[0].partition(":")[0].split()), "")


def read_crates(top=TOP):
    """Each crate, in the order of crates.txt, with the crates of this repository on which it stands."""
    crates = {name_in(line): line.split("#")[0].partition(":")[2].split() for line in read_lines(top)}
    crates.pop("", None)
    return {name: [crate for crate in below if crate in crates] for name, below in crates.items()}


def needed(programs, crates):
    """The programs and all crates below them."""
    found, left = set(), list(programs)
    while left:
        name = left.pop()
        if name not in found:
            found.add(name)
            left += crates[name]
    return found


def begin_copy(names, tree):
    """Begins a copy of the repository that holds these crates, by the files at its top."""
    os.makedirs(tree, exist_ok=True)
    shutil.copy2(os.path.join(TOP, "HANDLES"), tree)
    with open(os.path.join(tree, "crates.txt"), "w", encoding="utf-8") as lines:
        lines.writelines(line for line in read_lines() if name_in(line) in names)


def texts_of(programs, parts, top=TOP):
    """The paths of these parts of the programs' crates, and of crates.txt."""
    paths = [os.path.join(top, "crates.txt")]
    for name in sorted(needed(programs, read_crates(top))):
        for part in parts:
            for at, folders, files in os.walk(os.path.join(top, "crates", name, part)):
                folders.sort()
                paths += [os.path.join(at, file) for file in sorted(files) if file.endswith((".rt", ".antt"))]
    return paths


def sum_of_file(path):
    """The sum of a file's bytes, or no sum where there is no such file."""
    try:
        with open(path, "rb") as file:
            return hashlib.sha256(file.read()).hexdigest()
    except OSError:
        return ""


def sum_of(paths, top=TOP, tells=lambda path: None):
    """A sum of files, by their paths, by their bytes, and by what else is asked of each."""
    told = [(os.path.relpath(path, top), sum_of_file(path), tells(path)) for path in paths]
    return hashlib.sha256(repr(told).encode()).hexdigest()


def sum_of_code(program, kit, top=TOP):
    """A sum of what a program is compiled of without proof: the code of its crates, and the toolchain."""
    return sum_of([*texts_of([program], CODE, top), os.path.join(kit, "KIT-ID")], top)


def sum_of_proof(program, top=TOP):
    """A sum of what a program is proved of: the code of its crates, their definitions and their proofs."""
    return sum_of([*texts_of([program], PROOFS, top), os.path.join(top, "HANDLES")], top)


def state_of(programs, top=TOP):
    """A sum that is another one where a text of the programs was changed meanwhile, also where it was changed back."""
    return sum_of(texts_of(programs, PROOFS, top), top, lambda path: os.stat(path).st_ctime_ns)
