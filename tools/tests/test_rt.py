"""That `tools/rt` answers of a crate what `rt` itself answers, each crate below it asked once."""
import os
import shutil
import tempfile
import unittest
from importlib.machinery import SourceFileLoader
from importlib.util import module_from_spec, spec_from_loader
from types import SimpleNamespace

TOP = os.path.dirname(os.path.dirname(os.path.dirname(os.path.realpath(__file__))))


def launcher():
    loader = SourceFileLoader("tools_rt", os.path.join(TOP, "tools", "rt"))
    module = module_from_spec(spec_from_loader("tools_rt", loader))
    loader.exec_module(module)
    return module


class Node:
    """A crate with those that it imports, which counts how often its own text is read."""

    def __init__(self, name, deps):
        self.folder, self.deps, self.reads = name, deps, 0

    def below(self):
        found = []
        for dep in self.deps:
            found += [it for it in [*dep.below(), dep] if it not in found]
        return found

    def stamp(self):
        self.reads += 1
        return f"{self.folder}({' '.join(dep.stamp() for dep in self.deps)})"


class Library(Node):
    """A crate of this text, which counts how often it is proved."""

    def __init__(self, top, name, deps):
        super().__init__(name, deps)
        self.rlib, self.text, self.proofs = os.path.join(top, name, "rlib", f"{name}.rlib"), "", 0

    def stamp(self):
        return f"{self.text}({' '.join(dep.stamp() for dep in self.deps)})"

    def build_rlib(self, flags, anew):
        shutil.rmtree(os.path.dirname(self.rlib), ignore_errors=True)
        os.makedirs(self.rlib)
        self.proofs += 1
        return 0


class Keeper:
    """What the gate kept: libraries by their texts and by those of the libraries below them as they were built."""

    store = {}

    def __init__(self, crates):
        self.rlibs = {}

    def is_built(self, crate):
        self.rlibs[crate.folder] = text_of(os.path.join(crate.rlib, "made"))

    def key(self, crate):
        return (crate.text, *[self.rlibs.get(it.folder) for it in crate.below()])

    def give(self, crate, tests, key):
        if key in self.store and not tests:
            os.makedirs(crate.rlib)
            with open(os.path.join(crate.rlib, "made"), "w", encoding="utf-8") as made:
                made.write(self.store[key])
        return key in self.store


def text_of(file):
    try:
        with open(file, encoding="utf-8") as it:
            return it.read()
    except OSError:
        return None


def ladder(rungs):
    """Crates each of which imports all before it: to the last of them lead 2^(rungs - 2) paths from the first."""
    crates = []
    for rung in range(rungs):
        crates.append(Node(f"c{rung}", list(crates)))
    return crates


class Rt(unittest.TestCase):
    def setUp(self):
        self.tool = launcher()
        self.kept = (Node.below, Node.stamp)

    def tearDown(self):
        Node.below, Node.stamp = self.kept

    def keep(self):
        Node.below = self.tool.once(self.kept[0])
        Node.stamp = self.tool.once_a_question(self.kept[1])

    def test_answers_are_those_of_rt(self):
        top = ladder(6)[-1]
        names, sums = [it.folder for it in top.below()], top.stamp()
        self.keep()
        top = ladder(6)[-1]
        self.assertEqual([it.folder for it in top.below()], names)
        self.assertEqual(top.stamp(), sums)

    def test_each_text_is_read_once_a_question(self):
        self.keep()
        crates = ladder(40)
        self.assertEqual(len(crates[-1].below()), 39)
        crates[12].stamp()
        self.assertEqual([it.reads for it in crates], [1] * 13 + [0] * 27)
        crates[12].stamp()
        self.assertEqual([it.reads for it in crates], [2] * 13 + [0] * 27)

    def test_each_text_is_read_once_a_run_but_that_of_the_folder(self):
        self.keep()
        crates = ladder(13)
        Node.stamp = self.tool.once_a_run(Node.stamp, "c12")
        self.assertEqual(crates[12].stamp(), crates[12].stamp())
        crates[7].stamp()
        self.assertEqual([it.reads for it in crates], [1] * 12 + [2])

    def test_a_library_of_statements_fits_those_below_it_as_they_were_built(self):
        with tempfile.TemporaryDirectory() as top:
            kind = type("Built", (Library,), {})
            self.tool.use_statements(SimpleNamespace(Crate=kind, text_of=text_of))
            low = kind(top, "low", [])
            high = kind(top, "high", [low])
            both = [low, high]
            self.assertEqual([it.is_built() for it in both], [False, False])
            self.assertEqual([it.build_rlib([], False) for it in both + both], [0, 0, 0, 0])
            self.assertEqual([it.proofs for it in both], [1, 1])
            high.text = "changed"
            self.assertEqual([it.is_built() for it in both], [True, False])
            high.build_rlib([], False)
            low.text = "changed"
            low.build_rlib([], False)
            low.text = ""
            low.build_rlib([], False)
            self.assertEqual([it.is_built() for it in both], [True, False])
            self.assertEqual([it.proofs for it in both], [3, 2])

    def test_a_library_that_the_gate_kept_is_taken_and_no_other(self):
        with tempfile.TemporaryDirectory() as top:
            kind = type("Given", (Library,), {})
            kind.name = property(lambda crate: crate.folder)
            rtlib = SimpleNamespace(Crate=kind, text_of=text_of, root_above=lambda folder: top)
            gate = SimpleNamespace(rtlib=rtlib, Crate=kind, Kept=Keeper, handles_of=lambda root: ("Wait",))
            self.tool.use_statements(rtlib, self.tool.Store(gate).give)
            low = kind(top, "low", [])
            high = kind(top, "high", [low])
            both = [low, high]
            Keeper.store = {("",): "low of the gate", ("", "low of the gate"): "high of the gate"}
            self.assertEqual([it.build_rlib([], False) for it in both + both], [0, 0, 0, 0])
            self.assertEqual([it.proofs for it in both], [0, 0])
            self.assertEqual(kind.allowed, ("Wait",))
            low.text = "changed"
            self.assertEqual([it.build_rlib([], False) for it in both], [0, 0])
            self.assertEqual([it.proofs for it in both], [1, 1])
            low.text = ""
            self.assertEqual([it.build_rlib([], False) for it in both], [0, 0])
            self.assertEqual([it.proofs for it in both], [1, 1])

    def test_a_toolchain_that_keeps_nothing_gives_nothing(self):
        with tempfile.TemporaryDirectory() as top:
            kind = type("Alone", (Library,), {})
            rtlib = SimpleNamespace(Crate=kind, text_of=text_of, root_above=lambda folder: top)
            self.tool.use_statements(rtlib, self.tool.Store(SimpleNamespace(rtlib=rtlib)).give)
            low = kind(top, "low", [])
            self.assertEqual((low.build_rlib([], False), low.proofs), (0, 1))

    @unittest.skipIf(shutil.which("rt") is None, "there is no rt on the path")
    def test_rt_itself_is_one(self):
        rt = self.tool.load(os.path.realpath(shutil.which("rt")))
        if rt is not None:
            self.assertTrue(callable(rt.rtlib.Crate.below))


if __name__ == "__main__":
    unittest.main()
