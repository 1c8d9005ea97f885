"""That tools/wrong tries the edits of wrong/ in a copy, over libraries of statements, and tells what came of each."""
import os
import re
import shutil
import unittest

import lines  # noqa: F401 - finds the tools
from fakes import Room, read, write
from test_rt import launcher

CRATES = "low:\nother:\nhigh: low\nplain: low\n"
EDIT = "file: src/lib.rt\nold: {old}\nnew: {new}\n"
# What rt says of an edit, as it does.
SAYS = "rt: must-fail {crate}/{edit}.edit: {said}\n"
REFUSED = "refused, as it must be: note: src/lib.rt:1:1: it is not proved that .."
PROVED = "NOT REFUSED: the crate is still proved with this edit"
BAD = "BAD EDIT: an 'old:' text is in src/lib.rt 0 times, and not once"
KILLED = "NOT TRIED: its check was killed, most likely for memory, so nothing is known of it: run this again"


class Wrong(unittest.TestCase):
    def setUp(self):
        self.room = Room(CRATES)
        self.addCleanup(self.room.folder.cleanup)
        for crate, edits in (("low", ["b", "a"]), ("high", ["c", "d", "e", "f"])):
            for edit in edits:
                write(self.room.source(crate, f"wrong/{edit}.edit"), EDIT.format(old=crate, new="another"))
        write(self.room.source("high", "must-fail/gate.edit"), EDIT.format(old="high", new="wrong"))
        write(self.room.source("low", "out/rlib/low.rlib/format"), "a library\n")
        write(self.room.source("low", "out/rlib/statements"), "its mark\n")

    def wrong(self, said, *words):
        """The status, the lines of the output and those of the error, where rt says this of edits."""
        write(self.room.path("told"), "".join(SAYS.format(crate=at[0], edit=at[1], said=it) for at, it in said.items()))
        status, out, error = self.room.run("tools/wrong", *words)
        return status, out.splitlines(), error.splitlines()

    def calls(self):
        """What rt was called with in the copy."""
        return [re.sub(r"\Awrong-\S+ ", "", call) for call in self.room.log()]

    def test_all_are_refused(self):
        told = {(crate, edit): REFUSED for crate, edits in (("low", "ab"), ("high", "cdef")) for edit in edits}
        status, out, error = self.wrong(told)
        self.assertEqual((status, out), (0, ["6 of 6 edits refused"]))
        self.assertEqual(error, ["wrong: low: 2 of 2 refused", "wrong: high: 4 of 4 refused"])
        self.assertEqual(self.calls(), ["--statements must-fail low", "--statements must-fail high"])

    def test_each_other_end_is_told(self):
        told = {("high", "c"): REFUSED, ("high", "d"): PROVED, ("high", "e"): BAD, ("high", "f"): KILLED}
        status, out, error = self.wrong(told, "high")
        self.assertEqual(status, 1)
        self.assertEqual(out, [
            f"high/d.edit: {PROVED}", f"high/e.edit: {BAD}", f"high/f.edit: {KILLED}",
            "1 of 4 edits refused, 1 NOT REFUSED, 1 BAD EDIT, 1 NOT TRIED"])
        self.assertEqual(error, ["wrong: high: 1 of 4 refused"])

    def test_an_edit_of_which_nothing_is_said_is_not_tried(self):
        status, out, _ = self.wrong({("low", "a"): REFUSED}, "low")
        self.assertEqual(status, 1)
        self.assertEqual(out, ["low/b.edit: NOT TRIED: rt says nothing of it", "1 of 2 edits refused, 1 NOT TRIED"])

    def test_where_no_edit_is_told_what_rt_said_is_shown(self):
        status, out, error = self.wrong({("low", "a"): REFUSED}, "high")
        self.assertEqual((status, out[-1]), (1, "0 of 4 edits refused, 4 NOT TRIED"))
        self.assertIn(SAYS.format(crate="low", edit="a", said=REFUSED).strip(), error)

    def test_the_copy_has_these_edits_alone_and_what_was_built(self):
        self.wrong({}, "high")
        copied = read(self.room.path("copied")).splitlines()
        self.assertEqual([path for path in copied if path.endswith(".edit")], [
            *(f"./crates/high/must-fail/{edit}.edit" for edit in "cdef"),
            *(f"./crates/low/must-fail/{edit}.edit" for edit in "ab")])
        self.assertEqual({path.split("/")[2] for path in copied if path.startswith("./crates/")}, {"low", "high"})
        for path in ("./crates/low/out/rlib/low.rlib/format", "./crates/low/out/rlib/statements", "./HANDLES"):
            self.assertIn(path, copied)
        self.assertEqual(os.listdir(self.room.source("high", "must-fail")), ["gate.edit"])

    def test_a_crate_that_there_is_not(self):
        status, out, error = self.wrong({}, "low", "none")
        self.assertEqual((status, out), (2, []))
        self.assertEqual(error, ["tools/wrong: crates.txt has no crate none; usage: tools/wrong [NAME ..]"])
        self.assertEqual(self.room.log(), [])

    @unittest.skipIf(shutil.which("rt") is None, "there is no rt on the path")
    def test_an_edit_may_change_several_places_and_a_definition_with_its_code(self):
        write(self.room.source("low", "src/lib.rt"), "fn one() {}\nfn two() {}\n")
        write(self.room.source("low", "specs/Lib.antt"), "abbrev one : ℕ\n")
        edit = self.room.source("low", "wrong/several.edit")
        write(edit, EDIT.format(old="one", new="three") + "old: two\nnew: four\n"
              + EDIT.format(old="one", new="three").replace("src/lib.rt", "specs/Lib.antt"))
        rt = launcher().load(os.path.realpath(shutil.which("rt")))
        if rt is None or not hasattr(rt, "read_edit"):
            self.skipTest("this rt is none that can be asked")
        texts, why = rt.read_edit(edit, self.room.source("low", ""))
        self.assertIsNone(why)
        made = {"src/lib.rt": "fn three() {}\nfn four() {}\n", "specs/Lib.antt": "abbrev three : ℕ\n"}
        self.assertEqual(texts, made)


if __name__ == "__main__":
    unittest.main()
