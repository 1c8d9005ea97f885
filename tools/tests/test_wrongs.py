"""Hunts for wrong bodies: how edits are applied in a copy, and what the table says of what was found."""
import os
import tempfile
import unittest

from lines import TOOLS
from hunting.checks import wanted_of
from hunting.front import Front
from hunting.programs import Written
from hunting.wrongs import WRONG, Copies, Found, changed, copy_of, hunt_for, told_row

TOP = os.path.dirname(TOOLS)
SETUP = ["bounds 1", "seed 7", "clients 1", "object 0 counter"]


def write(path, text, mode=0o644):
    os.makedirs(os.path.dirname(path), exist_ok=True)
    with open(path, "w", encoding="utf-8") as file:
        file.write(text)
    os.chmod(path, mode)


def wanted(count):
    """Runs of one update each."""
    front = Front(SETUP)
    for line in ("call 1 add 0 5", "flow"):
        front.take(line)
    return [wanted_of(front)] * count


class Programs:
    """In the place of programs: what is wanted, but that the run with this number is told otherwise."""

    def __init__(self, at, change=lambda lines: lines, status=0):
        self.at, self.change, self.status, self.runs = at, change, status, 0

    def report(self, _script):
        self.runs += 1
        is_wrong = self.runs == self.at
        lines = wanted(1)[0].report
        return Written(self.change(lines) if is_wrong else lines, self.status if is_wrong else 0)

    def digests(self, _script):
        return None


class Wrong(unittest.TestCase):
    def test_each_edit_can_be_applied(self):
        self.assertGreaterEqual(len(set(WRONG)), 20)
        for name in WRONG:
            texts = changed(TOP, name)
            self.assertTrue(texts, name)
            self.assertTrue(all(before != now for before, now in texts.values()), name)

    def test_an_edit_of_two_lines(self):
        with tempfile.TemporaryDirectory() as top:
            write(os.path.join(top, "crates/low/src/lib.rt"), "one\n  two\nthree\n")
            edit = os.path.join(top, "crates/low/must-fail/other.edit")
            write(edit, "file: src/lib.rt\nold: one\nnew: none\nold:   two\nnew:   too\n")
            texts = list(changed(top, "low/other").values())
            self.assertEqual([["one\n  two\nthree\n", "none\n  too\nthree\n"]], texts)
            write(edit, "file: src/lib.rt\nold: four\nnew: none\n")
            with self.assertRaisesRegex(ValueError, "the old text of low/other does not stand once"):
                changed(top, "low/other")
            with self.assertRaisesRegex(FileNotFoundError, "there is no edit low/none"):
                changed(top, "low/none")

    def test_a_copy_has_what_is_compiled(self):
        with tempfile.TemporaryDirectory() as folder:
            top = os.path.join(folder, "top")
            for path in ("crates/low/src/lib.rt", "crates/low/proofs/Lib.antt", "crates/low/out/low", "crates.txt"):
                write(os.path.join(top, path), "")
            copy = copy_of(top, folder)
            found = [os.path.relpath(os.path.join(at, file), copy) for at, _, files in os.walk(copy) for file in files]
            self.assertEqual(["crates.txt", "crates/low/src/lib.rt"], sorted(found))

    def test_the_program_of_a_copy_is_that_of_the_edit(self):
        with tempfile.TemporaryDirectory() as folder:
            top = os.path.join(folder, "top")
            write(os.path.join(top, "crates/low/src/lib.rt"), "exit 0\n")
            write(os.path.join(top, "crates/low/wrong/other.edit"), "file: src/lib.rt\nold: exit 0\nnew: exit 7\n")
            write(os.path.join(top, "qu"), '#!/bin/sh\n. "$(dirname "$0")/crates/low/src/lib.rt"\n', 0o755)
            found = Copies(top, folder).hunt("low/other", [], 1, 1)
            self.assertRegex(found.why, "/copy/qu sim takes no script: 7")
            with open(os.path.join(top, "crates/low/src/lib.rt"), encoding="utf-8") as text:
                self.assertEqual("exit 0\n", text.read())


class Hunts(unittest.TestCase):
    def test_the_first_run_by_which_each_check_sees_it(self):
        other = Programs(3, lambda lines: [line.replace("reply 1.1 5", "reply 1.1 6") for line in lines])
        found = hunt_for(other, wanted(5), 60, 1)
        self.assertEqual({"order": 3, "points": 3, "report": 3}, {check: at for check, (at, _) in found.by.items()})
        self.assertEqual(3, found.runs)

    def test_what_only_one_check_sees(self):
        found = hunt_for(Programs(2, lambda lines: lines[:-1]), wanted(4), 60, 1)
        self.assertEqual((4, {"report"}), (found.runs, set(found.by)))

    def test_a_program_that_ends_otherwise_is_looked_at_further(self):
        found = hunt_for(Programs(2, status=3), wanted(4), 60, 1)
        self.assertEqual((4, {"status": 2}), (found.runs, {check: at for check, (at, _) in found.by.items()}))

    def test_no_time(self):
        self.assertEqual(0, hunt_for(Programs(1), wanted(4), 0, 1).runs)

    def test_rows(self):
        for found, cells in (
                (Found("it is not compiled", 0, 0, {}), "it is not compiled | | | | |"),
                (Found("", 9, 7.6, {"report": (4, 3.2)}), "- | - | - | 4 (3 s) | 9 in 8 s |"),
                (Found("", 9, 7.6, {"status": (4, 3.2)}), "4 (3 s) | - | - | - | 9 in 8 s |")):
            self.assertEqual(f"| `low` | all or none | {cells}", told_row("low/all_or_none", found))


if __name__ == "__main__":
    unittest.main()
