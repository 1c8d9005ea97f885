"""That ./qu and ./qu-letters run the proved program where it stands, else one compiled without proof, which is kept."""
import os
import shutil
import signal
import subprocess
import sys
import time
import unittest

import lines  # noqa: F401 - finds the tools
from fakes import PROGRAM, Room, read, write
from programs.kept import Place
from programs.sources import TOP, sum_of_code, sum_of_proof
from programs.unproved import kit_of

CRATES = "low:\nqu: low\nqu_letters: low\n"
PROVED, COMPILED = "this is proved", "this is compiled"
STATUS = 3


class Launched(unittest.TestCase):
    def setUp(self):
        self.room = Room(CRATES)
        self.addCleanup(self.room.folder.cleanup)

    def launch(self, *words, **how):
        """The first line of what the program writes, what else it writes, and the line on standard error."""
        status, out, error = self.room.run("./qu", *words, **how)
        self.assertEqual(status, STATUS, error)
        first, _, rest = out.partition("\n")
        return first, rest, error

    def compiled(self):
        """How many programs were compiled."""
        return sum(" try " in call for call in self.room.log())

    def left(self, kind="unproved"):
        """What stands in out/, but for the locks."""
        folder = os.path.join(self.room.top, "out", kind)
        found = os.listdir(folder) if os.path.isdir(folder) else []
        return sorted(name for name in found if not name.endswith(".lock"))

    def touch_all(self, seconds):
        """Gives all times of texts, so that no other sign of a change is left than that of the file's status."""
        for at, _, files in os.walk(os.path.join(self.room.top, "crates")):
            for name in files:
                os.utime(os.path.join(at, name), (seconds, seconds))


class Unproved(Launched):
    def test_it_is_compiled_once_and_says_so_in_a_line(self):
        first, rest, error = self.launch("sim", "a b", given="a script\n")
        self.assertEqual((first, rest), (COMPILED, "sim a b\na script\n"))
        self.assertRegex(error, r"\Aqu: compiled without proof in \d+ s; \./prove makes the proved one\n\Z")
        self.assertEqual(self.launch(), (COMPILED, "\n", ""))
        self.assertEqual(self.launch(), (COMPILED, "\n", ""))
        status, out, error = self.room.run("./qu-letters", "digests")
        self.assertEqual((status, out), (STATUS, f"{COMPILED}\ndigests\n"))
        self.assertRegex(error, r"\Aqu-letters: compiled")
        self.assertEqual(self.room.log(), [f"{name} try --steps 1 --seconds 1" for name in ("qu", "qu_letters")])
        self.assertEqual(self.left(), ["qu", "qu.made", "qu_letters", "qu_letters.made"])

    def test_it_is_compiled_anew_for_other_code_alone(self):
        self.launch()
        write(self.room.source("low", "proofs/Lib.antt"), "-- another\n")
        write(self.room.source("low", "src/notes.txt"), "no code\n")
        self.launch()
        self.assertEqual(self.compiled(), 1)
        code = self.room.source("low", "src/lib.rt")
        write(code, read(code).replace("low", "new"))
        self.touch_all(1)
        self.launch()
        self.assertEqual(self.compiled(), 2)
        write(os.path.join(self.room.kit, "KIT-ID"), "two\n")
        self.launch()
        self.assertEqual(self.compiled(), 3)

    def test_a_program_that_something_changed_is_not_run(self):
        self.launch()
        write(os.path.join(self.room.top, "out", "unproved", "qu"), PROGRAM.format(what="another"), 0o755)
        self.assertEqual(self.launch()[0], COMPILED)
        self.assertEqual(self.compiled(), 2)

    def test_two_at_once_compile_once(self):
        both = [self.room.begin("./qu", WAITING="try") for _ in range(2)]
        self.room.wait_for()
        # The other one waits for this, or has not begun: both ways it finds what this makes.
        write(self.room.path("go"), "")
        told = [ran.communicate("") for ran in both]
        self.assertEqual([ran.returncode for ran in both], [STATUS, STATUS])
        self.assertEqual([out for out, _ in told], [f"{COMPILED}\n\n"] * 2)
        self.assertEqual(self.compiled(), 1)
        self.assertEqual(sum("compiled without proof" in error for _, error in told), 1)

    def test_a_compile_that_fails_leaves_nothing(self):
        status, out, error = self.room.run("./qu", FAILING="try")
        self.assertEqual((status, out), (1, ""))
        self.assertEqual(error, "qu: the program was not compiled:\nerror: it is wrong\n")
        self.assertEqual(self.left(), [])
        # As a run leaves it that was killed.
        write(os.path.join(self.room.top, "out", "unproved", "new-qu-killed", "qu"), "half")
        self.launch()
        self.assertEqual(self.left(), ["qu", "qu.made"])

    def test_a_full_disk_leaves_nothing(self):
        copy = self.room.path("full", "cp")
        write(copy, '#!/bin/sh\nhead -c 9 "$2" >"$3"\necho "cp: no space left" >&2\nexit 1\n', 0o755)
        path = os.pathsep.join([os.path.dirname(copy), os.path.join(self.room.kit, "bin"), os.environ["PATH"]])
        status, out, error = self.room.run("./qu", PATH=path)
        self.assertEqual((status, out), (1, ""))
        self.assertIn("cp: no space left", error)
        self.assertEqual(self.left(), [])
        self.assertEqual(self.launch()[0], COMPILED)

    def test_a_compile_that_is_broken_off_ends_and_leaves_nothing(self):
        for number in (signal.SIGINT, signal.SIGTERM):
            ran = self.room.begin("./qu", WAITING="try")
            self.room.wait_for()
            compiler = int(read(self.room.path("waits")))
            self.room.interrupt(ran, number)
            self.assertEqual(ran.returncode, -number)
            self.wait_for_end(compiler)
            self.assertEqual(self.left(), [])
            os.remove(self.room.path("waits"))
        self.assertEqual(self.launch()[0], COMPILED)

    def wait_for_end(self, process):
        """Waits until a process has ended, and what was begun for it is gone."""
        most = time.monotonic() + 10
        while os.path.exists(f"/proc/{process}") or self.left():
            self.assertLess(time.monotonic(), most, "the compiler goes on")
            time.sleep(0.01)

    def test_closed_output_and_error_are_those_of_the_program(self):
        self.assertEqual(self.room.run("sh", "-c", "./qu >&- 2>&-")[1], "")
        self.assertEqual(read(os.path.join(self.room.top, "out", "unproved", "qu.lock")), "")
        self.assertEqual(self.room.run("sh", "-c", "./qu 2>&-")[:2], (STATUS, f"{COMPILED}\n\n"))
        self.assertEqual(self.compiled(), 1)

    def test_without_a_toolchain_it_says_so(self):
        os.remove(os.path.join(self.room.kit, "bin", "rt"))
        path = os.pathsep.join([os.path.join(self.room.kit, "bin"), *self.plain_path()])
        status, _, error = self.room.run("./qu", PATH=path)
        self.assertEqual(status, 1)
        self.assertEqual(error, "qu: there is no rt on the path, with which the program is compiled\n")

    def plain_path(self):
        return [at for at in os.environ["PATH"].split(os.pathsep) if not os.path.exists(os.path.join(at, "rt"))]


class Proved(Launched):
    def prove(self, change=lambda: None):
        """What the gate does: the status of what keeps the programs that were proved, and what it says."""
        state = self.room.run("tools/program", "--state")[1].strip()
        change()
        self.room.run("tools/rt", "ci")
        status, out, error = self.room.run("tools/program", "--keep", state)
        self.assertEqual(out, "")
        return status, error

    def gate(self, **how):
        """The status of the gate, and its last line; its checks and tests pass."""
        for name in ("check", "test"):
            write(os.path.join(self.room.top, "tools", name), "#!/bin/sh\n", 0o755)
        status, out, _ = self.room.run(".ci/run", **how)
        return status, out.splitlines()[-1]

    def test_the_gate_leaves_them_where_it_passed(self):
        self.assertEqual(self.gate(FAILING="ci"), (1, "error: it is wrong"))
        self.assertEqual(self.left("proved"), [])
        self.assertEqual(self.gate(), (0, "2 passed, 0 failed"))
        self.assertEqual(self.launch()[0], PROVED)

    def test_the_proved_one_runs_in_the_place_of_the_other(self):
        self.assertEqual(self.launch()[0], COMPILED)
        self.assertEqual(self.prove(), (0, ""))
        for _ in range(3):
            self.assertEqual(self.launch("sim", given="a script\n"), (PROVED, "sim\na script\n", ""))
        self.assertEqual(self.left("proved"), ["qu", "qu.made", "qu_letters", "qu_letters.made"])
        self.assertEqual(self.compiled(), 1)
        os.remove(os.path.join(self.room.kit, "bin", "rt"))
        self.assertEqual(self.launch()[0], PROVED, "it needs no toolchain")

    def test_another_text_is_not_proved_until_it_is_as_it_was(self):
        self.prove()
        proof = self.room.source("low", "proofs/Lib.antt")
        text = read(proof)
        write(proof, text.replace("nothing", "another"))
        self.touch_all(1)
        self.assertEqual(self.launch()[0], COMPILED)
        os.remove(proof)
        self.assertEqual(self.launch()[0], COMPILED)
        write(proof, text)
        for _ in range(2):
            self.assertEqual(self.launch(), (PROVED, "\n", ""))

    def test_no_other_program_is_taken_for_a_proved_one(self):
        self.launch()
        self.prove()
        shutil.copy(*(os.path.join(self.room.top, "out", kind, "qu") for kind in ("unproved", "proved")))
        self.assertNotEqual(self.launch()[0], PROVED)
        place = os.path.join(self.room.top, "out", "proved", "qu")
        write(place, PROGRAM.format(what="forged"), 0o755)
        self.assertEqual(self.launch()[0], COMPILED)

    def test_what_changed_while_it_was_proved_is_not_kept(self):
        def change():
            time.sleep(0.02)
            code = self.room.source("low", "src/lib.rt")
            text = read(code)
            write(code, "fn other() {}\n")
            write(code, text)

        status, error = self.prove(change)
        self.assertEqual(status, 1)
        self.assertIn("a source was changed", error)
        self.assertEqual(self.left("proved"), [])
        self.assertEqual(self.launch()[0], COMPILED)


class SameBytes(unittest.TestCase):
    """What both programs of this repository write, where both stand: nothing is compiled or proved for it."""

    EXAMPLES = ("rivals", "files", "forged")

    def both(self):
        """The paths of the proved program and of the other one, where both are made of the texts as they are."""
        sums = {"proved": sum_of_proof("qu"), "unproved": sum_of_code("qu", kit_of() or "")}
        places = {kind: Place(kind, "qu") for kind in sums}
        lacking = [kind for kind, place in places.items() if not place.holds(sums[kind])]
        if lacking:
            why = f"not compared: out/{lacking[0]} has no qu of these texts"
            print(why, file=sys.stderr)
            self.skipTest(why)
        return [place.program for place in places.values()]

    def test_the_proved_program_and_the_other_one_report_the_same(self):
        both = self.both()
        for name in self.EXAMPLES:
            with open(os.path.join(TOP, "examples", name), "rb") as script:
                given = script.read()
            proved, other = (subprocess.run([each, "sim"], input=given, capture_output=True) for each in both)
            self.assertEqual(proved.returncode, 0)
            self.assertIn(b"\nend calls ", proved.stdout)
            self.assertEqual((proved.returncode, proved.stdout), (other.returncode, other.stdout), name)


if __name__ == "__main__":
    unittest.main()
