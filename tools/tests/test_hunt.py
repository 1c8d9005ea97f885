"""tools/hunt: random runs, what is looked at in them, and scripts that are made smaller."""
import contextlib
import io
import os
import tempfile
import unittest
from collections import Counter
from functools import lru_cache
from importlib.machinery import SourceFileLoader
from importlib.util import module_from_spec, spec_from_loader
from random import Random
from unittest import mock

from lines import TOOLS
from hunting import quiet
from hunting.checks import LETTERS, ORDER, POINTS, REPORT, STATUS, failures_of, wanted_of
from hunting.coverage import SeenWorld
from hunting.front import Front
from hunting.many import Hunt, look_at
from hunting.options import Options
from hunting.plain import front_of_text
from hunting.programs import Programs, Written
from hunting.schedule import Schedule
from hunting.smallest import Smallest, apart, front_of, together, without_flows
from model.player import run_of
from model.report import letter_lines, report_lines

SMALL = Options(operations=4, objects=("counter", "counter", "dir"))
SETUP = ["bounds 1", "seed 7", "clients 3", "object 0 counter", "object 1 counter", "faulty replica 5"]
# A program, made of the model, that tells each counter that is read one too much, where a word asks for it.
PROGRAM = """#!{python}
import sys
sys.dont_write_bytecode = True
sys.path.insert(0, {tools!r})
from model.player import run_of
from model.report import letter_lines, report_lines
world = run_of(sys.stdin.buffer.read())
print(*(letter_lines if sys.argv[1] == "digests" else report_lines)(world), sep="\\n")
"""


def hunt():
    """The program tools/hunt as a module."""
    loader = SourceFileLoader("hunt", os.path.join(TOOLS, "hunt"))
    module = module_from_spec(spec_from_loader("hunt", loader))
    loader.exec_module(module)
    return module


@lru_cache(maxsize=1)
def world_of(script):
    """The world of a script that was run last."""
    return run_of(script.encode())


class Fake:
    """In the place of programs: the model, with a report and letters that are changed."""

    def __init__(self, change=lambda lines: lines, status=0, letters=lambda lines: lines):
        self.change, self.status, self.letters, self.runs = change, status, letters, 0

    def report(self, script):
        self.runs += 1
        return Written(self.change(report_lines(world_of(script))), self.status)

    def digests(self, script):
        return Written(self.letters(letter_lines(world_of(script))), 0) if self.letters else None


def torn(lines):
    """A report in which whoever reads two counters is told 0 of the second one."""
    asked = {line.split()[1] for line in lines if line.startswith("call ") and line.endswith("read 0 + read 1")}
    return [line.rpartition(" + ")[0] + " + 0" if line.startswith("reply ") and line.split()[1] in asked
            and " + " in line else line for line in lines]


def made(*lines):
    front = Front(SETUP)
    for line in lines:
        front.take(line)
    return front


def checks(front, programs):
    return [failure.check for failure in failures_of(wanted_of(front), programs, [])]


class Looking(unittest.TestCase):
    @classmethod
    def setUpClass(cls):
        cls.front = made("call 1 add 0 5 + add 1 5", "flow", "call 2 read 0 + read 1", "flow")

    def test_nothing_is_wrong_with_the_model(self):
        self.assertEqual([], checks(self.front, Fake()))

    def test_each_check(self):
        point = "point 1.1"
        for programs, wanted in (
                (Fake(torn), [ORDER, POINTS, REPORT]),
                (Fake(lambda lines: [line for line in lines if line != point]), [POINTS, REPORT]),
                (Fake(lambda lines: [line.replace("b 1 n 6", "b 1 n 7") for line in lines]), [REPORT]),
                (Fake(lambda lines: ["hello", *lines]), [REPORT, REPORT]),
                (Fake(status=3), [STATUS]),
                (Fake(letters=lambda lines: lines[:-1]), [LETTERS])):
            self.assertEqual(wanted, checks(self.front, programs))

    def test_where_a_premise_fails_nothing_is_promised(self):
        front = made("call 1 add 0 5", "flow", "fake 0 1 far")
        self.assertIn("premises forged 22", report_lines(front.world))
        other = Fake(lambda lines: [line.replace("1.1 5", "1.1 6") for line in lines])
        self.assertEqual([REPORT], checks(front, other))

    def test_what_is_wrong_in_words(self):
        failures = failures_of(wanted_of(self.front), Fake(torn), [])
        self.assertEqual("no order of the operations on objects 0, 1 gives the answers: 1 of 2 can stand in one, and "
                         "behind them 2.1 (read 0 + read 1) would be told 5 + 5 and not 5 + 0", failures[0].words)
        self.assertEqual("line 7 is `reply 2.1 5 + 0`, and by the model `reply 2.1 5 + 5`", failures[2].words)

    def test_programs(self):
        with tempfile.TemporaryDirectory() as folder:
            path = os.path.join(folder, "program")
            with open(path, "w", encoding="ascii") as file:
                file.write(PROGRAM.format(python="/usr/bin/env python3", tools=TOOLS))
            self.assertRegex(Programs(path).fault(), " takes no script: Permission denied")
            os.chmod(path, 0o755)
            programs = Programs(path, path)
            self.assertIsNone(programs.fault())
            self.assertEqual([], checks(self.front, programs))
            self.assertIsNone(Programs(path).digests(""))
            self.assertEqual(1, programs.report("hello").status)


class RandomRuns(unittest.TestCase):
    def test_a_number_makes_one_script(self):
        scripts = [Schedule(Random(f"1/{number}"), SMALL) for number in (1, 1, 2)]
        for schedule in scripts:
            schedule.make()
        first, second, third = (schedule.front.script() for schedule in scripts)
        self.assertEqual(first, second)
        self.assertNotEqual(first, third)

    def test_its_lines_by_name_make_it_once_more(self):
        schedule = Schedule(Random("1/3"), SMALL)
        schedule.make()
        front, kept = front_of(schedule.setup, schedule.lines)
        self.assertEqual(schedule.lines, kept)
        self.assertEqual(schedule.front.script(), front.script())
        self.assertEqual(report_lines(front.world), report_lines(run_of(front.script().encode())))

    def test_premises_hold_and_much_occurs(self):
        seen = Counter()
        for number in range(1, 6):
            schedule = Schedule(Random(f"2/{number}"), SMALL, SeenWorld)
            schedule.make()
            self.assertIn("premises hold", report_lines(schedule.world))
            seen.update(schedule.world.seen)
        for words in ("class method", "class barrier", "act: done", "act: not current", "query: told", "client rests",
                      "mend: mended, barrier", "version: found"):
            self.assertTrue(seen[words], words)

    def test_a_run_is_looked_at(self):
        looked = look_at(Hunt(1, SMALL, Fake()), 1)
        self.assertEqual(([], []), (looked.failures, looked.lines))
        self.assertTrue(looked.seen["act: done"])
        looked = look_at(Hunt(1, SMALL, Fake(status=6)), 1)
        self.assertEqual([STATUS], [failure.check for failure in looked.failures])
        self.assertTrue(looked.lines)


class Smaller(unittest.TestCase):
    def test_the_smallest_script_of_an_update_that_is_not_seen(self):
        setup = [line for line in SETUP if line != "object 1 counter"]
        lines = ["call 2 add 0 7", "flow", "hold 3", "fake 5 2 far", "tick 2", "lose", "free 3", "call 1 read 0",
                 "flow", "call 3 add 0 2", "flow 9"]
        programs = Fake(lambda lines: [line.replace("reply 1.1 7", "reply 1.1 0") for line in lines], letters=None)

        def failures(front):
            """As by these programs, without a run more."""
            wanted = wanted_of(front)
            with mock.patch.object(programs, "report", lambda _: Written(programs.change(wanted.report), 0)):
                return failures_of(wanted, programs, [])

        first = [failure for failure in failures(front_of(setup, lines)[0]) if failure.check == ORDER][0]
        smallest = Smallest(setup, lines, first, failures, 60)
        smallest.make()
        self.assertEqual(["bounds 1", "seed 7", "clients 2", "object 0 counter"], smallest.setup)
        calls = [line for line in smallest.lines if line.startswith("call")]
        # that of another amount would be told otherwise, and the program has no fault then
        self.assertEqual(["call 2 add 0 7", "call 1 read 0"], calls)
        self.assertEqual({"call", "deliver"}, {line.split()[0] for line in smallest.lines})
        # both have two rounds of five requests and five replies
        self.assertEqual(40, sum(len(line.split()) - 1 for line in smallest.lines if line.startswith("deliver")))
        text, by_name = smallest.texts("Run 1, made smaller.")
        self.assertTrue(text.startswith("# Run 1, made smaller. The check `order` finds: no order of"), text)
        self.assertEqual([ORDER, POINTS, REPORT], checks(front_of(smallest.setup, smallest.lines)[0], programs))
        self.assertEqual(report_lines(front_of(smallest.setup, smallest.lines)[0].world),
                         report_lines(run_of(text.encode())))
        self.assertEqual(text, "".join(f"{line}\n" for line in front_of_text(by_name).lines))

    def test_lines_that_say_the_same(self):
        lines = ["call 1 add 0 1", "flow 3", "deliver 1.1/1>r4 r4>1.1/1", "flow"]
        wanted = report_lines(front_of(SETUP, lines)[0].world)
        single = without_flows(SETUP, apart(lines))
        self.assertEqual("deliver 1.1/1>r0", single[1])
        self.assertTrue(all(len(line.split()) == 2 for line in single[1:]), single)
        for same in (single, together(single)):
            self.assertEqual(wanted, report_lines(front_of(SETUP, same)[0].world))
        self.assertEqual(1 + -(-(len(single) - 1) // 8), len(together(single)))

    def test_no_time_is_left(self):
        front = made("call 1 add 0 5", "flow")
        failures = lambda front: failures_of(wanted_of(front), Fake(status=3), [])  # noqa: E731
        smallest = Smallest(SETUP, ["call 1 add 0 5", "flow"], failures(front)[0], failures, 0)
        smallest.make()
        self.assertEqual(["call 1 add 0 5", "flow"], smallest.lines)


class Quiet(unittest.TestCase):
    def test_all_is_answered(self):
        front = made("call 1 add 0 5", "flow 7", "hold 1 2 3")
        called = quiet.ending(front)
        self.assertEqual(3 * 2 * 2, len(called))
        self.assertEqual([], quiet.finds(front.script(), called, Fake()))
        self.assertEqual(12, len(quiet.rounds_of(front, called)))

    def test_an_operation_that_is_given_up_is_found(self):
        front = made("call 1 add 0 5", "flow")
        called = quiet.ending(front)
        report = Fake(lambda lines: ["gaveup 1.2" if line.startswith("reply 1.2") else line for line in lines])
        self.assertEqual(["gaveup 1.2 in a quiet ending"],
                         [failure.words for failure in quiet.finds(front.script(), called, report)])

    def test_a_liar_alone_keeps_no_client_from_an_answer(self):
        front = made("call 1 add 0 5", "fake 5 1 far", "flow")
        self.assertEqual([], quiet.finds(front.script(), quiet.ending(front), Fake()))


class Command(unittest.TestCase):
    def run_with(self, programs, *words):
        """The status of tools/hunt, and what it writes, where these stand for the programs."""
        program, written = hunt(), io.StringIO()
        programs.fault = lambda: None
        with tempfile.TemporaryDirectory() as folder:
            arguments = ["hunt", "--jobs", "1", "--operations", "3", "--shrink", "0", "--into", folder, *words]
            with mock.patch("sys.argv", arguments), mock.patch.object(program, "Programs", lambda *_: programs):
                with contextlib.redirect_stdout(written), contextlib.redirect_stderr(io.StringIO()):
                    status = program.main()
            scripts = sorted(os.listdir(folder))
        return status, written.getvalue().splitlines(), scripts

    def test_no_run_differs(self):
        status, lines, scripts = self.run_with(Fake(), "--runs", "3")
        self.assertEqual((0, "what occurred:", "3 runs, 0 differ", []), (status, lines[0], lines[-1], scripts))

    def test_runs_that_differ_are_told_with_their_seed(self):
        status, lines, scripts = self.run_with(Fake(letters=lambda lines: lines[1:]), "--runs", "2", "--seed", "5",
                                               "--first", "8")
        self.assertEqual((1, "2 runs, 2 differ", ["hunt-5-8", "hunt-5-8.names"]), (status, lines[-1], scripts))
        self.assertTrue(lines[0].startswith("run 8 of the seed 5, letters: line 1 is `2 "), lines[0])

    def test_quiet_endings(self):
        status, lines, _ = self.run_with(Fake(), "--runs", "1", "--quiet", "--objects", "counter", "--clients", "2")
        self.assertEqual((0, "1 runs, 0 differ"), (status, lines[-1]))
        self.assertTrue(any(line.startswith("  operation of a quiet ending ") for line in lines))

    def test_what_is_sought(self):
        status, lines, scripts = self.run_with(Fake(status=9), "--runs", "2", "--seek", "act: done", "--shrink", "1")
        self.assertEqual((1, "2 runs, 2 have it", ["hunt-1-1", "hunt-1-1.names"]), (status, lines[-1], scripts))
        self.assertRegex(lines[0], r"\Arun 1 of the seed 1, sought: act: done, [0-9]+ in this run\Z")
        self.assertEqual(0, self.run_with(Fake(), "--runs", "1", "--seek", "no such thing")[0])

    def test_wrong_words(self):
        program = hunt()
        for words in (["--bogus"], ["--runs", "0"], ["--runs", "x"], ["--objects", "text"], ["--lose", "101"],
                      ["--faults", "4"], ["words"], ["--only", "qu_plan/none"], ["--only", "none"]):
            with self.assertRaises(SystemExit) as ended, contextlib.redirect_stderr(io.StringIO()) as told:
                program.words_behind(words)
            self.assertEqual(2, ended.exception.code, words)
            self.assertIn("usage: tools/hunt [--runs N]", told.getvalue())

    def test_a_program_that_is_not_there(self):
        program = hunt()
        arguments = ["hunt", "--program", "/no-such-program", "--letters", "none"]
        with mock.patch("sys.argv", arguments), contextlib.redirect_stderr(io.StringIO()) as told:
            self.assertEqual(2, program.main())
        self.assertEqual("hunt: /no-such-program sim takes no script: No such file or directory\n", told.getvalue())


if __name__ == "__main__":
    unittest.main()
