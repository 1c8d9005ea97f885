"""That ./prove builds what a program stands on, lowest first, says how far it is, and keeps what it has proved."""
import os
import re
import signal
import time
import unittest
from importlib.machinery import SourceFileLoader
from importlib.util import module_from_spec, spec_from_loader

import lines  # noqa: F401 - finds the tools
from fakes import TOP, Room, read, write

CRATES = "low: std\nother:\nmiddle: low\nside: low\nqu: middle side\nqu_letters: low\n"
BELOW = {"qu": {"middle", "side"}, "middle": {"low"}, "side": {"low"}, "qu_letters": {"low"}, "low": set()}
TOLD = re.compile(r"prove: (\w+) is proved; (\d+) of (\d+) crates, (\d+) functions, 0\.\d minutes")


def build_tool():
    loader = SourceFileLoader("tools_build", os.path.join(TOP, "tools", "build"))
    module = module_from_spec(spec_from_loader("tools_build", loader))
    loader.exec_module(module)
    return module


class Built(unittest.TestCase):
    def setUp(self):
        self.room = Room(CRATES)
        self.addCleanup(self.room.folder.cleanup)

    def left(self):
        """The copies of the repository that are left."""
        beside = os.path.join(self.room.source("qu", "out"), "beside")
        return os.listdir(beside) if os.path.isdir(beside) else []

    def test_both_are_built_lowest_first_and_kept(self):
        status, out, error = self.room.run("./prove")
        self.assertEqual((status, out), (0, ""))
        calls = [call.split() for call in self.room.log()]
        names = [name for name, *_ in calls]
        self.assertEqual(sorted(names), sorted(BELOW))
        self.assertTrue(all(BELOW[name] <= set(names[:at]) for at, name in enumerate(names)))
        self.assertEqual({name: words[:2] for name, *words in calls}, {
            name: ["--statements", "run" if name.startswith("qu") else "lib"] for name in BELOW})
        self.assertEqual(self.left(), [])
        self.check_progress(error.splitlines())
        for name in ("./qu", "./qu-letters"):
            self.assertEqual(self.room.run(name)[1:], ("this is proved\n\n", ""))

    def check_progress(self, told):
        found = [TOLD.fullmatch(line) for line in told if "is proved; " in line]
        self.assertEqual(len(found), len(BELOW))
        self.assertEqual([(it[2], it[3]) for it in found], [(str(at), "5") for at in range(1, 6)])
        self.assertTrue(all(BELOW[it[1]] <= {one[1] for one in found[:at]} for at, it in enumerate(found)))
        # Two for each library, three for each program.
        self.assertEqual(found[-1][4], "12")
        self.assertEqual(told[-2:], [f"prove: the proved {name} stands in {self.room.top}/out/proved/{name}"
                                     for name in ("qu", "qu_letters")])

    def test_one_is_built_with_what_is_below_it_alone(self):
        self.assertEqual(self.room.run("./prove", "qu-letters")[0], 0)
        self.assertEqual([call.split()[0] for call in self.room.log()], ["low", "qu_letters"])
        self.assertEqual(os.path.exists(os.path.join(self.room.top, "out", "proved", "qu")), False)

    def test_what_fails_stops_all_above_it_and_is_told_with_its_log(self):
        status, _, error = self.room.run("./prove", FAILING="middle")
        self.assertEqual(status, 1)
        log = self.room.source("middle", "out/build.log")
        self.assertEqual(error.splitlines()[-1], f"prove: middle was not built; the log says why: {log}")
        self.assertIn("error: it is wrong", read(log))
        self.assertNotIn("qu", [call.split()[0] for call in self.room.log()])
        self.assertFalse(os.path.exists(os.path.join(self.room.top, "out", "proved", "qu")))

    def test_a_build_that_is_broken_off_ends_what_it_began(self):
        ran = self.room.begin("./prove", WAITING="low")
        self.room.wait_for()
        os.kill(ran.pid, signal.SIGTERM)
        ran.communicate()
        self.assertEqual(ran.returncode, 128 + signal.SIGTERM)
        most = time.monotonic() + 10
        while os.path.exists(f"/proc/{read(self.room.path('waits')).strip()}"):
            self.assertLess(time.monotonic(), most, "rt goes on")
            time.sleep(0.01)
        self.assertEqual(self.left(), [])

    def test_other_words(self):
        for words in (("qu", "qu-letters"), ("low",), ("",)):
            status, _, error = self.room.run("./prove", *words)
            self.assertEqual((status, error.split("  ")[0]), (2, "usage: ./prove [qu | qu-letters]"))
        status, _, error = self.room.run("tools/build", "qu", "none")
        self.assertEqual((status, error), (1, "tools/build: crates.txt has no crate none\n"))
        self.assertEqual(self.room.log(), [])


class Progress(unittest.TestCase):
    def setUp(self):
        self.tool = build_tool()
        self.build = self.tool.Build(["qu"])
        self.build.most = 4

    def test_the_line_of_a_terminal(self):
        logs = {"one": "checked a, 3 of 17 functions checked\nchecked b, 5 of 17 functions checked\n", "two": ""}
        self.build.text_of = logs.get
        self.build.running = {"two": 1, "one": 2}
        self.build.done, self.build.functions = {"low"}, 8
        self.assertEqual(
            self.build.line_of_now(),
            f"prove: 1 of {len(self.build.below)} crates, 8 functions, 0.0 minutes; now one 5/17, two")

    def test_the_longest_chain_has_the_processors_that_are_free(self):
        self.build.below = {"low": [], "high": ["low"], "small": [], "large": []}
        self.tool.weight_of = {"low": 5, "high": 60_000, "small": 7, "large": 30_000}.get
        self.assertEqual(self.build.above("low"), 60_005)
        self.build.running = {"large": 1}
        self.assertEqual([self.build.is_first(name) for name in ("low", "small")], [True, False])
        # Alone it has all processors but the one that is taken, and else two.
        self.assertEqual(self.build.jobs_of("low", True, 0), 3)
        self.assertEqual(self.build.jobs_of("low", True, 2), 2)
        # Beside it only a large crate has two.
        self.assertEqual([self.build.jobs_of(name, False, 0) for name in ("small", "large")], [1, 2])


if __name__ == "__main__":
    unittest.main()
