"""tools/expect, tools/state and tools/history: what happened in a run, what parties hold, and histories."""
import json
import os
import re
import subprocess
import sys
import tempfile
import unittest

from lines import TOOLS
from hunting.expected import looked_at, with_happenings
from hunting.happenings import happened
from hunting.histories import edn_lines, history_of, json_lines
from hunting.plain import front_of_text
from hunting.states import state_lines, world_behind
from model.listing import ListedWorld
from model.player import run_of
from model.report import report_lines
from model.values import Party

EXAMPLES = os.path.join(os.path.dirname(TOOLS), "examples")
SETUP = "bounds 1\nseed 7\nclients 2\nobject 0 counter\n"
FINISHED = SETUP + "call 1 add 0 5\nflow\n"
# What the worked rows of the page of examples say of a replica that misses an update, by the lines of the script.
CUT_OFF = SETUP + "hold 4\ncall 1 add 0 5\nflow\ntick 1\nflow\nlose\nfree 4\ncall 1 add 0 2\nflow\n"


def read_example(name):
    with open(os.path.join(EXAMPLES, name), "rb") as file:
        return file.read()


def listing_of(text):
    return "".join(f"{line}\n" for line in run_of(text.encode(), ListedWorld).lines()).encode()


def call(tool, text, *words, path=None):
    """The exit status, the standard output and the standard error of a tool for a script, and the script then."""
    with tempfile.TemporaryDirectory() as folder:
        path = path or os.path.join(folder, "script")
        if text is not None:
            with open(path, "w", encoding="ascii") as file:
                file.write(text)
        words = [path if word == "SCRIPT" else word for word in words]
        done = subprocess.run([os.path.join(TOOLS, tool), *words], capture_output=True, check=False)
        after = read_example(path).decode() if text is not None else ""
    return done.returncode, done.stdout.decode(), done.stderr.decode(), after


class Happenings(unittest.TestCase):
    def words(self, text):
        return {each.number: each.words for each in happened(text.encode())}

    def test_an_update(self):
        self.assertEqual({5: ["asks 1.1 round 1 act"],
                          6: ["asks 1.1 round 2 act", "point 1.1", "reply 1.1 5", "premises hold"]},
                         self.words(FINISHED))

    def test_a_replica_that_misses_an_update(self):
        self.assertEqual({
            5: [], 6: ["asks 1.1 round 1 act"], 7: ["asks 1.1 round 2 act", "point 1.1"], 8: [], 9: ["reply 1.1 5"],
            10: [], 11: [], 12: ["asks 1.2 round 1 act"],
            13: ["point 1.2", "waits r4", "found r4", "reply 1.2 7", "premises hold"]}, self.words(CUT_OFF))

    def test_rests_and_repairs(self):
        told = happened(read_example("rivals"))
        words = [words for each in told for words in each.words]
        rests = [each for each in words if each.startswith("rests")]
        self.assertEqual(["rests c1 1", "rests c2 1", "rests c2 4"], rests)
        self.assertIn("asks 1.2 round 2 mend 0", words)

    def test_what_has_no_end_and_what_is_refused(self):
        self.assertEqual(["open 1.1", "premises hold"], self.words(SETUP + "call 1 add 0 5\nflow 3\n")[6])
        self.assertEqual(["refused busy"], self.words(SETUP + "call 1 add 0 5\ncall 1 read 0\nflow\n")[6])
        self.assertEqual(["gaveup 1.1", "premises hold"], self.words(SETUP + "call 1 add 0 5\ntick 1 64\n")[6][-2:])

    def test_a_faulty_client(self):
        words = [words for each in happened(read_example("two-acts")) for words in each.words]
        self.assertIn("point 2.1 faulty add 0 5", words)

    def test_the_events_of_a_listing(self):
        other = listing_of(FINISHED).replace(b"with 5", b"with 6")
        self.assertIn("reply 1.1 6", happened(FINISHED.encode(), other)[-1].words)


class Expectations(unittest.TestCase):
    def faults(self, *lines):
        text = FINISHED + "".join(f"{line}\n" for line in lines)
        return looked_at(text, happened(text.encode()))

    def test_what_happens_is_expected(self):
        self.assertEqual([], self.faults("# expect reply 1.1 5", "# a comment", "  #  expect   point 1.1",
                                         "# expect no waits r4", "# expect premises hold"))

    def test_what_does_not(self):
        happens = "asks 1.1 round 2 act; point 1.1; reply 1.1 5; premises hold"
        self.assertEqual([f"line 7: reply 1.1 6 is expected at line 6, where this happens: {happens}",
                          f"line 8: point 1.1 is not expected at line 6, where this happens: {happens}"],
                         self.faults("# expect reply 1.1 6", "# expect no point 1.1"))

    def test_an_expectation_is_of_the_line_above_alone(self):
        text = SETUP + "# expect reply 1.1 5\ncall 1 add 0 5\n# expect reply 1.1 5\nflow\n"
        self.assertEqual(["line 5: nothing has happened so far that could be reply 1.1 5",
                          "line 7: reply 1.1 5 is expected at line 6, where this happens: asks 1.1 round 1 act"],
                         looked_at(text, happened(text.encode())))

    def test_what_is_written_is_met_and_the_run_stays(self):
        once = with_happenings(CUT_OFF, happened(CUT_OFF.encode()))
        told = happened(once.encode())
        self.assertEqual([], looked_at(once, told))
        self.assertEqual(once, with_happenings(once, told))
        self.assertEqual(listing_of(CUT_OFF), listing_of(once))
        self.assertEqual(9, sum(line == "# expect waits r4" or line.startswith("# expect")
                                for line in once.splitlines()) - 1)

    def test_the_examples_meet_what_they_expect(self):
        have = set()
        for name in sorted(name for name in os.listdir(EXAMPLES) if "." not in name and name != "cases"):
            data = read_example(name)
            have |= {name} if b"# expect " in data else set()
            self.assertEqual([], looked_at(data.decode(), happened(data)), name)
        # the commands of a page make the two that are missing
        names = {name for name in os.listdir(EXAMPLES) if "." not in name} - {"cases"}
        self.assertEqual({"two-acts", "torn"}, names - have)

    def test_the_command(self):
        status, written, told, after = call("expect", FINISHED + "# expect reply 1.1 6\n", "SCRIPT")
        self.assertEqual((1, ""), (status, told))
        self.assertRegex(written, r"script: line 7: reply 1\.1 6 is expected at line 6")
        status, written, _, after = call("expect", FINISHED + "# expect reply 1.1 6\n", "--write", "SCRIPT")
        self.assertEqual((0, ""), (status, written))
        self.assertTrue(after.endswith("flow\n# expect asks 1.1 round 2 act\n# expect point 1.1\n# expect reply 1.1 5\n"
                                       "# expect premises hold\n"), after)
        self.assertEqual((0, "", ""), call("expect", after, "SCRIPT")[:3])
        self.assertEqual((3, "", "expect: line 1: expected bounds\n"), call("expect", "hello\n", "SCRIPT")[:3])
        self.assertEqual(4, call("expect", None, "/no-such-file")[0])
        self.assertEqual(2, call("expect", None, "--bogus")[0])


class States(unittest.TestCase):
    def lines(self, text, event, kind, number):
        return state_lines(world_behind(text.encode(), event), Party(kind, number))

    def test_a_replica_at_first_and_behind_an_update(self):
        fresh = ["object 0, a counter, history of 1:", "  opening", "    version counter 0"]
        self.assertEqual(fresh, self.lines(FINISHED, 0, "r", 0))
        lines = self.lines(FINISHED, 14, "r", 0)
        self.assertEqual(["object 0, a counter, history of 2:", *fresh[1:]], lines[:3])
        self.assertRegex(lines[3], r"\A  time 1 of client 1 \(act [0-9a-f]{6}, sets [0-9a-f]{6}\) on opening\Z")
        self.assertEqual(["    version counter 5", "    keeps of client 1 update 1.1, answered 5"], lines[4:])
        self.assertEqual(fresh, self.lines(FINISHED, 13, "r", 0))

    def test_a_request_that_waits(self):
        # event 28 brings the second update to replica 4; two answers that are alike are found at event 39
        lines = self.lines(read_example("cut-off").decode(), 28, "r", 4)
        self.assertEqual("waits: request 1.2 round 1, act, object 0 shown by 0 1 2 3 5", lines[3])
        self.assertRegex(lines[4], r"\A    lacks object 0 at time 1 of client 1 ")
        self.assertRegex(lines[5], r"\Afetches object 0 at time 1 of client 1 \(.*\), answered by none so far\Z")
        self.assertRegex(self.lines(read_example("cut-off").decode(), 38, "r", 4)[5], "answered by [0-9]")
        lines = self.lines(read_example("cut-off").decode(), 39, "r", 4)
        self.assertEqual([], [line for line in lines if line.startswith(("waits", "fetches"))])
        self.assertIn("    version counter 7", lines)

    def test_links_and_groups(self):
        lines = self.lines(read_example("transfer").decode(), 23, "r", 0)
        self.assertTrue(any(line.endswith("on opening, with object 0 at 1, object 1 at 1") for line in lines), lines)
        self.assertTrue(any(line.startswith("    link to object 1 at time 1 of client 1 (") for line in lines), lines)

    def test_a_client(self):
        lines = self.lines(FINISHED, 12, "c", 1)
        self.assertEqual(["operation 1.1 add 0 5, round 2",
                          "asked replicas 0 1 2 3 4: request 1.1 round 2, act, object 0 shown by 0 1 2 3 4",
                          "object 0, histories of 5 replicas, class METHOD, latest opening:",
                          "  replica 0, told in 1.1 round 1:", "    opening"], lines[:5])
        self.assertEqual("no operation, 1 so far", self.lines(FINISHED, 99, "c", 1)[0])
        rivals = self.lines(read_example("rivals").decode(), 72, "c", 1)
        self.assertEqual("operation 1.2 add 0 1, round 2", rivals[0])
        self.assertRegex(rivals[2], r"\Aobject 0, histories of 6 replicas, class barrier, latest time 1 of client 2 \(")
        rests = self.lines(read_example("rivals").decode(), 70, "c", 2)
        self.assertEqual("operation 2.2 add 0 1, round 1, rests 1 tick", rests[0])
        self.assertEqual(5, sum(" replied: " in line for line in rests))

    def test_an_entry_that_is_left_out(self):
        lines = self.lines(read_example("left-out").decode(), 60, "c", 1)
        left_out = [line for line in lines if line.endswith(", left out:")]
        self.assertRegex(" ".join(left_out), r"\A  replica 5, told in 1\.\d+ round \d+, left out:\Z")

    def test_the_command(self):
        status, written, told, _ = call("state", FINISHED, "SCRIPT", "13", "r0")
        self.assertEqual((0, "by the model: replica 0 behind event 13", ""), (status, written.splitlines()[0], told))
        for words, said in ((("SCRIPT", "99", "r0"), "state: the run has 23 events\n"),
                            (("SCRIPT", "1", "r6"), "state: the setup has no party r6\n"),
                            (("SCRIPT", "1", "x0"), "state: x0 is no party: r0, c1\n")):
            self.assertEqual((3, "", said), call("state", FINISHED, *words)[:3])
        faulty = SETUP + "faulty replica 5\ncall 1 read 0\n"
        self.assertEqual((3, "", "state: r5 is faulty: it has no state of its own\n"),
                         call("state", faulty, "SCRIPT", "1", "r5")[:3])
        self.assertEqual(2, call("state", FINISHED, "SCRIPT", "r0", "1")[0])
        self.assertEqual(4, call("state", None, "/no-such-file", "1", "r0")[0])


class Histories(unittest.TestCase):
    def entries(self, text):
        return history_of(listing_of(text))

    def test_an_update(self):
        self.assertEqual([
            {"type": "invoke", "process": 1, "f": "txn", "operation": "1.1", "event": 1, "value": [["add", 0, 5]]},
            {"type": "ok", "process": 1, "f": "txn", "operation": "1.1", "event": 23, "value": [["add", 0, 5, 5]]},
        ], self.entries(FINISHED))

    def test_what_each_kind_asks_and_tells(self):
        text = ("bounds 1\nseed 7\nclients 1\nobject 0 blob\nobject 1 dir\n"
                "call 1 put 0 31 + link 1 12 34\nflow\ncall 1 cat 0 + list 1\nflow\ncall 1 find 1 12\nflow\n"
                "call 1 unlink 1 b%20c\nflow\ncall 1 cat 1\nflow\n")
        entries = self.entries(text)
        self.assertEqual([
            [["put", 0, "31", 1], ["link", 1, "12", 34, 1]], [["cat", 0, "31"], ["list", 1, "12=34"]],
            [["find", 1, "12", 34]], [["unlink", 1, "b%20c"]], [["cat", 1]]],
            [entry["value"] for entry in entries if entry["type"] == "ok"])
        refused = [entry["refused"] for entry in entries if "refused" in entry]
        self.assertEqual([["missing", 0], ["wrong kind", 0]], refused)
        self.assertIn(':value [[:cat 1]], :refused [:wrong-kind 0]}', edn_lines(entries)[-1])

    def test_behind_what_is_given_up_another_process_goes_on(self):
        entries = self.entries(SETUP + "call 1 add 0 5\ntick 1 64\nlose\ncall 1 read 0\nflow\n")
        self.assertEqual([("invoke", 1), ("info", 1), ("invoke", 65), ("ok", 65)],
                         [(entry["type"], entry["process"]) for entry in entries])

    def test_updates_of_faulty_clients(self):
        entries = history_of(listing_of(read_example("two-acts").decode()))
        self.assertEqual([("invoke", 100_000, 0), ("info", 100_000, 0)],
                         [(entry["type"], entry["process"], entry["event"]) for entry in entries[:2]])

    def test_forms(self):
        entries = self.entries(FINISHED.replace("5", "18446744073709551615"))
        self.assertEqual([0, 1], [json.loads(line)["index"] for line in json_lines(entries)])
        self.assertEqual('{:index 0, :time 1, :type :invoke, :process 1, :f :txn, :operation "1.1", '
                         ':value [[:add 0 18446744073709551615N]]}', edn_lines(entries)[0])

    def test_the_command(self):
        status, written, told, _ = call("history", FINISHED, "SCRIPT")
        self.assertEqual((0, "", 2), (status, told, len(written.splitlines())))
        self.assertEqual(written, call("history", FINISHED, "--json", "SCRIPT")[1])
        self.assertTrue(call("history", FINISHED, "--edn", "SCRIPT")[1].startswith("{:index 0, "))
        self.assertEqual((3, "", "history: line 1: expected bounds\n"), call("history", "hello\n", "SCRIPT")[:3])
        self.assertEqual(4, call("history", None, "/no-such-file")[0])
        self.assertEqual(2, call("history", FINISHED, "--json", "--edn", "SCRIPT")[0])


class Page(unittest.TestCase):
    """docs/exploring.md has what its commands write."""

    @classmethod
    def setUpClass(cls):
        with open(os.path.join(os.path.dirname(TOOLS), "docs", "exploring.md"), encoding="ascii") as file:
            cls.blocks = [re.sub("(?m)^    ", "", block) for block in re.findall(r"(?m)(?:^    .*\n)+", file.read())]

    def block(self, start):
        return next(block for block in self.blocks if block.startswith(start))

    def test_the_walk_through(self):
        with tempfile.TemporaryDirectory() as folder:
            os.symlink(TOOLS, os.path.join(folder, "tools"))
            commands = ["sh", "-e", "-c", self.block("cat > rests")]
            path = os.pathsep.join((os.path.dirname(sys.executable), os.environ["PATH"]))
            there = {"cwd": folder, "env": {**os.environ, "PATH": path}}
            done = subprocess.run(commands, **there, capture_output=True, check=True)
            with open(os.path.join(folder, "rests.plain"), "rb") as file:
                script = file.read()
        self.assertEqual(self.block("# expect asks 1.1 round 1 act"), done.stdout.decode())
        state = self.block("by the model: client 1 behind event 54").splitlines()[1:]
        self.assertEqual(state, state_lines(world_behind(script, 54), Party("c", 1))[:len(state)])

    def test_a_lie_without_a_rest(self):
        lines = [f"inject replica 0 to client 1 reply 1.1 round {number} thin 0\nflow" for number in range(1, 65)]
        setup = SETUP + "faulty replica 0\ncall 1 add 0 5\n"
        self.assertIn("gaveup 1.1", report_lines(front_of_text(setup + "\n".join(lines)).world))
        lines[3:] = ["tick 1", lines[3]]
        self.assertIn("reply 1.1 5", report_lines(front_of_text(setup + "\n".join(lines)).world))

    def test_a_state(self):
        lines = state_lines(world_behind(read_example("cut-off"), 28), Party("r", 4))
        self.assertEqual(self.block("by the model: replica 4 behind event 28").splitlines()[1:], lines)

    def test_entries_of_histories(self):
        entries = history_of(listing_of(read_example("transfer").decode()))
        lines = json_lines(entries) + edn_lines(entries)
        for start in ('{"index": 0', "{:index 0"):
            self.assertLessEqual(set(self.block(start).splitlines()), set(lines))


if __name__ == "__main__":
    unittest.main()
