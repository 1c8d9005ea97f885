"""tools/script: lines in which letters have names, and networks that are parted or late."""
import os
import subprocess
import unittest

from lines import TOOLS
from hunting.front import Front, Unplayable
from hunting.plain import front_of_text
from model.player import run_of
from model.report import report_lines

SETUP = ["bounds 1", "seed 7", "clients 2", "object 0 counter"]
SCRIPT = os.path.join(TOOLS, "script")


def front(*lines, setup=SETUP):
    made = Front(setup)
    for line in lines:
        made.take(line)
    return made


def script(text, *words):
    """The exit status, the standard output and the standard error of tools/script."""
    done = subprocess.run([SCRIPT, *words], input=text.encode(), capture_output=True, check=False)
    return done.returncode, done.stdout.decode(), done.stderr.decode()


class Names(unittest.TestCase):
    def test_requests_and_replies(self):
        made = front("call 1 add 0 5", "flow")
        names = [made.names.name(number) for number in (1, 6, 7, 13, 22)]
        self.assertEqual(["1.1/1>r0", "1.1/1>r5", "r0>1.1/1", "1.1/2>r0", "r4>1.1/2"], names)
        self.assertEqual([1, 13, 22, None], [made.names.number(name) for name in (
            "1.1/1>r0", "1.1/2>r0#1", "r4>1.1/2", "r5>1.1/2")])

    def test_the_second_letter_of_a_name(self):
        made = front("call 1 add 0 5", "flow", "deliver 1.1/2>r0 1.1/2>r0")
        self.assertEqual(["r0>1.1/2#2", "r0>1.1/2#3"], [made.names.name(number) for number in (23, 24)])
        self.assertEqual(made.lines[-1], "deliver 13 13")

    def test_versions(self):
        made = front("hold 4", "call 1 add 0 5", "flow", "tick 1", "flow", "lose", "free 4", "call 1 add 0 2", "flow")
        self.assertEqual(["r4>r0?0@1", "r0>r4!0@1"], [made.names.name(number) for number in (32, 37)])

    def test_a_letter_that_an_earlier_one_on_its_line_brings_about(self):
        made = front("call 2 read 0", "deliver 2.1/1>r3 r3>2.1/1")
        self.assertEqual("deliver 4 7", made.lines[-1])

    def test_the_plain_script_runs_alike(self):
        made = front("call 1 add 0 5", "deliver 1.1/1>r5 1.1/1>r0", "flow 3", "call 2 read 0", "flow")
        self.assertEqual(report_lines(made.world), report_lines(run_of("\n".join(made.lines).encode())))


class Networks(unittest.TestCase):
    def test_a_partition_keeps_letters_between_its_parts(self):
        made = front("partition c1 r0 r1 | c2 r2 r3 r4 r5", "call 1 add 0 5", "flow")
        self.assertEqual("deliver 1 2 7 8", made.lines[-1])
        made.take("call 2 read 0")
        made.take("flow")
        self.assertEqual("deliver 11 12 13 14 15 16 17 18", made.lines[-1])
        made.take("heal")
        made.take("flow")
        self.assertEqual(["# heal", "flow"], made.lines[-2:])
        self.assertIn((1, 1), made.world.ends)

    def test_parties_that_no_part_names_hear_all(self):
        made = front("partition r0 | r1 r2", "call 1 add 0 5", "flow")
        self.assertIn((1, 1), made.world.ends)

    def test_a_late_letter_comes_once_so_many_events_were_made(self):
        made = front("delay c1>r0 4", "call 1 add 0 5", "flow")
        # its request was sent at event 1, so that four others come first
        self.assertEqual("deliver 2 3 4 5 1 6", " ".join(made.lines[-1].split()[:7]))
        made = front("delay c1>r0 100", "call 1 add 0 5", "flow")
        taken = made.lines[-1].split()
        self.assertGreater(taken.index("1"), taken.index("17"))
        self.assertIn((1, 1), made.world.ends)

    def test_held_replicas_stay_held(self):
        made = front("hold 0", "delay c1>r1 1", "call 1 add 0 5", "flow")
        self.assertNotIn("1", made.lines[-1].split())


class Injected(unittest.TestCase):
    def test_words_of_a_frame_upon_the_letters_so_far(self):
        setup = [*SETUP, "faulty client 2"]
        letters = " ".join(f"replica {each} in letter r{each}>1.1/2" for each in range(5))
        words = f"request 2.1 act add 0 5 object 0 shown by 0 1 2 3 4 {letters}"
        sent = [f"inject client 2 to replica {number} {words}" for number in range(5)]
        made = front("call 1 read 0", "flow", *sent, "call 1 read 0", "flow", "wake 1", "flow", setup=setup)
        self.assertTrue(made.lines[-5].startswith("inject replica 4 0101"), made.lines[-5])
        self.assertIn("reply 1.2 5", report_lines(made.world))

    def test_what_a_faulty_replica_showed_may_be_shown_again(self):
        setup = [*SETUP, "faulty replica 5", "faulty client 2"]
        made = front("call 1 read 0", "flow", "call 1 add 0 1", "fake 5 1 show 0",
                     "inject client 2 to replica 0 request 2.1 act add 0 5 object 0 shown by 0 1 2 3 5", setup=setup)
        self.assertIn("premises hold", report_lines(made.world))
        with self.assertRaisesRegex(Unplayable, "no letter shows object 0 of replica 4"):
            front("inject client 2 to replica 0 request 2.1 act add 0 5 object 0 shown by 4", setup=setup)


class Wrong(unittest.TestCase):
    def test_lines_that_cannot_stand(self):
        for line, why in (
                ("deliver 1.1/1>r9", "there is no letter 1.1/1>r9 so far"), ("deliver 99", "no such letter"),
                ("call 3 read 0", "no such actor"), ("call 1 read 0", "busy"), ("partition r0", "two parts or more"),
                ("partition r0 | r0", "r0 is named twice"), ("partition r0 | r9", "the setup has no party r9"),
                ("partition r0 | x", "x is no party"), ("heal now", "heal has no words"),
                ("delay c1>r0", "delay is told as"), ("delay c1>c9 3", "the setup has no party c9"),
                ("inject client 1 to replica 0 reply", "there could stand")):
            with self.assertRaisesRegex(Unplayable, why, msg=line):
                front("call 1 read 0", line)

    def test_the_line_is_told(self):
        with self.assertRaisesRegex(Unplayable, "line 6: there is no letter r0>1.1/1 so far"):
            front_of_text("\n".join(["# hello", *SETUP, "deliver r0>1.1/1"]))


class Command(unittest.TestCase):
    def test_a_script(self):
        text = "\n".join(["# A client reads.", *SETUP, "call 1 read 0", "", "deliver 1.1/1>r2"])
        self.assertEqual((0, text.replace("1.1/1>r2", "3") + "\n", ""), script(text))
        self.assertEqual((0, "1 1.1/1>r0", "7 r2>1.1/1"),
                         (lambda told: (told[0], *told[1].splitlines()[::6]))(script(text, "--names")))

    def test_refused(self):
        self.assertEqual((3, "", "line 1: expected bounds\n"), script("hello\n"))
        self.assertEqual((3, "", "line 5: there is no letter 1.1/1>r0 so far\n"),
                         script("\n".join([*SETUP, "deliver 1.1/1>r0"])))
        self.assertEqual(2, script("", "--bogus")[0])
        self.assertEqual(4, script("", "/no-such-file")[0])


if __name__ == "__main__":
    unittest.main()
