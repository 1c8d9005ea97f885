"""tools/answers as a command, and what the model makes of stored cases and examples."""
import contextlib
import importlib.machinery
import importlib.util
import io
import os
import subprocess
import unittest
from unittest import mock

from lines import TOOLS
from model.cases import names_for, read_case
from model.listing import ListedWorld
from model.player import run_of
from model.report import report_lines
from model.world import Refused

EXAMPLES = os.path.join(os.path.dirname(TOOLS), "examples")
# Topics that take a second or so each.
TOPICS = ("whole", "parts", "client", "fetching", "repairs", "kinds", "bad-scripts", "language", "generated", "acts",
          "states", "verdicts", "frames")
BUSY = b"bounds 1\nseed 7\nclients 1\nobject 0 counter\ncall 1 read 0\ncall 1 read 0\n"
READ = BUSY[:-len(b"call 1 read 0\n")]


def answers():
    """The program tools/answers as a module."""
    loader = importlib.machinery.SourceFileLoader("answers", os.path.join(TOOLS, "answers"))
    module = importlib.util.module_from_spec(importlib.util.spec_from_loader("answers", loader))
    loader.exec_module(module)
    return module


def run(data, *words):
    """The exit status, the standard output and the standard error of tools/answers, run as a module."""
    program, written, told = answers(), io.StringIO(), io.StringIO()
    with mock.patch("sys.argv", ["answers", *words]), mock.patch("sys.stdin", io.TextIOWrapper(io.BytesIO(data))):
        with contextlib.redirect_stdout(written), contextlib.redirect_stderr(told):
            return program.main(), written.getvalue(), told.getvalue()


def compared(topic, program):
    """Whether the answers of a topic are the stored ones, and what is printed of it."""
    with contextlib.redirect_stdout(io.StringIO()) as written:
        return program.compare(topic), written.getvalue()


def read_example(name):
    with open(os.path.join(EXAMPLES, name), "rb") as file:
        return file.read()


class Stored(unittest.TestCase):
    def test_the_model_gives_the_stored_answers(self):
        program = answers()
        for topic in TOPICS:
            is_same, written = compared(topic, program)
            self.assertTrue(is_same, written)
            self.assertRegex(written, rf"\A{topic}: [1-9]\d* agree, 0 not known\n\Z")

    def test_a_fault_of_the_model_is_seen(self):
        with mock.patch("model.client.trimmed", lambda entries, bounds: entries):
            is_same, written = compared("client", answers())
        self.assertFalse(is_same)
        self.assertRegex(written, r" events: line \d+ is not as stored\n  model  .*\n  stored .*\n")
        self.assertRegex(written, r"\nclient: \d+ agree, [1-9]\d* differ, 0 not known\n\Z")

    def test_the_model_gives_the_reports_of_the_examples(self):
        names = sorted(name for name in os.listdir(EXAMPLES) if name.endswith(".report"))
        self.assertIn("one-client.report", names)
        for name in names:
            try:
                written = "".join(f"{line}\n" for line in report_lines(run_of(read_example(name[:-len(".report")]))))
            except Refused as refused:
                written = f"{refused}\n"
            self.assertEqual(read_example(name).decode(), written, name)

    def test_the_model_gives_the_listings_of_the_examples(self):
        names = sorted(name for name in os.listdir(EXAMPLES) if name.endswith(".letters"))
        self.assertIn("one-client.letters", names)
        for name in names:
            world = run_of(read_example(name[:-len(".letters")]), ListedWorld)
            lines = [f"    {line}" for line in world.lines()]
            self.assertTrue(read_example(name).decode().splitlines() == lines, f"{name} is another one")


class Command(unittest.TestCase):
    def test_as_a_command(self):
        words = [os.path.join(TOOLS, "answers"), "sim"]
        done = subprocess.run(words, input=BUSY, capture_output=True, check=False)
        self.assertEqual((3, b"", b"line 6: busy\n"), (done.returncode, done.stdout, done.stderr))

    def test_where_nobody_reads(self):
        reader, writer = os.pipe()
        os.close(reader)
        words = [os.path.join(TOOLS, "answers"), "letters"]
        done = subprocess.run(words, input=READ, stdout=writer, stderr=subprocess.PIPE, check=False)
        os.close(writer)
        self.assertEqual((5, b""), (done.returncode, done.stderr))

    def test_lines_of_a_script(self):
        for word, first, count in (
                ("sim", "bounds b 1 n 6 q 5 r 3", 5), ("letters", "1 1 c1 r0 54 ", 6), ("order", "", 0),
                ("bytes", "1 1 c1 r0 54 01010001000000000000000101010000000201000001", 6)):
            status, written, told = run(READ, word)
            self.assertEqual((0, ""), (status, told))
            self.assertTrue(written.startswith(first), written)
            self.assertEqual(count, len(written.splitlines()), written)

    def test_the_answer_to_an_input(self):
        setup, call = READ.decode().split("call")
        self.assertEqual((0, "event 1 inject 0 bytes to replica 0, ignored\n", ""),
                         run(f"{setup}\ninject r0\n".encode(), "listed"))
        status, written, _ = run(f"{setup}\ncall{call}call{call}".encode(), "events")
        self.assertEqual((0, ["Busy", "points", "serial"]), (status, written.splitlines()[-3:]))
        self.assertEqual((0, "usage: qu-letters [digests | bytes]\nstatus 2\n", ""), run(b"", "qu-letters", "sim"))

    def test_the_answer_to_bytes(self):
        act = b"01 0005 03 0002 6869"
        self.assertEqual((0, " put 5 6869\n", ""), run(act, "decode", "act"))
        self.assertEqual((0, " put 5 6869\nshort at 0 1 3 4 6\nand a byte:  put 5 6869 to 8\n", ""),
                         run(act, "exact", "act"))
        changes = b"\nat 3 05\nat 4 each\n"
        self.assertEqual(
            (0, " put 5 6869\n3 05: Short at 5\n4 from 00:  put 5 6869\n4 from 01: Short at 6\n4 from 10: Range at 4\n",
             ""), run(act + changes, "changes", "act"))

    def test_the_answer_of_a_stored_case(self):
        status, written, _ = run(b"", "--answer", "orders", "race")
        self.assertEqual((0, "== race order"), (status, written.splitlines()[0]))

    def test_a_refused_script(self):
        self.assertEqual((3, "", "line 6: busy\n"), run(BUSY, "sim"))
        self.assertEqual((3, "", "line 4: unknown word\n"), run(BUSY.replace(b"counter", b"text"), "letters"))

    def test_what_the_model_does_not_know(self):
        setup = READ[:READ.index(b"call")]
        for words, data, why in (
                (["hmac"], b"00", "the model does not know the command hmac"),
                (["decode", "word"], b"00", "no part of a frame: word"),
                (["injected"], BUSY, "line 6: busy"),
                (["events"], setup + b"\nhold 1\n", "no line for events: hold 1"),
                (["events"], setup + b"\ninject x1 00\n", "no party: x1"),
                (["events"], setup + b"\ninject r1 0\n", "no bytes: 0"),
                (["events"], setup + b"\nsend r1 00\n", "a frame that the model does not read")):
            self.assertEqual((3, "", f"answers: no answer: {why}\n"), run(data, *words), words)

    def test_wrong_words(self):
        for words in ([], ["--topics", "no-topic"], ["--answer", "orders"], ["--answer", "orders", "no-case"],
                      ["--answer", "no-topic", "race"], ["--bogus"]):
            status, written, told = run(b"", *words)
            self.assertEqual((2, ""), (status, written), words)
            self.assertIn("usage: tools/answers", told, words)

    def test_an_answer_that_differs_is_told(self):
        program = answers()
        asked = f"name qu-letters\n# A reason.\n{READ.decode()}----\nevent 1\nstatus 0\n"
        cases = [read_case(asked), read_case(asked.replace("qu-letters", "hmac"))]
        with mock.patch.object(program, "read_topic", lambda topic: (cases, names_for())):
            with contextlib.redirect_stdout(io.StringIO()) as written:
                self.assertEqual(1, program.run(["--topics", "letters"]))
        self.assertEqual([
            "name qu-letters: line 1 is not as stored", "  model  event 1 call 1.1 read 0, asks all",
            "  stored event 1", "letters: 0 agree, 1 differ, 1 not known"], written.getvalue().splitlines())


if __name__ == "__main__":
    unittest.main()
