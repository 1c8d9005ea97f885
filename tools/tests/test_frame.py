"""tools/frame: what it makes is what parties send, where its words say so; wrong words; the commands of its page."""
import io
import os
import re
import subprocess
import sys
import tempfile
import unittest
from unittest import mock

from lines import TOOLS
from making.frames import Making
from making.letters import Lacking, Letters
from making.words import Words, WrongWord
from model.keys import act_digest
from model.listed_frames import listed_frame, listed_party, listed_stamp
from model.player import run_of
from model.reading import decode
from model.report import answer_words, byte_lines, item_words, listing_words, operation_words
from model.values import (
    DIR, NO_DIGEST, OPENING, TOO_LONG, Body, Fetched, Items, KeptRow, Part, Party, RefusedPart, Reply, Request, State)

TOP = os.path.dirname(TOOLS)
EXAMPLES = os.path.join(TOP, "examples")
PAGE = os.path.join(TOP, "docs", "faulty-parties.md")
# Of each example the number of a letter, and words that make it of the letters before it.
KNOWN = {
    "one-client": [
        (1, "client 1 to replica 0: request 1.1 round 1, act add 0 5, object 0 shown by none"),
        (6, "client 1 to replica 5: request 1.1 act add 0 5"),
        (12, "replica 5 to client 1: reply 1.1 round 1, thin 0, shows object 0"),
        (16, "client 1 to replica 3: request 1.1 round 2, act add 0 5, object 0 shown by 0 1 2 3 4"),
        (22, "replica 4 to client 1: reply 1.1 round 2, done 5, object 0 at time 1 of client 1, "
             "shows object 0 as replica 3"),
        (24, "client 1 to replica 1: request 1.2 round 1, act add 0 2, object 0 shown by 0 1 2 3 4 5"),
        (32, "replica 4 to client 1: reply 1.2 round 1, done 7, object 0 at time 2 of client 1, "
             "shows object 0 as replica 0")],
    "rivals": [
        (13, "client 1 to replica 0: request 1.1 round 2, query read 0, object 0 shown by 0 1 2 3 4"),
        (13, "client 1 to replica 0: request 1.1 round 2, ask read 0, object 0 shown by 4 3 2 1 0"),
        (22, "replica 4 to client 1: reply 1.1 round 2, told 0, object 0 at opening, shows object 0"),
        (72, "client 1 to replica 5: request 1.2 round 2, mend object 0, object 0 shown by 0 1 2 3 4 5 "
             "replica 5 in letter 12"),
        (75, "replica 2 to client 1: reply 1.2 round 2, mended 0 at barrier 2 of client 1, "
             "shows object 0 as replica 0"),
        (88, "replica 3 to replica 0: fetch object 0 at time 1 of client 1")],
    "cut-off": [
        (38, "replica 1 to replica 4: fetched object 0 at time 1 of client 1, counter 5, kept 1.1 add 0 5 with 5")],
}


# Words, and what is told of them, with a colon for `; there could stand`.
WRONG = [
    ("", "no word at first: `client` or `replica`"),
    ("client 3", "`3` behind `client`: a client (1 to 2)"),
    ("client 1 tow", "`tow` behind `client 1`: `to`"),
    ("client 1 to client 2", "`client` behind `client 1 to`: `replica`"),
    ("client 1 to replica 6", "`6` behind `client 1 to replica`: a replica (0 to 5)"),
    ("client 1 to replica 0 request 2.1",
     "`2.1` behind `to replica 0 request`: the number of an operation of client 1, as in `1.1`"),
    ("client 1 to replica 0 request 1.1 red",
     "`red` behind `replica 0 request 1.1`: `round` or `act` or `ask` or `query` or `mend`"),
    ("client 1 to replica 0 request 1.1 ask add 0 5",
     "`add` behind `0 request 1.1 ask`: `read` or `cat` or `find` or `list`"),
    ("client 1 to replica 0 request 1.1 act add 0 5 6", "`6` behind `act add 0 5`: `+` or `object`"),
    ("client 1 to replica 0 request 1.1 act add 0 5 + read 1",
     "`read` behind `add 0 5 +`: `add` or `take` or `put` or `append` or `link` or `unlink`"),
    ("client 1 to replica 0 request 1.1 act add 0 5 + add 0 5",
     "these words make no frame that a party could read: Order at 30"),
    ("replica 1 to client 1 reply 1.1 done",
     "no word behind `1 reply 1.1 done`: `over` or `under` or `too long` or `exists` or `missing` or `bad name` or "
     "`full` or `wrong kind` or `bytes` or `listing` or a number (0 to 18446744073709551615)"),
    ("replica 1 to client 1 reply 1.1 not of class METHOD 0 but odd",
     "`odd` behind `class METHOD 0 but`: `inline method` or `copy` or `inline barrier` or `barrier` or `needs`"),
    ("client 1 to replica 0 request 1.1 act add 0 5 object 1 shown by none",
     "these words make no frame that a party could read: Range at 19"),
]
SETUP = b"bounds 1\nseed 7\nclients 2\nobject 0 counter\n"


def read_example(name):
    with open(os.path.join(EXAMPLES, name), "rb") as file:
        return file.read()


def run_of_example(name):
    return run_of(read_example(name))


def making(world, before=None):
    """What makes frames of the letters of a run below this number, or of all."""
    lines = byte_lines(world)[:None if before is None else before - 1]
    return Making(world.setup, Letters(io.BytesIO("".join(f"{line}\n" for line in lines).encode())))


def made(words, world=None, before=None):
    """What words make of the letters of a run."""
    return making(world or run_of(SETUP), before).make(Words(words))


def frame(script, words, data=b""):
    """The exit status, the standard output and the standard error of tools/frame."""
    done = subprocess.run([os.path.join(TOOLS, "frame"), script, *words.split()], input=data, capture_output=True,
                          check=False)
    return done.returncode, done.stdout.decode(), done.stderr.decode()


# ---- a letter of a run as words that make it anew


def whole_stamp(stamp):
    """A stamp with its digests."""
    digests = "" if stamp == OPENING else f" act {stamp.act.hex() or '-'} sets {stamp.sets.hex()}"
    return listed_stamp(stamp) + digests


def whole_item(item):
    """An item with the word for what it is."""
    if isinstance(item, int):
        return str(item)
    return f"bytes {item_words(item)}" if isinstance(item, bytes) else f"listing {listing_words(item)}"


def whole_answer(answer):
    """An answer whose items have the words for what they are."""
    return " + ".join(map(whole_item, answer.items)) if isinstance(answer, Items) else answer_words(answer)


def shown_in(world):
    """The number of the first letter that shows a history, by its HMACs."""
    shown = {}
    for number, (_, letter) in enumerate(world.letters, 1):
        for entry in getattr(decode(letter.text), "shown", ()):
            shown.setdefault(entry.hmacs, number)
    return shown


def kept_words(state, acts):
    """What a version keeps, where `acts` have the operations of updates by their digests."""
    return "".join(f", kept {client}.{row.number} {operation_words(acts[row.act])} with {whole_answer(row.answer)}"
                   for client, row in state.kept)


def whole_words(number, letter, shown, acts):
    """Words that make a letter, or None where a history in it was shown in no letter."""
    said = decode(letter.text)
    with mock.patch("model.listed_frames.listed_stamp", whole_stamp), \
            mock.patch("model.listed_frames.answer_words", whole_answer):
        words = f"{listed_party(letter.sender)} to {listed_party(letter.receiver)}: {listed_frame(said)}"
    if isinstance(said, Reply):
        own = rf"\1 as replica {said.replica} in letter {number}"
        words = re.sub(r"(shows object \d+) with \d+ candidates?", own, words)
    elif isinstance(said, Fetched):
        links = "".join(f", link {known} at {whole_stamp(stamp)}" for known, stamp in said.state.links)
        words = re.sub(r", \d+ clients?, \d+ links?\Z", kept_words(said.state, acts) + links, words)
    elif isinstance(said, Request):
        words = re.sub(r", (act|query),", rf", \1 {operation_words(said.body)},", words)
        entries = [entry for part in said.sets for entry in part.entries]
        if not all(entry.hmacs in shown for entry in entries):
            return None
        words += "".join(f", replica {entry.history.replica} in letter {shown[entry.hmacs]}" for entry in entries)
    return words


class Made(unittest.TestCase):
    def test_words_make_letters_of_the_examples(self):
        for name, known in KNOWN.items():
            world = run_of_example(name)
            for number, words in known:
                self.assertEqual(world.letter(number).text.hex(), made(words, world, number).hex(), (name, words))

    def test_each_letter_of_some_examples(self):
        for name, most_left in (("rivals", 0), ("cut-off", 0), ("left-out", 5), ("refused", 0), ("files", 40)):
            world = run_of_example(name)
            maker, shown, left = making(world), shown_in(world), 0
            acts = {act_digest(said.client, said.number, said.body): said.body
                    for said in (decode(letter.text) for _, letter in world.letters)
                    if isinstance(said, Request) and said.body.kind == "act"}
            for number, (_, letter) in enumerate(world.letters, 1):
                words = whole_words(number, letter, shown, acts)
                left += words is None
                if words is not None:
                    self.assertEqual(letter.text.hex(), maker.make(Words(words)).hex(), (name, words))
            self.assertLessEqual(left, most_left, name)

    def test_a_version(self):
        words = ("replica 5 to replica 4: fetched object 2 at opening, dir etc=7,a%20b=1, kept 3.4 put 1 68 with 1, "
                 "kept 1.1 link 2 etc 7 with too long at 0, link 1 at opening")
        acts = (Body("act", (Part(2, "link", (b"etc", 7)),)), Body("act", (Part(1, "put", (b"h",)),)))
        rows = ((1, KeptRow(1, act_digest(1, 1, acts[0]), RefusedPart(0, TOO_LONG))),
                (3, KeptRow(4, act_digest(3, 4, acts[1]), Items((1,)))))
        state = State(DIR, ((b"a b", 1), (b"etc", 7)), rows, ((1, OPENING),))
        self.assertEqual(Fetched(5, 2, OPENING, state), decode(made(words)))

    def test_the_requests_of_the_faulty_client(self):
        world = run_of_example("faulty-client")
        lines = [line.split() for line in read_example("faulty-client").decode().splitlines() if line.startswith("inj")]
        for (_, _, replica, text), shown in zip(lines, 5 * [""] + 6 * [" object 0 shown by 0 1 2 3 4"], strict=True):
            asked_in = 2 if shown else 1
            words = f"client 2 to replica {replica} request 2.1 round {asked_in} act add 0 5{shown}"
            self.assertEqual(text, made(words, world, 6).hex())


class Changed(unittest.TestCase):
    """What words change of a history."""

    def setUp(self):
        self.world = run_of_example("one-client")
        self.keys = self.world.keys

    def entries(self, words):
        text = made(f"client 1 to replica 0 request 1.3 act add 0 1 object 0 shown by {words}", self.world)
        self.assertEqual(text, self.keys.signed(decode(text), Party("c", 1), Party("r", 0)))
        return decode(text).sets[0].entries

    def shown(self, words):
        (entry,) = decode(made(f"replica 5 to client 1 reply 1.2 thin 0 shows object 0 {words}", self.world)).shown
        return entry

    def test_which_replicas(self):
        self.assertEqual((), self.entries("none"))
        self.assertEqual([0, 3, 4], [entry.history.replica for entry in self.entries("4 0 3")])
        self.assertEqual([3, 3, 1], [len(entry.history.candidates) for entry in self.entries("0 4 5")])

    def test_an_older_history(self):
        for letter, count in ((7, 1), (18, 2), (28, 3)):
            (entry,) = self.entries(f"0 replica 0 in letter {letter}")
            self.assertEqual(count, len(entry.history.candidates))
            self.assertTrue(all(self.keys.stays(entry, reader) for reader in range(6)))

    def test_cut_and_sealed(self):
        _, cut = self.entries("0 1 replica 1 cut to 2")
        self.assertEqual(2, len(cut.history.candidates))
        self.assertFalse(any(self.keys.stays(cut, reader) for reader in range(6)))
        _, sealed = self.entries("0 1, replica 1 cut to 2 sealed")
        self.assertTrue(all(self.keys.stays(sealed, reader) for reader in range(6)))
        self.assertEqual(self.entries("1, replica 1 in letter 19"), (sealed,))

    def test_zeroed(self):
        entry, other = self.entries("0 1, replica 1 zero for 0 4")
        self.assertEqual([False, True, True, True, False, True],
                         [self.keys.stays(other, reader) for reader in range(6)])
        self.assertEqual([0, 4], [reader for reader in range(6) if other.hmacs[reader] == NO_DIGEST])
        self.assertNotIn(NO_DIGEST, entry.hmacs)

    def test_what_a_reply_shows(self):
        for words, count, readers in (
                ("", 1, 6), ("as replica 0", 3, 6), ("as replica 0 in letter 18", 2, 6),
                ("as replica 0 cut to 1 zero for 0 1", 1, 4),
                ("as replica 0, then barrier 9 of client 1 act - sets " + 64 * "f" + " on time 1 of client 1", 4, 6)):
            entry = self.shown(words)
            history = entry.history
            self.assertEqual((0, 5, count), (history.object, history.replica, len(history.candidates)))
            self.assertEqual(readers, sum(self.keys.stays(entry, reader) for reader in range(6)), words)

    def test_several_stamps_of_one_time(self):
        told = "several stamps time 1 of client 1, so say which: act [0-9a-f]{64} sets [0-9a-f]{64}; act "
        with self.assertRaisesRegex(Lacking, told):
            made("replica 3 to replica 4 fetch object 0 at time 1 of client 1", run_of_example("left-out"))


class Command(unittest.TestCase):
    def test_as_a_command(self):
        path = os.path.join(EXAMPLES, "one-client")
        lines = byte_lines(run_of_example("one-client"))
        data = "".join(f"{line}\n" for line in lines[:12]).encode()
        words = "client 1 to replica 3: request 1.1 round 2, act add 0 5, object 0 shown by 0 1 2 3 4"
        self.assertEqual((0, lines[15].split()[-1] + "\n", ""), frame(path, words, data))
        self.assertEqual((3, "", "frame: no letter shows object 0 of replica 0\n"), frame(path, words))

    def test_statuses_without_a_frame(self):
        status, written, told = frame(os.path.join(EXAMPLES, "one-client"), "")
        self.assertEqual((2, ""), (status, written))
        self.assertTrue(told.startswith("usage: tools/frame SCRIPT client C to replica R REQUEST"))
        self.assertLessEqual(len(told.splitlines()), 32)
        self.assertEqual((3, "", "line 3: expected bounds\n"), frame(PAGE, "client 1"))
        status, _, told = frame("no-such-file", "client 1")
        self.assertEqual(2, status)
        self.assertIn("no-such-file", told)

    def test_wrong_words_are_told(self):
        for words, told in WRONG:
            with self.assertRaises(WrongWord) as wrong:
                made(words)
            self.assertEqual(told, str(wrong.exception).replace("; there could stand", ":"))

    def test_letters_that_are_none(self):
        for line in ("1 1 c1 r0 2 00", "1 1 c1 r0 1", "x 1 c1 r0 1 00", "1 1 c1 r0 1 0"):
            with self.assertRaisesRegex(Lacking, "line 2 of the letters is not NUMBER EVENT FROM TO LENGTH HEX"):
                Letters(io.BytesIO(f"1 1 c1 r0 1 00\n{line}\n".encode())).history(0, 0)
        with self.assertRaisesRegex(Lacking, "letter 2 does not show object 0 of replica 0"):
            Letters(io.BytesIO(b"2 1 c1 r0 0 -\n")).history(0, 0, 2)


class Page(unittest.TestCase):
    """The commands of docs/faulty-parties.md make the examples that it names, and it has their reports."""

    def test_the_commands_make_the_examples(self):
        with open(PAGE, encoding="ascii") as file:
            blocks = [re.sub("(?m)^    ", "", block) for block in re.findall(r"(?m)(?:^    .*\n)+", file.read())]
        for name in ("two-acts", "torn"):
            commands = next(block for block in blocks if block.startswith(f"cat > {name} "))
            self.assertEqual(read_example(name), self.run_commands(commands, name))
            self.assertIn(read_example(f"{name}.report").decode(), blocks)

    @staticmethod
    def run_commands(commands, name):
        """What commands leave in a file, where the model stands for the program."""
        with tempfile.TemporaryDirectory() as folder:
            os.symlink(TOOLS, os.path.join(folder, "tools"))
            os.symlink(os.path.join(TOOLS, "answers"), os.path.join(folder, "qu-letters"))
            path = os.pathsep.join((os.path.dirname(sys.executable), os.environ["PATH"]))
            subprocess.run(["sh", "-e", "-c", commands], cwd=folder, env={**os.environ, "PATH": path}, check=True)
            with open(os.path.join(folder, name), "rb") as file:
                return file.read()


if __name__ == "__main__":
    unittest.main()
