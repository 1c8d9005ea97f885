"""Lines of each form that qu-letters writes, and lines that it does not."""
import unittest

from lines import ASKED, DELIVERED, ENDED, OPENING, SHORT, THIN, text_of
from picture.faults import Malformed
from picture.frames import frame_of
from picture.listing import Party, read_listing

FRAMES = [
    "no frame",
    "request 1.1 round 1, act, object 0 shown by none",
    "request 12.34 round 64, query, object 0 shown by 0 1 2 3 4",
    "request 1.7 round 1, mend object 0, object 0 shown by 0, object 63 shown by none",
    "fetch object 0 at opening",
    "fetch object 1 at time 7 of client 3",
    "fetched object 0 at opening, counter 0, 0 clients, 0 links",
    "fetched object 63 at barrier 1 of client 1, counter 5, 1 client, 2 links",
    "fetched object 1 at time 1 of client 1, blob 6869, 1 client, 0 links",
    "fetched object 1 at time 1 of client 1, blob -, 0 clients, 0 links",
    "fetched object 2 at time 1 of client 1, dir -, 0 clients, 0 links",
    "fetched object 2 at time 1 of client 1, dir %20=1,etc=7,%ff=8, 2 clients, 0 links",
]
NO_FRAMES = [
    "fetched object 0 at opening, blob 686, 0 clients, 0 links",
    "fetched object 0 at opening, dir etc, 0 clients, 0 links",
    "fetched object 0 at opening, text 1, 0 clients, 0 links",
    "fetched object 0 at opening, counter 0",
]
VERDICTS = [
    "done 5, object 0 at time 1 of client 1",
    "done 5 + 0, object 0 at time 1 of client 1, object 3 at time 7 of client 3",
    "done over at 0, object 0 at time 1 of client 1",
    "told 7, object 0 at barrier 2 of client 1",
    "told 0, object 0 at opening",
    "already over at 0",
    "already too long at 1",
    "done missing at 0, object 2 at time 1 of client 1",
    "told 686921, object 1 at time 2 of client 1",
    "told -, object 1 at opening",
    "told etc=7,opening=8, object 2 at time 1 of client 1",
    "told %=0,%2f=1, object 2 at time 1 of client 1",
    "mended 2 at time 1 of client 2",
    "mended 0 at barrier 2 of client 2",
    "history full 3", "thin 0", "needs 1", "stale 63", "time spent 0", "unknown object 0", "sound 0",
    "not current 0 latest time 7 of client 3",
    "not of class METHOD 0 but inline method",
    "not of class METHOD 0 but copy",
    "not of class METHOD 0 but inline barrier",
    "not of class METHOD 0 but barrier",
    "not of class METHOD 0 but needs",
    "spent 0 at 9",
]
BEHIND = ["", ", culled object 0 of replica 3, culled object 1 of replica 5", ", shows object 0 with 1 candidate",
          ", culled object 0 of replica 15, shows object 0 with 2 candidates, shows object 1 with 1 candidate"]
# A text, the number of the line that is refused, and how its kind begins.
MALFORMED = [
    ([""], 1, "unknown line"),
    (["event"], 1, "unknown line"),
    (["1 1 c1 r0 62 dd18c7ad"], 1, "unknown line"),
    (["line 8: no such letter"], 1, "refused script"),
    ([*SHORT, "line 8: no such letter", OPENING], 7, "line behind the refusal"),
    (["  point 1.1"], 1, "point before the first event"),
    ([OPENING, ASKED, "  point 1.1"], 3, "point behind a letter"),
    ([OPENING, "  point 1.1 add 0 5"], 2, "unknown line"),
    (["event 2 call 1.1 add 0 5"], 1, "event out of order, 1 is next"),
    ([OPENING, "event 3 call 2.1 read 0"], 2, "event out of order, 2 is next"),
    (["event 1 call 1.1"], 1, "unknown line"),
    (["event 1 deliver 1 to nobody"], 1, "unknown line"),
    (["event 1 inject 5 bytes to replica 0"], 1, "unknown line"),
    (["event 1 inject 5 bytes to replica 0 as client 1: nothing"], 1, "unknown frame"),
    ([ASKED], 1, "letter before the first event"),
    ([OPENING, THIN], 2, "letter out of order, 1 is next"),
    ([OPENING, ASKED, ASKED], 3, "letter out of order, 2 is next"),
    ([OPENING, ASKED.replace("client 1 to", "client 2 to")], 2, "other sender, event 1 is at client 1"),
    ([OPENING, ASKED.replace("act", "acts")], 2, "unknown frame"),
    ([OPENING, ASKED.strip()], 2, "unknown line"),
    ([OPENING, ASKED.replace("replica 0", "nobody")], 2, "unknown line"),
    ([OPENING, ASKED, "event 2 deliver 2 to replica 0"], 3, "no such letter, 2 was not sent before"),
    ([OPENING, ASKED, "event 2 deliver 0 to replica 0"], 3, "no such letter, 0 was not sent before"),
    ([OPENING, ASKED, "event 2 deliver 1 to replica 1"], 3, "other receiver, letter 1 goes to replica 0"),
    ([OPENING, ASKED, DELIVERED + ", ends 1.1 with five"], 3, "unknown line"),
    ([OPENING, ASKED, DELIVERED, THIN + "s"], 4, "unknown frame"),
    (["event 1 call 1.1 add 0 5 \xff"], 1, "unknown line"),
    (["event 1 call 1.1 add 0 " + "5" * 5000], 1, "unknown line"),
    (["event 1 call 1.1 put 0 5"], 1, "unknown line"),
    (["event 1 call 1.1 link 0 a/b 5"], 1, "unknown line"),
    (["event 1 call 1.1 cat 0 5"], 1, "unknown line"),
    ([OPENING, f"event {'9' * 5000} call 2.1 read 0"], 2, "unknown line"),
    ([OPENING, ASKED, "", DELIVERED], 3, "unknown line"),
    ([OPENING + "\r", ASKED], 1, "unknown line"),
]


class Listings(unittest.TestCase):
    def test_each_frame_is_read(self):
        for text in FRAMES:
            self.assertIsNotNone(frame_of(text), text)

    def test_what_is_no_frame(self):
        for text in NO_FRAMES:
            self.assertIsNone(frame_of(text), text)

    def test_each_operation_is_read(self):
        for words in ("add 0 5", "take 0 5", "read 63", "put 1 6869", "put 1 -", "append 1 21", "cat 1", "link 2 etc 7",
                      "link 2 % 7", "link 2 a%2f_-. 7", "unlink 2 etc", "find 2 etc", "list 2", "add 0 1 + take 1 1"):
            run = read_listing(text_of(f"event 1 call 1.1 {words}, asks all"))
            self.assertEqual(words, run.event(1).asked)

    def test_each_verdict_is_read_with_what_stands_behind_it(self):
        for verdict in VERDICTS:
            for behind in BEHIND:
                frame = frame_of(f"reply 1.2 round 3, {verdict}{behind}")
                self.assertEqual(("reply", "1.2", 3), (frame.kind, frame.operation, frame.round))
                self.assertEqual(verdict, frame.verdict)
                self.assertEqual(behind.count("culled"), len(frame.culled))

    def test_the_first_stamp_of_a_verdict(self):
        self.assertEqual("time 1 of client 1", frame_of(f"reply 1.1 round 1, {VERDICTS[1]}").stamp)
        self.assertEqual("time 1 of client 1", frame_of(f"reply 1.1 round 1, {VERDICTS[10]}").stamp)
        self.assertEqual("", frame_of("reply 1.1 round 1, thin 0").stamp)

    def test_a_short_run(self):
        run = read_listing(text_of(*SHORT))
        self.assertEqual(["call", "deliver", "deliver"], [event.kind for event in run.events])
        self.assertEqual(([2], [3]), tuple(letter.delivered_at for letter in run.letters))
        self.assertEqual(("1.1", None), (run.event(3).ends, run.event(3).answer))
        self.assertEqual([Party("client", 1), Party("replica", 0)], run.parties())

    def test_the_last_line_may_lack_its_line_feed(self):
        self.assertEqual(3, len(read_listing(text_of(*SHORT)[:-1]).events))

    def test_no_lines_are_no_events(self):
        self.assertEqual([], read_listing(b"").events)

    def test_ends_with_an_answer(self):
        for answer in ("5", "over at 0", "too long at 1", "5 + 0", "686921", "-", "etc=7,%ff=8"):
            run = read_listing(text_of(*SHORT[:4], ENDED.replace("given up", f"with {answer}")))
            self.assertEqual(answer, run.event(3).answer)

    def test_a_letter_that_comes_once_more_or_is_ignored(self):
        run = read_listing(text_of(OPENING, ASKED, DELIVERED, "event 3 deliver 1 to replica 0, ignored"))
        self.assertEqual((False, True), (run.event(2).again, run.event(3).again))
        self.assertEqual((False, True), (run.event(2).ignored, run.event(3).ignored))

    def test_injections(self):
        run = read_listing(text_of("event 1 inject 0 bytes to replica 0, ignored",
                                   "event 2 inject 1 byte to client 1 as replica 5: fetch object 0 at opening"))
        self.assertTrue(run.event(1).ignored)
        self.assertEqual((None, Party("replica", 5)), (run.event(1).claimed, run.event(2).claimed))

    def test_what_is_malformed_is_told_by_its_line(self):
        for lines, number, kind in MALFORMED:
            with self.assertRaises(Malformed) as refused:
                read_listing(text_of(*lines))
            self.assertTrue(str(refused.exception).startswith(f"line {number}: {kind}"), str(refused.exception))


if __name__ == "__main__":
    unittest.main()
