"""The mark and the words of each event, what a cut leaves, and where points stand."""
import unittest

from lines import ASKED, DELIVERED, ENDED, OPENING, SHORT, THIN, reply, text_of
from picture.cut import Cut, shown
from picture.faults import Malformed, WrongWords
from picture.listing import Party, read_listing
from picture.parts import Picture
from picture.report import read_broken, read_faulty
from picture.words import mark_of, words_of

INJECTED = "event 1 inject 54 bytes to replica 0 as client 1: request 1.1 round 1, act, object 0 shown by none"
SETUP = ["bounds 1", "seed 7", "clients 2", "object 0 counter"]
HEAD, HOLD = "bounds b 1 n 6 q 5 r 3", "premises hold"
END = "end calls 1 done 0 gaveup 0 open 1"
# A verdict, its mark, and its words.
ANSWERED = [
    ("done 5, object 0 at time 1 of client 1", "done", "done 5 at time 1 of c1"),
    ("done 5 + 0, object 0 at opening, object 3 at opening", "done", "done 5 + 0 at opening, object 3 at opening"),
    ("told 0, object 0 at opening", "told", "told 0 at opening"),
    ("already 5", "told", "already 5"),
    ("mended 0 at barrier 2 of client 2", "barrier", "mended 0 at barrier 2 of c2"),
    ("mended 0 at time 3 of client 2", "copy", "mended 0 at time 3 of c2"),
    ("thin 0, culled object 0 of replica 5", "refused", "thin 0, culls r5"),
    ("not of class METHOD 0 but inline barrier", "refused", "not of class METHOD 0 but inline barrier"),
]


class Words(unittest.TestCase):
    def test_what_a_replica_answers(self):
        for verdict, mark, words in ANSWERED:
            run = read_listing(text_of(INJECTED, reply(verdict)))
            told = f"54 bytes injected as c1, act 1.1 round 1: {words}; sends 1"
            self.assertEqual((mark, told), (mark_of(run.event(1), run), words_of(run.event(1), run)))

    def test_what_a_client_does(self):
        run = read_listing(text_of(*SHORT))
        self.assertEqual(["call", "refused", "end"], [mark_of(event, run) for event in run.events])
        self.assertEqual("call 1.1 add 0 5; sends 1", words_of(run.event(1), run))
        self.assertEqual("letter 2 of r0, 1.1 round 1: thin 0; ends 1.1 given up", words_of(run.event(3), run))
        second = ASKED.replace("letter 1", "letter 3").replace("round 1", "round 2")
        run = read_listing(text_of(*SHORT[:4], "event 3 deliver 2 to client 1, asks all", second))
        self.assertEqual("step", mark_of(run.event(3), run))
        self.assertEqual("letter 2 of r0, 1.1 round 1: thin 0; round 2 asks all by 3", words_of(run.event(3), run))

    def test_what_is_ignored_or_gets_no_answer(self):
        run = read_listing(text_of(OPENING, ASKED, DELIVERED, "event 3 deliver 1 to replica 0, ignored",
                                   "event 4 inject 0 bytes to replica 0, ignored"))
        self.assertEqual(["silent", "ignored", "ignored"], [mark_of(event, run) for event in run.events[1:]])
        self.assertEqual("letter 1 of c1, act 1.1 round 1: no answer", words_of(run.event(2), run))
        self.assertEqual("letter 1 of c1 again, ignored", words_of(run.event(3), run))
        self.assertEqual("0 bytes injected, ignored", words_of(run.event(4), run))

    def test_what_a_replica_makes_of_a_version(self):
        told = "  letter 1 replica 1 to replica 0: fetched object 0 at opening, counter 0, 0 clients, 0 links"
        came = "letter 1 of r1, fetched 0 at opening, counter 0"
        asked = "event 1 inject 81 bytes to replica 1 as replica 0: fetch object 0 at opening"
        answer = reply("already 5", number=2)
        for counted, line, mark in (
                ("counted", (), "counted"), ("counted, found", (), "counted"),
                ("counted, found, held, wakes 1.2", (answer,), "told"),
                ("not counted, not fetched", (), "ignored"), ("not counted, another kind", (), "ignored"),
                ("not counted, answered before", (), "ignored")):
            run = read_listing(text_of(asked, told, f"event 2 deliver 1 to replica 0, {counted}", *line))
            also = ", already 5; sends 2" if line else ""
            self.assertEqual(["sent", mark], [mark_of(event, run) for event in run.events])
            self.assertEqual(f"{came}: {counted}{also}", words_of(run.event(2), run))
        self.assertEqual("81 bytes injected as r0, fetch 0 at opening; sends 1", words_of(run.event(1), run))

    def test_of_a_version_its_object_and_its_value_are_told(self):
        for frame, words in (("fetch object 63 at time 2 of client 1", "fetch 63 at time 2 of c1"),
                             ("fetched object 5 at time 2 of client 1, counter 7, 1 client, 0 links",
                              "fetched 5 at time 2 of c1, counter 7"),
                             ("fetched object 0 at opening, counter 0, 0 clients, 1 link",
                              "fetched 0 at opening, counter 0"),
                             ("fetched object 1 at opening, blob -, 0 clients, 0 links",
                              "fetched 1 at opening, blob -"),
                             ("fetched object 2 at opening, dir a=1,b=2, 0 clients, 0 links",
                              "fetched 2 at opening, dir a=1,b=2")):
            run = read_listing(text_of(f"event 1 inject 90 bytes to replica 1 as replica 0: {frame}"))
            self.assertEqual(f"90 bytes injected as r0, {words}: no answer", words_of(run.event(1), run))

    def test_long_bytes_are_cut(self):
        for size, told in ((19, "00" * 19), (20, "00" * 16 + ".."), (4096, "00" * 16 + "..")):
            run = read_listing(text_of(f"event 1 call 1.1 put 0 {'00' * size}, asks all"))
            self.assertEqual(f"call 1.1 put 0 {told}", words_of(run.event(1), run))
        run = read_listing(text_of(*SHORT[:4], ENDED.replace("given up", f"with {'0' * 29}=1,{'1' * 30}=5")))
        told = f"letter 2 of r0, 1.1 round 1: thin 0; ends 1.1 with {'0' * 29}=1,.."
        self.assertEqual(told, words_of(run.event(3), run))
        for entries, told in ((f"a=1,{'b' * 33}=2", f"a=1,{'b' * 33}=2"), (f"a=1,{'b' * 34}=2", f"a=1,{'b' * 28}..")):
            frame = f"fetched object 2 at opening, dir {entries}, 0 clients, 0 links"
            run = read_listing(text_of(f"event 1 inject 90 bytes to replica 1 as replica 0: {frame}"))
            words = f"90 bytes injected as r0, fetched 2 at opening, dir {told}: no answer"
            self.assertEqual(words, words_of(run.event(1), run))

    def test_rounds_of_a_client(self):
        second = ASKED.replace("letter 1", "letter 2").replace("round 1", "round 2")
        run = read_listing(text_of(
            OPENING + ", asks the preferred", ASKED,
            "event 2 tick client 1, asks the others", second.replace("round 2", "round 1"),
            "event 3 tick client 1, round 1 timed out, without object 0 of replica 4, without object 0 of replica 5"
            ", rests 2 ticks",
            "event 4 tick client 1, rests 1 tick",
            "event 5 tick client 1, asks all", second.replace("letter 2", "letter 3"),
            "event 6 tick client 1, round 2 timed out, ends 1.1 given up"))
        self.assertEqual(["call", "tick", "rests", "tick", "tick", "end"],
                         [mark_of(event, run) for event in run.events])
        self.assertEqual(["call 1.1 add 0 5; round 1 asks the preferred by 1", "tick; round 1 asks the others by 2",
                          "tick; round 1 timed out, without r4, without r5; rests 2 ticks", "tick; rests 1 tick",
                          "tick; round 2 asks all by 3", "tick; round 2 timed out; ends 1.1 given up"],
                         [words_of(event, run) for event in run.events])

    def test_a_round_that_agrees(self):
        reply = "  letter 2 replica 0 to client 1: reply 1.1 round 1, thin 0, shows object 0 with 1 candidate"
        third = ASKED.replace("letter 1", "letter 3").replace("round 1", "round 2")
        run = read_listing(text_of(OPENING + ", asks all", ASKED, DELIVERED, reply,
                                   "event 3 deliver 2 to client 1, round 1 split, asks the preferred", third,
                                   "event 4 deliver 2 to client 1, round 2 agreed, ends 1.1 with 5"))
        self.assertEqual(["step", "end"], [mark_of(event, run) for event in run.events[2:]])
        self.assertEqual("letter 2 of r0, 1.1 round 1: thin 0; round 1 split; round 2 asks the preferred by 3",
                         words_of(run.event(3), run))
        self.assertEqual("letter 2 of r0 again, 1.1 round 1: thin 0; ends 1.1 with 5", words_of(run.event(4), run))

    def test_what_waits(self):
        fetch = "  letter 2 replica 0 to replica 1: fetch object 0 at opening"
        run = read_listing(text_of(OPENING, ASKED, DELIVERED + ", waits", fetch))
        self.assertEqual("waits", mark_of(run.event(2), run))
        self.assertEqual("letter 1 of c1, act 1.1 round 1: waits; sends 2", words_of(run.event(2), run))


class Cuts(unittest.TestCase):
    def shown(self, **bounds):
        part = shown(read_listing(text_of(*SHORT)), Cut(**bounds), set())
        return ([party.short for party in part.parties], [event.number for event in part.events],
                [letter.number for letter in part.letters])

    def test_all_is_shown_without_bounds(self):
        self.assertEqual((["c1", "r0"], [1, 2, 3], [1, 2]), self.shown())

    def test_bounds(self):
        self.assertEqual((["c1", "r0"], [2, 3], [1, 2]), self.shown(events=(2, 9)))
        self.assertEqual((["r0"], [2], []), self.shown(parties=("r0",)))
        self.assertEqual((["c1", "r0"], [1, 2], [1]), self.shown(letters=(1, 1)))
        self.assertEqual((["c1", "r0"], [2], [1]), self.shown(letters=(1, 1), events=(2, 3)))

    def test_faulty_parties_have_lines_though_nothing_happens_there(self):
        part = shown(read_listing(text_of(*SHORT)), Cut(), {Party("replica", 5)})
        self.assertEqual(["c1", "r0", "r5"], [party.short for party in part.parties])

    def test_bounds_that_do_not_fit_the_run(self):
        for bounds in ({"parties": ("r9",)}, {"events": (4, 9)}, {"letters": (3, 9)}):
            with self.assertRaises(WrongWords):
                self.shown(**bounds)

    def test_400_events_are_drawn_and_401_are_not(self):
        lines = [OPENING, ASKED] + [f"event {number} deliver 1 to replica 0" for number in range(2, 402)]
        run = read_listing(text_of(*lines))
        self.assertEqual(400, len(shown(run, Cut(events=(2, 401)), set()).events))
        with self.assertRaises(Malformed) as refused:
            shown(run, Cut(), set())
        self.assertTrue(str(refused.exception).startswith("line 402: too many events, 401; "), str(refused.exception))


class Points(unittest.TestCase):
    POINT, FAULTY = "  point 1.1", "  point 2.1 faulty add 0 7"

    def run_with(self, *points):
        return read_listing(text_of(*SHORT[:3], *points, *SHORT[3:]))

    def test_a_point_stands_at_the_event_above_it(self):
        points = [(point.operation, point.party, point.faulty, point.event)
                  for point in self.run_with(self.FAULTY, self.POINT).points]
        one, other = Party("client", 1), Party("client", 2)
        self.assertEqual([("2.1", other, True, 2), ("1.1", one, False, 2)], points)

    def test_a_report_tells_the_points_of_the_listing(self):
        told = [HEAD, "call 1.1 add 0 5", "point 2.1 faulty add 0 7", "point 1.1", "gaveup 1.1", HOLD, END]
        self.assertEqual({}, read_broken(text_of(*told), "report", self.run_with(self.FAULTY, self.POINT)))
        for points in ([], [self.POINT], [self.POINT, self.FAULTY], [self.FAULTY.replace("7", "8"), self.POINT]):
            with self.assertRaises(Malformed):
                read_broken(text_of(*told), "report", self.run_with(*points))

    def test_a_point_is_drawn_where_its_event_is(self):
        run = self.run_with(self.POINT)
        for events, count in (((1, 3), 1), ((2, 2), 1), ((3, 3), 0), ((1, 1), 0)):
            self.assertEqual(count, len(Picture(run, shown(run, Cut(events=events), set())).points))

    def test_a_premise_that_fails_is_told_of_its_events(self):
        run = read_listing(text_of(*SHORT))
        told = ["call 1.1 add 0 5", "gaveup 1.1"]
        broken = read_broken(text_of(HEAD, *told, "premises collide 2 3"), "report", run)
        self.assertEqual({2: "premises collide", 3: "premises collide"}, broken)
        self.assertEqual({2: "premises forged"}, read_broken(text_of(HEAD, *told, "premises forged 2"), "", run))

    def test_reports_that_are_malformed_or_of_another_run(self):
        run = read_listing(text_of(*SHORT))
        for number, lines in ((1, []), (1, ["bounds"]), (2, [HEAD, "call 1.1 add 0 6"]), (2, [HEAD, "hello"]),
                              (3, [HEAD, "call 1.1 add 0 5", "reply 1.1 5"]), (2, [HEAD, "call 1.1 add 0 5"])):
            with self.assertRaises(Malformed) as refused:
                read_broken(text_of(*lines), "name", run)
            self.assertTrue(str(refused.exception).startswith(f"name: line {number}: "), str(refused.exception))

    def test_faulty_parties_of_a_script(self):
        called = "inject replica 0 " + "0" * 5000
        named = read_faulty(text_of(*SETUP, "faulty replica 5", "faulty client 002", called), "script")
        self.assertEqual({Party("replica", 5), Party("client", 2)}, named)
        kinds = [*SETUP, "object 1 blob", "object 02 dir", "faulty replica 4", "call 1 put 1 -"]
        self.assertEqual({Party("replica", 4)}, read_faulty(text_of(*kinds), "script"))
        spoken = ["# who lies", "", *(f" {line.replace(' ', '  ')} " for line in SETUP), "#", "faulty  client 1"]
        self.assertEqual({Party("client", 1)}, read_faulty(text_of(*spoken), "script"))
        self.assertEqual(set(), read_faulty(text_of(*SETUP, "object 1 text", "faulty replica 4"), "script"))
        for number, lines in ((1, []), (2, ["bounds 1"]), (1, ["bounds 4", *SETUP[1:]]), (4, [*SETUP[:3], "flow"]),
                              (3, ["#", "bounds 1"])):
            with self.assertRaises(Malformed) as refused:
                read_faulty(text_of(*lines), "script")
            self.assertIn(f"line {number}: unknown line", str(refused.exception))


if __name__ == "__main__":
    unittest.main()
