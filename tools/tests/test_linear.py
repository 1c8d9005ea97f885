"""The search for an order of calls and replies: histories that have one, and histories that have none."""
import unittest

import lines  # noqa: F401  it says where the packages stand
from hunting.linear import NEVER, Search, Timed, disorder, parted
from hunting.order import fault_in
from hunting.reports import Malformed, body_of, read_report
from model.script import read_script

SETUP = b"bounds 1\nseed 7\nclients 4\nobject 0 counter\nobject 1 counter\nobject 2 blob\nobject 3 dir\n"
READER = read_script(SETUP).reader
KINDS = ("counter", "counter", "blob", "dir")
ENDS = ["premises hold", "end calls 0 done 0 gaveup 0 open 0"]


def report(*lines):
    return read_report([*lines, *ENDS], READER)


def timed(*lines):
    """Operations of lines of a report."""
    told = report(*lines)
    return [Timed(each.name, each.body, each.begun, NEVER if each.answer is None else each.ended, each.answer)
            for each in told.operations.values()]


def words_of(*lines):
    return disorder(timed(*lines), KINDS)


def maybe(text):
    """An update that may have taken place at any time."""
    return Timed("4.1", body_of(READER, text), -1, NEVER, None)


class Orders(unittest.TestCase):
    def test_one_after_another(self):
        self.assertIsNone(words_of("call 1.1 add 0 5", "reply 1.1 5", "call 2.1 read 0", "reply 2.1 5"))
        told = words_of("call 1.1 add 0 5", "reply 1.1 5", "call 2.1 read 0", "reply 2.1 0")
        self.assertEqual("no order of the operations on objects 0 gives the answers: 1 of 2 can stand in one, and "
                         "behind them 2.1 (read 0) would be told 5 and not 0", told)

    def test_a_read_beside_an_update_is_told_either_value(self):
        for value in (0, 5):
            self.assertIsNone(words_of("call 1.1 add 0 5", "call 2.1 read 0", f"reply 2.1 {value}", "reply 1.1 5"))
        self.assertIsNotNone(words_of("call 1.1 add 0 5", "call 2.1 read 0", "reply 2.1 4", "reply 1.1 5"))

    def test_reads_do_not_go_back(self):
        begun = ["call 1.1 add 0 5", "call 2.1 read 0", "reply 2.1 5", "call 3.1 read 0"]
        self.assertIsNone(words_of(*begun, "reply 3.1 5", "reply 1.1 5"))
        self.assertIsNotNone(words_of(*begun, "reply 3.1 0", "reply 1.1 5"))

    def test_a_torn_read_on_two_counters(self):
        update = ["call 1.1 add 0 5 + add 1 5", "call 2.1 read 0 + read 1"]
        for read in ("0 + 0", "5 + 5"):
            self.assertIsNone(words_of(*update, f"reply 2.1 {read}", "reply 1.1 5 + 5"))
        for read in ("5 + 0", "0 + 5"):
            self.assertIsNotNone(words_of(*update, f"reply 2.1 {read}", "reply 1.1 5 + 5"))

    def test_two_reads_of_one_counter_each_are_no_torn_read(self):
        update = ["call 1.1 add 0 5 + add 1 5", "call 2.1 read 1", "reply 2.1 0", "call 2.2 read 0"]
        self.assertIsNone(words_of(*update, "reply 2.2 5", "reply 1.1 5 + 5"))
        torn = ["call 1.1 add 0 5 + add 1 5", "call 2.1 read 0", "reply 2.1 5", "call 2.2 read 1", "reply 2.2 0"]
        self.assertIsNotNone(words_of(*torn, "reply 1.1 5 + 5"))

    def test_an_update_without_a_reply_may_have_happened_or_not(self):
        for end in ("open 1.1", "gaveup 1.1"):
            for value in (0, 5):
                self.assertIsNone(words_of(
                    "call 1.1 add 0 5", *([end] if end[0] == "g" else []), "call 2.1 read 0", f"reply 2.1 {value}",
                    *([end] if end[0] == "o" else [])))
        # it happens once, and not before its call
        self.assertIsNotNone(words_of("call 1.1 add 0 5", "call 2.1 read 0", "reply 2.1 10", "open 1.1"))
        self.assertIsNotNone(words_of("call 2.1 read 0", "reply 2.1 5", "call 1.1 add 0 5", "open 1.1"))

    def test_an_update_of_a_faulty_client_may_have_happened_at_any_time(self):
        calls = timed("call 1.1 read 0", "reply 1.1 0", "call 1.2 read 0", "reply 1.2 7")
        self.assertIsNotNone(disorder(calls, KINDS))
        self.assertIsNone(disorder([*calls, maybe("add 0 7")], KINDS))
        self.assertIsNotNone(disorder([*calls, maybe("add 0 3")], KINDS))

    def test_an_update_is_done_once(self):
        calls = ["call 1.1 add 0 5", "reply 1.1 5", "call 1.2 read 0", "reply 1.2 10"]
        self.assertIsNotNone(words_of(*calls))

    def test_each_kind_by_its_table(self):
        self.assertIsNone(words_of(
            "call 1.1 append 2 6869", "reply 1.1 2", "call 1.2 cat 2", "reply 1.2 6869", "call 1.3 link 3 a 1",
            "reply 1.3 1", "call 1.4 link 3 a 2", "reply 1.4 exists at 0", "call 1.5 list 3", "reply 1.5 a=1",
            "call 1.6 take 0 5 + add 1 5", "reply 1.6 under at 0", "call 1.7 read 0 + read 1", "reply 1.7 0 + 0",
            "call 1.8 cat 0", "reply 1.8 wrong kind at 0"))
        self.assertIsNotNone(words_of("call 1.1 link 3 a 1", "reply 1.1 1", "call 1.2 link 3 a 2", "reply 1.2 2"))

    def test_rivals_are_in_one_of_two_orders(self):
        calls = ["call 1.1 add 0 1", "call 2.1 add 0 2"]
        self.assertIsNone(words_of(*calls, "reply 1.1 1", "reply 2.1 3"))
        self.assertIsNone(words_of(*calls, "reply 1.1 3", "reply 2.1 2"))
        self.assertIsNotNone(words_of(*calls, "reply 1.1 1", "reply 2.1 2"))

    def test_groups_have_no_object_in_common(self):
        calls = timed("call 1.1 add 0 1", "reply 1.1 1", "call 2.1 cat 2", "reply 2.1 -", "call 3.1 read 0 + read 1",
                      "reply 3.1 1 + 0", "call 4.1 read 1", "reply 4.1 0")
        self.assertEqual([["1.1", "3.1", "4.1"], ["2.1"]], [[each.name for each in group] for group in parted(calls)])

    def test_what_was_visited_is_not_visited_again(self):
        lines = [f"call {client}.1 add 0 1" for client in range(1, 13)]
        search = Search(timed(*lines, *(f"open {client}.1" for client in range(1, 13)), "call 13.1 read 0",
                              "reply 13.1 13"), KINDS)
        self.assertFalse(search.finds())
        self.assertLessEqual(len(search.visited), 1 << 13)


class Points(unittest.TestCase):
    def fault(self, *lines):
        return fault_in(report(*lines), KINDS)

    def test_points_in_order(self):
        self.assertIsNone(self.fault("call 1.1 add 0 5", "point 1.1", "reply 1.1 5", "point 2.1 faulty add 0 2",
                                     "call 1.2 read 0", "point 1.2", "reply 1.2 7"))
        self.assertIsNone(self.fault("call 1.1 add 0 5", "gaveup 1.1", "point 1.1"))

    def test_each_fault(self):
        call, reply = "call 1.1 add 0 5", "reply 1.1 5"
        for lines, words in (
                ((call, reply), "1.1 has a reply and no point"),
                ((call, "point 1.1", "point 1.1", reply), "1.1 has two points"),
                (("point 1.1", call, reply), "the point of 1.1 stands before its call"),
                ((call, reply, "point 1.1"), "the point of 1.1 stands behind its reply"),
                ((call, "point 1.1", "reply 1.1 6"), "along the points 1.1 is told 5, and its reply is 6"),
                (("point 1.1",), "1.1 has a point and no call"),
                (("call 1.1 read 0", "point 1.1", "open 1.1"), "1.1 is a query without a reply, and has a point"),
                (("point 2.1 faulty add 0 1", "point 2.1 faulty add 0 1"), "2.1 has two points"),
                (("point 2.1 faulty read 0",), "2.1 is of a faulty client, and no update")):
            self.assertEqual(words, self.fault(*lines), lines)

    def test_two_updates_of_a_faulty_client_with_one_number(self):
        self.assertIsNone(self.fault("point 2.1 faulty add 0 1", "point 2.1 faulty add 0 2"))


class Reports(unittest.TestCase):
    def test_malformed_lines(self):
        for lines in (["hello"], ["reply 1.1 5"], ["call 1.1 add 0 5", "call 1.1 add 0 5"], ["call 1.1 add 9 5"],
                      ["call 1.1 add 0 5", "reply 1.1 5", "reply 1.1 5"], ["open 1.1"], ["call 1.1"]):
            with self.assertRaises(Malformed, msg=lines):
                report(*lines)


if __name__ == "__main__":
    unittest.main()
