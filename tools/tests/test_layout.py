"""Where things stand in a picture, so that nothing lies on what has to be read."""
import re
import unittest

from lines import OPENING, SHORT, draw, text_of
from picture.layout import DROPS, ROW, Layout
from picture.style import SHAPED, SHAPES

# The size of a space, and of the head of an arrow above its line, in pixels.
SPACE, HALF_HEAD = 4, 3.2


class Places(unittest.TestCase):
    def test_a_letter_that_is_never_delivered_ends_in_the_air(self):
        lanes = {"c1": 148, "r0": 318, "r1": 370, "r2": 422, "r3": 474, "r4": 526, "r5": 578}
        layout = Layout(lanes, [], 600, 640, 0, 0)
        for left in lanes.values():
            for right in lanes.values():
                if left != right:
                    at = layout.in_the_air(left, right)
                    self.assertTrue(all(abs(at - lane) >= 10 for lane in lanes.values()), (left, right, at))
        self.assertEqual(148 + 0.45 * 170, layout.in_the_air(148, 318))

    def test_it_ends_on_the_right_of_a_line_that_is_near(self):
        layout = Layout({"c1": 148, "r0": 318, "r4": 526}, [], 600, 640, 0, 0)
        self.assertEqual(334, layout.in_the_air(148, 526))
        self.assertEqual(334, layout.in_the_air(500, 0))

    def test_a_lost_reply_ends_clear_of_the_reply_before_it(self):
        lanes = {"c1": 148, "r0": 318, "r1": 370, "r2": 422, "r3": 474, "r4": 526, "r5": 578}
        layout, replicas = Layout(lanes, [], 600, 640, 0, 0), sorted(lanes.values())[1:]
        for before, lane in zip(replicas, replicas[1:]):
            at = layout.in_the_air(lane, lanes["c1"])
            other = 5 * ROW * (before - at) / (before - lanes["c1"]) - ROW
            self.assertGreaterEqual(DROPS[0] - other, 8, lane)

    def test_a_lost_request_ends_clear_of_those_that_are_sent_with_it(self):
        sent = [f"  letter {number} client 1 to replica {number - 1}: request 1.1 round 1, act, object 0 shown by none"
                for number in range(1, 5)]
        for lost, drop in ((1, 4), (2, 4), (3, 8), (4, 8)):
            came = [number for number in range(1, 5) if number != lost]
            lines = [OPENING, *sent] + [f"event {place} deliver {number} to replica {number - 1}"
                                        for place, number in enumerate(came, 2)]
            written = draw(text_of(*lines))[1]
            up = int(re.search(r'<use href="#qu-call" x="\d+" y="(\d+)"', written).group(1))
            down = int(re.search(r'<path class="ask lost arrow" d="M\d+ \d+L\d+ (\d+)"', written).group(1))
            self.assertEqual(drop, down - up, lost)

    def test_no_arrow_is_seen_between_the_words_of_a_call(self):
        wide = int(re.search(r"\.strong\.label\{stroke-width:(\d+)px\}", SHAPED).group(1))
        self.assertGreaterEqual(wide, SPACE)

    def test_the_party_of_injected_bytes_stands_clear_of_its_arrow(self):
        lines = [*SHORT, "event 4 inject 1 byte to client 1 as replica 5: fetch object 0 at opening"]
        written = draw(text_of(*lines))[1]
        arrow = int(re.search(r'<path class="side arrow" d="M\d+ (\d+)H', written).group(1))
        words = int(re.search(r'<text class="label side-text middle" x="\d+" y="(\d+)">as r5<', written).group(1))
        halo = int(re.search(r"text\{[^}]*stroke-width:(\d+)px", SHAPED).group(1)) / 2
        self.assertGreaterEqual(arrow - HALF_HEAD, words + halo)

    def test_lines_that_pass_are_cut_off_around_a_mark_of_lines(self):
        for name in ("counted", "ignored"):
            self.assertTrue(SHAPES[name].startswith('<circle class="paper" r="6"/>'), name)


if __name__ == "__main__":
    unittest.main()
