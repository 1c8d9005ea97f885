"""Where things stand in a picture: a line down for each party, a row for each event. All numbers are pixels."""
from bisect import bisect_left
from dataclasses import dataclass

ROW = 22
MARGIN = 14
NUMBERS = 40
REPLICA_GAP = 52
# The first replica stands farther off, so that letters that are delivered in turn do not lie on one line.
FIRST_GAP = 170
LANE_GAP = 30
# How far from a line a letter ends that is never delivered; how far down, the first that is so far from other letters.
ASIDE, DROPS, CLEAR = 16, (17, 8, 4), 6
# A letter of the two sizes of text is about so wide, in a broad font.
TEXT_LETTER, LABEL_LETTER = 6.3, 5.8
LEGEND_LINE = 20
TITLE_LINE = 26
NAMES = 40


@dataclass
class Layout:
    """The place of each party, event and word."""

    lanes: dict
    rows: list
    words_left: int
    width: int
    legend_top: int
    top: int

    @property
    def bottom(self):
        return self.top + ROW * max(len(self.rows), 1)

    @property
    def height(self):
        return self.bottom + NAMES

    def in_the_air(self, left, right):
        """Where a letter from one line to another one ends that is never delivered: near the middle, and on no line.
        Where a line is there it ends on its right, since the heads of requests are on its left. One that goes to the
        left ends sooner, before it meets the letter that the replica beside it sends at the event before."""
        at = left + (right - left) * (0.45 if left < right else 0.35)
        return next((lane + ASIDE for lane in self.lanes.values() if abs(at - lane) < 10), at)

    def down(self, event):
        """How far down an event stands; one that has no row stands between those before and behind it."""
        row = bisect_left(self.rows, event)
        has_row = row < len(self.rows) and self.rows[row] == event
        return self.top + ROW * row + (ROW // 2 if has_row else 0)


def layout_of(shown, words, labels, legend):
    """The layout of what is shown: `words` are those beside the rows, `labels` those on the clients' lines by party,
    `legend` the texts of the legend."""
    lanes, at = {}, MARGIN + NUMBERS
    for party in shown.parties:
        if party.kind == "client":
            at += round(LABEL_LETTER * max(map(len, labels.get(party, [])), default=4)) + LANE_GAP
        else:
            at += REPLICA_GAP if any(each.kind == "replica" for each in lanes) else FIRST_GAP
        lanes[party] = at
    words_left = at + LANE_GAP
    longest = max(map(len, words), default=0)
    width = max(words_left + 30 + round(TEXT_LETTER * longest) + MARGIN, 640)
    lines = len({down for _, down in legend_places(legend, width)})
    legend_top = MARGIN + TITLE_LINE
    top = legend_top + LEGEND_LINE * lines + NAMES
    return Layout(lanes, [event.number for event in shown.events], words_left, width, legend_top, top)


def legend_places(legend, width):
    """The left edge and the line of each text of a legend."""
    places, left, line = [], MARGIN, 0
    for text in legend:
        size = 52 + round(LABEL_LETTER * len(text))
        if left > MARGIN and left + size > width:
            left, line = MARGIN, line + 1
        places.append((left, line))
        left += size
    return places
