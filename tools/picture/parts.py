"""What a picture is made of: its arrows, marks, words, labels and points, and what its legend explains."""
from picture.layout import layout_of
from picture.words import MARKS, mark_of, words_of

ARROWS = {"request": "ask", "reply": "answer"}
ARROW_WORDS = {"ask": "a request", "answer": "a reply", "other": "another letter", "side": "injected",
               "again": "delivered once more", "lost": "never delivered"}


class Picture:
    """A run, what is shown of it, its faulty parties and points, and words beside some events."""

    def __init__(self, run, shown, faulty=(), broken=None, title=""):
        self.run, self.shown, self.title = run, shown, title
        self.faulty = [party for party in shown.parties if party in faulty]
        self.broken = broken or {}
        seen = {event.number for event in shown.events}
        self.points = [point for point in run.points if point.party in shown.parties and point.event in seen]
        self.marks = {event.number: mark_of(event, run) for event in shown.events}
        self.words = {event.number: self.words_beside(event) for event in shown.events}
        self.labels = [label for event in shown.events for label in labels_of(event)]
        self.arrows = list(self.arrows_seen())
        self.legend = self.explained()
        self.layout = layout_of(shown, list(self.words.values()), self.label_texts(), self.legend_texts())

    def words_beside(self, event):
        note = self.broken.get(event.number)
        return words_of(event, self.run) + (f"; {note}" if note else "")

    def label_texts(self):
        """The texts on the line of each client."""
        texts = {}
        for party, _, text in self.labels:
            texts.setdefault(party, []).append(text)
        for point in self.points:
            texts.setdefault(point.party, []).append(point_words(point))
        return texts

    def arrows_seen(self):
        """The arrows of which an end is shown: letter, class, the event of its delivery (None: never)."""
        seen = {event.number for event in self.shown.events}
        for letter in self.shown.letters:
            kind = ARROWS.get(letter.frame.kind, "other")
            for turn, event in enumerate(letter.delivered_at):
                if letter.sent_at in seen or event in seen:
                    yield letter, f"{kind} again" if turn else kind, event
            if not letter.delivered_at and letter.sent_at in seen:
                yield letter, f"{kind} lost", None

    def explained(self):
        """What the legend explains: class of an arrow or name of a mark, and its words."""
        kinds = {word for _, kind, _ in self.arrows for word in kind.split()}
        if any(event.kind == "inject" for event in self.shown.events):
            kinds.add("side")
        entries = [(kind, words) for kind, words in ARROW_WORDS.items() if kind in kinds]
        entries += [(mark, words) for mark, words in MARKS.items() if mark in self.marks.values()]
        if self.points:
            entries.append(("point", "point: an operation takes effect"))
        if self.faulty:
            entries.append(("band", "a faulty party"))
        return entries

    def legend_texts(self):
        return [words for _, words in self.legend]


def labels_of(event):
    """What stands on a client's line at an event: party, event and text."""
    if event.kind == "call":
        yield event.party, event.number, f"{event.operation} {event.asked}"
    if event.ends:
        yield event.party, event.number, f"{event.ends}: {event.answer or 'given up'}"


def point_words(point):
    return f"point {point.operation}" + (" faulty" if point.faulty else "")
