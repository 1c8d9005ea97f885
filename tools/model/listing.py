"""A run as qu-letters lists it: a line for each event, and below it one for each letter that it sends."""
from typing import NamedTuple, Optional

from model.client import FITTING
from model.listed_frames import counted, listed_frame, listed_party
from model.reading import decode
from model.report import answer_words, operation_words, point_words
from model.values import Fetch, Fetched, Reply, sender_of
from model.world import World
from model.writing import write_state


class Stand(NamedTuple):
    """How a client with an operation stands: its round, the ticks of a rest that are left, and whether it has asked
    all replicas."""

    round: int
    rest: int
    asked_all: bool


class Handing(NamedTuple):
    """What bytes meet: the frame that they bring to a correct party, or None; what is said of a version that comes; how
    a client stands; how its round would end; and how many letters there are."""

    frame: object
    counts: str
    stand: Optional[Stand]
    how: str
    letters: int


class ListedWorld(World):
    """A world that takes note of each event: in words, and in `happened` as a word and what it needs."""

    def __init__(self, setup):
        super().__init__(setup)
        self.told, self.happened = [], []

    # ---- events

    def invoke(self, number, body):
        super().invoke(number, body)
        self.happened.append(("invoke", number, body))
        name = f"{number}.{self.clients[number].number}"
        self.told.append(f"call {name} {operation_words(body)}{self.client_words(number, None, '')}")

    def tick(self, number):
        stand = self.stand(number)
        super().tick(number)
        self.happened.append(("tick", number))
        self.told.append(f"tick client {number}{self.client_words(number, stand, 'timed out')}")

    def deliver(self, number):
        letter = self.letter(number)
        handing = self.handing(letter.receiver, letter.text)
        super().deliver(number)
        self.note(f"deliver {number} to {listed_party(letter.receiver)}", letter.receiver, letter.text, handing)

    def inject(self, party, text):
        handing = self.handing(party, text)
        super().inject(party, text)
        words = f"inject {counted(len(text), 'byte')} to {listed_party(party)}"
        if handing.frame is not None:
            words += f" as {listed_party(sender_of(handing.frame))}: {listed_frame(handing.frame)}"
        self.note(words, party, text, handing)

    # ---- bytes that are handed to a party

    def handing(self, party, text):
        """What bytes meet that are about to be handed to a party."""
        frame, counts, stand, how = None, "", None, ""
        if self.is_correct(party):
            frame = self.keys.frame_for(party, text)
            if party.kind == "r":
                counts = self.version_words(self.replicas[party.number], frame)
            else:
                stand = self.stand(party.number)
                how = "agreed" if self.agrees(self.clients[party.number], frame) else "split"
        return Handing(frame, counts, stand, how, len(self.letters))

    def note(self, words, party, text, handing):
        """Takes note of bytes that were handed to a party."""
        self.happened.append(("inject", party, text))
        if handing.frame is None:
            words += ", ignored"
        words += handing.counts
        if self.is_correct(party) and party.kind == "c":
            words += self.client_words(party.number, handing.stand, handing.how)
        elif any(isinstance(decode(sent.letter.text), Fetch) for sent in self.letters[handing.letters:][:1]):
            words += ", waits"
        self.told.append(words)

    def version_words(self, replica, frame):
        """Whether a version that comes counts, whether it is then found, and which request it wakes."""
        if not isinstance(frame, Fetched):
            return ""
        version = (frame.object, frame.stamp)
        sent = replica.fetching.get(version)
        if sent is None:
            return ", not counted, not fetched"
        if frame.state.kind != replica.kinds[frame.object]:
            return ", not counted, another kind"
        if frame.replica in sent:
            return ", not counted, answered before"
        text = write_state(frame.state)
        if sum(other == text for other in sent.values()) + 1 < self.bounds.faults + 1:
            return ", counted"
        words = ", counted, found" + (", held" if version in replica.versions else "")
        woken = [client for client, waiting in replica.waiting.items() if version in waiting.missing]
        if woken:
            words += f", wakes {min(woken)}.{replica.waiting[min(woken)].request.number}"
        return words

    # ---- clients

    def stand(self, number):
        """How a correct client stands, or None where it has no operation."""
        client = self.clients[number]
        if client.operation is None:
            return None
        return Stand(client.round, client.rest, len(client.asked) == self.bounds.replicas)

    def agrees(self, client, frame):
        """Whether a quorum has the verdict of this reply, which fits, once it counts."""
        if not isinstance(frame, Reply) or client.operation is None or client.request is None:
            return False
        if not isinstance(frame.verdict, FITTING[client.request.body.kind]):
            return False
        replies = {**client.counted, frame.replica: frame}
        return sum(reply.verdict == frame.verdict for reply in replies.values()) >= self.bounds.quorum

    def client_words(self, number, before, how):
        """What an event did to a client that stood so before: a round that is over, one that begins, an end."""
        after = self.stand(number)
        words = self.over_words(number, before, after, how)
        if after is not None and after != before:
            words += begun_words(before, after)
        end = self.ends.get((number, self.clients[number].number))
        if end is not None and end.event == self.events:
            how_ended = "given up" if end.answer is None else f"with {answer_words(end.answer)}"
            words += f", ends {number}.{self.clients[number].number} {how_ended}"
        return words

    def over_words(self, number, before, after, how):
        """The round that is over, and what is left out, where the operation goes on."""
        if before is None or before.rest > 0:
            return ""
        if after is None:
            return f", round {before.round} {how}"
        if after.rest == 0 and after.round == before.round:
            return ""
        client = self.clients[number]
        left_out = [place for place, entry in sorted(client.entries.items()) if entry in client.left_out]
        return f", round {before.round} {how}" + "".join(
            f", without object {object_number} of replica {replica}" for object_number, replica in left_out)

    # ---- the listing

    def point_lines(self, below):
        """Adds the points to the lines below their events, where the premises hold."""
        for point in self.points_in_order() if self.audit.forged is None else ():
            below[point.event - 1].append(f"  {point_words(point)}")

    def lines(self):
        """The lines of all events, with their points and letters."""
        below = [[] for _ in self.told]
        self.point_lines(below)
        return self.lines_with(below)

    def lines_without_points(self):
        return self.lines_with([[] for _ in self.told])

    def lines_with(self, below):
        """The lines of all events, each with these lines and its letters below it."""
        for number, (event, letter) in enumerate(self.letters, 1):
            frame = decode(letter.text)
            words = listed_frame(frame) if frame else "no frame"
            parties = f"{listed_party(letter.sender)} to {listed_party(letter.receiver)}"
            below[event - 1].append(f"  letter {number} {parties}: {words}")
        lines = []
        for event, words in enumerate(self.told, 1):
            lines += [f"event {event} {words}", *below[event - 1]]
        return lines


def begun_words(before, after):
    """How long a client rests now, or whom it asks now."""
    if after.rest > 0:
        return f", rests {counted(after.rest, 'tick')}"
    if not after.asked_all:
        return ", asks the preferred"
    if before is not None and before.rest == 0 and before.round == after.round:
        return ", asks the others"
    return ", asks all"
