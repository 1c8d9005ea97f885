"""Runs that stored cases tell event by event: a setup, an empty line, and lines that make an event or some."""
import re

from model.keys import Keys
from model.listing import ListedWorld
from model.reading import decode
from model.script import LAST_CLIENT, Unknown, read_script, words_of
from model.told_frames import told_answer, told_frame
from model.values import DIGEST_SIZE, Party, sender_of
from model.world import Refused

PARTY = re.compile(r"([rc])(\d{1,5})")


class NotKnown(Exception):
    """The model has no answer, for this reason."""


def signed(keys, text, receiver):
    """A frame, of which `text` are all bytes, with the HMAC of its sender for a party in the place of the one that it
    has. Raises NotKnown where the model reads no frame."""
    frame = decode(text)
    if frame is None:
        raise NotKnown("a frame that the model does not read")
    front = text[:-DIGEST_SIZE]
    return front + keys.frame_hmac(front, sender_of(frame), receiver)


class Happening:
    """A world, and in `told` what each event made of it.

    `faulty` are parties that are faulty beside those of the setup. `bytes_of` gives the bytes that words spell.
    """

    def __init__(self, setup_lines, faulty, bytes_of):
        script = read_script(setup_lines.encode())
        script.reader.faulty += faulty
        self.reader, self.bytes_of = script.reader, bytes_of
        self.world = ListedWorld(script.setup._replace(faulty=script.setup.faulty | faulty))
        self.keys = Keys(script.setup.seed, script.setup.bounds, LAST_CLIENT)
        self.told = []

    def take(self, line):
        """Makes the events of a line. Raises NotKnown where it has no known form."""
        verb, _, rest = line.partition(" ")
        who, _, words = rest.partition(" ")
        if verb not in ("inject", "send"):
            return self.take_line(line)
        found = PARTY.fullmatch(who)
        if found is None:
            raise NotKnown(f"no party: {who}")
        party, text = Party(found.group(1), int(found.group(2))), self.bytes_of(words)
        if not self.world.keys.exists(party):
            kind = "Replica(ReplicaId" if party.kind == "r" else "Client(ClientId"
            return self.told.append(f"NoSuchActor({kind}({party.number})))")
        return self.make(self.world.inject, party, signed(self.keys, text, party) if verb == "send" else text)

    def take_line(self, line):
        """Makes the events of a line of a script."""
        words = words_of(line.encode())
        try:
            word = words.next()
            needs = self.reader.read_event(word, words)
        except Unknown:
            raise NotKnown(f"no line for events: {line}") from None
        if word == "call":
            self.make(self.world.invoke, *needs)
        elif word == "deliver":
            self.deliver(*needs)
        elif word == "tick":
            self.tick(*needs)
        elif word == "wake":
            self.tick(*needs, self.world.clients[needs[0]].rest)
        else:
            raise NotKnown(f"no line for events: {line}")

    def deliver(self, numbers):
        for number in numbers:
            if 1 <= number <= len(self.world.letters):
                self.make(self.world.deliver, number)
            else:
                self.told.append(f"NoSuchLetter({number})")

    def tick(self, client, times=1):
        for _ in range(times):
            self.make(self.world.tick, client)

    def make(self, event, *needs):
        """Makes an event, and tells its letters and the ends of operations."""
        sent = len(self.world.letters)
        try:
            event(*needs)
        except Refused as refused:
            self.told.append("Busy" if refused.kind == "busy" else refused.kind)
            return
        self.told.append(f"event {self.world.events}")
        for _, letter in self.world.letters[sent:]:
            self.told.append(f"  to {letter.receiver} {told_frame(decode(letter.text))}")
        for (client, number), end in self.world.ends.items():
            if end.event == self.world.events:
                how_ended = "gave up" if end.answer is None else told_answer(end.answer)
                self.told.append(f"  end {client}.{number} {how_ended}")
