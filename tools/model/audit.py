"""The premise of a run that nothing is forged.

The other one, that no two texts have one digest, is not tested, since no such two are known.
"""
import hashlib

from model.keys import history_digest
from model.reading import decode
from model.values import Party, sender_of


def mark_of(text):
    """What stands for a text that was sent."""
    return hashlib.sha256(text).digest()


class Audit:
    """`forged` is the first event at which something forged reached a correct party, or None.

    `texts` has what was sent, as sender, receiver and mark; `histories` what was shown, as replica and digest.
    """

    def __init__(self, faulty, keys):
        self.faulty, self.keys = faulty, keys
        self.forged = None
        self.texts, self.histories = set(), set()

    def injected(self, event, receiver, text):
        """Looks at bytes that are injected to a correct party; what is delivered was sent by whom it names."""
        frame = self.keys.frame_for(receiver, text)
        if frame is None or sender_of(frame) in self.faulty:
            return
        if (sender_of(frame), receiver, mark_of(text)) not in self.texts:
            self.forged = self.forged or event

    def handled(self, event, kept):
        """Looks at the entries of a request that a correct replica left in culling, whose HMACs are right for it."""
        for entry in kept:
            replica = entry.history.replica
            if Party("r", replica) in self.faulty:
                continue
            if (replica, history_digest(entry.history)) not in self.histories:
                self.forged = self.forged or event

    def sent(self, letters):
        """Takes note of what correct parties sent."""
        for letter in letters:
            self.texts.add((letter.sender, letter.receiver, mark_of(letter.text)))
            frame = decode(letter.text) if letter.sender.kind == "r" else None
            for entry in getattr(frame, "shown", ()):
                self.histories.add((letter.sender.number, history_digest(entry.history)))
