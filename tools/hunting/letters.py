"""What replicas showed so far in a run that goes on."""
from making.letters import Letters
from model.values import Reply

from hunting.decoded import decoded


class ShownLetters(Letters):
    """The histories that the letters of a world show, and those that faulty replicas showed in replies that were
    injected: these stand in no letter, and have its number 0."""

    def __init__(self, world):
        super().__init__(None)
        self.world, self.shown, self.letters, self.injected = world, [], 0, 0

    def look(self):
        """Takes note of what was shown since."""
        for number, sent in enumerate(self.world.letters[self.letters:], self.letters + 1):
            self.note(number, sent.letter.text)
        self.letters = len(self.world.letters)
        for text in self.world.injected[self.injected:]:
            self.note(0, text)
        self.injected = len(self.world.injected)

    def note(self, number, text):
        frame = decoded(text)
        if isinstance(frame, Reply):
            self.shown += [(number, sealed) for sealed in frame.shown]
