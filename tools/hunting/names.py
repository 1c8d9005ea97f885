"""Names of letters, which stay where the numbers of letters move: who asks whom, and in which round.

    1.2/1>r0       the request of operation 1.2 in its round 1 to replica 0
    r0>1.2/1       the reply of replica 0 to it
    r4>r2?0@3      replica 4 asks replica 2 for the version of object 0 at time 3
    r2>r4!0@3      replica 2 sends it
    r0>1.2/1#2     the second letter that has this name
"""
from model.values import Fetch, Reply, Request

from hunting.decoded import decoded


def name_without_place(letter):
    """The name that a letter shares with those that say the same."""
    frame = decoded(letter.text)
    if isinstance(frame, Request):
        return f"{frame.client}.{frame.number}/{frame.round}>{letter.receiver}"
    if isinstance(frame, Reply):
        return f"{letter.sender}>{frame.client}.{frame.number}/{frame.round}"
    mark = "?" if isinstance(frame, Fetch) else "!"
    return f"{letter.sender}>{letter.receiver}{mark}{frame.object}@{frame.stamp.time}"


class Names:
    """The names of the letters of a world, as many as it has by now."""

    def __init__(self, world):
        self.world, self.named, self.numbers, self.counts = world, [], {}, {}

    def look(self):
        """Names the letters that were sent since."""
        for sent in self.world.letters[len(self.named):]:
            name = name_without_place(sent.letter)
            count = self.counts[name] = self.counts.get(name, 0) + 1
            self.named.append(name if count == 1 else f"{name}#{count}")
            self.numbers[self.named[-1]] = len(self.named)

    def name(self, number):
        self.look()
        return self.named[number - 1]

    def number(self, name):
        """The number of the letter with this name, or None."""
        self.look()
        return self.numbers.get(name.removesuffix("#1"))
