"""Lines of scripts in which letters have names: each is made plain upon the run of those before it."""
from making.frames import Making
from making.letters import Lacking
from making.words import Words, WrongWord
from model.player import Player
from model.script import Unknown, read_script, words_of
from model.values import Party
from model.world import Refused, World

from hunting.letters import ShownLetters
from hunting.names import Names

PARTS_MARK = "|"


class Unplayable(Exception):
    """A line cannot stand here, for this reason."""


class KeepingWorld(World):
    """A world that keeps the bytes that were injected."""

    def __init__(self, setup):
        super().__init__(setup)
        self.injected = []

    def inject(self, party, text):
        super().inject(party, text)
        self.injected.append(text)


def need(condition, why):
    if not condition:
        raise Unplayable(why)


def party_of(word, setup):
    """The party of the setup that a word such as `r0` or `c1` names."""
    kind, number = word[:1], word[1:]
    most = {"r": setup.bounds.replicas - 1, "c": setup.clients}
    need(kind in most and number.isdecimal() and number.isascii(), f"{word} is no party: r0, c1")
    need((kind == "c") <= int(number) <= most[kind], f"the setup has no party {word}")
    return Party(kind, int(number))


class Front:
    """The run of the plain lines so far, which stand in `lines`.

    Beside the lines of scripts it takes `deliver` with names of letters, `inject` with the words of tools/frame, in
    which letters have names too, `partition`, `heal` and `delay`. `parts` has the sets of parties that hear each other,
    none where all do; `delays` by sender and receiver how many events a flow leaves a letter alone.
    """

    def __init__(self, setup, world_kind=KeepingWorld):
        script = read_script("".join(f"{line}\n" for line in setup).encode())
        self.setup_lines, self.setup, self.reader = list(setup), script.setup, script.reader
        self.lines = list(setup)
        self.world = world_kind(script.setup)
        self.player, self.names, self.shown = Player(self.world), Names(self.world), ShownLetters(self.world)
        self.making = Making(script.setup, self.shown)
        self.parts, self.delays = [], {}

    def script(self):
        """The plain script so far."""
        return "".join(f"{line}\n" for line in self.lines)

    def take(self, line):
        """Plays a line, and gives the plain line that stands for it, or None where nothing is to be done. Raises
        Unplayable; only where a line delivers several letters has something happened then: those before the one that is
        missing were delivered."""
        first, *words = line.split() or [""]
        if first == "flow" and (self.parts or self.delays):
            plain = self.flow(words)
        elif first == "deliver":
            plain = " ".join([first, *map(self.deliver, words)])
        else:
            plain = self.plain(line, first, words)
            self.play(plain)
        if plain is not None:
            self.lines.append(plain)
        return plain

    def plain(self, line, first, words):
        """The plain line that says the same here as a line with this first word and these behind it."""
        if first in ("partition", "heal", "delay"):
            getattr(self, first)(words)
            return f"# {line.strip()}"
        if first == "inject" and "to" in words[:3]:
            return self.injected(words)
        return line

    def deliver(self, word):
        """Delivers the letter that a word names, and gives its number in words."""
        number = self.number_of(word)
        self.play(f"deliver {number}")
        return number

    def number_of(self, word):
        """The number of the letter that a word names, in words."""
        if word.isdecimal() and word.isascii():
            return word
        number = self.names.number(word)
        need(number is not None, f"there is no letter {word} so far")
        return str(number)

    def injected(self, words):
        """The line that injects the frame of these words."""
        self.shown.look()
        plain = [self.number_of(word) if before == "letter" else word for before, word in zip(["", *words], words)]
        try:
            text = self.making.make(Words(" ".join(plain)))
        except (Lacking, WrongWord) as why:
            raise Unplayable(str(why)) from None
        at = words.index("to")
        return f"inject {words[at + 1]} {words[at + 2]} {text.hex()}"

    def play(self, line):
        """Plays a plain line."""
        try:
            said = self.reader.read_line(words_of(line.encode()))
            if said:
                self.player.play(*said)
        except (Unknown, Refused) as why:
            raise Unplayable(str(why) if isinstance(why, Unknown) else why.kind) from None

    # ---- networks

    def partition(self, words):
        """Parts the network: a flow takes a letter between two parties that are named only where one part has both."""
        parts, named = [set()], set()
        for word in words:
            if word == PARTS_MARK:
                parts.append(set())
                continue
            party = party_of(word, self.setup)
            need(party not in named, f"{word} is named twice")
            named.add(party)
            parts[-1].add(party)
        need(len(parts) > 1 and all(parts), f"partition has two parts or more, with {PARTS_MARK} between them")
        self.parts = parts

    def heal(self, words):
        """Takes partitions and delays away."""
        need(not words, "heal has no words behind it")
        self.parts, self.delays = [], {}

    def delay(self, words):
        """Has flows leave the letters from one party to another alone until so many events were made since."""
        need(len(words) == 2 and words[1].isdecimal() and ">" in words[0], "delay is told as delay c1>r3 20")
        sender, _, receiver = words[0].partition(">")
        self.delays[party_of(sender, self.setup), party_of(receiver, self.setup)] = int(words[1])

    def is_parted(self, letter):
        """Whether the network is parted between the sender and the receiver of a letter."""
        homes = [next((part for part in self.parts if party in part), None) for party in letter[:2]]
        return None not in homes and homes[0] is not homes[1]

    def due(self, number):
        """How many events have to be made before a flow may take a letter."""
        event, letter = self.world.letters[number - 1]
        return event + self.delays.get((letter.sender, letter.receiver), 0)

    def next_letter(self):
        """The lowest letter that a flow takes, which is due, or else the one that is due first; or None."""
        waiting = [number for number in range(1, len(self.world.letters) + 1) if self.is_waiting(number)]
        ready = [number for number in waiting if self.due(number) <= self.world.events]
        return min(ready or waiting, key=lambda number: (0 if ready else self.due(number), number), default=None)

    def is_waiting(self, number):
        letter = self.world.letters[number - 1].letter
        is_held = bool({letter.sender, letter.receiver} & self.player.held)
        return not self.player.is_gone(number) and not is_held and not self.is_parted(letter)

    def flow(self, words):
        """Delivers what a flow takes in a network of partitions and delays, and gives the line that says so."""
        need(len(words) <= 1 and all(map(str.isdecimal, words)), "flow has a number behind it, or none")
        most, taken = int(words[0]) if words else None, []
        while most is None or len(taken) < most:
            number = self.next_letter()
            if number is None:
                break
            self.play(f"deliver {number}")
            taken.append(number)
        return " ".join(["deliver", *map(str, taken)]) if taken else None
