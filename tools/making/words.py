"""Words that are read one after another, so that a wrong one is told with all that could stand in its place."""
from model.script import Unknown, number_of
from model.values import LAST_VALUE

# How many words are told that stand before a wrong one.
MOST_BEFORE = 4


class WrongWord(Exception):
    """A word cannot stand where it does, or one is missing; or the words ask for what is no frame."""


class Words:
    """Words, from the place `at` on still to be read. `could` has what was looked for there and not found.

    A comma or a colon behind a word says nothing, so that lines of a listing may be handed on.
    """

    def __init__(self, text):
        self.words = [word.rstrip(",:") or word for word in text.split()]
        self.at, self.could = 0, []

    def next_is(self, phrase):
        """Takes this phrase where it stands next, and tells whether it does."""
        sought = phrase.split()
        if self.words[self.at:self.at + len(sought)] != sought:
            self.could.append(f"`{phrase}`")
            return False
        self.at, self.could = self.at + len(sought), []
        return True

    def one_of(self, phrases):
        """The one of these phrases that stands next. Raises WrongWord where none does."""
        found = next(filter(self.next_is, phrases), None)
        if found is None:
            raise self.wrong()
        return found

    def say(self, phrase):
        """Takes this phrase. Raises WrongWord where it does not stand next."""
        self.one_of((phrase,))

    def read(self, reader, what):
        """What the next word says: `reader` takes it, and raises Unknown where it cannot stand. Raises WrongWord."""
        try:
            value = reader("".join(self.words[self.at:self.at + 1]))
        except Unknown:
            self.could.append(what)
            raise self.wrong() from None
        self.at, self.could = self.at + 1, []
        return value

    def number(self, what, low=0, high=LAST_VALUE):
        """A number within limits. Raises WrongWord."""
        return self.read(lambda word: number_of(word, low, high), f"{what} ({low} to {high})")

    def numbers(self, what, low, high):
        """All numbers that stand next, one at least. Raises WrongWord."""
        found = [self.number(what, low, high)]
        while "".join(self.words[self.at:self.at + 1]).isdigit():
            found.append(self.number(what, low, high))
        self.could.append(f"{what} ({low} to {high})")
        return found

    def end(self):
        """Raises WrongWord where a word is left."""
        if self.at < len(self.words):
            raise self.wrong()

    def wrong(self):
        """What is wrong with the next word."""
        before = " ".join(self.words[max(0, self.at - MOST_BEFORE):self.at])
        word = f"`{self.words[self.at]}`" if self.at < len(self.words) else "no word"
        where = f"behind `{before}`" if before else "at first"
        return WrongWord(f"{word} {where}; there could stand {' or '.join(dict.fromkeys(self.could)) or 'no word'}")
