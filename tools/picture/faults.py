"""What is wrong with a text that tools/draw reads."""


class Malformed(Exception):
    """A line that is refused: its number, its kind, and the file, where it is not the listing of standard input."""

    def __init__(self, line, kind, file=""):
        super().__init__(f"{file}{': ' if file else ''}line {line}: {kind}")


class WrongWords(Exception):
    """Words behind tools/draw that do not fit the listing."""
