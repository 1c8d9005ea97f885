"""Programs that take scripts on standard input, and what they write."""
import subprocess
from typing import NamedTuple

# The seconds after which a program that has written nothing more is taken for one that does not end.
MOST_SECONDS = 120


# A script that each program takes.
SHORT = "bounds 1\nseed 7\nclients 1\nobject 0 counter\n"


class Written(NamedTuple):
    """What a program wrote for a script, and its status: that of `qu`, or words where it has none."""

    lines: list
    status: object


def write(words, script, seconds=MOST_SECONDS):
    """What the program of these words writes for a script."""
    try:
        ran = subprocess.run(words, input=script.encode(), capture_output=True, timeout=seconds, check=False)
    except subprocess.TimeoutExpired:
        return Written([], f"does not end within {MOST_SECONDS} seconds")
    lines = ran.stdout.decode("utf-8", "replace").splitlines()
    return Written(lines, ran.returncode)


class Programs(NamedTuple):
    """The programs that are looked at: `sim` writes reports as `qu` does, `letters` letters as `qu-letters` does, or is
    empty where letters are not looked at."""

    sim: str
    letters: str = ""

    def report(self, script):
        return write([self.sim, "sim"], script)

    def fault(self):
        """Words where a program does not take a script, or None. A launcher makes its program at its first run, and is
        given the time for it."""
        for words in ([self.sim, "sim"], [self.letters, "digests"]):
            try:
                status = write(words, SHORT, None).status if words[0] else 0
            except OSError as error:
                status = error.strerror
            if status != 0:
                return f"{' '.join(words)} takes no script: {status}"
        return None

    def digests(self, script):
        """The letters by their digests, or None where they are not looked at."""
        return write([self.letters, "digests"], script) if self.letters else None
