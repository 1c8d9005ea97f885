"""What the tests share: where tools/ stands, a short run, and a call of tools/draw."""
import os
import subprocess
import sys

TOOLS = os.path.dirname(os.path.dirname(os.path.realpath(__file__)))
sys.dont_write_bytecode = True
sys.path.insert(0, TOOLS)

OPENING = "event 1 call 1.1 add 0 5"
ASKED = "  letter 1 client 1 to replica 0: request 1.1 round 1, act, object 0 shown by none"
DELIVERED = "event 2 deliver 1 to replica 0"
THIN = "  letter 2 replica 0 to client 1: reply 1.1 round 1, thin 0, shows object 0 with 1 candidate"
ENDED = "event 3 deliver 2 to client 1, ends 1.1 given up"
SHORT = [OPENING, ASKED, DELIVERED, THIN, ENDED]


def text_of(*lines):
    return "".join(line + "\n" for line in lines).encode()


def draw(data, *words):
    """The exit status, the standard output and the standard error of tools/draw."""
    done = subprocess.run([os.path.join(TOOLS, "draw"), *words], input=data, capture_output=True, check=False)
    return done.returncode, done.stdout.decode(), done.stderr.decode()


def reply(verdict, number=1, told_by=0, asked="1.1 round 1"):
    """A listed letter from a replica to client 1."""
    return f"  letter {number} replica {told_by} to client 1: reply {asked}, {verdict}"
