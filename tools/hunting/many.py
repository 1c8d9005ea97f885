"""Many runs, side by side: each is made by its number, run by the programs, and looked at."""
import multiprocessing
import time
from collections import Counter
from random import Random
from typing import NamedTuple

from hunting.checks import SOUGHT, Failure, failures_of, wanted_of
from hunting.coverage import SeenWorld
from hunting.options import Options
from hunting.programs import Programs
from hunting.quiet import ending, finds, rounds_of
from hunting.schedule import Schedule


class Hunt(NamedTuple):
    """Runs of one kind: the seed of all of them, what scripts are like, by which programs they run, and whether each
    has a quiet ending, of which it is asked whether all operations are answered; or what is sought, which is asked of
    the model alone."""

    seed: int
    options: Options
    programs: Programs
    is_quiet: bool = False
    sought: str = ""

    def failures(self, front, seen):
        """What is wrong with the run of a front, which has all its lines but a quiet ending, or that what is sought
        occurs in it. Counts in `seen` what its ending needs, and searches that came to no end."""
        if self.sought:
            count = front.world.seen[self.sought]
            return [Failure(SOUGHT, f"{self.sought}, {count} in this run")] if count else []
        if not self.is_quiet:
            told = []
            failures = failures_of(wanted_of(front), self.programs, told)
            seen["search without an end"] += len(told)
            return failures
        called = ending(front)
        seen["operation of a quiet ending"] += len(called)
        seen.update(f"operation of a quiet ending, rounds: {rounds:2}" for rounds in rounds_of(front, called))
        return finds(front.script(), called, self.programs)


class Looked(NamedTuple):
    """What came of a run: its number, its failures, what occurred, and, where it failed, the lines of its setup and its
    lines by name."""

    number: int
    failures: list
    seen: Counter
    setup: list
    lines: list


def made(hunt, number):
    """The schedule of the run with this number."""
    schedule = Schedule(Random(f"{hunt.seed}/{number}"), hunt.options, SeenWorld)
    schedule.make(has_end=not hunt.is_quiet)
    return schedule


def wanted_run(hunt, number):
    """What is wanted of the run with this number."""
    return wanted_of(made(hunt, number).front)


def look_at(hunt, number):
    """Makes the run with this number, and looks at it."""
    schedule = made(hunt, number)
    seen = schedule.world.seen
    failures = hunt.failures(schedule.front, seen)
    lines = (schedule.setup, schedule.lines) if failures else ([], [])
    return Looked(number, failures, seen, *lines)


def side_by_side(call, words, jobs, in_order=False):
    """The answers of a call with each of these words, as they come or in order."""
    if jobs == 1:
        yield from map(call, words)
        return
    with multiprocessing.Pool(jobs) as pool:
        yield from (pool.imap if in_order else pool.imap_unordered)(call, words)


class Tally:
    """What came of the runs so far, and a line that tells it: how many `differ`, or are what else is said of them."""

    def __init__(self, word="differ"):
        self.word, self.begun, self.runs = word, time.monotonic(), 0
        self.seen, self.runs_with, self.failed = Counter(), Counter(), []

    def take(self, looked):
        self.runs += 1
        self.seen.update(looked.seen)
        self.runs_with.update(name for name, count in looked.seen.items() if count)
        if looked.failures:
            self.failed.append(looked)

    def line(self):
        seconds = time.monotonic() - self.begun
        return f"{self.runs} runs, {self.runs / max(seconds, 1e-9):.1f} a second, {len(self.failed)} {self.word}"
