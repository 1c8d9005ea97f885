"""Hunts for wrong bodies: edits that proofs refuse, each compiled without proof in a copy of the repository."""
import os
import shutil
import tempfile
import threading
import time
from concurrent.futures import ThreadPoolExecutor
from typing import NamedTuple

from hunting.checks import ORDER, POINTS, REPORT, STATUS, failures_of
from hunting.programs import Programs

# The edits, by crate and name: what they change is what replicas, clients, plans and points do.
WRONG = (
    "qu_replica/found_at_b_identical_answers", "qu_replica/a_version_of_another_kind_counts",
    "qu_replica/read_request_is_handled_without_its_hmac", "qu_replica/plan_keeps_the_version_under_the_prior",
    "qu_waiting/found_where_answers_differ", "qu_rows/nothing_is_culled", "qu_rows/a_repeated_act_is_performed",
    "qu_rows/operation_upon_older_sets", "qu_rows/digest_before_culling", "qu_kept/links_are_lost",
    "qu_kept/refused_act_changes_the_parts_before_it", "qu_kept/no_row_where_the_act_is_refused",
    "qu_mends/barrier_rests_on_the_latest", "qu_mends/one_held_candidate_is_enough",
    "qu_rows/retry_is_told_already", "qu_rows/one_object_alone_is_accepted", "qu_class/method_at_the_repair_threshold",
    "qu_class/members_agree_by_stamps_alone", "qu_plan/plan_of_the_target_alone", "qu_plan/covered_by_a_later_link",
    "qu_client/left_out_below_a_quorum", "qu_client/retry_under_a_new_number", "qu_client/rest_of_no_ticks",
    "qu_points/update_point_at_its_reply", "qu_points/query_point_at_its_reply", "qu_points/point_by_number_alone",
)
FOLDERS = ("wrong", "must-fail")
LOOKED_AT = (STATUS, ORDER, POINTS, REPORT)
# What a copy does without.
LEFT_OUT = ("out", ".git", "docs", "proofs", "specs")


class Found(NamedTuple):
    """What came of a hunt: why there is no program, or how many runs were made, in how many seconds, and for each check
    that saw the fault the run by which it did, and the seconds until then."""

    why: str
    runs: int
    seconds: float
    by: dict


def edit_path(top, name):
    """The file of an edit. Raises FileNotFoundError where there is none."""
    crate, edit = name.split("/")
    paths = [os.path.join(top, "crates", crate, folder, f"{edit}.edit") for folder in FOLDERS]
    for path in paths:
        if os.path.exists(path):
            return path
    raise FileNotFoundError(f"there is no edit {name}")


def changed(top, name):
    """The files that an edit changes, each with its text before and then. Raises ValueError where it does not fit."""
    texts, path, old = {}, None, None
    with open(edit_path(top, name), encoding="utf-8") as file:
        for line in file.read().splitlines():
            word, _, rest = line.partition(":")
            if word == "file":
                path = os.path.join(top, "crates", name.split("/")[0], rest.strip())
                with open(path, encoding="utf-8") as text:
                    texts.setdefault(path, [text.read()] * 2)
            elif word == "old":
                old = rest[1:]
            elif word == "new":
                before, now = texts[path]
                if now.count(old) != 1:
                    raise ValueError(f"the old text of {name} does not stand once in {path}")
                texts[path] = [before, now.replace(old, rest[1:])]
    return texts


def write(path, text):
    with open(path, "w", encoding="utf-8") as file:
        file.write(text)


def copy_of(top, folder):
    """A copy of all that a program is compiled of."""
    copy = os.path.join(folder, "copy")
    shutil.copytree(top, copy, symlinks=True, ignore=shutil.ignore_patterns(*LEFT_OUT))
    return copy


def hunt_for(programs, wanted, seconds, jobs):
    """Runs these runs, one after another, until the checks of reports have all seen a fault, or the time is over."""
    begun, by, runs = time.monotonic(), {}, 0
    with ThreadPoolExecutor(jobs) as pool:
        while runs < len(wanted) and time.monotonic() - begun < seconds and not {ORDER, POINTS, REPORT} <= set(by):
            some = wanted[runs:runs + jobs]
            for number, failures in enumerate(pool.map(lambda each: failures_of(each, programs, []), some), runs + 1):
                for failure in failures:
                    by.setdefault(failure.check, (number, time.monotonic() - begun))
            runs += len(some)
    return Found("", runs, time.monotonic() - begun, by)


class Copies:
    """Copies of the repository, one for each thread that asks, which go with the folder."""

    def __init__(self, top, folder):
        self.top, self.folder, self.mine = top, folder, threading.local()

    def copy(self):
        if not hasattr(self.mine, "copy"):
            self.mine.copy = copy_of(self.top, tempfile.mkdtemp(dir=self.folder))
        return self.mine.copy

    def hunt(self, name, wanted, seconds, jobs):
        """Compiles a wrong body in a copy, and hunts for it."""
        copy = self.copy()
        texts = changed(copy, name)
        try:
            for path, (_, now) in texts.items():
                write(path, now)
            programs = Programs(os.path.join(copy, "qu"))
            fault = programs.fault()
            return Found(fault, 0, 0, {}) if fault else hunt_for(programs, wanted, seconds, jobs)
        finally:
            for path, (before, _) in texts.items():
                write(path, before)


def told_row(name, found):
    """A row of the table: a wrong body, the runs by which each check saw it, and how many runs were made."""
    crate, edit = name.split("/")
    by = found.by
    if found.why:
        return f"| `{crate}` | {edit.replace('_', ' ')} | {found.why} | | | | |"
    cells = [f"{by[check][0]} ({by[check][1]:.0f} s)" if check in by else "-" for check in LOOKED_AT]
    return f"| `{crate}` | {edit.replace('_', ' ')} | {' | '.join(cells)} | {found.runs} in {found.seconds:.0f} s |"


def hunted(top, names, wanted, seconds, jobs):
    """Rows of the table, in the order of the names, two bodies at once."""
    with tempfile.TemporaryDirectory(prefix="hunt-") as folder, ThreadPoolExecutor(2) as pool:
        copies = Copies(top, folder)
        found = pool.map(lambda name: copies.hunt(name, wanted, seconds, max(1, jobs // 2)), names)
        for name, each in zip(names, found, strict=True):
            yield name, each
