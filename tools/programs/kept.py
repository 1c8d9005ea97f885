"""The programs that stand in the folder out/ at the top: in out/proved those that were proved and built, in
out/unproved those that were compiled without proof.

Beside a program lies its mark: the toolchain's folder, the sum of what the program was made of, and the sum of its own
bytes, so that no program is taken for another. The mark comes last, and its time is one at which the texts were as it
says: a launcher asks for these sums only where a text was touched since.
"""
import contextlib
import fcntl
import os
import shutil
import tempfile
import time

from programs.sources import TOP, state_of, sum_of_code, sum_of_file, sum_of_proof
from programs.unproved import compile_program, kit_of

# The programs that the launchers run.
LAUNCHED = ("qu", "qu_letters")
# How much earlier than the moment at which its texts were read a mark is dated: as times are stored, in nanoseconds.
STORED_TIME = 10**9


class NotMade(Exception):
    """Why a program does not stand where it was to."""


def write_whole(path, text):
    """Writes a file, so that it is on the disk when this returns."""
    with open(path, "w", encoding="utf-8") as file:
        file.write(text)
        file.flush()
        os.fsync(file.fileno())


def give_up():
    raise BlockingIOError


class Place:
    """Where a program of this kind stands, proved or unproved."""

    def __init__(self, kind, name):
        self.name, self.folder = name, os.path.join(TOP, "out", kind)
        self.program = os.path.join(self.folder, name)
        self.mark = self.program + ".made"

    def is_made_of(self, sum_now):
        """Whether the program here was made of the texts as they are, of which a call gives the sum; its mark then says
        of this moment that they are so."""
        if not os.path.exists(self.mark):
            return False
        begun, made = time.time_ns(), sum_now()
        if not self.holds(made):
            return False
        # Where nothing can be written, or another run is at it, the next launcher asks again.
        with contextlib.suppress(OSError), self.turn(give_up), self.new_room() as room:
            if self.holds(made):
                os.replace(self.write_mark(room, self.program, made, begun), self.mark)
        return True

    def holds(self, made):
        """Whether the mark says of the program here that it was made of texts with this sum."""
        try:
            with open(self.mark, encoding="utf-8") as text:
                return text.read().split("\n")[1:3] == [made, sum_of_file(self.program)]
        except OSError:
            return False

    def write_mark(self, room, program, made, begun):
        """Writes the mark of this program into the room: of texts with this sum, which were read at this time."""
        path = os.path.join(room, "made")
        write_whole(path, f"{kit_of() or ''}\n{made}\n{sum_of_file(program)}\n")
        os.utime(path, ns=(begun - STORED_TIME, begun - STORED_TIME))
        return path

    def new_room(self):
        """A folder for what is not whole yet."""
        os.makedirs(self.folder, exist_ok=True)
        return tempfile.TemporaryDirectory(prefix=f"new-{self.name}-", dir=self.folder)

    @contextlib.contextmanager
    def turn(self, wait=lambda: None):
        """Waits while another run makes this program, and says so before; removes what a run that was killed left."""
        os.makedirs(self.folder, exist_ok=True)
        with open(self.program + ".lock", "w", encoding="utf-8") as lock:
            try:
                fcntl.flock(lock, fcntl.LOCK_EX | fcntl.LOCK_NB)
            except BlockingIOError:
                wait()
                fcntl.flock(lock, fcntl.LOCK_EX)
            for name in os.listdir(self.folder):
                if name.startswith(f"new-{self.name}-"):
                    shutil.rmtree(os.path.join(self.folder, name), ignore_errors=True)
            yield

    def put(self, room, made, begun):
        """Has the program in the room stand here."""
        program = os.path.join(room, self.name)
        with open(program, "rb") as file:
            os.fsync(file.fileno())
        mark = self.write_mark(room, program, made, begun)
        with contextlib.suppress(FileNotFoundError):
            os.remove(self.mark)
        os.replace(program, self.program)
        os.replace(mark, self.mark)


def proved(name):
    """Where the proved program stands that was made of the texts as they are, or nothing."""
    place = Place("proved", name)
    return place.program if place.is_made_of(lambda: sum_of_proof(name)) else None


def keep_proved(programs, state):
    """Keeps what was proved and built of these programs in their crates' folders, of texts that were in this state."""
    begun = time.time_ns()
    sums = {name: sum_of_proof(name) for name in programs}
    if state_of(programs) != state:
        raise NotMade("a source was changed while the programs were proved, so they are not kept")
    for name, made in sums.items():
        place = Place("proved", name)
        with place.turn(), place.new_room() as room:
            shutil.copy(os.path.join(TOP, "crates", name, "out", name), room)
            place.put(room, made, begun)


def unproved(name, begin=lambda: None, wait=lambda: None):
    """Where the program stands that was compiled of the code as it is, and in how many seconds if that was now."""
    kit, place = kit_of(), Place("unproved", name)
    if kit is None:
        raise NotMade("there is no rt on the path, with which the program is compiled")
    if place.is_made_of(lambda: sum_of_code(name, kit)):
        return place.program, None
    with place.turn(wait):
        if place.is_made_of(lambda: sum_of_code(name, kit)):
            return place.program, None
        begin()
        at, begun, made = time.monotonic(), time.time_ns(), sum_of_code(name, kit)
        with place.new_room() as room:
            said = compile_program(name, kit, os.path.join(room, name))
            if said:
                raise NotMade(f"the program was not compiled:\n{said.rstrip()}")
            if sum_of_code(name, kit) != made:
                raise NotMade("a source was changed while the program was compiled: run this again")
            place.put(room, made, begun)
    return place.program, time.monotonic() - at
