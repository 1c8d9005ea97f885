"""What tests of tools that call `rt` share: a small repository with these tools, and a toolchain that does as it is
told.

The toolchain's `rt` writes what it is called with into a log, and stands still at a word that a test has in WAITING
until it may go on. Its linker makes a shell script that tells its words and its input, and ends with status 3.
"""
import functools
import os
import shutil
import signal
import subprocess
import sys
import tempfile
import time

TOP = os.path.dirname(os.path.dirname(os.path.dirname(os.path.realpath(__file__))))
PROGRAM = """#!/bin/sh
echo 'this is {what}'
echo "$@"
cat
exit 3
"""
LINKER = """#!/bin/sh
cat >"$2" <<'END'
{program}END
chmod +x "$2"
"""
RT = """#!/bin/sh
kit=$(dirname "$(dirname "$0")")
name=$(basename "$PWD")
echo "$name $*" >>{room}/log
[ "$1" != --statements ] || shift
if [ "$name" = "$WAITING" ] || [ "$1" = "$WAITING" ]; then
    echo $$ >>{room}/waits
    while [ -e {room}/log ] && ! [ -e {room}/go ]; do sleep 0.02; done
fi
[ "$name" != "$FAILING" ] && [ "$1" != "$FAILING" ] || {{ echo 'error: it is wrong'; exit 1; }}
case $1 in
    try) cd "$TMPDIR" && "$kit/toolchain/bin/ld.lld" -o program ;;
    lib) mkdir -p out/rlib && echo "$PWD" >out/rlib/made && echo "$name.one, 1 of 2 functions checked; functions=2" ;;
    run) mkdir -p out && cp {room}/proved out/"$name" && echo "functions=3" && echo "rt: running out/$name" ;;
    ci)
        for each in qu qu_letters; do mkdir -p crates/$each/out && cp {room}/proved crates/$each/out/$each; done
        echo '2 passed, 0 failed'
        ;;
    must-fail) find . -type f | sort >{room}/copied && cat {room}/told ;;
esac
"""


def write(path, text, mode=0o644):
    os.makedirs(os.path.dirname(path), exist_ok=True)
    with open(path, "w", encoding="utf-8") as file:
        file.write(text)
    os.chmod(path, mode)


def read(path):
    with open(path, encoding="utf-8") as file:
        return file.read()


class Room:
    """A folder with a repository, in `top`, and a toolchain, in `kit`."""

    def __init__(self, crates):
        self.folder = tempfile.TemporaryDirectory(prefix="tools-test-")
        self.top, self.kit = (os.path.join(self.folder.name, name) for name in ("repository", "kit"))
        write(os.path.join(self.top, "HANDLES"), "none\n")
        write(os.path.join(self.top, "crates.txt"), crates)
        for line in crates.splitlines():
            name = line.partition(":")[0]
            write(self.source(name, "src/lib.rt"), f"fn {name}() {{}}\n")
            write(self.source(name, "proofs/Lib.antt"), "-- nothing\n")
        for name in ("qu", "prove", ".ci/run"):
            os.makedirs(os.path.dirname(os.path.join(self.top, name)), exist_ok=True)
            shutil.copy2(os.path.join(TOP, name), os.path.join(self.top, name))
        os.symlink("qu", os.path.join(self.top, "qu-letters"))
        hidden = shutil.ignore_patterns("__pycache__", "tests", "model", "picture", "making")
        shutil.copytree(os.path.join(TOP, "tools"), os.path.join(self.top, "tools"), ignore=hidden)
        # What tools/rt does beside is tested where it is.
        write(os.path.join(self.top, "tools", "rt"), '#!/bin/sh\nexec rt "$@"\n', 0o755)
        self.make_kit()

    def source(self, name, path):
        return os.path.join(self.top, "crates", name, path)

    def path(self, *parts):
        return os.path.join(self.folder.name, *parts)

    def make_kit(self):
        room = self.folder.name
        write(os.path.join(self.kit, "KIT-ID"), "one\n")
        write(os.path.join(self.kit, "bin", "rt"), RT.format(room=room), 0o755)
        for name in ("rtlib.py", "rattle"):
            write(os.path.join(self.kit, "bin", name), "")
        # What else there may be of Python would take most of the time of these tests.
        write(os.path.join(self.kit, "bin", "python3"), f'#!/bin/sh\nexec {sys.executable} -S "$@"\n', 0o755)
        tools = os.path.join(self.kit, "toolchain", "bin")
        write(os.path.join(tools, "clang"), "")
        write(os.path.join(tools, "ld.lld"), LINKER.format(program=PROGRAM.format(what="compiled")), 0o755)
        write(os.path.join(room, "proved"), PROGRAM.format(what="proved"), 0o755)

    def begin(self, *words, **environment):
        """Begins a command at the top of the repository, in a group of its own."""
        path = os.pathsep.join([os.path.join(self.kit, "bin"), os.environ["PATH"]])
        how = {"stdin": subprocess.PIPE, "stdout": subprocess.PIPE, "stderr": subprocess.PIPE, "text": True}
        how["env"] = {**os.environ, "PATH": path, "WAITING": "", "FAILING": "", **environment}
        # What runs beside others, as these tests do in the gate, is begun so that Ctrl-C does not reach it.
        hears = functools.partial(signal.signal, signal.SIGINT, signal.SIG_DFL)
        return subprocess.Popen(words, cwd=self.top, start_new_session=True, preexec_fn=hears, **how)

    def run(self, *words, given="", **environment):
        """The status, the output and the error of a command at the top."""
        ran = self.begin(*words, **environment)
        out, error = ran.communicate(given)
        return ran.returncode, out, error

    def log(self):
        """What rt was called with, a line a call."""
        log = self.path("log")
        return read(log).splitlines() if os.path.exists(log) else []

    def wait_for(self, many=1):
        """Waits until rt stands still in so many calls."""
        while not os.path.exists(self.path("waits")) or len(read(self.path("waits")).split()) < many:
            time.sleep(0.01)

    def interrupt(self, ran, number=signal.SIGINT):
        os.killpg(ran.pid, number)
        ran.communicate()
