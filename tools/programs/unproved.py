"""Compiles programs of this repository without proof.

They are compiled as `rt try` compiles, which tests each index and each sum, but optimised and without the address
sanitizer, with which the stored cases take a quarter of an hour of a processor.
"""
import os
import shlex
import shutil
import signal
import subprocess
import tempfile

from programs.sources import TOP

RT = os.path.join(TOP, "tools", "rt")
# In the place of the toolchain's clang: the module that it has to compile with the address sanitizer, that of the
# program, is put aside for the linker to compile, and what comes of it here is an object with nothing in it.
CLANG = """#!/bin/sh
for word do
    case $word in
        --target=*) target=$word ;;
        *.bc) module=$word ;;
        *.o) object=$word ;;
        -fsanitize=address) is_program=yes ;;
    esac
done
[ "$is_program" ] || exec {real}/clang "$@"
cp -- "$module" {module} || exit
exec {real}/clang "$target" -c -x assembler /dev/null -o "$object"
"""
# What the linker makes of that module before it generates code, in parts side by side: what nothing calls goes first,
# and each function is simplified by itself and once more when others are inlined. All that the compiler's first level
# does beside it takes longer than it saves when the cases run.
SIMPLIFY = "function(sroa,early-cse,simplifycfg,instcombine<max-iterations=1;no-verify-fixpoint>)"
PASSES = f"globaldce,{SIMPLIFY},globaldce,cgscc(inline,{SIMPLIFY}),globaldce"
PARTS = 4
# As the toolchain has its clang generate code.
CODE = (
    "-no-trap-after-noreturn",
    "-trap-unreachable",
    "-no-x86-call-frame-opt",
    "-disable-machine-licm",
    "-disable-postra-machine-licm",
    "-sink-common-insts=false",
)
# In the place of the toolchain's linker: it compiles too, and what it links is kept, once it is there whole.
LINKER = """#!/bin/sh
set -- "$@" {module} --threads={parts} --lto-partitions={parts} --lto-O1 --lto-newpm-passes='{passes}' {code}
{real}/ld.lld "$@" || exit
for word do
    if [ "$last" = -o ]; then cp -- "$word" {program}.part && mv -- {program}.part {program} || exit; fi
    last=$word
done
"""
# In the place of the toolchain's prover, which `rt try` has look for names that a proof would refuse.
PROVER = """#!/bin/sh
for word do
    [ "$word" != --start ] || exit 0
done
exec {real}/rattle "$@"
"""
# How long a compiler that is told to end may take, in seconds.
ENDING = 10


def kit_of():
    """The folder of the toolchain, or nothing where there is no rt on the path."""
    rt = shutil.which("rt")
    return rt and os.path.dirname(os.path.dirname(os.path.realpath(rt)))


def link_all(folder, source, without=()):
    """Makes a folder with links to all that another holds, but for these names."""
    os.makedirs(folder)
    for name in set(os.listdir(source)) - set(without):
        os.symlink(os.path.join(source, name), os.path.join(folder, name))


def write_script(path, text):
    with open(path, "w", encoding="utf-8") as script:
        script.write(text)
    os.chmod(path, 0o755)


def make_kit(folder, kit, program):
    """Makes a toolchain that is as this one, but that its linker compiles and optimises, and keeps what it links."""
    link_all(folder, kit, ("bin", "toolchain"))
    programs, real_programs = (os.path.join(at, "bin") for at in (folder, kit))
    # What finds the toolchain by its own place is copied.
    copied = ("rt", "rtlib.py")
    link_all(programs, real_programs, (*copied, "rattle"))
    for name in copied:
        shutil.copy2(os.path.join(real_programs, name), os.path.join(programs, name))
    write_script(os.path.join(programs, "rattle"), PROVER.format(real=shlex.quote(real_programs)))
    link_all(os.path.join(folder, "toolchain"), os.path.join(kit, "toolchain"), ("bin",))
    tools, real = (os.path.join(at, "toolchain", "bin") for at in (folder, kit))
    link_all(tools, real, ("clang", "ld.lld"))
    code = " ".join(f"-mllvm {word}" for word in CODE)
    fill = {"real": real, "module": os.path.join(folder, "module.bc"), "program": program}
    fill = {name: shlex.quote(value) for name, value in fill.items()}
    write_script(os.path.join(tools, "clang"), CLANG.format(**fill))
    write_script(os.path.join(tools, "ld.lld"), LINKER.format(parts=PARTS, passes=PASSES, code=code, **fill))


def said_by(words, **how):
    """What a command says. Where this ends before it, the command is told to, and all that it began ends with it."""
    # In a session of its own it hears of that once, and from here.
    ran = subprocess.Popen(words, start_new_session=True, **how)
    try:
        return ran.communicate()[0]
    finally:
        if ran.poll() is None:
            ran.send_signal(signal.SIGTERM)
            try:
                ran.wait(ENDING)
            except subprocess.TimeoutExpired:
                ran.kill()


def compile_program(name, kit, program):
    """Compiles a program to this path, and gives what the compiler said where there is none."""
    with tempfile.TemporaryDirectory(prefix="unproved-") as room:
        other = os.path.join(room, "kit")
        make_kit(other, kit, program)
        path = os.pathsep.join([os.path.join(other, "bin"), os.environ.get("PATH", "")])
        how = {"stdin": subprocess.DEVNULL, "stdout": subprocess.PIPE, "stderr": subprocess.STDOUT, "errors": "replace"}
        how["env"] = {**os.environ, "PATH": path, "TMPDIR": room}
        # Upon no input it has little to do, so the run that belongs to each try is short.
        words = [RT, "try", "--steps", "1", "--seconds", "1"]
        said = said_by(words, cwd=os.path.join(TOP, "crates", name), **how)
        return "" if os.path.isfile(program) else said or "the compiler said nothing\n"
