"""Compiles an example in C over an archive of the calls, runs it, and compares what it prints."""

import difflib
import subprocess

from at_hand import run, stop
from crate_list import TOP

EXAMPLES = TOP / "examples" / "c"
HEADER = TOP / "include" / "cepokaran.h"
STRICT = ["-std=c11", "-Wall", "-Wextra", "-Werror", "-O2"]


def compare(name, command, expected, given=None):
    """Runs a program, on a file as its input, and compares its lines with those of the file `expected`."""
    with open(given or "/dev/null", "rb") as file:
        done = subprocess.run([str(word) for word in command], stdin=file, stdout=subprocess.PIPE)
    if done.returncode != 0:
        stop(f"{name}: the program ended with {done.returncode}", 1)
    wanted = expected.read_text(encoding="utf-8").splitlines()
    printed = done.stdout.decode().splitlines()
    if printed != wanted:
        lines = difflib.unified_diff(wanted, printed, "expected", "printed", lineterm="")
        stop("\n".join(lines) + f"\n{name}: the output differs", 1)
    print(f"{name}: {len(printed)} lines, as expected")


def built(name, archive, compiler, options=STRICT, header=HEADER):
    """examples/c/NAME.c, by one line of a C compiler."""
    program = TOP / "target" / "c" / archive.stem / name
    program.parent.mkdir(parents=True, exist_ok=True)
    run(compiler, *options, EXAMPLES / f"{name}.c", f"-I{header.parent}", archive, "-o", program)
    return program


def tried(name, archive, compiler, options=STRICT, header=HEADER, runner=()):
    """examples/c/NAME.c, built and run, against examples/c/NAME.expected."""
    program = built(name, archive, compiler, options, header)
    compare(name, [*runner, program], EXAMPLES / f"{name}.expected")
