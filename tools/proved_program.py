"""A program of the repository, proved and built where it is missing or older than the code."""

import subprocess

from at_hand import prover, run
from crate_list import TOP, folder


def is_current(made):
    """Whether a file that was made is there, and no source file is newer."""
    sources = TOP.glob("crates/*/src/*.rt")
    return made.exists() and all(source.stat().st_mtime <= made.stat().st_mtime for source in sources)


def build(name, program):
    """Proves and builds the program, unless it is current. `rt run` runs it, too: on the gate's own input."""
    if is_current(program):
        return
    given = folder(name) / "stdin"
    given = given if given.is_file() else "/dev/null"
    run(prover(), "run", folder=folder(name), given=given, out=subprocess.DEVNULL)
    program.touch()


def command(name):
    """How the program is run. It is code for x86-64, as all that `rt run` builds."""
    program = folder(name) / "out" / name
    build(name, program)
    return [str(program)]
