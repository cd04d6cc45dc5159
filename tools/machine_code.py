"""The machine code of a program of the repository, for a processor that the kit compiles for.

`rt run` links a program for x86-64 alone. For another processor the program is proved and its object file
is made as `rt` has it made, with the processor named. Of a static library `rt lib` does it all.
"""

import functools
import pathlib
import subprocess

from at_hand import prover, run
from crate_list import crates, folder, is_for_c

MACHINES = ["x86_64", "aarch64"]


def target(machine):
    """How the kit is told of a processor."""
    return ["--target", f"{machine}-unknown-linux-gnu"]


@functools.cache
def kit():
    """The folder of the Rattle kit that `rt` belongs to."""
    guide = subprocess.run([prover(), "doc"], stdout=subprocess.PIPE, check=True).stdout.decode().strip()
    return pathlib.Path(guide).resolve().parent


def libraries(crate):
    """How the kit's compiler is told of what a crate rests on, by its line of crates.txt."""
    words = []
    for name in ["std", *crates()[crate]]:
        ours = folder(name) / "out" / "rlib"
        words += ["--extern", f"{name}={(ours if name in crates() else kit() / 'rlibs') / f'{name}.rlib'}"]
    places = [kit() / "rlibs", *(folder(name) / "out" / "rlib" for name in crates())]
    return words + [word for place in places if place.is_dir() for word in ("-L", f"dependency={place}")]


def asked(what, crate):
    """The kit's compiler, asked to `check` or `build` a crate from nothing, over the libraries that are built."""
    source = "main.rt" if (folder(crate) / "src" / "main.rt").is_file() else "lib.rt"
    logic = ["--antt-project", kit() / "rattle" / "logic" / "antt-project.json", "--logic-built", kit() / "logic_built"]
    sort = ["--crate-type", "staticlib"] if is_for_c(crate) else []
    return [kit() / "bin" / "rattle", what, "--crate-name", crate, f"src/{source}", *libraries(crate), *logic, *sort]


def compiled(crate, machine, made):
    """Writes a program's object file for a machine; the program is proved first."""
    run(prover(), "check", folder=folder(crate))
    toolchain = ["--toolchain", kit() / "toolchain", "--backend", "llvm"]
    run(*asked("build", crate), *target(machine), *toolchain, "-o", made, folder=folder(crate))
    return made
