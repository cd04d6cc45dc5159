"""Makes the archive of the crate `rack`, for C or Rust to link; the crate is proved first."""

import platform
import shutil

from at_hand import named_file, prover, run, stop
from crate_list import TOP, folder
from machine_code import target
from proved_program import is_current

NAME = "rack"
FOLDER = TOP / "target" / "staticlib"
MAGIC = b"!<arch>\n"


def named(word):
    """An archive that was named, in place of one that is made."""
    archive = named_file(word, "the archive")
    with archive.open("rb") as file:
        return archive if file.read(len(MAGIC)) == MAGIC else stop(f"{word} is not an archive")


def chosen(words, otherwise=None, option="--archive"):
    """The words before `--archive FILE`, or another option's file, and what gives the archive: that file, or
    one that is made."""
    if words[-2:-1] == [option]:
        archive = named(words[-1])
        return words[:-2], lambda: archive
    return words, otherwise or made


def path(machine):
    return FOLDER / (f"lib{NAME}.a" if machine == "x86_64" else f"lib{NAME}-{machine}.a")


def kept(machine=platform.machine()):
    """The archive that was made last, unless the code is newer: the prover takes its time, even where
    nothing has changed."""
    archive = path(machine)
    if not is_current(archive):
        made(machine).touch()
    return archive


def made(machine=platform.machine()):
    """The archive for a machine. `rt lib` writes it into the crate's out/, whatever the machine is."""
    archive = path(machine)
    run(prover(), "lib", *target(machine), folder=folder(NAME))
    FOLDER.mkdir(parents=True, exist_ok=True)
    shutil.move(folder(NAME) / "out" / f"lib{NAME}.a", archive)
    return archive
