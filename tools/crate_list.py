"""The crates of the repository, as crates.txt lists them."""

import pathlib
import re

TOP = pathlib.Path(__file__).resolve().parent.parent
# A line: a crate, `staticlib` where it is a library for C, and what it rests on.
LINE = re.compile(r"^(\w+)( staticlib)?:(.*)$", re.MULTILINE)


def lines():
    return LINE.findall((TOP / "crates.txt").read_text(encoding="utf-8"))


def crates():
    """For each crate, in the order of the list, what it rests on."""
    return {name: rest.split() for name, _, rest in lines()}


def is_for_c(crate):
    return any(name == crate and sort for name, sort, _ in lines())


def folder(crate):
    """Where a crate stands: `rt` works on the crate of the folder that it is called in."""
    return TOP / "crates" / crate
