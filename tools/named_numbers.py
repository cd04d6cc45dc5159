"""Sizes and columns, as a crate's src/numbers.rt names them."""

import pathlib
import re

CRATES = pathlib.Path(__file__).resolve().parent.parent / "crates"
CONSTANT = re.compile(r"^pub const (\w+): \w+ = (-?\d+);$", re.MULTILINE)


def named_numbers(crate):
    """The value of each constant that is one figure, by its name."""
    text = (CRATES / crate / "src" / "numbers.rt").read_text(encoding="utf-8")
    return {name: int(value) for name, value in CONSTANT.findall(text)}
