"""Finds the Rust files that the oracle is cut from, and reads them without their tests."""

import os
import pathlib

from at_hand import stop

OAMD = "oamd.rs"
RENDERER = "joc_renderer.rs"

# A file below the folder: as a checkout of the Rust has it, or under its one long name.
LAYOUTS = ["src/eac3/{}", "src--src--eac3--{}.txt"]
TESTS = "#[cfg(test)]"


def source(name):
    """The path of one source file, in the folder that OXIDEAV_AC3 names."""
    folder = os.environ.get("OXIDEAV_AC3")
    places = [layout.format(name) for layout in LAYOUTS]
    if not folder:
        stop(f"OXIDEAV_AC3 is not set: it names the folder of the Rust source, with {' or '.join(places)}")
    paths = [pathlib.Path(folder) / place for place in places]
    return next((path for path in paths if path.is_file()), None) or stop(
        f"{name} is missing: OXIDEAV_AC3 names {folder}, which has neither {' nor '.join(places)}"
    )


def sources():
    """Both files."""
    return [source(name) for name in (OAMD, RENDERER)]


def before_tests(name):
    """The text of one source file up to its tests."""
    head, mark, _ = source(name).read_text(encoding="utf-8").partition(TESTS)
    if not mark:
        stop(f"{name} has no {TESTS}: the source changed its shape", 1)
    return head
