"""Builds and runs the oracle's program."""

import subprocess

from at_hand import run, rust_compiler, stop
from crate_list import TOP
from rust_source import sources

ORACLE = TOP / "target" / "oracle" / "oracle"


def ready():
    """Ends where something is missing that the oracle is built of."""
    rust_compiler()
    sources()


def build():
    """The oracle as its source is now, in seconds."""
    ready()
    run(TOP / "oracle" / "build")


def ask(*words, given=None):
    """What the oracle writes in one of its modes, as bytes."""
    done = subprocess.run([str(ORACLE), *map(str, words)], input=given, stdout=subprocess.PIPE)
    if done.returncode != 0:
        stop("the oracle failed", 1)
    return done.stdout
