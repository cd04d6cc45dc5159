"""What the tools need: each function gives it, or says what is missing and ends, before minutes are spent.

Status 2 says that nothing was tried, status 1 that something was tried and failed.
"""

import os
import pathlib
import shutil
import subprocess
import sys

from crate_list import TOP, crates

LARGEST = 2**63 - 1
TRACER = "valgrind"


def stop(message, status=2):
    """Says why nothing was done, and ends."""
    print(message, file=sys.stderr)
    sys.exit(status)


def arguments(usage):
    """The words behind the tool's name; where help is asked for, it is printed."""
    words = sys.argv[1:]
    if words in (["-h"], ["--help"]):
        print(usage)
        sys.exit(0)
    return words


def number(word, name, least=0):
    """A number that was given for `name`."""
    if not (word.isascii() and word.isdecimal() and least <= int(word) <= LARGEST):
        stop(f"{name} must be a number from {least} to {LARGEST}, and {word!r} is none")
    return int(word)


def count(word, name):
    """How many are asked for: of nothing, nothing is shown."""
    return number(word, name, least=1)


def named_file(word, what):
    """The path of a file that was named as `what`."""
    path = pathlib.Path(word)
    return path.resolve() if path.is_file() else stop(f"{what} {word} is not a file")


def named_crates(names):
    """Those names, each of a crate."""
    unknown = [name for name in names if name not in crates()]
    return stop(f"no crate has this name: {', '.join(unknown)}; crates.txt lists them") if unknown else names


def program(name, why):
    """Where a program stands."""
    return shutil.which(name) or stop(f"{name} is missing: {why}")


def prover():
    return program("rt", "the Rattle kit must be on the path, since the code is proved first")


def tracer():
    return program(TRACER, "its lackey traces each load of a program (in Debian, valgrind)")


def rust_compiler():
    program("rustc", "a Rust compiler must be on the path, to build the Rust that is compared with")
    program("cc", "rustc links by it (a C compiler; in Debian, gcc)")


def c_compiler():
    """The C compiler that is asked for by CC, or one that is at hand."""
    asked = os.environ.get("CC")
    found = next(filter(shutil.which, [asked] if asked else ["cc", "gcc", "clang"]), None)
    return found or stop(f"a C compiler is missing: {asked or 'cc, gcc or clang'} (in Debian, gcc)")


def run(*command, folder=TOP, given="/dev/null", out=2, quiet=False):
    """Runs a command in a folder, else at the top of the repository, on a file as its input, or on none. It
    speaks on standard error; a quiet one only where it fails."""
    words = [str(word) for word in command]
    out, said = (subprocess.PIPE, subprocess.STDOUT) if quiet else (out, None)
    with open(given, "rb") as file:
        done = subprocess.run(words, cwd=folder, stdin=file, stdout=out, stderr=said)
    if done.returncode != 0:
        stop((done.stdout or b"").decode(errors="replace") + f"{pathlib.Path(words[0]).name} failed", 1)
