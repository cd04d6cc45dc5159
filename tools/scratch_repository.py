"""A scratch repository below target/definitions/, in which the prover computes the definitions."""

import re
import shutil
import subprocess

from at_hand import stop
from crate_list import TOP

SCRATCH = TOP / "target" / "definitions"
DEFINITIONS = ["bits", "standard"]
# What the prover says of a theorem whose statement computes to what is false, or to no end.
WRONG = re.compile(r": error: `(\w+)`: (?:expected type `⊥`|as printed, the two types first differ)")


def write_crate(name, modules):
    """A crate without code, of the given modules of definitions."""
    folder = SCRATCH / "crates" / name
    (folder / "src").mkdir(parents=True)
    (folder / "src" / "lib.rt").write_text("// No code: definitions alone.\n", encoding="utf-8")
    (folder / "specs").mkdir()
    for module, text in modules.items():
        (folder / "specs" / f"{module}.antt").write_text(text, encoding="utf-8")


def speaking_of_code(texts):
    """The modules that cite types declared in the crate's code, or cite such a module."""
    found = {"declared"}
    while True:
        cites = re.compile(rf"\bspecs\.({'|'.join(found)})\.")
        more = {module for module, text in texts.items() if cites.search(text)} - found
        if not more:
            return found
        found |= more


def definitions_of(name):
    """The modules of a crate's definitions. What says how its code's answers are read is left behind."""
    files = (TOP / "crates" / name / "specs").glob("*.antt")
    texts = {file.stem: file.read_text(encoding="utf-8") for file in files}
    left_out = speaking_of_code(texts)
    lines = texts["Lib"].splitlines(keepends=True)
    texts["Lib"] = "".join(line for line in lines if line.split()[-1] not in left_out)
    return {module: text for module, text in texts.items() if module not in left_out}


def write(modules):
    """The definitions as they stand, without code and proofs, and a crate `compared` of these modules."""
    shutil.rmtree(SCRATCH, ignore_errors=True)
    for name in DEFINITIONS:
        write_crate(name, definitions_of(name))
    names = "".join(f"pub mod {module}\n" for module in modules)
    write_crate("compared", {"Lib": names, **modules})
    (SCRATCH / "crates.txt").write_text("bits:\nstandard: bits\ncompared: bits standard\n", encoding="utf-8")


def refused_theorems():
    """The names of the theorems that the prover refuses; any other error ends the program."""
    folder = SCRATCH / "crates" / "compared"
    done = subprocess.run(["rt", "check"], cwd=folder, stdout=subprocess.PIPE, stderr=subprocess.STDOUT)
    text = done.stdout.decode()
    (SCRATCH / "prover.log").write_text(text, encoding="utf-8")
    names = WRONG.findall(text)
    proved = done.returncode == 0 and re.search(r"^crate compared: .*\nlogic=proved .*\n\Z", text, re.MULTILINE)
    if len(names) != text.count(": error: ") or proved == bool(names):
        stop(f"{text}\nthe prover refused something other than a compared number", 2)
    return set(names)
