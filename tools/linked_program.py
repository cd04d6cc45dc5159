"""Builds programs of Rust that link the archive of the crate `rack` beside the oracle."""

import re

import oracle_program
from at_hand import run
from crate_list import TOP

# The calls that a part of a program needs, or all of it. A part is compiled by `--cfg` where the archive has them.
PARTS = {
    "views": {"oamd_timing", "oamd_ramp", "oamd_row", "oamd_shown"},
    "containers": {"oamd_emdf"},
    "moves": {
        "oamd_hold",
        "oamd_timing_by_rule",
        "oamd_ramp_by_rule",
        "oamd_carry",
        "oamd_drop",
        "oamd_timing",
        "oamd_ramp",
    },
}


def symbols(archive):
    """The C names that stand in an archive."""
    return {word.decode() for word in re.findall(rb"oamd_[a-z_]+", archive.read_bytes())}


def lacking(part, archive):
    """The calls of a part that an archive has not."""
    return sorted(PARTS[part] - symbols(archive))


def chosen(parts, archive):
    """What rustc is told of the parts; a part that is left out is named."""
    given = [word for part in PARTS for word in ("--check-cfg", f"cfg({part})")]
    for part in parts:
        missing = lacking(part, archive)
        if missing:
            print(f"left out, since the archive lacks them: {', '.join(missing)}")
        given += [] if missing else ["--cfg", part]
    return given


def built(name, archive, *parts, called=None):
    """oracle/NAME/main.rs with those of its parts that the archive has calls for, built by rustc alone."""
    oracle_program.build()
    program = TOP / "target" / name / (called or name)
    program.parent.mkdir(parents=True, exist_ok=True)
    library = f"oracle={TOP / 'target' / 'oracle' / 'liboracle.rlib'}"
    links = ["--crate-name", name, "--extern", library, "-C", f"link-arg={archive}"]
    source = TOP / "oracle" / name / "main.rs"
    run("rustc", "-O", "--edition", "2021", *links, *chosen(parts, archive), "-o", program, source)
    return program
