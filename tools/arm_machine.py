"""How C for Arm is compiled and run here: on Arm itself, or by a cross compiler and under emulation."""

import pathlib
import platform
import shutil
import subprocess

from at_hand import c_compiler, stop

MACHINE = "aarch64"
EMULATOR = "qemu-aarch64"
CROSS_COMPILER = "aarch64-linux-gnu-gcc"
C_LIBRARY = "libc.so.6"
# Each is in a package of Debian.
PACKAGES = {EMULATOR: "qemu-user", CROSS_COMPILER: "gcc-aarch64-linux-gnu", C_LIBRARY: "libc6-dev-arm64-cross"}


def is_here():
    return platform.machine() == MACHINE


def root():
    """The folder whose `lib` has the C library for Arm, as the cross compiler finds it."""
    asked = [CROSS_COMPILER, f"-print-file-name={C_LIBRARY}"]
    found = pathlib.Path(subprocess.run(asked, stdout=subprocess.PIPE, check=True).stdout.decode().strip())
    return found.resolve().parent.parent if found.is_file() else None


def missing():
    """What is not at hand, each with the package of Debian that has it."""
    if is_here():
        return []
    names = [name for name in (EMULATOR, CROSS_COMPILER) if not shutil.which(name)]
    if CROSS_COMPILER in names or not root():
        names.append(C_LIBRARY)
    return [f"{name} (in Debian, {PACKAGES[name]})" for name in names]


def compiler_and_runner():
    """The C compiler, and the words before a program that run it."""
    if missing():
        stop(f"missing: {', '.join(missing())}")
    return (c_compiler(), []) if is_here() else (CROSS_COMPILER, [EMULATOR, "-L", root()])
