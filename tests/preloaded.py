"""The object of refusals.c, and which requests it is asked to refuse."""

import shutil
import subprocess
from pathlib import Path

import acpi_images  # noqa: F401

HERE = Path(__file__).parent


def build_object(scratch):
    """Builds refusals.c, and returns the object's path, or nothing where that fails."""
    compiler = next(filter(None, map(shutil.which, ("cc", "gcc", "clang"))), None)
    flags = ["-shared", "-fPIC", "-nostdlib"]
    if not compiler and (rt := shutil.which("rt")):
        # The toolchain's compiler has no C library to link, and a linker of its own.
        compiler = Path(rt).resolve().parent.parent / "toolchain" / "bin" / "clang"
        flags.append("-fuse-ld=lld")
    path = scratch / "refusals.so"
    if not compiler or not Path(compiler).exists():
        return None
    built = subprocess.run([compiler, *flags, "-o", path, HERE / "refusals.c"])
    return path if built.returncode == 0 else None


# This many requests are refused each in its turn, and those after them in steps of a twentieth.
EACH = 220


def numbers():
    number = 1
    while True:
        yield number
        number += 1 if number < EACH else number // 20
