#!/usr/bin/env python3
"""Runs the commands on the slowest images that were found (bench/worst.py), with an eighth of their entries, and compares with what README
states under Limits: the memory beside the text, and the stack, which is the only one that the program gets. The time is measured by
bench/run --worst, on texts of 64 MiB; here a run that does not end is ended.

usage: limits.py PROGRAM; the last line is 'limits: N passed, M failed'."""

import re
import resource
import shlex
import sys
import tempfile
from pathlib import Path

TOP = Path(__file__).resolve().parent.parent
sys.path[:0] = [str(TOP / "bench"), str(TOP / "tests")]
from acpi_images.program import SECONDS  # noqa: E402
from worst import MOST_TIMES, WORST, commands_on  # noqa: E402

DIVISOR = 8
# The arguments are on the stack too, so what has many of them gets the usual one.
MANY_ARGUMENTS = ("io-apics-with-counts",)


def stated():
    """The limits in README: times and memory by command, beside the plain program and the text, and KiB of stack."""
    limits = re.sub(r"\s+", " ", (TOP / "README.md").read_text().partition("\n## Limits\n")[2].partition("\n## ")[0])
    times = re.search(r"`check`, `confirm` and `find` at most (\d+) times and `lint` at most (\d+) times", limits)
    stack, memory, of_lint = re.search(r"(\d+) KiB of stack, and (\d+) times the memory of the text, `lint` (\d+) times", limits).groups()
    return by_command(times[1], times[2]), by_command(memory, of_lint), int(stack)


def by_command(most, of_lint):
    return {"check": int(most), "confirm": int(most), "find": int(most), "lint": int(of_lint)}


def is_above_own(memory):
    """Whether it is more than this process had: what is measured of a program is at least that."""
    return memory > resource.getrusage(resource.RUSAGE_SELF).ru_maxrss * 1024


def main():
    program = f"timeout {SECONDS} {shlex.quote(str(Path(sys.argv[1]).resolve()))}"
    times, memory, stack = stated()
    assert times == MOST_TIMES, "README and bench/worst.py have other limits"
    limited = f"sh -c 'ulimit -s {stack} && exec \"$@\"' sh {program}"
    passed = failed = 0
    with tempfile.TemporaryDirectory() as scratch:
        for shape in WORST:
            for command, it in commands_on(shape, DIVISOR, program if shape.name in MANY_ARGUMENTS else limited, scratch):
                it.run()
                is_beyond = it.memory > memory.get(command, it.memory) * it.size and is_above_own(it.memory)
                passed, failed = passed + (not is_beyond), failed + is_beyond
                if is_beyond:
                    print(f"FAILED {it.name}: {it.memory / it.size:.1f} times the memory of the text")
    print(f"limits: {passed} passed, {failed} failed")
    sys.exit(1 if failed else 0)


if __name__ == "__main__":
    main()
