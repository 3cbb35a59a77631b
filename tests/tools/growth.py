#!/usr/bin/env python3
"""Counts how the work of the tools grows: on an input that is four times as large, a tool takes at most 4.4 times the steps, without those
that it takes to start. A step is a line of the tool that is run, another turn of a loop in it, or a call of one of its functions: so it is
the same on a busy machine. What Python's own library does in a step is not seen; `bench/run --tools` measures it by time. On each input of
hostile.py a tool also keeps the bounds of SECURITY.md on memory and on what it writes.

usage: growth.py PROGRAM; the last line is 'growth of the tools: N passed, M failed'."""

import os
import re
import sys
from pathlib import Path

sys.path[:0] = [str(Path(__file__).resolve().parents[1]), str(Path(__file__).resolve().parents[1] / "explain")]

import hostile
from acpi_images.program import TESTS, Cases, finish
from hostile import Hostile

LARGER, MOST_TIMES = 4, 4.4
PART = 50_000
# Where four times as much is refused, or where that is too little.
PARTS = {hostile.headers_of_the_same_bytes: 14_000, hostile.lines_of_a_verdict: 9_000, hostile.rsdp_at_the_end: 2 << 20}

# The bounds on an input of some bytes: those of no bytes, and those of each one.
MEMORY, MEMORY_OF_A_BYTE = 64e6, 20
WRITTEN, WRITTEN_OF_A_BYTE = 256e3, 12
SIZE = 1_000_000
# Runs a tool, and writes its steps in the files of a folder to a file.
COUNTER = """import runpy, sys
folder, *sys.argv = sys.argv[1:]
steps = 0
def called(frame, event, _):
    return step(frame, event, _) if frame.f_code.co_filename.startswith(folder) else None
def step(*_):
    global steps
    steps += 1
    return step
sys.settrace(called)
try:
    runpy.run_path(sys.argv[0], run_name="__main__")
finally:
    sys.settrace(None)
    print(steps, file=open("steps", "w"))
"""
# What takes steps that grow as the size, and what takes a tenth of them at first, which grows as its square.
EVEN = "for at in range(size): [other for other in range(20)]\n"
SQUARES = {
    "loops": "for at in range(size):\n    for other in range(size // 500): pass\n",
    "a list": "[other for at in range(size) for other in range(size // 500)]\n",
    "a generator": "any(other < 0 for at in range(size) for other in range(size // 500))\n",
    "calls": "list(map(lambda other: 0, range(size * size // 500)))\n",
}


def is_grown(start, part, whole):
    return whole - start > MOST_TIMES * (part - start)


class Growth(Cases):
    def steps(self, given, folder=TESTS.parent, **how):
        """The steps of a run of a tool in files of the folder, and the run."""
        run = given.run(sys.executable, "-c", COUNTER, folder, **how)
        return int(given.path("steps").read_text()), run

    def sees(self, name, text, is_due):
        """A program of this text, after its size, takes steps that grow faster."""
        with Hostile(hostile.words_of_a_line, 0, self.program) as given:
            given.tool = given.path("planted")
            counts = []
            for size in (0, 1000, 1000 * LARGER):
                given.tool.write_text(f"size = {size}\n{text}")
                counts.append(self.steps(given, given.folder.name)[0])
        self.count(name, is_grown(*counts) != is_due and f"{counts} steps")

    def grows_on(self, make, is_answered):
        """The steps on an input beside those on one of a quarter of its size, and the answer."""
        size = PARTS.get(make, PART)
        with Hostile(make, size, self.program) as one, Hostile(make, LARGER * size, self.program) as other:
            start, _ = self.steps(one, of=["--help"])
            part, _ = self.steps(one)
            whole, run = self.steps(other)
            told = f"{start} steps to start, {part} on a part, {whole} on {LARGER} times as much"
            self.count(f"growth of {one.name}", is_grown(start, part, whole) and told)
            if is_answered:
                self.count(f"answer of {one.name}", self.wrong_with(other, run))

    def wrong_with(self, given, run):
        """What is wrong with what explain says of a line, or with the image that another tool makes."""
        if given.tool == "explain":
            said = run.stdout.decode()
            return "" if said.startswith(given.data.decode()) and "is this the image" not in said else said
        told = re.search(rb"check it with --rsdp ([0-9a-f]+)$", run.stderr, re.M)
        said = self.run(["check", *(["--rsdp", told[1].decode()] if told else [])], run.stdout)
        return "" if said == (0, "yes\n", "") else f"{said}, {run.stderr}"

    def is_bounded(self, make):
        """A tool keeps the bounds on a hostile input, and has an answer."""
        with Hostile(make, SIZE, self.program) as given:
            run, status, used = given.used()
        size, memory, written = given.size, used[2] * 1024, len(run.stdout) + len(run.stderr)
        wrong = ["" if status in (0, 1, 2, 3) and b"Traceback" not in run.stderr else f"status {status}, {run.stderr[-300:]}"]
        wrong += ["" if memory <= MEMORY + MEMORY_OF_A_BYTE * size else f"{memory / 1e6:.0f} MB of memory"]
        wrong += ["" if written <= WRITTEN + WRITTEN_OF_A_BYTE * size else f"{written} bytes written"]
        told = "; ".join(filter(None, wrong))
        self.count(given.name, told and f"{told}, on {size / 1e6:.1f} MB")


def main():
    growth = Growth(os.path.realpath(sys.argv[1]))
    growth.sees("what grows as its size", EVEN, False)
    for name, text in SQUARES.items():
        growth.sees(f"a square in {name}", EVEN + text, True)
    for make in hostile.LARGE + hostile.INPUTS:
        growth.grows_on(make, make in hostile.LARGE)
    for make in hostile.INPUTS:
        growth.is_bounded(make)
    finish("growth of the tools", growth)


if __name__ == "__main__":
    main()
