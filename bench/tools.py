"""Measures the processor time of the tools on the inputs of tests/tools/hostile.py, beside the bound of SECURITY.md: on a megabyte, and on
four, since what Python's own library does shows in time alone, and not in the steps that tests/tools/growth.py counts."""

import os
import sys
from pathlib import Path

TESTS = Path(__file__).resolve().parent.parent / "tests"
sys.path[:0] = [str(TESTS), str(TESTS / "tools"), str(TESTS / "explain")]
from hostile import INPUTS, Hostile
from rows import Limit

SIZES = (1_000_000, 4_000_000)
RUNS = 3
BOUND = Limit(3e-6, 0.3)


def report(program):
    """Prints a line for each input: its bytes, the seconds that a tool takes, and its bound. Returns 1 if one is beyond that."""
    print(f"\n{'':<56}{'MB':>7}{'cpu s':>7}{'most':>7}")
    beyond = 0
    for make in INPUTS:
        for size in SIZES:
            with Hostile(make, size, os.path.abspath(program)) as given:
                seconds = min(sum(given.used()[2][:2]) for _ in range(RUNS))
            most = BOUND.most(given.size)
            is_beyond = seconds > most
            numbers = f"{given.size / 1e6:>7.1f}{seconds:>7.2f}{most:>7.2f}"
            print(f"{given.name:<56}{numbers}{'  beyond its limit' * is_beyond}", flush=True)
            beyond += is_beyond
    print(f"\n{beyond} beyond their limits")
    return 1 if beyond else 0
