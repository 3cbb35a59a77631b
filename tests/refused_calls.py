#!/usr/bin/env python3
"""Runs the tests of crates with their requests for memory refused, one in each run: a test ends well only where none was
refused, and what it says otherwise is that the crate is out of memory. So no call gives another answer, nor another
fault, where memory is refused: also of those calls that no command of the program reaches alone. Only in the tests of
REFUSED_ANYWAY may a call give its usual answer.

usage: refused_calls.py TESTS..; the last line is 'refused calls: N passed, M failed'. TESTS is what a crate's tests are built
as, crates/NAME/out/NAME_tests, where `rt ci` and `rt test` leave it."""

import re
import subprocess
import sys
import tempfile
from concurrent.futures import ThreadPoolExecutor
from pathlib import Path

from acpi_images.program import SECONDS
from preloaded import EACH, build_object, numbers

# How a test says that a call, of the library or of the standard library, was out of memory. A list that is written to as a
# device fails then as a device does.
OUT_OF_MEMORY = re.compile(rb'\b(AllocError|AllocFailed|Memory|DeviceFailed)\b')
# The tests that make more requests than are refused each in its turn. docs/PROMISES.md names them.
SAMPLED = {
    "base::text::image_text::reads_a_row_with_one_byte_changed",
    "base::text::image_text::text_comes_in_pieces",
    "graph::clash::agrees_with_the_plain_search",
    "graph::stray::agrees_with_the_plain_walk",
}
# The tests that read lines of data which are refused whether or not there is memory for their bytes: bad ones, and those that have no
# address or pass the last one.
REFUSED_ANYWAY = {
    "base::text::image_text::a_refusal_stays",
    "base::text::image_text::reads_a_row_with_one_byte_changed",
    "base::text::image_text::reports_the_first_fault",
}


def names(tests):
    """The names of its tests."""
    told = subprocess.run([tests, "--list"], stdout=subprocess.PIPE, check=True).stdout.decode()
    return re.findall(r"^(\S+): test$", told, re.M)


def told(tests, name, preload, mark, number):
    """Whether its request with this number was refused, and its status and all that it says."""
    settings = {"LD_PRELOAD": str(preload), "REFUSED": str(mark), "REFUSE_AT": str(number)}
    run = subprocess.run([tests, name], stdout=subprocess.PIPE, stderr=subprocess.STDOUT, env=settings, timeout=SECONDS)
    is_refused = mark.exists()
    mark.unlink(missing_ok=True)
    return is_refused, run.returncode, run.stdout


def starved(tests, name, preload, mark):
    """How many of its requests for memory were refused, and what is wrong."""
    refused = 0
    for number in numbers():
        is_refused, status, text = told(tests, name, preload, mark, number)
        if not is_refused and status == 0:
            is_right = (refused >= EACH) == (name in SAMPLED)
            return refused, "" if is_right else f"{refused} requests refused, which is {'a sample' if refused >= EACH else 'all'}"
        if not is_refused:
            return refused, f"status {status} where nothing is refused: {text}"
        refused += 1
        if status == 0 and name in REFUSED_ANYWAY:
            continue
        if status == 0 or not OUT_OF_MEMORY.search(text):
            return refused, f"request {number}: status {status}: {text}"


def of_program(tests, preload, marks, pool):
    """How many requests of its tests were refused as they have to be, and what is wrong, a line each."""
    passed, wrong = 0, []
    tried = [(tests, name, preload, marks / str(place)) for place, name in enumerate(names(tests))]
    for (_, name, _, _), (refused, problem) in zip(tried, pool.map(lambda case: starved(*case), tried)):
        if problem:
            wrong.append(f"{tests.name}, {name}: {problem}")
        else:
            passed += refused
    if not passed and not wrong:
        wrong.append(f"{tests.name}: {'none of its requests was refused' if tried else 'it lists no test'}")
    return passed, wrong


def main():
    if len(sys.argv) < 2:
        sys.exit("usage: refused_calls.py TESTS..")
    passed = failed = 0
    with tempfile.TemporaryDirectory() as scratch, ThreadPoolExecutor(2) as pool:
        preload = build_object(Path(scratch))
        if not preload:
            sys.exit("no C compiler to build tests/refusals.c")
        for path in sys.argv[1:]:
            refused, wrong = of_program(Path(path).resolve(), preload, Path(scratch), pool)
            passed, failed = passed + refused, failed + len(wrong)
            print("".join(f"{line}\n" for line in wrong), end="")
    print(f"refused calls: {passed} passed, {failed} failed")
    sys.exit(1 if failed else 0)


main()
