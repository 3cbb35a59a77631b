"""Measures `lint` beside `check` on the sets of tests/lint/large.py: of many entries, beside the first set of their kind, and of many
slots."""

import itertools
import shlex
import sys
import tempfile
from pathlib import Path

sys.path.insert(0, str(Path(__file__).resolve().parent.parent / "tests" / "lint"))
from large import many_entries, many_slots
from measure import Program, run_in_turn
from rows import Limit

LIMITED = ((Limit(4, 0.1), many_entries()), (Limit(2, 0.05), itertools.islice(many_slots(), 1)))


def report(program):
    """Prints a line for each set: the processor time of both in seconds, the first divided by the second, and the limit. Returns 1 if one
    is beyond its limit."""
    program = shlex.quote(str(program))
    print(f"\n{'':<48}{'lint s':>8}{'check s':>8}{'times':>8}  most")
    beyond = 0
    with tempfile.TemporaryDirectory() as scratch:
        paths = {is_first: Path(scratch, f"first {is_first}") for is_first in (True, False)}
        for limit, sets in LIMITED:
            for name, text, _, is_first in sets:
                paths[is_first].write_bytes(text)
                check = Program(name, paths[True], f"{program} check --rsdp e0000")
                lint = Program(name, paths[is_first], f"{program} lint --rsdp e0000")
                run_in_turn([check, lint])
                is_beyond = lint.processor > limit.most(check.processor)
                times = f"{lint.processor:>8.2f}{check.processor:>8.2f}{lint.processor / check.processor:>8.2f}"
                print(f"{name:<48}{times}  {limit}{'  beyond its limit' * is_beyond}", flush=True)
                beyond += is_beyond
    print(f"\n{beyond} beyond their limits")
    return 1 if beyond else 0
