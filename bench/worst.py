"""Measures the commands of acpiset on images that take long and that no machine makes, and compares each time with the limit: `check`,
`confirm` and `find` may take 40 times, and `lint` 80 times, what a plain program takes to read one run of the same size
(`reader --one-run`, in turn with them). `show` and `rebuild` have no limit, since they may write many times what they read.

usage: worst.py NUMBER DIVISOR FILE   the text of a shape with this part of its entries; prints the commands, a line each"""

import os
import shlex
import subprocess
import sys
import tempfile
from dataclasses import dataclass

from inputs import CHAINS, MOST_COUNTS, counts, long_run, many_rows, pieces_text, rows_text, set_of, text_of
from measure import Program, run_in_turn, written_by

MOST_TIMES = {"check": 40, "confirm": 40, "find": 40, "lint": 80}
MEBIBYTES = 64
BOTH = "confirm --witness '16 TwoDomains 0x48 0x30 0x0'"
CHECKED = ("check", "lint")
ANSWERED = (*CHECKED, BOTH)


@dataclass(frozen=True)
class Shape:
    """A kind of image: its name, how many entries, slots, nodes or rows it has in a text just below 64 MiB, the options of the
    commands, and the commands. Of rows, the size in bytes."""

    name: str
    count: int
    options: str = ""
    commands: tuple = CHECKED
    size: int = 0

    def text(self, divisor):
        """The text of a shape with this part of its entries, and the commands with a witness, if it has one of its own."""
        count = self.count // divisor
        chain, in_rows, _ = self.name.partition("-in-rows")
        if chain in CHAINS:
            data, fault = CHAINS[chain](count)
            return set_of([data], text=rows_text if in_rows else pieces_text), (f"confirm --witness '{fault}'", *self.commands)
        if self.size:
            return many_rows(self.name, self.size, count), self.commands
        return text_of([self.name, str(count)]), self.commands


def chains():
    """Cycles of a PPTT, without blanks, and in rows of 16 pairs, in which a text has two thirds as many bytes."""
    counts_of = {"falling-ring-of-caches": 1390000, "short-entries-and-ring": 16700000, "one-node-in-128-bytes": 261000, "two-nodes-in-128-bytes": 522000, "three-nodes-in-128-bytes": 783000, "two-nodes-in-256-bytes": 261000, "one-node-in-512-bytes": 65000, "six-nodes-in-512-bytes": 390000}  # fmt: skip
    for name in CHAINS:
        count = counts_of.get(name, 1670000)
        yield Shape(name, count)
        yield Shape(f"{name}-in-rows", count * 2 // 3)


def orders():
    """Rows of one byte and of 16."""
    for name in ("rising-apart", "falling-apart", "shuffled-apart", "falling-touching", "holes-last", "bad-apart", "rising-but-one"):
        yield Shape(name, 5590000, commands=("check", "find"), size=1)
        yield Shape(name, 1170000, commands=("check", "find"), size=16)
    for name in ("rising-far", "shuffled-far"):
        yield Shape(name, 5150000, commands=("check", "find"), size=1)


# The file with the counts of inputs.
WITH_COUNTS = "@counts"
ONE_INPUT = "--default-inputs 1"
SHOWN = (*CHECKED, "show", "rebuild --base 100000000")
WORST = (
    Shape("slots-of-scattered-tables", 5900000, commands=(*ANSWERED, "show", "rebuild --base 40000000")),
    Shape("slots-of-nested-tables", 6200000, commands=(*ANSWERED, "show")),
    Shape("slots-in-a-bad-order", 8380000, commands=ANSWERED),
    Shape("signatures-of-two-roots", 6000000),
    Shape("empty-tables", 700000, commands=SHOWN),
    Shape("one-table", 4000000, commands=ANSWERED),
    Shape("nested", 80000, commands=ANSWERED),
    Shape("shared-entries", 11000000, commands=(*ANSWERED, "show", "rebuild --base 40000000")),
    Shape("shared-entries", 10300000, commands=ANSWERED),
    Shape("shared-processors", 10300000, commands=ANSWERED),
    Shape("resources-among-short-entries", 58000),
    Shape("scattered-references", 115000),
    Shape("nodes-of-58-caches", 130000),
    Shape("chain-in-no-order", 1550000),
    Shape("io-apics-in-a-bad-order", 1850000, ONE_INPUT),
    Shape("io-apics-last-repeated", 1850000, ONE_INPUT),
    Shape("x2apics-in-a-bad-order", 1390000),
    Shape("x2apics-last-repeated", 1390000),
    Shape("io-apics", 2790000, ONE_INPUT, (*CHECKED, "rebuild --base 100000000")),
    Shape("io-apics-last-clash", 2790000, ONE_INPUT),
    Shape("io-apics-with-counts", 1850000, WITH_COUNTS),
    Shape("overrides", 3340000),
    Shape("overrides-last-clash", 3340000),
    Shape("nmi-sources", 1600000, ONE_INPUT),
    Shape("nmi-sources-last-unserved", 1600000, ONE_INPUT),
    Shape("nmi-sources-apart-last-unserved", 1600000, ONE_INPUT),
    Shape("ranges", 800000),
    Shape("localities", 5760),
    Shape("processors", 800000, commands=SHOWN),
    Shape("leaves", 800000),
    Shape("initiators", 8200000),
    Shape("cells", 16000000),
    Shape("structures-of-8-bytes", 4100000),
    Shape("platform-timers", 8200000),
    Shape("scopes", 4180000),
    Shape("scopes-of-io-apics", 1670000),
    Shape("scopes-apart", 2090000),
    Shape("iommus", 2090000),
    Shape("rhsas", 930000),
    Shape("structures-of-4-bytes", 8380000),
    Shape("device-entries", 8370000),
    Shape("device-ranges", 8370000),
    Shape("special-entries", 1670000),
    Shape("ivhds", 1390000),
    Shape("ivmds", 1040000),
    Shape("reserved-entries", 16000000),
    Shape("short-entries", 16000000),
    *chains(),
    *orders(),
)


@dataclass
class Measured:
    """What a command took on a shape, beside the plain program. Times in seconds of the processor, memory in bytes."""

    name: str
    command: str
    seconds: float
    model: float
    memory: int
    text: int
    written: int

    @property
    def times(self):
        return self.seconds / self.model

    @property
    def is_beyond(self):
        return self.times > MOST_TIMES.get(self.command, self.times)

    def __str__(self):
        seconds = f"{self.seconds:>8.2f}{self.model:>8.3f}{self.times:>8.1f}{MOST_TIMES.get(self.command, '-'):>6}"
        memory = f"{self.memory / (1 << 20):>9.1f}{self.memory / self.text:>8.2f}{self.written / 1e6:>9.1f}"
        return f"{self.name + ' ' + self.command:<48}{seconds}{memory}{'  beyond its limit' if self.is_beyond else ''}"


def write(number, divisor, path):
    """Writes the text of a shape, or of one run, or the counts of inputs, and returns the commands."""
    if number in ("run", "counts"):
        text, commands = long_run(MEBIBYTES // divisor) if number == "run" else counts(MOST_COUNTS // divisor), ()
    else:
        text, commands = WORST[int(number)].text(divisor)
    with open(path, "w", encoding="ascii") as out:
        out.write(text)
    return commands


def written_elsewhere(number, divisor, path):
    """The same in another process: what is measured as the memory of a program is at least that of the process that starts it."""
    words = [sys.executable, __file__, str(number), str(divisor), path]
    return subprocess.run(words, stdout=subprocess.PIPE, check=True, text=True).stdout.splitlines()


def commands_on(shape, divisor, program, scratch):
    """The commands on a shape with this part of its entries, each with its name. The program is words of a shell."""
    path, counts_of = (os.path.join(scratch, name) for name in ("worst.txt", "counts"))
    if shape.options == WITH_COUNTS:
        written_elsewhere("counts", divisor, counts_of)
    for command in written_elsewhere(WORST.index(shape), divisor, path):
        rsdp = "--rsdp 0" if shape.size else "--rsdp e0000"
        words = command if command == "find" else f"{command} {rsdp} {shape.options.replace(WITH_COUNTS, '@' + counts_of)}"
        yield command.split()[0], Program(f"{shape.name} {command}", path, f"{program} {words}")


def measured(program, reader, scratch):
    """Runs the commands on the shapes, each in turn with the plain program on one run of the same size. Both programs are words of a
    shell."""
    run = os.path.join(scratch, "run.txt")
    written_elsewhere("run", 1, run)
    for shape in WORST:
        for command, ours in commands_on(shape, 1, program, scratch):
            model = Program("model", run, f"{reader} --one-run")
            run_in_turn([model, ours])
            took = ours.processor, model.processor, ours.memory
            yield Measured(shape.name, command, *took, ours.size, written_by(ours))


def report(program, reader):
    """Prints a line for each command: its processor time in seconds, that of the plain program, the first divided by the second, the
    limit, the peak memory in MiB and divided by the text's size, and how many MB it writes. Returns 1 if one is beyond its limit."""
    print(f"\n{'':<48}{'cpu s':>8}{'model':>8}{'times':>8}{'most':>6}{'MiB':>9}{'/ text':>8}{'MB out':>9}")
    beyond = 0
    with tempfile.TemporaryDirectory() as scratch:
        for it in measured(shlex.quote(str(program)), shlex.quote(str(reader)), scratch):
            print(it, flush=True)
            beyond += it.is_beyond
    print(f"\n{beyond} beyond their limits")
    return 1 if beyond else 0


def main():
    number, divisor, path = sys.argv[1:]
    print(*write(number, int(divisor), path), sep="\n")


if __name__ == "__main__":
    main()
