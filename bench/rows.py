"""What bench/run compares: for each row an input, the command of acpiset on it, that of a program beside it, and the limit."""

from dataclasses import dataclass


@dataclass(frozen=True)
class Limit:
    """At most so many times the time beside, and so many seconds more."""

    times: float = 0
    seconds: float = 0

    def most(self, beside):
        return self.times * beside + self.seconds

    def __str__(self):
        return " + ".join([f"{self.times:g}"] * bool(self.times) + [time_of(self.seconds)] * bool(self.seconds))


def time_of(seconds):
    unit, size = next((it for it in (("s", 1), ("ms", 1e-3)) if seconds >= it[1]), ("us", 1e-6))
    return f"{seconds / size:.3g} {unit}"


@dataclass(frozen=True)
class Row:
    """`made` are the arguments of inputs.py, the last of them how large the input is. In the commands {acpiset}, {reader}, {checker} and
    {true} are these programs, and {fault} is the witness that inputs.py prints. `reading` are two commands whose cost is subtracted.
    `statuses` are those of the two, and `label` is what the second is called if not by its
    command."""

    name: str
    made: str
    ours: str
    beside: str
    limit: Limit = None
    reading: tuple = ()
    unit: str = "byte"
    statuses: tuple = (0, 0)
    label: str = ""

    def name_beside(self):
        return self.label or self.beside.replace("{", "").replace("}", "")


@dataclass(frozen=True)
class Calls(Row):
    """Calls within one process: `ours` is the argument of the program calls, and `count` how often they are called when instructions
    are counted."""

    unit: str = "call"
    count: int = 1


# ---- reading


def read(name, made, beside="{reader}", limit=None):
    return Row(name, made, "{acpiset} check --rsdp 100000 --through 3", beside, limit)


def order(name, size, count, limit=None):
    """Such a text has no RSDP."""
    ours = "{acpiset} check --rsdp 0 --through 3"
    return Row(f"{name}, {size}", f"{name} {size} {count}", ours, "{reader}", limit, statuses=(1, 0))


READING = [
    read("one run", "run 64", "{reader} --one-run", Limit(0.8)),
    read("one run", "run 64", "{reader} --rows-alone"),
    read("one run", "run 64"),
    read("one run", "run 64", "xxd -r -p"),
    read("rows of 32 bytes", "rows-of-32 64", limit=Limit(0.7)),
    read("CR LF", "cr-lf 64", limit=Limit(0.7)),
    read("a blank at the end", "blank-at-the-end 64", limit=Limit(0.7)),
    read("lines of xxd -p", "lines-of-xxd 64", limit=Limit(0.7)),
    read("dense", "dense 64", limit=Limit(0.7)),
    read("an empty line after each row", "empty-lines 64", limit=Limit(1.1)),
    read("a comment after each row", "comments 64", limit=Limit(1.1)),
    read("one byte a line", "one-byte 64", limit=Limit(1.1)),
]
ORDER = [order("shuffled-apart", 1, 5590000, Limit(0.9)), order("shuffled-far", 1, 5150000, Limit(0.9))]

# What a real set takes is mostly the start of a program.
LOOP = "sh -c 'while read -r rsdp text; do \"$0\" {command} --rsdp $rsdp <\"$text\" || [ $? = 1 ] || exit 3; done'"
CHECKS, LINTS = LOOP.format(command="check"), LOOP.format(command="lint")
REAL = [
    Row("a region of real firmware", "region", "{acpiset} check --rsdp f59e0 --through 3", "{reader}"),
    Row("131 checks of real sets", "real-sets 131", CHECKS + " {acpiset}", CHECKS + " {true}", label="true", unit="set"),
]

# ---- the library

LIBRARY = [
    Calls("4 processors", "guest 4", "set", "checker", Limit(seconds=0.35e-6), count=100),
    Calls("16 processors", "guest 16", "set", "checker", Limit(1.2), count=100),
    Calls("64, with SRAT, SLIT, PPTT", "guest 64", "set", "checker", Limit(1.2), count=100),
    Calls("240, with SRAT, SLIT, PPTT", "guest 240", "set", "checker", Limit(1.2), count=100),
]
PIECES = [
    Calls("a piece of 1 MiB with a set in it", "guest 4", "inside=1", "pieces of its own", Limit(1.2, 2e-6)),
    Calls("a piece of 256 MiB with one", "guest 4", "inside=256", "pieces of its own", Limit(1.2, 2e-6)),
    Calls("a million slots, one of 200 MiB", "guest-with-slots 1000000", "table=200", "one sum of it", Limit(2)),
]

# ---- longer ones

ORDERS = [
    *(
        order(name, size, count)
        for name in ("rising-apart", "falling-apart", "shuffled-apart", "falling-touching", "holes-last")
        for size, count in ((16, 1170000), (1, 5590000))
    ),
    *(order(name, size, count) for name in ("rising-far", "shuffled-far") for size, count in ((1, 5150000), (2, 4190000))),
    order("bad-apart", 1, 5590000),
    order("rising-but-one", 1, 5590000),
]


def plain(kind, count, statuses=(0, 0)):
    """A set with many entries of a kind: the time without that up to the listed tables."""
    ours = "{acpiset} check --rsdp e0000 --default-inputs 1"
    reading = (ours + " --through 3", "{checker} --read")
    return Row(f"{count} {kind}", f"{kind} {count}", ours, "{checker}", None, reading, "entry", statuses)


FAULTY = (1, 1)
PLAIN = [
    plain("nmi-sources", 1600000),
    plain("nmi-sources-last-unserved", 1600000, FAULTY),
    plain("nmi-sources-apart", 1600000),
    plain("nmi-sources-apart-last-unserved", 1600000, FAULTY),
    plain("io-apics", 2000000),
    plain("io-apics-last-clash", 2000000, FAULTY),
    plain("overrides", 2000000),
    plain("overrides-last-clash", 2000000, FAULTY),
    plain("nodes-of-58-caches", 130000),
    plain("scattered-references", 115000),
    plain("reserved-entries", 16000000),
    plain("short-entries", 16000000),
]


def confirmed(chain, count):
    """A cycle that is confirmed, beside the reading of the text."""
    ours = "{acpiset} confirm --rsdp e0000 --witness '{fault}'"
    return Row(f"{count} {chain}", f"{chain} {count}", ours, "{acpiset} check --rsdp e0000 --through 3", label="reading", unit="entry")


CHAINS = [confirmed("falling-ring", 1670000), confirmed("shuffled-ring", 1670000), confirmed("short-entries-and-ring", 16700000)]


def linted(kind, count):
    """`lint` on a clean set with many entries of a kind, beside `check`."""
    lint, check = (f"{{acpiset}} {command} --rsdp e0000 --default-inputs 1" for command in ("lint", "check"))
    return Row(f"{count} {kind}", f"{kind} {count}", lint, check, label="check", unit="entry")


LINTED = [
    Row("131 lints of real sets", "real-sets 131", LINTS + " {acpiset}", CHECKS + " {acpiset}", label="check", unit="set"),
    linted("overrides", 2000000),
    linted("nmi-sources", 1600000),
    linted("io-apics", 2000000),
    linted("x2apics-in-a-bad-order", 1390000),
    linted("processors", 800000),
    linted("ranges", 800000),
    linted("leaves", 800000),
    linted("nodes-of-58-caches", 130000),
    linted("reserved-entries", 16000000),
]

USUAL = {
    "reading just below 64 MiB of text": READING,
    "order of many rows: their size": ORDER,
    "the library: guests": LIBRARY,
    "the library: pieces": PIECES,
    "real firmware": REAL,
}
MODES = {
    "--orders": {"reading rows in an order: their size": ORDERS},
    "--plain": {"without the time up to the listed tables": PLAIN},
    "--instructions": {**USUAL, "rows in an order: their size": ORDERS, "without reading": PLAIN, "confirmed": CHAINS, "lint": LINTED},
}
