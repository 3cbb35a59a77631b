"""The parts of a GIC by their addresses: distributor, redistributors, CPU interfaces, ITS and MSI frames. `show` writes no fields of
these entries, so they are read from the image."""

import math

from .amounts import addresses, listed, size_of
from .bars import WIDTH, Bar, Chart, Row, found_here
from .markup import note, picture
from .memory import COLOURS

KIB = 1 << 10
# Of each type of entry (5.2.12.14 to 5.2.12.18) its row, the least length, where its address is, and its size: a number, or where
# the entry has it. Sizes that are numbers are those of the GIC architecture.
GICC, GICD, FRAME, REDISTRIBUTOR, ITS = 11, 12, 13, 14, 15
PARTS = {
    GICD: ("distributor", 16, 8, 64 * KIB),
    REDISTRIBUTOR: ("redistributors", 16, 4, None),
    ITS: ("ITS", 20, 8, 128 * KIB),
    FRAME: ("MSI frames", 24, 8, 4 * KIB),
}
LENGTH_OF_RANGE = 12
# Two addresses of a GICC: that of its CPU interface, of GICv2, and that of its own redistributor.
OF_GICC = (("CPU interfaces", 40, 32, 8 * KIB), ("redistributors", 68, 60, 128 * KIB))
MOST_PARTS = 512


def weight(size: int) -> float:
    return max(1.0, math.log2(size / KIB + 1))


def parts_of(one) -> list:
    """The parts that an entry gives addresses of: the row, the first and the last address, and whether the size is assumed."""
    if one.type == GICC:
        return [(row, one.number(at, 8), size, True) for row, least, at, size in OF_GICC if one.size >= least and one.number(at, 8)]
    row, least, at, size = PARTS[one.type]
    if one.size < least:
        return []
    length = one.number(LENGTH_OF_RANGE, 4) if size is None else size
    return [(row, one.number(at, 8), length, size is not None)] if length else []


def bars_by_row(contents) -> dict:
    """Entries that give one address, as CPU interfaces do, are one bar."""
    same = {}
    for one in contents.structures("APIC", GICC, *PARTS):
        for row, address, size, is_assumed in parts_of(one):
            same.setdefault((row, address, size, is_assumed), []).append(one)
    rows = {}
    for (row, address, size, is_assumed), ones in list(same.items())[:MOST_PARTS]:
        bars = rows.setdefault(row, [])
        bars.append(bar_of(row, address, size, is_assumed, ones, f"c{len(rows) % COLOURS}"))
    return rows


def bar_of(row: str, address: int, size: int, is_assumed: bool, ones, class_: str) -> Bar:
    offsets = [f"{one.offset:#x}" for one in ones]
    told = f"{row} at {addresses(address, address + size)}, {size_of(size)}{', assumed' * is_assumed}; entry at {listed(offsets, 4)}"
    # A GICC is drawn as a processor too, which is its place.
    is_processor = ones[0].type == GICC
    places = (f"gic-{row.split()[0]}-{offsets[0]}",) if is_processor else tuple(f"madt-{offset}" for offset in offsets)
    return Bar(address, address + size, class_, (f"{address:#x}, {size_of(size)}", size_of(size)), told, places)


def drawn(contents, marks) -> str:
    rows = bars_by_row(contents)
    if not rows:
        return ""
    chart = Chart([Row(name, bars) for name, bars in rows.items()], [], marks, weight)
    parts = chart.parts(lambda point: f"{point:#x}", size_of)
    described = " ".join(f"{bar.told}." for row in chart.rows for bar in row.bars)
    places = [place for bars in rows.values() for bar in bars for place in bar.places]
    assumed = "Sizes of redistributor ranges are those of the MADT; it has no others, so those of the architecture are assumed."
    drawing = picture("gic", WIDTH, chart.height, "Parts of the GIC by address", parts, described)
    return drawing + found_here(marks, places, "the entry at") + note(assumed)
