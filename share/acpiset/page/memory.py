"""Memory by proximity domain, by the SRAT."""

import math

from .amounts import addresses, counted, listed, size_of, times
from .bars import WIDTH, Band, Bar, Chart, Row, found_here, shared
from .markup import note, picture

MOST_RANGES = 512
COLOURS = 8
SMALLEST = 1 << 16


def weight(size: int) -> float:
    return max(1.0, math.log2(size / SMALLEST + 1))


def properties(one) -> str:
    words = ["hot-pluggable"] * one.is_pluggable + ["non-volatile"] * one.is_lasting
    return "".join(f", {word}" for word in words)


def bar_of(one, colour: int) -> Bar:
    size = size_of(one.end - one.first)
    told = f"{addresses(one.first, one.end)}, {size}, domain {one.domain}{properties(one)}; entry at {one.offset:#x}"
    class_ = f"c{colour}" + " pluggable" * one.is_pluggable + " lasting" * one.is_lasting
    words = " hot-plug" * one.is_pluggable + " non-volatile" * one.is_lasting
    return Bar(one.first, one.end, class_, tuple(dict.fromkeys((size + words, size))), told, (f"srat-{one.offset:#x}",))


def rows_of(ranges) -> list:
    """A row for each domain, and one more for its hot-pluggable ranges."""
    rows = []
    for at, domain in enumerate(sorted({one.domain for one in ranges})):
        for is_pluggable, words in ((False, ""), (True, ", hot-plug")):
            bars = [bar_of(one, at % COLOURS) for one in ranges if (one.domain, one.is_pluggable) == (domain, is_pluggable)]
            if bars:
                rows.append(Row(f"domain {domain}{words}", bars))
    return rows


def band_of(first: int, end: int, both, is_apart: bool) -> Band:
    """What several ranges cover. Windows for hot-plug over other ranges are no fault where those are counted apart."""
    kinds = [one.is_pluggable for one in both]
    is_fault = not is_apart or max(kinds.count(True), kinds.count(False)) > 1
    text = f"{size_of(end - first)} {times(len(both))}"
    offsets = listed((f"{one.offset:#x}" for one in both), 4)
    told = f"{addresses(first, end)}, {size_of(end - first)}, is in {len(both)} ranges: {offsets}"
    return Band(first, end, "fault" if is_fault else "window", text, told)


def drawn(contents, marks) -> str:
    """The picture, and what it leaves out; nothing if there is no range."""
    if not contents.ranges:
        return ""
    covering = [one for one in contents.ranges if one.is_enabled and one.first < one.end]
    covering.sort(key=lambda one: (not marks.at(f"srat-{one.offset:#x}"), one.first))
    ranges = sorted(covering[:MOST_RANGES], key=lambda one: (one.first, one.offset))
    told = []
    if len(covering) > MOST_RANGES:
        told.append(f"{counted(len(covering) - MOST_RANGES, 'more range')} are not drawn.")
    for what, left_out in (
        ("not enabled", [one for one in contents.ranges if not one.is_enabled]),
        ("enabled and of length 0", [one for one in contents.ranges if one.is_enabled and one.first == one.end]),
    ):
        if left_out:
            told.append(f"Not drawn, {what}: {listed((f'{one.offset:#x}' for one in left_out), 8)}.")
    if not ranges:
        return note(" ".join(["The SRAT has no enabled range of memory.", *told]))
    is_apart = contents.settings.hotplug == "apart"
    bands = [band_of(first, end, both, is_apart) for first, end, both in shared(ranges)]
    chart = Chart(rows_of(ranges), bands, marks, weight)
    parts = chart.parts(lambda point: f"{point:#x}", size_of)
    described = " ".join([f"{bar.told}." for row in chart.rows for bar in row.bars] + [f"{band.told}." for band in bands])
    drawing = picture("memory", WIDTH, chart.height, "Memory ranges by proximity domain", parts, described)
    places = [f"srat-{one.offset:#x}" for one in ranges]
    scale = "Widths are on a logarithmic scale. Hatched: addresses in no range."
    return drawing + found_here(marks, places, "the range at") + note(" ".join([scale, *told]))
