"""Rows of bars on one axis, with what several bars cover as bands over them."""

from typing import Callable, NamedTuple

from .amounts import listed
from .axis import Axis
from .markup import box, element, escaped, label, line, path, title, width_of

LEFT, RIGHT = 118, 950
WIDTH = 960
TALL, FLAT = 30, 13
MOST_TALL = 24
BAND_TEXT, SIZE_INSIDE = 15, 11.5


class Bar(NamedTuple):
    """From one number up to another: its class, the texts that it may have inside, the longest first, and what it says of itself."""

    first: int
    end: int
    class_: str
    texts: tuple
    told: str
    places: tuple


class Row(NamedTuple):
    name: str
    bars: list


class Band(NamedTuple):
    first: int
    end: int
    class_: str
    text: str
    told: str


def lanes_of(bars) -> list:
    """The bars in lanes, in each of which none overlaps another one."""
    lanes, ends = [], []
    for bar in sorted(bars):
        at = next((at for at, end in enumerate(ends) if end <= bar.first), len(ends))
        if at == len(ends):
            lanes.append([])
            ends.append(0)
        lanes[at].append(bar)
        ends[at] = bar.end
    return lanes


def shared(bars) -> list:
    """What at least two bars cover: the first number, the end and the bars of each part."""
    points = sorted({point for bar in bars for point in (bar.first, bar.end)})
    begins, ends = {}, {}
    for bar in bars:
        begins.setdefault(bar.first, []).append(bar)
        ends.setdefault(bar.end, []).append(bar)
    parts, active = [], []
    for first, end in zip(points, points[1:]):
        active = [bar for bar in active if bar not in ends.get(first, ())] + begins.get(first, [])
        if len(active) > 1:
            parts.append((first, end, tuple(active)))
    return parts


class Chart:
    """`head` is how much room is left above the rows; `points` are spans of the axis beside those of the bars."""

    def __init__(self, rows, bands, marks, weight, points=(), head: float = 0):
        self.rows, self.bands, self.marks = rows, bands, marks
        self.lanes = [(row, lane, at) for row in rows for at, lane in enumerate(lanes_of(row.bars))]
        self.left = max([LEFT, *(width_of(row.name) + 16 for row in rows)])
        spans = [(bar.first, bar.end) for row in rows for bar in row.bars] + list(points)
        self.axis = Axis(spans, self.left, RIGHT - self.left, weight)
        self.step = TALL if len(self.lanes) <= MOST_TALL else FLAT
        self.top = head + (BAND_TEXT + 4 if bands else 4)
        self.bottom = self.top + self.step * len(self.lanes)
        self.height = self.bottom

    def parts(self, text_of_point: Callable[[int], str], text_of_gap: Callable[[int], str], told=()) -> list:
        """All of the chart, with the points of the axis below it, or instead what is told of other numbers."""
        parts = [self.gap(piece, text_of_gap(piece.end - piece.first), text_of_point) for piece in self.axis.gaps()]
        parts += [box(*self.place(band), f"band {band.class_}", band.told) for band in self.bands]
        for place, (row, lane, at) in enumerate(self.lanes):
            y = self.top + self.step * place
            if at == 0:
                size = None if self.step == TALL else "tiny"
                parts.append(label(self.left - 10, y + self.step / 2 + 4, row.name, size, "end"))
                parts.append(line(path("M", self.left, y, "H", RIGHT), "rule"))
            parts += [self.bar(bar, y) for bar in lane]
        parts.append(line(path("M", self.left, self.bottom, "H", RIGHT), "rule"))
        labels, height = self.axis.labels(self.bottom, told or [(point, text_of_point(point)) for point in self.axis.points])
        self.height += height
        return parts + self.texts_of_bands() + labels

    def place(self, band):
        """The corner, the width and the height of a band."""
        x = self.axis.x(band.first)
        return x, self.top - 3, max(self.axis.x(band.end) - x, 2), self.bottom - self.top + 3

    def gap(self, piece, text, text_of_point):
        x, width = self.axis.x(piece.first), self.axis.x(piece.end) - self.axis.x(piece.first)
        told = f"{text_of_point(piece.first)} up to {text_of_point(piece.end)}: nothing, {text}"
        parts = [box(x, self.top, width, self.bottom - self.top, "gap", told)]
        if self.step == TALL and width_of(text, 10) < width - 2:
            parts.append(label(x + width / 2, self.bottom - 4, text, "tiny", "middle"))
        return "".join(parts)

    def bar(self, bar, y):
        x, places = self.axis.x(bar.first), bar.places
        width, height = max(self.axis.x(bar.end) - x, 1.5), self.step - (6 if self.step == TALL else 2)
        class_ = f"bar {bar.class_}{self.marks.kind(*places)}"
        shape = box(x, y + (self.step - height) / 2, width, height, class_, rx=2)
        inside = self.inside(bar, x, y, width) if self.step == TALL else []
        return element("g", title(f"{bar.told}{self.marks.named(*places)}"), shape, *inside, id=self.marks.drawn(*places))

    def inside(self, bar, x, y, width) -> list:
        """The text and the badge that have room in a bar."""
        taken = self.marks.width(*bar.places)
        taken = taken if taken < width - 4 else 0
        class_ = "inside outlined" if "pluggable" in bar.class_ else "inside"
        text = next((text for text in bar.texts if width_of(text, SIZE_INSIDE) < width - taken - 8), None)
        parts = [label(x + (width - taken) / 2, y + 19, text, class_, "middle")] if text else []
        return parts + ([self.marks.badge(x + width - 2, y + 7, *bar.places)] if taken else [])

    def texts_of_bands(self):
        """The outlines of the bands over the bars, and the texts that have room beside one another."""
        parts, end_of_text = [], 0
        for band in self.bands:
            x, y, width, height = self.place(band)
            parts.append(box(x, y, width, height, f"edge {band.class_}", rx=1))
            size = width_of(band.text)
            start = min(max(x + width / 2 - size / 2, end_of_text), RIGHT - size)
            if start >= end_of_text:
                parts.append(label(start + size / 2, y - 4, band.text, f"band {band.class_}", "middle"))
                end_of_text = start + size + 8
        return parts


def found_here(marks, places, what: str) -> str:
    """Below a picture: the findings that are about what it shows, as links to their cards."""
    told, places = [], [place for place in places if place in marks.by_place]
    for mark in marks.at(*places):
        at = listed((place.rpartition("-")[2] for place in places if mark in marks.at(place)), 4)
        link = element("a", escaped(f"{str(mark).capitalize()}, {mark.name}"), href=f"#finding-{mark.number}")
        told.append(element("li", link, escaped(f": {what} {at}")))
    return element("ul", *told, class_="found") if told else ""
