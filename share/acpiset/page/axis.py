"""A horizontal axis of numbers, on which what nothing covers is folded."""

from bisect import bisect_right
from typing import Callable, NamedTuple

from .markup import label, line, path, width_of

# A gap is drawn this wide if there are few; all gaps together have at most this share of the axis.
WIDEST_GAP, LARGEST_SHARE = 58, 0.35
SMALL = 11
LINES_OF_LABELS, LINE_HEIGHT = 3, 14


class Piece(NamedTuple):
    """A part of the axis between two points that follow one another: all of it is covered, or nothing of it."""

    first: int
    end: int
    is_covered: bool


def merged(spans):
    """Spans of (first, end), those that overlap or touch as one."""
    joined = []
    for first, end in sorted(spans):
        if joined and first <= joined[-1][1]:
            joined[-1][1] = max(joined[-1][1], end)
        else:
            joined.append([first, end])
    return joined


class Axis:
    """The spans give the points of the axis, and what is covered. The weight of a piece's size says how wide it is."""

    def __init__(self, spans, left: float, width: float, weight: Callable[[int], float]):
        self.left, self.right = left, left + width
        self.points = sorted({point for span in spans for point in span})
        whole = merged(spans)
        firsts = [first for first, _ in whole]
        self.pieces = []
        for first, end in zip(self.points, self.points[1:]):
            self.pieces.append(Piece(first, end, end <= whole[bisect_right(firsts, first) - 1][1]))
        self.places = self.placed(width, weight)

    def placed(self, width, weight):
        """Where each point is."""
        gaps = sum(not piece.is_covered for piece in self.pieces)
        weights = [weight(piece.end - piece.first) if piece.is_covered else 0 for piece in self.pieces]
        gap = min(WIDEST_GAP, LARGEST_SHARE * width / gaps) if gaps else 0
        unit = (width - gap * gaps) / (sum(weights) or 1)
        x, places = self.left, [self.left]
        for piece, share in zip(self.pieces, weights):
            x += share * unit if piece.is_covered else gap
            places.append(x)
        return places

    def x(self, point: float) -> float:
        """Where a number is. Between two points it is placed by its share of the piece."""
        at = min(max(bisect_right(self.points, point) - 1, 0), max(len(self.points) - 2, 0))
        if at + 1 == len(self.points):
            return self.places[at]
        first, end = self.points[at], self.points[at + 1]
        share = min(max((point - first) / (end - first), 0), 1)
        return self.places[at] + share * (self.places[at + 1] - self.places[at])

    def gaps(self):
        return [piece for piece in self.pieces if not piece.is_covered]

    def labels(self, top: float, told) -> tuple:
        """A line and a text for each of these numbers that has room, in a few lines below `top`, and how much height that takes."""
        ends, parts = [], []
        for point, text in told:
            x, width = self.x(point), width_of(text, SMALL)
            start = min(max(x - width / 2, 0), self.right - width)
            at = next((at for at, end in enumerate(ends) if end + 6 <= start), len(ends))
            if at < LINES_OF_LABELS:
                ends[at:] = [start + width, *ends[at + 1 :]]
                y = top + LINE_HEIGHT * (at + 1)
                parts += [line(path("M", x, top, "V", y - 10), "rule"), label(start + width / 2, y, text, "small", "middle")]
        return parts, LINE_HEIGHT * len(ends) + 6
