"""Which findings are about which places in the pictures, and where these are drawn.

A place is a name such as `rsdp`, `root`, `slot-3`, `srat` for the table, and `srat-0x128` for the entry at this offset. Each is the
identifier of an element, if it is drawn; several places may be drawn as one element."""

from collections import defaultdict
from typing import NamedTuple, Optional

from .markup import element, escaped, title, width_of

BADGE_HEIGHT, TEXT, MARGIN, GAP = 16, 11, 4, 2
MOST_BADGES = 3


class Mark(NamedTuple):
    """A finding by its number on the page, its name, and whether it is a `fault` or `advice`."""

    number: int
    name: str
    kind: str

    def __str__(self):
        return f"{self.kind} {self.number}"


class Marks:
    def __init__(self):
        self.by_place = defaultdict(list)
        self.elements = {}

    def put(self, mark: Mark, places):
        for place in places:
            self.by_place[place].append(mark)

    def at(self, *places) -> list:
        """The findings that are about any of these places, in the order of the page."""
        return sorted({mark for place in places for mark in self.by_place.get(place, ())})

    def kind(self, *places) -> str:
        """What the worst of them is, as a class with a blank before it; nothing if there is none."""
        kinds = {mark.kind for mark in self.at(*places)}
        return " fault" if "fault" in kinds else " advice" if kinds else ""

    def drawn(self, *places) -> str:
        """The identifier of an element that is drawn for these places. The first of them names it."""
        for place in places:
            self.elements.setdefault(place, places[0])
        return places[0]

    def is_drawn(self, place: str) -> bool:
        return place in self.elements

    def element_of(self, places) -> Optional[str]:
        """The element to which a link leads: of the first place that is drawn."""
        return next((self.elements[place] for place in places if place in self.elements), None)

    def named(self, *places) -> str:
        """What an element's title says of the findings."""
        return "".join(f"; {mark}: {mark.name}" for mark in self.at(*places))

    def width(self, *places) -> float:
        """How wide their badge is."""
        return sum(width_of(mark, TEXT) + 2 * MARGIN + GAP for mark in self.at(*places)[:MOST_BADGES])

    def badge(self, right: float, top: float, *places) -> str:
        """The numbers of the findings, as links to their cards, to the left of a point. Below a picture are the same links in words, so the
        keyboard passes these over."""
        parts = []
        for mark in reversed(self.at(*places)[:MOST_BADGES]):
            width = width_of(mark, TEXT) + 2 * MARGIN
            right -= width + GAP
            shape = element("rect", x=right, y=top, width=width, height=BADGE_HEIGHT, rx=3, class_=f"badge {mark.kind}")
            text = element("text", escaped(mark), x=right + width / 2, y=top + 12, text_anchor="middle", class_="badge")
            parts.append(element("a", title(mark.name), shape, text, href=f"#finding-{mark.number}", tabindex="-1"))
        return "".join(parts)
