"""Processors by proximity domain, by the MADT and the SRAT, as a grid."""

from .amounts import counted, listed
from .bars import LEFT, RIGHT, WIDTH, found_here
from .markup import element, key, label, note, number, picture, title, width_of
from .memory import COLOURS

STATES = {"on": "enabled", "capable": "online capable", "off": "disabled"}
MOST_PROCESSORS = 4096
# The side of a cell, by up to how many processors there are.
SIDES = ((128, 24), (512, 14), (MOST_PROCESSORS, 8))
MOST_WITH_TEXTS = 128
CORNER = 8


def cell(x: float, y: float, side: float, state: str) -> str:
    """The path of a cell: a square; of one that is online capable with a corner cut off."""
    square = f"M{number(x)} {number(y)}h{side}v{side}h-{side}z"
    corner = min(side, CORNER)
    return square + (f"m0 {corner}l{corner}-{corner}" if state == "capable" else "")


def legend() -> str:
    items = []
    for state, words in STATES.items():
        drawn = element("path", d=cell(1, 1, 10, state), class_=f"cpu {state} c0")
        items.append(key(drawn, 12, words))
    return element("p", *items, class_="legend")


def groups_of(processors) -> list:
    """The processors by domain, those of none at the end."""
    groups = {}
    for one in processors:
        groups.setdefault(one.domain, []).append(one)
    return sorted(groups.items(), key=lambda group: (group[0] is None, group[0] or 0))


def name_of(domain) -> str:
    return "no domain" if domain is None else f"domain {domain}"


def summary(processors) -> str:
    """How many processors there are, by state."""
    counts = {state: sum(one.state == state for one in processors) for state in STATES}
    return ", ".join(f"{counts[state]:,} {words}" for state, words in STATES.items() if counts[state])


class Processors:
    def __init__(self, processors, marks):
        self.all, self.marks = processors, marks
        self.shown = processors[:MOST_PROCESSORS] + [one for one in processors[MOST_PROCESSORS:] if marks.at(*places_of(one))]
        self.groups = groups_of(self.shown)
        self.left = max([LEFT, *(width_of(name_of(domain)) + 16 for domain, _ in self.groups)])
        self.side = next((side for most, side in SIDES if len(self.shown) <= most), SIDES[-1][1])

    def drawn(self) -> str:
        y, parts, described = 4, [], []
        for at, (domain, group) in enumerate(self.groups):
            parts.append(label(self.left - 10, y + min(self.side, 16) - 2, name_of(domain), None, "end"))
            parts += self.cells(group, at % COLOURS, y)
            y += self.side * (-(-len(group) // self.columns())) + 8
            described.append(f"{name_of(domain)}: {counted(len(group), 'processor')}, {summary(group)}.".capitalize())
        drawing = picture("processors", WIDTH, y, "Processors by proximity domain", parts, " ".join(described))
        places = [place for one in self.shown for place in places_of(one)]
        return drawing + found_here(self.marks, places, "the entry at") + note(self.told())

    def columns(self) -> int:
        return int((RIGHT - self.left) // self.side)

    def cells(self, group, colour: int, top: float) -> list:
        """The cells of a domain, those of one state in one group."""
        by_state = {state: [] for state in STATES}
        for at, one in enumerate(group):
            row, column = divmod(at, self.columns())
            by_state[one.state].append(self.cell(one, self.left + self.side * column, top + self.side * row))
        fine = " fine" if len(self.shown) > MOST_WITH_TEXTS else ""
        return [element("g", *cells, class_=f"cpu {state} c{colour}{fine}") for state, cells in by_state.items() if cells]

    def cell(self, one, x: float, y: float) -> str:
        own, side = places_of(one), self.side - 2
        named = "" if one.id is None else f", {'hart' if one.kind == 'RINTC' else 'ID'} {one.id}"
        told = f"UID {one.uid}{named}{self.marks.named(*own)}"
        drawn, class_ = cell(x, y, side, one.state), self.marks.kind(*own).strip() or None
        if len(self.shown) > MOST_WITH_TEXTS:
            return element("path", title(told), id=self.marks.drawn(*own) if class_ else None, d=drawn, class_=class_)
        shape = element("path", d=drawn, class_=class_)
        parts = [title(f"{told}, {STATES[one.state]}, {one.kind} at {one.offset:#x}"), shape]
        if one.uid < 1000:
            parts.append(label(x + side / 2, y + side / 2 + 4, one.uid, f"cpu {one.state}", "middle"))
        return element("g", *parts, id=self.marks.drawn(*own))

    def told(self) -> str:
        kinds = {}
        for one in self.all:
            kinds[one.kind] = kinds.get(one.kind, 0) + 1
        words = listed(f"{count:,} by {kind} entries" for kind, count in kinds.items())
        more = len(self.all) - len(self.shown)
        more = f" {counted(more, 'more processor')} are not drawn." if more else ""
        numbers = " The numbers are UIDs." if len(self.shown) <= MOST_WITH_TEXTS else ""
        return f"{counted(len(self.all), 'processor')}: {summary(self.all)}; {words}.{numbers}{more}"


def places_of(one) -> tuple:
    """Its entry of the MADT, and those of the SRAT that name it."""
    return f"madt-{one.offset:#x}", *(f"srat-{offset:#x}" for offset in one.affinities)


def drawn(contents, marks) -> str:
    processors = contents.processors
    return legend() + Processors(processors, marks).drawn() if processors else ""
