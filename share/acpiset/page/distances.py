"""Distances between localities, by the SLIT, as a heat map."""

from .amounts import counted
from .markup import box, element, key, label, line, note, picture, title

MOST_LOCALITIES = 64
MOST_WITH_TEXTS = 16
LARGE, SIDE = 32, 560
LEFT, TOP = 84, 36
LOCAL, UNREACHABLE = 10, 255
SHADES = 6
CORNER = 7


def shade_of(distance: int, farthest: int) -> str:
    """The class of a distance: one of some shades, the darker the farther."""
    if distance == UNREACHABLE:
        return "nowhere"
    share = (distance - LOCAL) / max(farthest - LOCAL, 1)
    return f"h{min(SHADES - 1, max(0, round(share * (SHADES - 1))))}"


def cell_place(row: int, column: int, count: int) -> str:
    """The place of a distance, which findings name by its offset in the table."""
    return f"slit-{44 + count * row + column:#x}"


class Distances:
    def __init__(self, rows, marks):
        self.rows, self.marks, self.count = rows, marks, len(rows)
        self.side = LARGE if self.count <= MOST_WITH_TEXTS else SIDE // self.count
        known = [distance for row in rows for distance in row if distance != UNREACHABLE]
        self.farthest = max(known, default=LOCAL)

    def is_asymmetric(self, row: int, column: int) -> bool:
        return self.rows[row][column] != self.rows[column][row]

    def cell(self, row: int, column: int) -> str:
        """A cell with its distance as a text."""
        distance, side = self.rows[row][column], self.side
        own = cell_place(row, column, self.count)
        words = "unreachable" if distance == UNREACHABLE else f"{distance}"
        told = f"from {row} to {column}: {words}" + ", another one back" * self.is_asymmetric(row, column) + self.marks.named(own)
        x, y = LEFT + side * column, TOP + side * row
        class_ = shade_of(distance, self.farthest)
        parts = [title(told), box(x, y, side - 2, side - 2, f"cell {class_}")]
        parts.append(label(x + side / 2 - 1, y + side / 2 + 3, "–" if distance == UNREACHABLE else distance, f"cell {class_}", "middle"))
        return element("g", *parts, id=self.marks.drawn(own))

    def row(self, row: int) -> str:
        """The cells of a row without texts: those of one shade are one path. The title has all distances."""
        shades, side = {}, self.side - 1
        for column, distance in enumerate(self.rows[row]):
            cell = f"M{LEFT + self.side * column} {TOP + self.side * row}h{side}v{side}h-{side}z"
            shades.setdefault(shade_of(distance, self.farthest), []).append(cell)
        told = f"from {row}: {' '.join(map(str, self.rows[row]))}"
        return element("g", title(told), *(line("".join(cells), f"cell {shade}") for shade, cells in shades.items()))

    def outlines(self) -> list:
        """Cells whose way back has another distance, outlined, large ones with a corner cut off: as one path, but for those of findings."""
        usual, parts = [], []
        for row in range(self.count):
            for column in range(self.count):
                own = cell_place(row, column, self.count)
                if self.is_asymmetric(row, column) and self.marks.at(own):
                    id_ = None if self.marks.is_drawn(own) else self.marks.drawn(own)
                    told = title(f"from {row} to {column}{self.marks.named(own)}")
                    class_ = self.class_of_outlines() + self.marks.kind(own)
                    parts.append(element("path", told, d=self.outline(row, column), class_=class_, id=id_))
                elif self.is_asymmetric(row, column):
                    usual.append(self.outline(row, column))
        return [line("".join(usual), self.class_of_outlines()), *parts] if usual else parts

    def class_of_outlines(self) -> str:
        return "asymmetric" if self.side == LARGE else "asymmetric fine"

    def outline(self, row: int, column: int) -> str:
        side = self.side - 2
        corner = f"m{side - CORNER} 0l{CORNER} {CORNER}" if self.side == LARGE else ""
        return f"M{LEFT + self.side * column} {TOP + self.side * row}h{side}v{side}h-{side}z{corner}"

    def numbers(self) -> list:
        """The numbers of the localities, of some if there are many."""
        every = max(1, -(-self.count // 16))
        parts = [label(LEFT - 10, TOP - 24, "from \\ to", "small", "end")]
        for at in range(0, self.count, every):
            middle = self.side * (at + 0.5)
            parts += [label(LEFT - 8, TOP + middle + 4, at, "small", "end"), label(LEFT + middle - 1, TOP - 8, at, "small", "middle")]
        return parts

    def drawn(self) -> str:
        if self.count <= MOST_WITH_TEXTS:
            cells = [self.cell(row, column) for row in range(self.count) for column in range(self.count)]
        else:
            cells = [self.row(row) for row in range(self.count)]
        parts = [*self.numbers(), *cells, *self.outlines()]
        size = self.side * self.count + 4
        described = " ".join(f"From {row}: {' '.join(map(str, distances))}." for row, distances in enumerate(self.rows))
        return self.legend() + picture("distances", LEFT + size, TOP + size, "Distances between localities", parts, described) + self.told()

    def legend(self) -> str:
        """The shades, from the shortest distance to the farthest."""
        shades = "".join(box(1 + 16 * at, 1, 14, 10, f"cell h{at}") for at in range(SHADES))
        return element("p", f"{LOCAL} ", key(shades, 16 * SHADES, str(self.farthest)), class_="legend")

    def told(self) -> str:
        uneven = [(row, column) for row in range(self.count) for column in range(row) if self.is_asymmetric(row, column)]
        words = f"{counted(self.count, 'locality', 'localities')}; the largest distance is {self.farthest}."
        if any(UNREACHABLE in row for row in self.rows):
            words += " A dash on grey: 255, unreachable."
        if uneven:
            words += f" Outlined: {counted(len(uneven), 'pair')} with another distance back."
        return note(words)


def drawn(contents, marks) -> str:
    rows = contents.distances()
    if not rows:
        return ""
    if len(rows) > MOST_LOCALITIES:
        return note(f"The SLIT has {len(rows)} localities. Up to {MOST_LOCALITIES} are drawn; all distances are in the lines at the end.")
    return Distances(rows, marks).drawn()
