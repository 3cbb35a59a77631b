"""Global system interrupts, by the MADT and the FADT: I/O APICs, overrides, NMI sources and the SCI."""

from explain.settings import DEFAULT_INPUTS

from .amounts import counted, listed, numbers, times
from .bars import LEFT, RIGHT, WIDTH, Band, Bar, Chart, Row, found_here, shared
from .markup import box, element, label, line, note, path, picture, title, width_of

ISA_INTERRUPTS = 16
ISA_HEIGHT, WIDEST_SOURCE, CURVE = 20, 26, 34
MOST_IO_APICS = 128
MOST_OVERRIDES = 256
POLARITIES = {0: "bus", 1: "active high", 3: "active low"}
TRIGGERS = {0: "bus", 1: "edge", 3: "level"}


def bar_of(one, name: str) -> Bar:
    inputs = counted(one.inputs, "input") + (", given" if one.is_given else ", assumed")
    span = numbers(one.base, one.end)
    told = f"I/O APIC {one.id} at {one.address:#x}: {span}, {inputs}; entry at {one.offset:#x}"
    texts = (f"ID {one.id}, {one.address:#x}: {span}, {inputs}", f"ID {one.id}, {one.address:#x}", f"ID {one.id}", f"{one.id}")
    return Bar(one.base, one.end, f"c{0 if one.is_given else 4}", texts, told, (name,))


def signalled(flags: int) -> str:
    """Polarity and trigger mode, as far as they differ from those of the bus."""
    words = POLARITIES.get(flags & 3, "reserved polarity"), TRIGGERS.get(flags >> 2 & 3, "reserved trigger mode")
    return ", ".join(word for word in words if word != "bus") or "as the bus"


class Interrupts:
    def __init__(self, contents, marks):
        self.contents, self.marks = contents, marks
        self.io_apics = contents.io_apics[:MOST_IO_APICS]
        self.overrides = list(contents.entries("madt", "override"))[:MOST_OVERRIDES]
        self.sources = list(contents.entries("madt", "nmi"))[:MOST_OVERRIDES]
        self.sci = contents.sci()
        self.pins = self.found_pins()
        sources = {entry["source"] for entry in self.overrides}
        # The interrupts of the ISA bus, and others that overrides have.
        self.isa_sources = [*range(ISA_INTERRUPTS), *sorted(source for source in sources if source >= ISA_INTERRUPTS)]
        self.step = min(WIDEST_SOURCE, (RIGHT - LEFT) / len(self.isa_sources))

    def found_pins(self):
        """Numbers that are marked below the I/O APICs: the number, its text and title, and its places."""
        pins = []
        if self.sci:
            source, number = self.sci
            is_same = source == number
            told = f"SCI_INT of the FADT is {source}" + ("" if is_same else f", which an override makes {number}")
            pins.append((number, f"SCI {number}", told, ("sci",)))
        for entry in self.sources:
            told = f"NMI source: {entry['gsi']}, {signalled(entry['flags'])}; entry at {entry['offset']:#x}"
            pins.append((entry["gsi"], f"NMI {entry['gsi']}", told, (place(entry),)))
        return pins

    def chart(self):
        bars = [bar_of(one, f"madt-{one.offset:#x}") for one in self.io_apics]
        bands = []
        for first, end, both in shared(bars):
            told = f"{numbers(first, end)}: {counted(end - first, 'number')} of {len(both)} I/O APICs"
            bands.append(Band(first, end, "fault", f"{counted(end - first, 'number')} {times(len(both))}", told))
        named = [entry["gsi"] for entry in self.overrides] + [number for number, *_ in self.pins]
        points = [(number, number + 1) for number in named if not any(one.base <= number < one.end for one in self.io_apics)]
        points += [(0, ISA_INTERRUPTS)] if self.overrides and not any(one.base < ISA_INTERRUPTS for one in self.io_apics) else []
        head = ISA_HEIGHT + CURVE if self.overrides else 0
        return Chart([Row("I/O APICs", bars)] if bars else [], bands, self.marks, float, points, head)

    def told_numbers(self) -> list:
        """The first and the last number of each I/O APIC, and those of overrides, except pins: in the middle of their places."""
        numbers = {number for one in self.io_apics for number in (one.base, one.end - 1)} | {entry["gsi"] for entry in self.overrides}
        numbers -= {number for number, *_ in self.pins}
        return [(number + 0.5, str(number)) for number in sorted(numbers)]

    def isa(self, chart) -> list:
        """The interrupts of the ISA bus, and where overrides lead them."""
        if not self.overrides:
            return []
        parts, named = [label(LEFT - 10, 15, "ISA interrupts", None, "end")], {entry["source"] for entry in self.overrides}
        for at, source in enumerate(self.isa_sources):
            x, width = LEFT + self.step * at, self.step - 2
            parts.append(box(x, 1, width, ISA_HEIGHT, "isa" + " named" * (source in named), f"ISA interrupt {source}"))
            if width_of(source, 11) < width:
                parts.append(label(x + width / 2, 15, source, "small", "middle"))
        return parts + [self.override(entry, chart) for entry in self.overrides]

    def override(self, entry, chart) -> str:
        own, told = place(entry), told_override(entry)
        x1 = LEFT + self.step * (self.isa_sources.index(entry["source"]) + 0.5) - 1
        x2, y1, y2 = chart.axis.x(entry["gsi"] + 0.5), ISA_HEIGHT + 1, chart.top + 2
        curve = path("M", x1, y1, "C", x1, y1 + CURVE / 2, x2, y2 - CURVE / 2, x2, y2)
        parts = [title(f"{told}{self.marks.named(own)}"), line(curve, f"override{self.marks.kind(own)}")]
        parts.append(element("circle", cx=x2, cy=y2, r=3, class_=f"end{self.marks.kind(own)}"))
        return element("g", *parts, id=self.marks.drawn(own))

    def pinned(self, chart) -> list:
        """The pins, with their texts below the rows, in lines of which each has room for its texts."""
        parts, ends = [], []
        for number, text, told, places in sorted(self.pins):
            x, width = chart.axis.x(number + 0.5), width_of(text, 11)
            start = min(x - width / 2, WIDTH - width)
            at = next((at for at, end in enumerate(ends) if end + 6 < start), len(ends))
            ends[at:] = [start + width] + ends[at + 1 :]
            y = chart.height + 14 * at
            kind = self.marks.kind(*places)
            pin = line(path("M", x, chart.bottom - 3, "V", y), f"pin{kind}")
            named = title(f"{told}{self.marks.named(*places)}")
            parts.append(element("g", named, pin, label(start + width / 2, y + 11, text, f"small{kind}", "middle"), id=self.marks.drawn(*places)))
        chart.height += 14 * len(ends) + 4 if ends else 0
        return parts

    def drawn(self) -> str:
        if not (self.io_apics or self.overrides or self.sources):
            return self.local()
        chart = self.chart()
        parts = chart.parts(str, lambda size: f"{size:,}", self.told_numbers())
        parts += self.isa(chart) + self.pinned(chart)
        told = [bar.told for row in chart.rows for bar in row.bars] + [band.told for band in chart.bands]
        told += [*map(told_override, self.overrides), *(told for *_, told, _ in self.pins)]
        described = " ".join(f"{text}." for text in told)
        drawing = picture("interrupts", WIDTH, chart.height, "Interrupt numbers", parts, described)
        places = [place(one) for one in (*self.overrides, *self.sources)] + [f"madt-{one.offset:#x}" for one in self.io_apics] + ["sci"]
        return drawing + found_here(self.marks, places, "at") + self.assumed() + self.local() + self.left_out()

    def assumed(self) -> str:
        """What is said of inputs whose number is not known."""
        count = sum(not one.is_given for one in self.io_apics)
        words = f"{counted(count, 'I/O APIC')}: {DEFAULT_INPUTS} inputs are assumed, since no table says how many one has. "
        return note(words + "Give ADDRESS=COUNT if you know." if count else "")

    def local(self) -> str:
        """The NMIs of local APICs, in words."""
        told = []
        for entry in self.contents.entries("madt", "lapic-nmi", "x2apic-nmi"):
            everyone = 0xFF if entry["kind"] == "lapic-nmi" else 0xFFFFFFFF
            whose = "all processors" if entry["uid"] == everyone else f"UID {entry['uid']}"
            told.append(f"LINT{entry['lint']} of {whose}{self.marks.named(place(entry))}")
        return note(f"NMIs of local APICs: {listed(told, 16)}." if told else "")

    def left_out(self) -> str:
        told = []
        drawn = (("ioapic", "I/O APIC", self.io_apics), ("override", "override", self.overrides), ("nmi", "NMI source", self.sources))
        for kind, word, shown in drawn:
            more = sum(1 for _ in self.contents.entries("madt", kind)) - len(shown)
            told += [counted(more, f"more {word}")] if more else []
        return note(f"Not drawn: {', '.join(told)}." if told else "")


def told_override(entry) -> str:
    return f"ISA interrupt {entry['source']} is {entry['gsi']}, {signalled(entry['flags'])}; entry at {entry['offset']:#x}"


def place(entry) -> str:
    return f"madt-{entry['offset']:#x}"


def drawn(contents, marks) -> str:
    return Interrupts(contents, marks).drawn()
