"""The set as a map: the RSDP, the XSDT or RSDT, the tables that it lists, and what the FADT names; and how far each is checked."""

from typing import NamedTuple

from .amounts import counted, listed
from .contents import NAMES, SIGNATURES
from .markup import box, element, key, label, line, note, path, picture, title, width_of

HEIGHT, STEP, TOP = 40, 48, 2
# Where the columns begin, and how wide their boxes are: the RSDP, the root, the tables, and those that the FADT names.
RSDP_AT, ROOT_AT, TABLES_AT, NAMED_AT = (2, 172), (212, 200), (472, 260), (772, 186)
WIDTH = 960
MOST_BOXES, MOST_WIRES = 120, 4
# In a long list the root stays near its beginning: at this row.
LOWEST_ROOT = 6

DEPTHS = {
    "contents": "contents checked",
    "partly": "contents checked in part",
    "header": "header, Length, checksum",
    "unread": "not read",
}
# The stage that checks a table's contents: an earlier last stage leaves it at its header.
STAGES = {"FACP": 4, "FACS": 5, "APIC": 6, "SRAT": 9, "SLIT": 11, "PPTT": 12}
# Tables at whose contents only rules of advice look.
ADVISED = ("MCFG", "HPET", "HMAT", "GTDT", "DMAR", "IVRS", "SPCR")
TITLES = {
    "APIC": "Multiple APIC Description Table", "FACP": "Fixed ACPI Description Table", "FACS": "Firmware ACPI Control Structure",
    "SRAT": "System Resource Affinity Table", "SLIT": "System Locality Information Table",
    "PPTT": "Processor Properties Topology Table", "DSDT": "Differentiated System Description Table, which is AML",
    "MCFG": "PCI Memory-Mapped Configuration Space Table", "HPET": "High Precision Event Timer Table",
    "HMAT": "Heterogeneous Memory Attribute Table", "GTDT": "Generic Timer Description Table",
    "DMAR": "DMA Remapping Table", "IVRS": "I/O Virtualization Reporting Structure", "SPCR": "Serial Port Console Redirection Table",
}


class Item(NamedTuple):
    """A box: what it is called, its address and its length, how far it is checked, and its places. `slots` list it."""

    name: str
    address: str
    more: str
    depth: str
    places: tuple
    slots: tuple = ()


def symbol(x: float, y: float, depth: str) -> str:
    """A square, which is filled as far as a table is checked."""
    filled = {"contents": 10, "partly": 5}.get(depth, 0)
    inside = [element("rect", x=x, y=y, width=filled, height=10, class_="symbol full")] if filled else []
    return "".join([*inside, element("rect", x=x, y=y, width=10, height=10, class_=f"symbol {depth}")])


def legend() -> str:
    """What the squares mean."""
    return element("p", *(key(symbol(1, 1, depth), 12, words) for depth, words in DEPTHS.items()), class_="legend")


def drawn_item(item: Item, x: float, y: float, width: float, marks) -> str:
    """The box of an item, with its findings."""
    name = NAMES.get(item.name, item.name)
    told = f"{TITLES.get(item.name, name)} at {item.address}" if item.address else name
    told = f"{told}, {DEPTHS[item.depth]}{marks.named(*item.places)}"
    parts = [title(told), box(x, y, width, HEIGHT, f"table {item.depth}{marks.kind(*item.places)}", rx=4)]
    parts += [label(x + 10, y + 16, name, "strong"), label(x + width - 10, y + 16, item.address, "small", "end")]
    room = width - 34 - marks.width(*item.places)
    more = next((text for text in (item.more, item.more.partition(":")[0]) if width_of(text, 11) <= room), "")
    parts += [symbol(x + 10, y + 24, item.depth), label(x + 26, y + 33, more, "small")]
    parts.append(marks.badge(x + width - 4, y + 21, *item.places))
    return element("g", *parts, id=marks.drawn(*item.places))


def linked(x1: float, y1: float, x2: float, y2: float) -> str:
    """A line between two boxes, by way of the middle between them."""
    middle = x2 - 22
    return line(path("M", x1, y1, "H", middle, "V", y2, "H", x2), "wire")


class Map:
    """The boxes of a set."""

    def __init__(self, contents, marks, last_stage: int):
        self.shown, self.contents, self.marks, self.last_stage = contents.shown, contents, marks, last_stage
        self.first = {}
        for slot in self.shown["slots"]:
            self.first.setdefault(slot.get("signature"), slot.get("address"))

    def is_read(self, signature: str, address: str) -> bool:
        """Whether a listed table is the first one of a kind at whose contents stages or rules look."""
        return self.first.get(signature) == address and (signature in STAGES or signature in ADVISED)

    def depth(self, signature: str, address: str) -> str:
        """How far a listed table is checked."""
        if not self.is_read(signature, address) or STAGES.get(signature, 0) > self.last_stage:
            return "header"
        if signature in ADVISED:
            return "partly"
        table = next((table for table, own in SIGNATURES.items() if own == signature), None)
        return "partly" if table and self.contents.unread(table) else "contents"

    def item(self, slots) -> Item:
        """The box of slots that list one table."""
        slot = slots[0]
        numbers = tuple(one["slot"] for one in slots)
        places = tuple(f"slot-{number}" for number in numbers)
        if "address" not in slot:
            return Item("empty", "", "the entry is 0", "unread", places, numbers)
        if "bad" in slot:
            return Item("not complete", slot["address"], "a Length below 36, or bytes missing", "unread", places, numbers)
        signature, address = slot["signature"], slot["address"]
        depth = self.depth(signature, address)
        own = (NAMES.get(signature, signature).lower(),) if self.is_read(signature, address) else ()
        more = counted(slot["length"], "byte") if "length" in slot else "not in the image"
        if depth == "header" and "length" in slot:
            more += ": header and checksum"
        elif depth == "partly":
            more += ": checked by advice" if signature in ADVISED else ": checked in part"
        return Item(signature, address, more, depth, own + places, numbers)

    def items(self) -> list:
        """The boxes of the tables in the order of their slots. Tables of one signature that follow one another are one box, if there are
        more than three, no stage checks their contents, and nothing is found in them."""
        by_address = {}
        for slot in self.shown["slots"]:
            by_address.setdefault(slot.get("address", slot["slot"]), []).append(slot)
        return joined([self.item(group) for group in by_address.values()], self.marks)

    def drawn(self) -> str:
        items, marks = self.items(), self.marks
        left_out = [item for item in items[MOST_BOXES:] if not marks.at(*item.places)]
        items = items[:MOST_BOXES] + [item for item in items[MOST_BOXES:] if marks.at(*item.places)]
        rows = max(len(items), 2) - 1
        middle = TOP + STEP * min(max(len(items) - 1, 0) / 2, LOWEST_ROOT)
        parts = [self.rsdp(middle), self.root(middle)]
        for place, item in enumerate(items):
            parts += self.listed_item(item, TOP + STEP * place, middle + HEIGHT / 2)
        height = STEP * rows + HEIGHT + 2 * TOP
        more = f"{counted(len(left_out), 'more table')} of the slots are not drawn." if left_out else ""
        return picture("map", WIDTH, height, "Which table points to which", parts, self.described(items)) + note(more)

    def listed_item(self, item: Item, y: float, y_of_root: float) -> list:
        """The box of a table, with a line for each slot that lists it, and beside the FADT what that names."""
        parts, slots = [], item.slots[:MOST_WIRES]
        for at, slot in enumerate(slots):
            y_of_wire = y + HEIGHT / 2 + 12 * at - 6 * (len(slots) - 1)
            parts.append(linked(sum(ROOT_AT), y_of_root, TABLES_AT[0], y_of_wire))
            parts.append(label(TABLES_AT[0] - 3, y_of_wire - 3, slot, "tiny", "end"))
        parts.append(drawn_item(item, TABLES_AT[0], y, TABLES_AT[1], self.marks))
        return parts + (self.named_by_fadt(y) if item.places[0] == "fadt" else [])

    def rsdp(self, y: float) -> str:
        rsdp = self.shown.get("rsdp", {})
        more = f"revision {rsdp['revision']}" if "revision" in rsdp else "not in the image"
        return drawn_item(Item("RSDP", rsdp.get("address", ""), more, "contents", ("rsdp",)), RSDP_AT[0], y, RSDP_AT[1], self.marks)

    def root(self, y: float) -> str:
        root = self.shown.get("root")
        if not root:
            return ""
        more = counted(root["slots"], "entry", "entries") if "slots" in root else "not in the image"
        item = Item(root["signature"], root["address"], more, "contents", ("root",))
        wire = line(path("M", sum(RSDP_AT), y + HEIGHT / 2, "H", ROOT_AT[0]), "wire")
        return wire + drawn_item(item, ROOT_AT[0], y, ROOT_AT[1], self.marks)

    def named_by_fadt(self, y: float) -> list:
        """The FACS and the DSDT, beside the FADT."""
        shown, items = self.shown, []
        if "facs" in shown:
            facs, depth = shown["facs"], "contents" if STAGES["FACS"] <= self.last_stage else "unread"
            more = counted(facs["length"], "byte") if "length" in facs else "not valid"
            items.append(Item("FACS", facs["address"], more, depth, ("facs",)))
        if shown.get("dsdt", "0x0") != "0x0":
            items.append(Item("DSDT", shown["dsdt"], "AML: not read", "unread", ("dsdt",)))
        parts = []
        for at, item in enumerate(items):
            parts.append(linked(sum(TABLES_AT), y + HEIGHT / 2, NAMED_AT[0], y + STEP * at + HEIGHT / 2))
            parts.append(drawn_item(item, NAMED_AT[0], y + STEP * at, NAMED_AT[1], self.marks))
        return parts

    def described(self, items) -> str:
        root = self.shown.get("root", {})
        told = [f"The {root.get('signature', 'root')} lists:"]
        told += [f"{item.name} at {item.address}, {DEPTHS[item.depth]}{self.marks.named(*item.places)}." for item in items]
        return " ".join(told)


def joined(items, marks) -> list:
    """The items, with one for each row of more than three that are alike and of which nothing is found."""
    rows = []
    for item in items:
        is_plain = item.depth in ("header", "unread") and not marks.at(*item.places)
        if is_plain and rows and rows[-1][0] and rows[-1][1][0].name == item.name:
            rows[-1][1].append(item)
        else:
            rows.append((is_plain, [item]))
    kept = []
    for _, row in rows:
        kept += row if len(row) <= 3 else [one_for(row)]
    return kept


def one_for(row) -> Item:
    slots = [slot for item in row for slot in item.slots]
    places = tuple(place for item in row for place in item.places)
    name = f"{row[0].name} × {len(row)}"
    return Item(name, f"slots {slots[0]} to {slots[-1]}", DEPTHS[row[0].depth], row[0].depth, places, tuple(slots[:1]))


def told_unread(one) -> str:
    name = f" ({one.name})" if one.name else ""
    return f"{one.count:,} of type {one.type}{name}{', checked by advice' if one.is_advised else ''}"


def unread_entries(contents) -> str:
    """Entries whose contents no stage checks, table by table."""
    told = []
    for table, signature in SIGNATURES.items():
        found = contents.unread(table)
        if found:
            told.append(f"{NAMES.get(signature, signature)}: {listed(map(told_unread, found), 20)}")
    return note(f"Entries whose contents no stage checks: {'; '.join(told)}." if told else "")


def limits() -> str:
    return note("Not checked: AML, that is the DSDT and what is in SSDTs; and the contents of tables whose square is empty.")


def map_of(tables) -> dict:
    """The RSDP, the root and the slots as the image has them, where `show` does not show the set."""
    if tables is None or tables.rsdp is None:
        return {}
    found = {"rsdp": {"address": f"{tables.rsdp:#x}"}, "slots": []}
    revision = tables.image.number(tables.rsdp + 15, 1)
    if revision is not None:
        found["rsdp"]["revision"] = revision
    if tables.named is not None:
        found["root"] = {"address": f"{tables.named:#x}", "signature": "XSDT" if tables.width == 8 else "RSDT"}
    if tables.root is not None:
        found["root"]["slots"] = len(tables.slots)
    for slot, address in enumerate(tables.slots):
        found["slots"].append({"slot": slot, **(slot_of(tables, address) if address else {})})
    return found


def slot_of(tables, address: int) -> dict:
    """What is known of a listed table."""
    signature = tables.signature(address)
    if signature is None:
        return {"address": f"{address:#x}", "signature": "no header"}
    return {"address": f"{address:#x}", "signature": signature, "length": tables.image.number(address + 4, 4)}
