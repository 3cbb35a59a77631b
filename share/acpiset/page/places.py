"""Which places in the pictures a finding is about."""

from explain import entries
from explain.about import OF_RULES, OF_STAGES

# The places of faults that are about no entry, by stage, and of findings of advice, by number. `{at}` and `{other}` are their numbers,
# which for slots are decimal.
BY_STAGE = {1: ("rsdp",), 2: ("root",), 3: ("slot-{at}",), 4: ("fadt",), 5: ("facs", "fadt"), 11: ("slit-{at:#x}", "slit")}
TWO_SLOTS = "slot-{at}", "slot-{other}"
# The tables of entries, by what explains a finding on one.
TABLES = {entries.madt: "madt", entries.srat: "srat", entries.pptt: "pptt"}
OF_FADT = *range(104, 108), 132, *range(134, 141), *range(142, 146), 170, *range(282, 286), *range(287, 293)
BY_CODE = {
    8: ("rsdp",),
    19: ("root",),
    26: ("fadt",),
    **dict.fromkeys((32, 116, 158, 159, 209, 305), ("madt",)),
    **dict.fromkeys((41, 173), ("srat",)),
    **dict.fromkeys((46, 47), ("slit",)),
    **dict.fromkeys((101, 102, 149), TWO_SLOTS),
    **dict.fromkeys((103, 129, 148), ("slot-{at}",)),
    **dict.fromkeys(OF_FADT, ("fadt",)),
    **dict.fromkeys((108, 141), ("sci", "fadt")),
    121: ("slit-{at:#x}", "slit-{other:#x}", "slit"),
    130: ("rsdp", "root"),
    **dict.fromkeys((131, 280), ("root",)),
    **dict.fromkeys((133, 281), ("dsdt", "fadt")),
    146: ("facs", "fadt"),
    **dict.fromkeys((147, 279), ("rsdp",)),
    179: ("slit-{at:#x}", "slit"),
    286: ("fadt", "facs"),
    **dict.fromkeys(range(185, 192), ("mcfg",)),
    **dict.fromkeys(range(192, 195), ("hpet",)),
    **dict.fromkeys(range(195, 208), ("hmat",)),
    **dict.fromkeys((208, *range(210, 220)), ("gtdt",)),
    **dict.fromkeys((*range(240, 257), 258), ("dmar",)),
    **dict.fromkeys((257, 268), ("madt-{at:#x}", "madt")),
    **dict.fromkeys((*range(259, 268), 269, 270), ("ivrs",)),
    **dict.fromkeys(range(271, 277), ("spcr",)),
}
# Stages whose one fault is about two entries, which is known without the documents.
OF_PAIRS = (7, 8, 10, 16)


def places_of(code, stage, at: int, other: int) -> tuple:
    """The places of a finding, those at the front that a link leads to if they are drawn, and the table at the end. The code is None
    where the documents are missing, and the stage of a finding of advice."""
    places = BY_CODE.get(code) or BY_STAGE.get(stage)
    if places:
        return tuple(place.format(at=at, other=other) for place in places)
    by, key = (OF_STAGES, stage) if stage else (OF_RULES, code)
    for explain, numbers in by.items():
        if key in numbers and explain in TABLES:
            table = TABLES[explain]
            pair = (f"{table}-{other:#x}",) if code in entries.PAIRS or stage in OF_PAIRS else ()
            return f"{table}-{at:#x}", *pair, table
    return ()
