"""Makes the cases: an image text, and what the program is asked about it. A case is made of the seed and its number alone."""

from __future__ import annotations

import random
from dataclasses import dataclass, field

from ..advice import RULES
from ..faults import STAGE_OF, Fault
from ..text import TOP, text_of
from .changed import changed_set
from .edges import EDGES, change_at_edge
from .layout import laid_out
from .sets import MadeSet, made_settings
from .texts import damaged, lines_of_every_form, longest_text, rendered

# One of this many cases is about the form of texts, and the others are about sets. One of this many about texts has the maximum size.
TEXT_EVERY, LONGEST_EVERY = 5, 40
NAMES = list(STAGE_OF)
SIGNATURES = (
    b"FACP", b"APIC", b"SRAT", b"SLIT", b"PPTT", b"XSDT", b"RSDT", b"SSDT", b"HPET", b"MCFG", b"SPCR", b"HMAT", b"GTDT", b"DMAR", b"IVRS",
)
# How many faults of a set `confirm` is asked about, and how many that are near one of these.
MOST_ASKED, MOST_MISSED = 12, 3
BASES = (0, 0x40, 0xE0000, 0x7FFE0000, 0xFFFFFF00, 1 << 32, 0x123456789AC0, TOP - 0x1000, TOP - 64, 1, 0x20, 0xFFFF)


@dataclass
class Case:
    text: bytes
    rsdp: int = None
    settings: object = None
    last: int = 18
    base: int = 0
    is_strict: bool = False
    # The rules of advice that may be broken.
    allowed: list = field(default_factory=list)
    # The words that say the RSDP and the settings.
    rsdp_words: list = field(default_factory=list)
    setting_words: list = field(default_factory=list)
    # What the text was written from, if it says nothing else.
    image: object = None


def hex_word(dice, value, most):
    digits = f"{value:x}"
    digits = digits.rjust(dice.choice((len(digits), len(digits), most)), "0")
    return dice.choice(("", "0x")) + dice.choice((digits, digits, digits.upper()))


def words_of(dice, settings):
    """Words that say the settings; those of the default may be left out, and of an address the first count is said first."""
    groups = []
    if settings.default_inputs != 24 or dice.random() < 0.1:
        groups.append(["--default-inputs", str(settings.default_inputs)])
    if settings.hotplug != "counted" or dice.random() < 0.1:
        groups.append(["--hotplug", settings.hotplug])
    if settings.processors != "enabled" or dice.random() < 0.1:
        groups.append(["--processors", settings.processors])
    for address, count in settings.inputs.items():
        counts = [count] + [dice.randrange(1, 257) for _ in range(dice.choice((0, 0, 0, 1)))]
        groups.append([f"{hex_word(dice, address, 8)}={it}" for it in counts])
    dice.shuffle(groups)
    return [word for group in groups for word in group]


def change_bytes(dice, image):
    """Changes a byte or two, and usually fixes the checksum of the table around each."""
    places = [at + place for at, data in image.pieces().items() for place in range(len(data))]
    for _ in range(dice.choice((1, 1, 2))):
        at = dice.choice(places)
        own = image.present(at, 1).data[0]
        image.replace(at, bytes([dice.choice((0, 1, 2, 4, 8, 255, dice.randrange(256), own ^ 1))]))
        signatures = {start: image.present(start, 4) for start in places if start <= at}
        starts = [start for start, signature in signatures.items() if signature and signature.data in SIGNATURES]
        if starts and dice.random() < 0.8:
            fix_checksum(image, starts[-1])
    if dice.random() < 0.1:
        image.drop(dice.choice(places), 1)


def fix_checksum(image, start):
    """Makes the bytes of a table sum to 0."""
    header = image.present(start, 36)
    table = image.present(start, header.number(4, 4)) if header else None
    if table:
        image.replace(start + 9, bytes([(header.data[9] - sum(table.data)) % 256]))


def other_code(dice, target):
    """Another code: often one near this, so that it matters which of the two is reported, and seldom one of the first stages,
    which hide all others."""
    near = (target, target + 1, target - 1, target + dice.randrange(-8, 9))
    code = dice.choice((*near, dice.randrange(15, 60), dice.randrange(32, 60), dice.randrange(32, 60)))
    return code if 1 <= code <= len(EDGES) else dice.randrange(1, len(EDGES) + 1)


def set_case(dice, place):
    """A set at the edge of one code, and sometimes of others. The codes take turns."""
    target = place % len(EDGES) + 1
    made = MadeSet(dice, target)
    change_at_edge(made, target, dice.random() < 0.7)
    for _ in range(dice.choice((0, 0, 1, 1, 1, 2, 4))):
        change_at_edge(made, other_code(dice, target), dice.random() < 0.6)
    image, rsdp = laid_out(made)
    if dice.random() < 0.15 and image.runs:
        change_bytes(dice, image)
    case = Case(rendered(dice, image), rsdp, made.settings, image=image)
    if dice.random() < 0.05:
        case.rsdp = dice.choice((rsdp + 1, rsdp - 1, 0, TOP - 1, TOP - 20)) % TOP
    if dice.random() < 0.3:
        case.last = dice.randrange(1, 19)
    return case


def text_case(dice, place):
    """A text of lines at random, or one of a set with a thing or two changed, or one of the greatest size."""
    if place % LONGEST_EVERY == LONGEST_EVERY - 1:
        turn = place // LONGEST_EVERY
        return Case(longest_text(turn & 1, turn >> 1 & 1), 0, made_settings(dice))
    if place % 2:
        return Case(lines_of_every_form(dice, place // 2), dice.choice((0, 0xE0000, TOP - 20)), made_settings(dice))
    made = MadeSet(dice, dice.randrange(1, 60))
    image, rsdp = laid_out(made)
    text = rendered(dice, image)
    for _ in range(dice.choice((1, 1, 1, 2))):
        text = damaged(dice, text)
    return Case(text, rsdp, made.settings)


def completed(dice, case):
    """The case with the words of a command line, and the dice, for more."""
    case.base, case.is_strict = dice.choice(BASES), dice.random() < 0.2
    case.allowed = dice.choices(RULES, k=dice.choice((1, 3, 40))) if dice.random() < 0.2 else []
    case.setting_words = words_of(dice, case.settings)
    if dice.random() < 0.85:
        case.rsdp_words = ["--rsdp", hex_word(dice, case.rsdp, 16)]
    else:
        case.rsdp = None
    return case, dice


def made_case(seed, place):
    """The case of this number that is made."""
    dice = random.Random(f"{seed} {place}")
    group, of_group = divmod(place, TEXT_EVERY)
    is_text = of_group == TEXT_EVERY - 1
    return completed(dice, text_case(dice, group) if is_text else set_case(dice, group * (TEXT_EVERY - 1) + of_group))


def changed_case(seed, place):
    """The case of this number that is a known set or a new one, changed."""
    dice = random.Random(f"{seed} {place} changed")
    image, rsdp = changed_set(dice)
    return completed(dice, Case(text_of(image.pieces()), rsdp, made_settings(dice), image=image))


# ---- faults to ask `confirm` about


def near(dice, fault):
    """A fault that is near this one: a number that is one more or less, or another one's, or another name of its stage."""
    numbers = [fault.at, fault.other, fault.point]
    place = dice.randrange(3)
    what = dice.choice(("more", "less", "swap", "name", "zero", "far"))
    if what == "swap":
        other = dice.randrange(3)
        numbers[place], numbers[other] = numbers[other], numbers[place]
    elif what == "name":
        same = [name for name in NAMES if STAGE_OF[name] == STAGE_OF[fault.name]]
        return Fault(dice.choice(same if len(same) > 1 else NAMES), *numbers)
    else:
        far = dice.choice((TOP - 1, 1 << 32, numbers[0]))
        numbers[place] = {"more": numbers[place] + 1, "less": numbers[place] - 1, "zero": 0, "far": far}[what] % TOP
    return Fault(fault.name, *numbers)


def asked(dice, judgement):
    """Faults of the set: all of them, if they are not too many; and faults that are near some of these, or that may be anywhere."""
    faults = judgement.faults
    asked_about = faults if len(faults) <= MOST_ASKED else dice.sample(faults, MOST_ASKED)
    any_numbers = [dice.choice((0, 0, 36, 44, 48, 88, 116)) for _ in range(3)]
    misses = [near(dice, fault) for fault in dice.sample(asked_about, min(len(asked_about), MOST_MISSED))]
    return [*asked_about, *misses, Fault(dice.choice(NAMES), *any_numbers)]
