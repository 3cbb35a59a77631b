"""The rules of advice on the HPET (IA-PC HPET 1.0a, 3.2.4)."""

from __future__ import annotations

from .rule import of_table, rule, too_short

# How many bytes an HPET with all its fields has.
LENGTH = 56
# How many bytes a block of timers has (2.3), and what some firmware writes for FED00000h, shifted by 32 bits.
BLOCK_SIZE, SHIFTED = 1024, 0xFED0000000000000


def has_hpet(facts):
    return facts.hpet is not None


def has_all_fields(facts):
    return has_hpet(facts) and len(facts.hpet) >= LENGTH


@rule(192, "HpetLength", has_hpet)
def short_hpet(facts):
    """The HPET ends before its fields do (3.2.4)."""
    yield from too_short(facts.hpet, LENGTH)


@rule(193, "HpetSpace", has_all_fields)
def hpet_space(facts):
    """The timers are not in memory (3.2.4)."""
    if facts.hpet.number(40, 1) != 0:
        yield of_table(facts.hpet, 40, 1)


@rule(194, "HpetAddress", has_all_fields)
def hpet_address(facts):
    """The timers are at 0, at no multiple of their size, or at an address that was shifted (3.2.4)."""
    address = facts.hpet.number(44, 8)
    if address in (0, SHIFTED) or address % BLOCK_SIZE:
        yield of_table(facts.hpet, 44, 8)
