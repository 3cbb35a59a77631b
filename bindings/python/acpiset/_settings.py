"""The settings of a call."""

from __future__ import annotations

from dataclasses import dataclass
from enum import IntEnum
from typing import Sequence, Tuple


class HotPlug(IntEnum):
    """Which memory ranges of the SRAT may not overlap."""

    COUNTED = 0  # no two enabled ranges
    APART = 1  # no two enabled hot-pluggable ranges, and no two enabled ones that are not hot-pluggable


class Processors(IntEnum):
    """Which processors of the MADT may not be in two proximity domains."""

    ENABLED = 0  # those with the flag Enabled
    USABLE = 1  # those with the flag Enabled or Online Capable


@dataclass(frozen=True)
class Settings:
    """The settings of a call: the RSDP's address, the numbers of inputs of the I/O APICs, and choices.

    ``rsdp``: the RSDP's physical address, 0 to 2^64 - 1.
    ``default_inputs``: the number of inputs (interrupt pins), 1 to 256, of each I/O APIC that ``inputs`` does not name.
    ``inputs``: pairs of the address of an I/O APIC, as in the MADT, 0 to 2^32 - 1, and the number of its inputs, 1 to 256. If an
    address is repeated, the first number counts. No ACPI table has these numbers: software reads them from the I/O APIC.
    ``hotplug``, ``processors``: which rules are applied.
    ``through``: the last stage of a check, 1 to 18. `lint` and `confirm` ignore it. Set it if a later version with more stages
    should not change a verdict.

    Nothing is refused here: the calls refuse settings out of range.

    >>> Settings(0xE0000, inputs=[(0xFEC00000, 48)], hotplug=HotPlug.APART).through
    18
    """

    rsdp: int
    default_inputs: int = 24
    inputs: Sequence[Tuple[int, int]] = ()
    hotplug: HotPlug = HotPlug.COUNTED
    processors: Processors = Processors.ENABLED
    through: int = 18

    def __post_init__(self) -> None:
        # What gives its pairs once, as a generator, would be used up by the first call.
        object.__setattr__(self, "inputs", tuple(self.inputs))
