"""Checks the static ACPI tables in an image of a machine's memory, by the rules of the ACPI Specification 6.5, section 5.2.

The checker is ``libacpiset``, whose verdicts are proved: docs/PROMISES.md of its repository says what that means. This package declares
its functions by `ctypes` and wraps them. The wrapper is tested, not proved.

An image is a list of pieces, each a pair of an address and the bytes from there on: what a virtual machine monitor or a firmware writes
into the guest's memory.

>>> import acpiset
>>> rsdp = b"RSD PTR \\x4bAAAAAA\\0\\0\\x10\\0\\0"
>>> rsdt = b"RSDT\\x24\\0\\0\\0\\x01\\x0aAAAAAAAAAAAAAA\\x01\\0\\0\\0AAAA\\x01\\0\\0\\0"
>>> fault = acpiset.check([(0xE0000, rsdp), (0x1000, rsdt)], acpiset.Settings(rsdp=0xE0000))
>>> print(fault)
4 NoFadt 0x0 0x0 0x0
>>> fault.number is acpiset.Code.NoFadt
True

`check`, `check_text`: the first fault, or None. `lint`: the first fault of each code, and advice. `confirm`: whether one fault is in the
image. `find`: where a BIOS put the RSDP. `show`: the contents of the tables as text. `rebuild`: the tables at another address. A call
without a verdict raises a `Refusal`; a fault of the tables is never one. Arguments of another type than the hints say raise `TypeError`
or `ValueError`.

Calls share no state, so any thread that has 100 KiB of stack can make one at any time. Python's global lock is released while the
library works.

The library is the file that the environment variable ``ACPISET_LIBRARY`` names, or that of the folder that it names; without it the
``libacpiset.so.1`` that the dynamic loader finds, or the library that `ctypes.util.find_library` finds. It is loaded at the first call.
"""

from __future__ import annotations

from ._calls import abi, check, check_text, confirm, find, lint, rebuild, show
from ._findings import Advice, Fault, Finding, Findings, Severity
from ._library import ABI
from ._lists import Code, Rule
from ._refusals import (
    BadCode,
    BadDefaultInputs,
    BadHotPlug,
    BadInputs,
    BadLine,
    BadNumber,
    BadProcessors,
    BadSize,
    BadStage,
    LibraryNotFound,
    NeedsLow,
    NoAddress,
    OtherVersion,
    OutOfMemory,
    PastEnd,
    PiecePastEnd,
    PiecesOverlap,
    Refusal,
    TableTooLong,
    TextOverlap,
    TextPastEnd,
    TextTooLong,
    Unaligned,
    UnknownRefusal,
)
from ._settings import HotPlug, Processors, Settings
from ._texts import image_text, pieces_of_text

__all__ = [
    "ABI",
    "Advice",
    "BadCode",
    "BadDefaultInputs",
    "BadHotPlug",
    "BadInputs",
    "BadLine",
    "BadNumber",
    "BadProcessors",
    "BadSize",
    "BadStage",
    "Code",
    "Fault",
    "Finding",
    "Findings",
    "HotPlug",
    "LibraryNotFound",
    "NeedsLow",
    "NoAddress",
    "OtherVersion",
    "OutOfMemory",
    "PastEnd",
    "PiecePastEnd",
    "PiecesOverlap",
    "Processors",
    "Refusal",
    "Rule",
    "Settings",
    "Severity",
    "TableTooLong",
    "TextOverlap",
    "TextPastEnd",
    "TextTooLong",
    "Unaligned",
    "UnknownRefusal",
    "abi",
    "check",
    "check_text",
    "confirm",
    "find",
    "image_text",
    "lint",
    "pieces_of_text",
    "rebuild",
    "show",
]
