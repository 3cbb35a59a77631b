"""Why there is no verdict."""

from __future__ import annotations

from typing import TYPE_CHECKING, Dict, Tuple, Type

if TYPE_CHECKING:
    from ._library import RawAnswer


class Refusal(Exception):
    """There is no verdict, and nothing is known about the tables. Each reason is a class of its own.

    >>> import acpiset
    >>> try:
    ...     acpiset.check([(2**64 - 1, b"two")], acpiset.Settings(0xE0000))
    ... except acpiset.Refusal as refusal:
    ...     print(type(refusal).__name__, refusal)
    PiecePastEnd pieces[0] passes the address 2^64 - 1
    """

    told = ""

    def __str__(self) -> str:
        return self.told


class LibraryNotFound(Refusal):
    """The shared library cannot be loaded; ``reason`` says why."""

    def __init__(self, reason: str) -> None:
        super().__init__(reason)
        self.reason = reason

    def __str__(self) -> str:
        return (
            f"libacpiset cannot be loaded: {self.reason}. Install it (`make install-library` in the repository of acpiset, then "
            "`ldconfig`), or set the environment variable ACPISET_LIBRARY to the path of libacpiset.so.1"
        )


class OtherVersion(Refusal):
    """The library has the version ``abi`` of its functions and structs, not `ABI`."""

    def __init__(self, abi: int) -> None:
        super().__init__(abi)
        self.abi = abi

    def __str__(self) -> str:
        return f"the loaded libacpiset has version {self.abi} of its interface: install the package and the library of one release"


class BadNumber(Refusal):
    """A number has no place in the C interface. An address, and each of the three numbers of a fault, is 0 to 2^64 - 1, and the
    address of an I/O APIC is 0 to 2^32 - 1. ``number`` is what was passed, and ``most`` the largest number that is allowed."""

    def __init__(self, what: str, number: int, most: int) -> None:
        super().__init__(what, number, most)
        self.what, self.number, self.most = what, number, most

    def __str__(self) -> str:
        return f"{self.what} is {self.number:#x}, outside 0 to {self.most:#x}"


class OutOfMemory(Refusal, MemoryError):
    """``malloc`` or ``realloc`` returned NULL, or Python has no memory for the findings. The call can be repeated."""

    told = "out of memory"


class BadSize(Refusal):
    """The library has settings of another size than this package."""

    told = "the loaded libacpiset has settings of another size: install the package and the library of one release"


class BadDefaultInputs(Refusal):
    """`Settings.default_inputs` is outside 1 to 256."""

    told = "settings.default_inputs is outside 1 to 256"


class BadHotPlug(Refusal):
    """`Settings.hotplug` is neither 0 nor 1."""

    told = "settings.hotplug is neither 0 nor 1"


class BadProcessors(Refusal):
    """`Settings.processors` is neither 0 nor 1."""

    told = "settings.processors is neither 0 nor 1"


class BadStage(Refusal):
    """`Settings.through` is outside 1 to 18."""

    told = "settings.through is outside 1 to 18"


class _Indexed(Refusal):
    """Something at the place ``index``, from 0 on, of a list that was passed."""

    def __init__(self, index: int) -> None:
        super().__init__(index)
        self.index = index


class BadInputs(_Indexed):
    """The count of ``inputs[index]`` is outside 1 to 256."""

    def __str__(self) -> str:
        return f"the count of settings.inputs[{self.index}] is outside 1 to 256"


class BadCode(Refusal):
    """The number of the fault is that of no code. It may be a finding of advice."""

    told = "the number of the fault is that of no code"


class PiecePastEnd(_Indexed):
    """``pieces[index]`` passes the address 2^64 - 1."""

    def __str__(self) -> str:
        return f"pieces[{self.index}] passes the address 2^64 - 1"


class PiecesOverlap(Refusal):
    """``pieces[index]`` and an earlier piece share addresses; ``address`` is the lowest of them."""

    def __init__(self, index: int, address: int) -> None:
        super().__init__(index, address)
        self.index, self.address = index, address

    def __str__(self) -> str:
        return f"pieces[{self.index}] and an earlier piece share addresses, the lowest of them {self.address:#x}"


class _OfLine(Refusal):
    """Something in the line ``line`` of the text. Lines count from 1."""

    def __init__(self, line: int) -> None:
        super().__init__(line)
        self.line = line


class BadLine(_OfLine):
    """Line ``line`` of the text, from 1 on, is neither an address, nor data, nor empty."""

    def __str__(self) -> str:
        return f"line {self.line} of the text is neither an address, nor data, nor empty"


class NoAddress(_OfLine):
    """Line ``line`` of the text, from 1 on, is data, and no address comes before it."""

    def __str__(self) -> str:
        return f"line {self.line} of the text is data, and no address comes before it"


class TextOverlap(Refusal):
    """The text gives the address ``address`` a second byte."""

    def __init__(self, address: int) -> None:
        super().__init__(address)
        self.address = address

    def __str__(self) -> str:
        return f"the text gives the address {self.address:#x} a second byte"


class TextPastEnd(_OfLine):
    """The data of line ``line`` of the text, from 1 on, passes the address 2^64 - 1."""

    def __str__(self) -> str:
        return f"the data of line {self.line} of the text passes the address 2^64 - 1"


class TextTooLong(Refusal):
    """The text has more than 67,108,864 bytes, or a line more than 65,536."""

    told = "the text has more than 67108864 bytes, or a line more than 65536"


class Unaligned(Refusal):
    """The address at which the set was to be rebuilt is not a multiple of 64."""

    told = "the base address is not a multiple of 64"


class TableTooLong(Refusal):
    """The XSDT of the rebuilt set would have more than 4,294,967,295 bytes."""

    told = "the XSDT would have more than 4294967295 bytes"


class PastEnd(Refusal):
    """A part of the rebuilt set would pass the address 2^64 - 1."""

    told = "a part of the set would pass the address 2^64 - 1"


class NeedsLow(Refusal):
    """The FADT has fewer than 140 bytes, and the FACS would be at 2^32 or above."""

    told = "the FADT has no field for the address of the FACS, which would be 2^32 or above"


class UnknownRefusal(Refusal):
    """The library is of a later version, and refuses for a reason that this package does not know: ``kind``, with two numbers."""

    def __init__(self, kind: int, at: int, other: int) -> None:
        super().__init__(kind, at, other)
        self.kind, self.at, self.other = kind, at, other

    def __str__(self) -> str:
        return f"libacpiset refuses for a reason that this package does not know: kind {self.kind} ({self.at:#x}, {self.other:#x})"


# The refusals of the library by their kinds, each with the fields of an answer that it is made of.
OF_KIND: Dict[int, Tuple[Type[Refusal], Tuple[str, ...]]] = {
    2: (OutOfMemory, ()),
    3: (BadSize, ()),
    4: (BadDefaultInputs, ()),
    5: (BadHotPlug, ()),
    6: (BadProcessors, ()),
    7: (BadStage, ()),
    8: (BadInputs, ("at",)),
    9: (BadCode, ()),
    10: (PiecePastEnd, ("at",)),
    11: (PiecesOverlap, ("at", "other")),
    12: (BadLine, ("at",)),
    13: (NoAddress, ("at",)),
    14: (TextOverlap, ("other",)),
    15: (TextPastEnd, ("at",)),
    16: (TextTooLong, ()),
    17: (Unaligned, ()),
    18: (TableTooLong, ()),
    19: (PastEnd, ()),
    20: (NeedsLow, ()),
}


def refusal_of(answer: RawAnswer) -> Refusal:
    """The refusal that an answer gives which is neither yes nor no."""
    if answer.kind not in OF_KIND:
        return UnknownRefusal(answer.kind, answer.at, answer.other)
    refusal, fields = OF_KIND[answer.kind]
    return refusal(*(getattr(answer, field) for field in fields))
