"""The calls of the library."""

from __future__ import annotations

from ctypes import c_char
from typing import Any, Callable, Optional, Union

from ._findings import Advice, Fault, Findings
from ._library import (
    LAST_64_BITS,
    PieceArray,
    Pieces,
    RawAnswer,
    RawFinding,
    ReadableBuffer,
    SettingsOfCall,
    bytes_of,
    library,
    raw_finding,
    within,
)
from ._lists import Code, Rule
from ._refusals import OutOfMemory, refusal_of
from ._settings import Settings

# The most findings that a library with the codes and rules of this package reports.
MOST_FINDINGS = len(Code) + len(Rule)


def check(pieces: Pieces, settings: Settings) -> Optional[Fault]:
    """The first fault of the tables of the image that the pieces make up, or None.

    A piece is a pair of a physical address, 0 to 2^64 - 1, and bytes, from that address on: any buffer, such as `bytes`,
    `bytearray`, `memoryview` or `mmap`. All but `bytes` are copied. Pieces may come in any order and touch; no two may share
    an address. A piece without bytes may have any address. The fault is one of the first stage that does not hold; it does not depend
    on how the image is split into pieces.

    Refusals, the first of them that applies: `BadNumber` for an address that does not fit; `BadDefaultInputs`, `BadHotPlug`,
    `BadProcessors`, `BadInputs`, `BadStage` for the settings; `PiecePastEnd`, `PiecesOverlap` for the first such piece;
    `OutOfMemory`. Each call also raises `LibraryNotFound` or `OtherVersion` if there is no library of this version.

    >>> rsdp = b"RSD PTR \\x4bAAAAAA\\0\\0\\x10\\0\\0"
    >>> rsdt = b"RSDT\\x24\\0\\0\\0\\x01\\x0aAAAAAAAAAAAAAA\\x01\\0\\0\\0AAAA\\x01\\0\\0\\0"
    >>> image = [(0xE0000, rsdp), (0x1000, rsdt)]
    >>> check(image, Settings(0xE0000))
    <Fault 4 NoFadt 0x0 0x0 0x0>
    >>> check(image, Settings(0xE0000, through=3)) is None
    True
    """
    passed, chosen = PieceArray(pieces), SettingsOfCall(settings)
    return _verdict(library().check(passed, chosen))


def check_text(text: Union[str, ReadableBuffer], settings: Settings) -> Optional[Fault]:
    """The same for an image that is passed as image text, the input of the program: lines of ``@`` and an address, and of pairs of
    hex digits. At most 67,108,864 bytes, and 65,536 in a line.

    Refusals, the first of them that applies: `BadNumber` and those of the settings, as for `check`; then for the first line with one
    of them `TextTooLong`, `BadLine`, `NoAddress`, `TextPastEnd`, `TextOverlap`; `OutOfMemory`.

    >>> check_text("@e0000\\n52 53 44 20\\n", Settings(0xE0000))
    <Fault 1 RsdpOut 0xe0000 0x0 0x0>
    """
    passed, chosen = text_bytes(text), SettingsOfCall(settings)
    return _verdict(library().check_text(passed, chosen))


def confirm(pieces: Pieces, settings: Settings, fault: Fault) -> bool:
    """Whether the image has this fault. It need not be the first one, and no stage has to hold.

    The fault is judged independently of `check` and `lint`, which share no code with it that reads or judges a table.

    Refusals: those of `check`, with `BadCode` in place of `BadStage`; `BadNumber` also for a number of the fault that is outside
    0 to 2^64 - 1.

    >>> confirm([], Settings(0xE0000), Fault(Code.RsdpOut, 0xE0000))
    True
    """
    passed, chosen, asked = PieceArray(pieces), SettingsOfCall(settings), raw_finding(fault)
    return _is_yes(library().confirm(passed, chosen, asked))


def lint(pieces: Pieces, settings: Settings) -> Findings:
    """All that is wrong: the first fault of each code, whichever earlier stage fails, and the first finding of each rule of advice.

    There is no fault exactly if `check` through all stages finds none.

    Refusals: those of `check`, without `BadStage`.

    >>> print(lint([(0xE0000, b"RSD PTR.\\x4bAAAAAA\\0\\0\\x10\\0\\0")], Settings(0xE0000)))
    no 1 RsdpSignature 0xe0000 0x0 0x0
    no 1 RsdpSum 0xe0000 0x0 0x0
    no 2 RootHeaderOut 0x1000 0x0 0x0
    """
    passed, chosen = PieceArray(pieces), SettingsOfCall(settings)
    loaded, found = library(), _room(MOST_FINDINGS)
    answer = loaded.lint(passed, chosen, found)
    _is_yes(answer)
    if answer.at + answer.other > len(found):
        # a later library, with more codes and rules
        found = _room(answer.at + answer.other)
        answer = loaded.lint(passed, chosen, found)
        _is_yes(answer)
    end = min(answer.at + answer.other, len(found))
    faults = tuple(Fault(*_numbers(it)) for it in found[: answer.at])
    return Findings(faults, tuple(Advice(*_numbers(it)) for it in found[answer.at : end]))


def find(pieces: Pieces) -> Optional[int]:
    """The address of the RSDP, if a BIOS put it where ACPI 6.5, 5.2.5.1 says, or None: the lowest multiple of 16 from 0xe0000 to
    0xffff0 with its signature and a right checksum. UEFI firmware puts it elsewhere.

    Refusals: `BadNumber`; `PiecePastEnd`, `PiecesOverlap` for the first such piece; `OutOfMemory`.

    >>> hex(find([(0xF0010, b"RSD PTR \\x4bAAAAAA\\0\\0\\x10\\0\\0")]))
    '0xf0010'
    """
    answer = library().find(PieceArray(pieces))
    return int(answer.at) if _is_yes(answer) else None


def show(pieces: Pieces, settings: Settings) -> Union[str, Fault]:
    """The contents of the tables as text: the lines that the program's command ``show`` prints. Or the first fault, if the RSDP, the root
    table or a listed table has one (stages 1 to 3); rules of later stages need not hold.

    Refusals: those of `check`, without `BadStage`.

    >>> rsdp = b"RSD PTR \\x4bAAAAAA\\0\\0\\x10\\0\\0"
    >>> rsdt = b"RSDT\\x24\\0\\0\\0\\x01\\x0aAAAAAAAAAAAAAA\\x01\\0\\0\\0AAAA\\x01\\0\\0\\0"
    >>> print(show([(0xE0000, rsdp), (0x1000, rsdt)], Settings(0xE0000)), end="")
    rsdp 0xe0000 revision 0
    root 0x1000 RSDT length 36 slots 0
    """
    passed, chosen, loaded = PieceArray(pieces), SettingsOfCall(settings), library()
    made = _made(lambda room: loaded.show(passed, chosen, room))
    return made if isinstance(made, Fault) else made.decode("utf-8", "replace")


def rebuild(pieces: Pieces, settings: Settings, base: int) -> Union[bytes, Fault]:
    """The tables at another address: the bytes of memory from `base` on, where the new RSDP is, followed by the XSDT, the FACS if there is
    one, and the other tables, each at a multiple of 64 with zeros before it. All addresses in the tables are those of the new place. Or
    the first fault, if the tables have one in any stage.

    Refusals: those of `check`, without `BadStage`; `BadNumber` also for the address; `Unaligned` if it is not a multiple of 64; for
    tables without a fault `TableTooLong`, `PastEnd`, `NeedsLow`, if they cannot be placed there.

    >>> rebuild([], Settings(0xE0000), 0x10000)
    <Fault 1 RsdpOut 0xe0000 0x0 0x0>
    """
    passed, chosen, place = PieceArray(pieces), SettingsOfCall(settings), within("the base address", base, LAST_64_BITS)
    loaded = library()
    return _made(lambda room: loaded.rebuild(passed, chosen, place, room))


def abi() -> int:
    """The version of the functions and structs of the library, which is `ABI`: another one raises `OtherVersion`, and no library
    `LibraryNotFound`."""
    return library().abi()


def text_bytes(text: Union[str, ReadableBuffer]) -> bytes:
    """The bytes of a text. Bytes of a file that were no UTF-8 are those of the file again."""
    return text.encode("utf-8", "surrogateescape") if isinstance(text, str) else bytes_of(text)


def _is_yes(answer: RawAnswer) -> bool:
    """Whether an answer is yes and not no."""
    if answer.kind > 1:
        raise refusal_of(answer)
    return bool(answer.kind == 0)


def _verdict(answer: RawAnswer) -> Optional[Fault]:
    return None if _is_yes(answer) else Fault(answer.code, answer.at, answer.other, answer.point)


def _made(call: Callable[[Any], RawAnswer]) -> Union[bytes, Fault]:
    """All bytes that a call writes, or the fault that it answers. It is first asked how many there are."""
    answer = call(_bytes_room(0))
    if not _is_yes(answer):
        return Fault(answer.code, answer.at, answer.other, answer.point)
    room = _bytes_room(answer.at)
    _is_yes(call(room))
    return bytes(room.raw)


def _numbers(found: RawFinding) -> Any:
    return found.number, found.at, found.other, found.point


def _room(count: int) -> Any:
    """Room for this many findings."""
    return _array_of(RawFinding, count)


def _bytes_room(count: int) -> Any:
    """Room for this many bytes."""
    return _array_of(c_char, count)


def _array_of(kind: Any, count: int) -> Any:
    try:
        return (kind * count)()
    except (MemoryError, OverflowError):
        raise OutOfMemory() from None
