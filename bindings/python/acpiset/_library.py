"""The functions and structs of acpiset.h, and how the shared library is found. Only this module calls C.

A call passes C no callback. What it passes is made anew for it and kept until it returns, and each length is that of the bytes beside it.
Python's lock is released meanwhile, so other threads run; they cannot change what is passed, as it is immutable or a copy."""

from __future__ import annotations

import ctypes.util
import os
from ctypes import CDLL, POINTER, Structure, byref, c_char_p, c_size_t, c_uint32, c_uint64, sizeof
from functools import lru_cache
from operator import index
from typing import TYPE_CHECKING, Any, Dict, Iterable, Tuple

from ._findings import Finding
from ._refusals import BadNumber, LibraryNotFound, OtherVersion
from ._settings import Settings

if TYPE_CHECKING:
    from _typeshed import ReadableBuffer as ReadableBuffer
else:
    ReadableBuffer = Any  # collections.abc.Buffer from Python 3.12 on

Pieces = Iterable[Tuple[int, ReadableBuffer]]

# The version of the functions and structs that are declared here.
ABI = 1

# The file name of a library of this version, and the variable that names a file, or a folder with one of this name.
SONAME = f"libacpiset.so.{ABI}"
VARIABLE = "ACPISET_LIBRARY"

LAST_64_BITS = 2**64 - 1
LAST_32_BITS = 2**32 - 1


# ---- what the header declares


class RawPiece(Structure):
    _fields_ = [("address", c_uint64), ("bytes", c_char_p), ("length", c_size_t)]


class RawInputs(Structure):
    _fields_ = [("address", c_uint32), ("count", c_uint32)]


class RawSettings(Structure):
    _fields_ = [
        ("size", c_size_t),
        ("rsdp", c_uint64),
        ("default_inputs", c_uint32),
        ("hotplug", c_uint32),
        ("processors", c_uint32),
        ("through", c_uint32),
    ]


class RawFinding(Structure):
    _fields_ = [("number", c_uint32), ("at", c_uint64), ("other", c_uint64), ("point", c_uint64)]


class RawAnswer(Structure):
    _fields_ = [
        ("kind", c_uint32),
        ("stage", c_uint32),
        ("code", c_uint32),
        ("at", c_uint64),
        ("other", c_uint64),
        ("point", c_uint64),
    ]


_PIECES = (POINTER(RawPiece), c_size_t)
_INPUTS = (POINTER(RawInputs), c_size_t)
_SETTINGS = POINTER(RawSettings)

# The functions: the type of the result, and those of the parameters.
FUNCTIONS = {
    "acpiset_check": (RawAnswer, *_PIECES, *_INPUTS, _SETTINGS),
    "acpiset_check_text": (RawAnswer, c_char_p, c_size_t, *_INPUTS, _SETTINGS),
    "acpiset_confirm": (RawAnswer, *_PIECES, *_INPUTS, _SETTINGS, POINTER(RawFinding)),
    "acpiset_lint": (RawAnswer, *_PIECES, *_INPUTS, _SETTINGS, POINTER(RawFinding), c_size_t),
    "acpiset_find": (RawAnswer, *_PIECES),
    "acpiset_show": (RawAnswer, *_PIECES, *_INPUTS, _SETTINGS, c_char_p, c_size_t),
    "acpiset_rebuild": (RawAnswer, *_PIECES, *_INPUTS, _SETTINGS, c_uint64, c_char_p, c_size_t),
    "acpiset_stage": (c_uint32, c_uint32),
    "acpiset_severity": (c_uint32, c_uint32),
    "acpiset_name": (c_size_t, c_uint32, c_char_p, c_size_t),
    "acpiset_explain": (c_size_t, c_uint32, c_char_p, c_size_t),
    "acpiset_abi": (c_uint32,),
}


# ---- from Python's values to those of C


def within(what: str, number: int, most: int) -> int:
    """The number, if it is 0 to `most`. ctypes would drop the higher bits of a larger one."""
    number = index(number)
    if not 0 <= number <= most:
        raise BadNumber(what, number, most)
    return number


def as_32_bits(number: int) -> int:
    """The number, or 2^32 - 1 instead of one that does not fit into 32 bits: the library refuses that as each other one out of range."""
    number = index(number)
    return number if 0 <= number <= LAST_32_BITS else LAST_32_BITS


def bytes_of(data: ReadableBuffer) -> bytes:
    """The bytes of a buffer: a copy, unless it is `bytes`."""
    return data if type(data) is bytes else memoryview(data).tobytes()


class PieceArray:
    """Pieces as C has them, with the bytes that they point to."""

    def __init__(self, pieces: Pieces) -> None:
        self.kept = [
            (within(f"the address of pieces[{place}]", address, LAST_64_BITS), bytes_of(data))
            for place, (address, data) in enumerate(pieces)
        ]
        self.array = (RawPiece * len(self.kept))(*(RawPiece(address, data, len(data)) for address, data in self.kept))

    def arguments(self) -> Tuple[Any, int]:
        return self.array, len(self.array)


class SettingsOfCall:
    """Settings as C has them."""

    def __init__(self, settings: Settings) -> None:
        rows = [
            RawInputs(within(f"the address of settings.inputs[{place}]", address, LAST_32_BITS), as_32_bits(count))
            for place, (address, count) in enumerate(settings.inputs)
        ]
        self.inputs = (RawInputs * len(rows))(*rows)
        self.settings = RawSettings(
            size=sizeof(RawSettings),
            rsdp=within("settings.rsdp", settings.rsdp, LAST_64_BITS),
            default_inputs=as_32_bits(settings.default_inputs),
            hotplug=as_32_bits(settings.hotplug),
            processors=as_32_bits(settings.processors),
            through=as_32_bits(settings.through),
        )

    def arguments(self) -> Tuple[Any, int, Any]:
        return self.inputs, len(self.inputs), byref(self.settings)


def raw_finding(finding: Finding) -> RawFinding:
    numbers = [within(f"finding.{name}", getattr(finding, name), LAST_64_BITS) for name in ("at", "other", "point")]
    return RawFinding(as_32_bits(finding.number), *numbers)


# ---- the library


class Library:
    """A loaded library of the version that is declared here."""

    def __init__(self, handle: CDLL) -> None:
        self.functions: Dict[str, Any] = {name: declared(handle, name) for name in FUNCTIONS}

    def check(self, pieces: PieceArray, settings: SettingsOfCall) -> RawAnswer:
        return self._answer("acpiset_check", *pieces.arguments(), *settings.arguments())

    def check_text(self, text: bytes, settings: SettingsOfCall) -> RawAnswer:
        return self._answer("acpiset_check_text", text, len(text), *settings.arguments())

    def confirm(self, pieces: PieceArray, settings: SettingsOfCall, finding: RawFinding) -> RawAnswer:
        return self._answer("acpiset_confirm", *pieces.arguments(), *settings.arguments(), byref(finding))

    def lint(self, pieces: PieceArray, settings: SettingsOfCall, found: Any) -> RawAnswer:
        return self._answer("acpiset_lint", *pieces.arguments(), *settings.arguments(), found, len(found))

    def find(self, pieces: PieceArray) -> RawAnswer:
        return self._answer("acpiset_find", *pieces.arguments())

    def show(self, pieces: PieceArray, settings: SettingsOfCall, room: Any) -> RawAnswer:
        return self._answer("acpiset_show", *pieces.arguments(), *settings.arguments(), room, len(room))

    def rebuild(self, pieces: PieceArray, settings: SettingsOfCall, base: int, room: Any) -> RawAnswer:
        return self._answer("acpiset_rebuild", *pieces.arguments(), *settings.arguments(), base, room, len(room))

    def abi(self) -> int:
        return int(self.functions["acpiset_abi"]())

    def _answer(self, name: str, *arguments: Any) -> RawAnswer:
        answer: RawAnswer = self.functions[name](*arguments)
        return answer


def declared(handle: CDLL, name: str) -> Any:
    """A function of a library, with its types."""
    try:
        function = getattr(handle, name)
    except AttributeError:
        raise LibraryNotFound(f"{handle._name} has no function {name}") from None
    function.restype, *function.argtypes = FUNCTIONS[name]
    return function


def opened() -> CDLL:
    """The shared library that the variable names, else the one that the system has."""
    named = os.environ.get(VARIABLE)
    if named:
        path = os.path.abspath(named)
        return loaded(os.path.join(path, SONAME) if os.path.isdir(path) else path)
    try:
        return loaded(SONAME)
    except LibraryNotFound:
        # one that compilers find, or of another version
        found = ctypes.util.find_library("acpiset")
        if found is None:
            raise
        return loaded(found)


def loaded(path: str) -> CDLL:
    try:
        return CDLL(path)
    except OSError as error:
        raise LibraryNotFound(str(error)) from None


@lru_cache(maxsize=None)
def library() -> Library:
    """The library, which is looked for at the first call; a library that was not found is looked for again at the next."""
    handle = opened()
    abi = int(declared(handle, "acpiset_abi")())
    if abi != ABI:
        # no other function may be called
        raise OtherVersion(abi)
    return Library(handle)
