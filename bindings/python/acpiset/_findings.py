"""What is wrong with a set of tables."""

from __future__ import annotations

from dataclasses import dataclass, field
from enum import IntEnum
from typing import ClassVar, Optional, Tuple, Type, Union

from ._lists import SEVERITY_OF, STAGE_OF, TEXT_OF, Code, Rule


class Severity(IntEnum):
    """How serious a finding is, from what needs the least attention to what needs the most."""

    NOT_LOOKED_AT = 1  # advice: nothing is known to be wrong, but no rule looks at what is there
    LOOK_AT_IT = 2  # advice: unusual, but there may be such hardware
    LIKELY_WRONG = 3  # advice: almost always a mistake
    FAULT = 4  # a fault: a rule of the ACPI Specification does not hold


@dataclass(frozen=True, repr=False)
class Finding:
    """What is wrong: a `Fault`, or `Advice`.

    ``number`` is that of a `Code` or a `Rule`; one that this package does not know, as a later library may have, is kept. ``at``,
    ``other`` and ``point``, each 0 to 2^64 - 1, say where: mostly offsets in bytes from the start of a table; ``text`` says it of
    each finding. A number that is not used is 0. Two findings are equal if these four numbers are.

    The other fields follow from the number: ``name``, as the program prints it; ``stage``, 1 to 18 of a fault, None of advice and
    of unknown numbers; ``severity``, None of unknown advice; ``text``, three lines: what is wrong, what the three numbers are, and
    how to fix it.
    """

    number: int
    at: int = 0
    other: int = 0
    point: int = 0
    name: str = field(init=False, compare=False)
    stage: Optional[int] = field(init=False, compare=False)
    severity: Optional[Severity] = field(init=False, compare=False)
    text: str = field(init=False, compare=False)

    numbered: ClassVar[Type[Union[Code, Rule]]] = Code

    def __post_init__(self) -> None:
        try:
            known = self.numbered(self.number)
        except ValueError:
            name, text = f"Unknown({self.number})", "A finding of a later library, which this package does not know."
        else:
            self._set("number", known)
            name, text = known.name, TEXT_OF[known.value]
        self._set("name", name)
        self._set("stage", STAGE_OF.get(self.number))
        self._set("severity", self._severity())
        self._set("text", text)

    def _set(self, name: str, value: object) -> None:
        """Sets a field while the finding is made."""
        object.__setattr__(self, name, value)

    def _severity(self) -> Optional[Severity]:
        return Severity.FAULT

    def __str__(self) -> str:
        return f"{self.name} {self.at:#x} {self.other:#x} {self.point:#x}"

    def __repr__(self) -> str:
        return f"<{type(self).__name__} {self}>"


@dataclass(frozen=True, repr=False)
class Fault(Finding):
    """A fault: a rule of the ACPI Specification that the tables break.

    As a `str` it is the line that the program prints after ``no``.

    >>> fault = Fault(Code.Overlap, 0x30, 0x58)
    >>> str(fault)
    '10 Overlap 0x30 0x58 0x0'
    >>> fault.name, fault.stage, fault.severity.name
    ('Overlap', 10, 'FAULT')
    >>> print(fault.text.splitlines()[-1])
    Fix: make each range begin where the one before it ends, and list no memory twice.
    """

    def __str__(self) -> str:
        return f"{self.stage or '?'} {super().__str__()}"


@dataclass(frozen=True, repr=False)
class Advice(Finding):
    """A finding of advice: what is probably wrong, although it breaks none of the rules that a check tests.

    As a `str` it is the line that the program prints after ``advice``.

    >>> advice = Advice(Rule.SlitDiffers, 0x2D, 0x30)
    >>> str(advice)
    'SlitDiffers 0x2d 0x30 0x0'
    >>> advice.stage, advice.severity.name
    (None, 'LOOK_AT_IT')
    """

    numbered = Rule

    def _severity(self) -> Optional[Severity]:
        severity = SEVERITY_OF.get(self.number)
        return None if severity is None else Severity(severity)


@dataclass(frozen=True)
class Findings:
    """All that is wrong with a set of tables: the first fault of each code, and the first finding of each rule of advice, both by
    number.

    As a `str` it is the lines of ``acpiset lint``, without an LF at the end.

    >>> print(Findings((Fault(Code.NoFadt),), (Advice(Rule.ListedTwice, 1, 0, 0x2000),)))
    no 4 NoFadt 0x0 0x0 0x0
    advice ListedTwice 0x1 0x0 0x2000
    >>> print(Findings())
    yes
    """

    faults: Tuple[Fault, ...] = ()
    advice: Tuple[Advice, ...] = ()

    def __str__(self) -> str:
        verdict = [f"no {fault}" for fault in self.faults] or ["yes"]
        return "\n".join([*verdict, *(f"advice {advice}" for advice in self.advice)])
