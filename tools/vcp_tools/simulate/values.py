"""Values and their types, after IEC 61131-3, 6.4.2, and docs/TOOLS.md, 'lower'."""
from __future__ import annotations

from dataclasses import dataclass

RANGES = {
    "BOOL": (0, 1), "SINT": (-128, 127), "USINT": (0, 255), "BYTE": (0, 255), "INT": (-32768, 32767), "UINT": (0, 65535), "WORD": (0, 65535),
    "DINT": (-(2**31), 2**31 - 1), "UDINT": (0, 2**32 - 1), "DWORD": (0, 2**32 - 1), "LINT": (-(2**63), 2**63 - 1), "TIME": (-(2**31), 2**31 - 1),
}
"""The values of each type; TIME is counted in milliseconds."""
WIDTHS = {"BOOL": 0, "INT": 16, **dict.fromkeys(("SINT", "USINT", "BYTE", "UINT", "WORD", "DINT", "TIME"), 32), **dict.fromkeys(("UDINT", "DWORD", "LINT"), 64)}
"""In how many bits a value of each type is computed with; of BOOL none."""
BITS = {"BYTE": 8, "WORD": 16, "DWORD": 32}
"""How many bits a string of bits has."""


class Stop(Exception):
    """The run stops here: RANGE or DIVZERO."""

    def __init__(self, kind: str, at: int) -> None:
        super().__init__(kind)
        self.kind = kind
        self.at = at


@dataclass(frozen=True)
class Value:
    """A number with the width in which it is computed with, 0 of a truth value, and its number of bits where it is a string of these."""

    number: int
    width: int
    bits: int = 0

    @property
    def is_true(self) -> bool:
        """Whether a truth value is TRUE."""
        return self.number != 0


TRUE = Value(1, 0)
FALSE = Value(0, 0)


def truth(is_so: bool) -> Value:
    """A truth value."""
    return TRUE if is_so else FALSE


def literal(number: int) -> Value:
    """A number without a type: of the least width that holds it."""
    return Value(number, next((width for width in (16, 32) if -(1 << width - 1) <= number < 1 << width - 1), 64))


@dataclass(frozen=True)
class Kind:
    """A type of variables that hold one value: its range, its width, its bits."""

    low: int
    high: int
    width: int
    bits: int = 0

    @staticmethod
    def of(name: str) -> "Kind":
        """An elementary type."""
        return Kind(*RANGES[name], WIDTHS[name], BITS.get(name, 0))


class Variable:
    """A variable that holds one value."""

    def __init__(self, kind: Kind, number: int) -> None:
        self.kind = kind
        self.number = number

    @property
    def value(self) -> Value:
        """Its value."""
        return Value(self.number, self.kind.width, self.kind.bits)

    def set(self, value: Value, at: int) -> None:
        """Gives it a value; a value outside its type is a stop."""
        if not self.kind.low <= value.number <= self.kind.high:
            raise Stop("RANGE", at)
        self.number = value.number


def fitting(number: int, width: int, at: int, bits: int = 0) -> Value:
    """The result of an operation in a width; a result outside it is a stop."""
    if not -(1 << width - 1) <= number < 1 << width - 1:
        raise Stop("RANGE", at)
    return Value(number, width, bits)
