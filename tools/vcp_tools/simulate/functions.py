"""Operators, standard functions and conversions, after IEC 61131-3, 6.6.2.5 and 7.3.2, with stops where a result is outside its type."""
from __future__ import annotations

import operator
from typing import Callable

from vcp_tools.read.wider_tree import NotTaken
from vcp_tools.simulate.values import BITS, FALSE, RANGES, TRUE, WIDTHS, Kind, Stop, Value, fitting, literal, truth

_COMPARED: dict[str, Callable[[int, int], bool]] = {
    "=": operator.eq, "<>": operator.ne, "<": operator.lt, ">": operator.gt, "<=": operator.le, ">=": operator.ge,
}
_LOGIC: dict[str, Callable[[int, int], int]] = {"AND": operator.and_, "OR": operator.or_, "XOR": operator.xor}
_FORMAL = {"LIMIT": ("MN", "IN", "MX"), "SEL": ("G", "IN0", "IN1"), "ABS": ("IN",)}


def read_literal(text: str, at: int) -> Value:
    """The value of a literal of a number or a truth value."""
    upper = text.upper().replace("_", "")
    if upper in ("TRUE", "FALSE", "BOOL#TRUE", "BOOL#FALSE"):
        return truth(upper.endswith("TRUE"))
    kind, _, run = upper.partition("#")
    if kind not in RANGES:
        kind, run = "", upper
    sign = -1 if run.startswith("-") else 1
    base, _, digits = run.lstrip("+-").rpartition("#")
    number = sign * int(digits, int(base or 10))
    if not kind:
        return literal(number)
    if not RANGES[kind][0] <= number <= RANGES[kind][1]:
        raise NotTaken(at, f"`{text}` is outside {kind}")
    return Value(number, WIDTHS[kind], BITS.get(kind, 0))


def binary(form: str, left: Value, right: Value, at: int) -> Value:
    """Two operands round an operator."""
    a, b, width = left.number, right.number, max(left.width, right.width)
    if form in _COMPARED:
        return truth(_COMPARED[form](a, b))
    if form in _LOGIC:
        return Value(_LOGIC[form](a, b), width, max(left.bits, right.bits))
    if form in ("/", "MOD"):
        if b == 0:
            raise Stop("DIVZERO", at)
        quotient = abs(a) // abs(b) * (1 if (a < 0) == (b < 0) else -1)
        return fitting(quotient if form == "/" else a - quotient * b, width, at)
    return fitting({"+": a + b, "-": a - b, "*": a * b}[form], width, at)


def negated(value: Value, form: str, at: int) -> Value:
    """A value behind a sign or NOT."""
    if form == "neg":
        return fitting(-value.number, value.width, at)
    if value.bits:
        return Value((1 << value.bits) - 1 - value.number, value.width, value.bits)
    if value.width:
        raise NotTaken(at, "NOT takes a truth value or a string of bits")
    return FALSE if value.is_true else TRUE


def called(name: str, values: list[Value], named: dict[str, Value], at: int) -> Value:
    """A call of a standard function."""
    for formal in _FORMAL.get(name, tuple(f"IN{it + 1}" for it in range(len(named)))):
        if formal in named:
            values = [*values, named.pop(formal)]
    numbers, width = [it.number for it in values], max((it.width for it in values), default=0)
    if named or len(values) < 1:
        raise NotTaken(at, f"`{name}` isn't called so")
    if name == "ABS" and len(values) == 1:
        return fitting(abs(numbers[0]), width, at)
    if name in ("MIN", "MAX") and len(values) > 1:
        return Value(min(numbers) if name == "MIN" else max(numbers), width)
    if name == "LIMIT" and len(values) == 3:
        return Value(min(max(numbers[1], numbers[0]), numbers[2]), width)
    if name == "SEL" and len(values) == 3:
        return Value(numbers[2] if numbers[0] else numbers[1], max(values[1].width, values[2].width), max(values[1].bits, values[2].bits))
    raise NotTaken(at, f"`{name}` is no function that is taken")


def converted(name: str, value: Value, time: Kind | None, at: int) -> Value:
    """A conversion: the same number in another type; one outside it is a stop."""
    target = name.rpartition("TO_")[2]
    if target == "BOOL":
        return truth(value.number != 0)
    if time is not None:
        low, high, width = time.low, time.high, time.width
    elif target in RANGES:
        (low, high), width = RANGES[target], WIDTHS[target]
    else:
        raise NotTaken(at, f"`{name}` is no conversion that is taken")
    if not low <= value.number <= high:
        raise Stop("RANGE", at)
    return Value(value.number, width, BITS.get(target, 0))
