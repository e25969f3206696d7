"""Expressions of the profile as they are written, with what is known of their values: types, ranges, and whether they may stop.

Numbers that the standard has beside INT, DINT and LINT are computed with in the next of these that holds them.
"""
from __future__ import annotations

from dataclasses import dataclass, replace

from vcp_tools.read.source import GREATEST, LEAST, TYPES, type_of_number
from vcp_tools.read.wider_tree import NotTaken

NUMBERS = {
    "SINT": (-(2**7), 2**7 - 1), "USINT": (0, 2**8 - 1), "BYTE": (0, 2**8 - 1), "INT": (-(2**15), 2**15 - 1), "UINT": (0, 2**16 - 1),
    "WORD": (0, 2**16 - 1), "DINT": (-(2**31), 2**31 - 1), "UDINT": (0, 2**32 - 1), "DWORD": (0, 2**32 - 1), "LINT": (-(2**63), 2**63 - 1),
}
"""The types of numbers, narrow ones first, with their least and greatest values."""
STORED = {"BOOL": "BOOL", "INT": "INT", **dict.fromkeys(("LINT", "UDINT", "DWORD"), "LINT"),
          **dict.fromkeys(("SINT", "USINT", "BYTE", "UINT", "WORD", "DINT"), "DINT")}
"""The type of the profile in which values of each type are held."""
STRINGS_OF_BITS = {"BYTE": 8, "WORD": 16, "DWORD": 32}
"""How many bits a string of bits has."""
PRIMARY, SIGN, PRODUCT, SUM, ORDER, EQUAL, AND, XOR, OR = 9, 8, 7, 6, 5, 4, 3, 2, 1
_LEVELS = {"*": PRODUCT, "/": PRODUCT, "MOD": PRODUCT, "+": SUM, "-": SUM, "<": ORDER, ">": ORDER, "<=": ORDER, ">=": ORDER, "=": EQUAL, "<>": EQUAL,
           "AND": AND, "XOR": XOR, "OR": OR}


@dataclass(frozen=True)
class Code:
    """An expression of the profile: its text, how strongly it binds, and the type in which it is computed; `base` is its type in the original, empty of a
    literal without one; `low` and `high` bound its value; `is_fixed` says that it is made of constants alone, `is_name` that it is a variable's name."""

    text: str
    level: int
    stored: str
    base: str
    low: int
    high: int
    stops: bool = False
    is_fixed: bool = False
    is_name: bool = False

    @property
    def family(self) -> str:
        """What it may be compared with: `BOOL`, `TIME` or `number`."""
        return self.base if self.base in ("BOOL", "TIME") else "number"

    @property
    def number(self) -> int | None:
        """Its value where that is known."""
        return self.low if self.is_fixed and self.low == self.high else None

    @property
    def is_simple(self) -> bool:
        """Whether it may be written twice: a name, or a constant."""
        return self.is_name or self.is_fixed and self.level >= SIGN

    def within(self, level: int) -> str:
        """The text where something that binds so strongly is wanted."""
        return self.text if self.level >= level else f"({self.text})"


def name_code(text: str, stored: str, base: str, low: int, high: int) -> Code:
    """A variable."""
    return Code(text, PRIMARY, stored, base, low, high, is_name=True)


def number_code(number: int, base: str = "", stored: str = "") -> Code:
    """A number, of a type where one is given."""
    stored = stored or (STORED[base] if base else type_of_number(number))
    text = str(number)
    if number == LEAST["LINT"]:
        return Code(f"-{GREATEST['LINT']} - 1", SUM, "LINT", base, number, number, is_fixed=True)
    if base and type_of_number(number) != stored:
        text = f"{stored}#{number}"
    return Code(text, SIGN if number < 0 and "#" not in text else PRIMARY, stored, base, number, number, is_fixed=True)


def truth_code(is_so: bool) -> Code:
    """TRUE or FALSE."""
    return Code("TRUE" if is_so else "FALSE", PRIMARY, "BOOL", "BOOL", int(is_so), int(is_so), is_fixed=True)


def wider(*stored: str) -> str:
    """The widest of some types of the profile."""
    return max(stored, key=TYPES.index)


def converts(base: str, low: int, high: int) -> bool:
    """Whether all values of a type lie in a range."""
    return base in NUMBERS and low <= NUMBERS[base][0] and NUMBERS[base][1] <= high


def joined(left: Code, right: Code) -> str:
    """The type in the original of two operands together: the least one that has the values of both; a literal is of the other's type where it fits."""
    if not left.base and not right.base:
        return ""
    ranges = [NUMBERS[it.base] if it.base else (it.low, it.high) for it in (left, right)]
    low, high = min(it[0] for it in ranges), max(it[1] for it in ranges)
    for one in (left.base, right.base):
        if one and NUMBERS[one][0] <= low and high <= NUMBERS[one][1]:
            return one
    return next((name for name, (least, most) in NUMBERS.items() if name not in STRINGS_OF_BITS and least <= low and high <= most), "LINT")


def arithmetic(operator: str, left: Code, right: Code, base: str) -> Code:
    """A sum, difference, product, quotient or remainder of numbers or times; it may stop where its bounds aren't in its type, or the divisor may be 0."""
    stored = wider(left.stored, right.stored)
    low, high = _bounds(operator, left, right)
    may_stop = low < LEAST[stored] or high > GREATEST[stored] or operator in ("/", "MOD") and right.low <= 0 <= right.high
    level = _LEVELS[operator]
    text = f"{left.within(level)} {operator} {right.within(level + 1)}"
    return Code(text, level, stored, base, max(low, LEAST[stored]), min(high, GREATEST[stored]), left.stops or right.stops or may_stop,
                left.is_fixed and right.is_fixed)


def _bounds(operator: str, left: Code, right: Code) -> tuple[int, int]:
    """Bounds of a result, in whatever type."""
    if operator == "+":
        return left.low + right.low, left.high + right.high
    if operator == "-":
        return left.low - right.high, left.high - right.low
    if operator == "*":
        ends = [one * other for one in (left.low, left.high) for other in (right.low, right.high)]
        return min(ends), max(ends)
    if left.low == left.high and right.low == right.high and right.low:
        quotient = abs(left.low) // abs(right.low) * (1 if (left.low < 0) == (right.low < 0) else -1)
        result = quotient if operator == "/" else left.low - quotient * right.low
        return result, result
    most = max(abs(left.low), abs(left.high))
    if operator == "MOD":
        most = min(most, max(abs(right.low), abs(right.high), 1) - 1)
        return (0 if left.low >= 0 else -most), (0 if left.high <= 0 else most)
    is_positive = left.low >= 0 and right.low > 0
    return (0 if is_positive else -most), most


def compared(operator: str, left: Code, right: Code) -> Code:
    """A comparison."""
    level = _LEVELS[operator]
    return Code(f"{left.within(level)} {operator} {right.within(level + 1)}", level, "BOOL", "BOOL", 0, 1, left.stops or right.stops)


def logic(operator: str, left: Code, right: Code) -> Code:
    """AND, OR or XOR of truth values."""
    level = _LEVELS[operator]
    return Code(f"{left.within(level)} {operator} {right.within(level + 1)}", level, "BOOL", "BOOL", 0, 1, left.stops or right.stops)


def negation(inner: Code) -> Code:
    """NOT of a truth value."""
    if inner.number is not None:
        return truth_code(not inner.number)
    return Code(f"NOT {inner.within(SIGN)}", SIGN, "BOOL", "BOOL", 0, 1, inner.stops)


def minus(inner: Code) -> Code:
    """A sign before a number that isn't a literal."""
    may_stop = -inner.low > GREATEST[inner.stored]
    return Code(f"-{inner.within(SIGN)}", SIGN, inner.stored, inner.base, -inner.high, min(-inner.low, GREATEST[inner.stored]), inner.stops or may_stop,
                inner.is_fixed)


def function(name: str, arguments: list[Code], low: int, high: int, base: str, may_stop: bool = False) -> Code:
    """A call of a function of the profile, which gives the widest type of its numbers."""
    numbers = [it.stored for it in arguments if name != "SEL" or it is not arguments[0]]
    text = f"{name}({', '.join(it.text for it in arguments)})"
    return Code(text, PRIMARY, wider(*numbers), base, low, high, may_stop or any(it.stops for it in arguments), all(it.is_fixed for it in arguments))


def conversion(name: str, argument: Code, stored: str, base: str) -> Code:
    """A conversion of the profile; one that narrows may stop."""
    low, high = max(argument.low, LEAST[stored]), min(argument.high, GREATEST[stored])
    stops = argument.stops or (low, high) != (argument.low, argument.high)
    return Code(f"{name}({argument.text})", PRIMARY, stored, base, min(low, high), max(low, high), stops, argument.is_fixed)


def in_type(code: Code, stored: str) -> Code:
    """The value in another type of the profile, with a conversion where it isn't of that type; one that narrows may stop."""
    if code.stored == stored:
        return code
    if code.stored == "BOOL":
        return in_type(conversion("BOOL_TO_INT", code, "INT", "INT"), stored)
    return conversion(f"{code.stored}_TO_{stored}", code, stored, code.base)


def with_base(code: Code, base: str) -> Code:
    """The same value as one of another type of the original."""
    return replace(code, base=base)


def masked(operator: str, code: Code, mask: int, bits: int, base: str) -> Code:
    """AND, OR or XOR of a string of bits, which is a name, with a constant mask, by quotients and remainders."""
    both = _kept(code, mask, bits)
    if operator == "AND":
        return with_base(both, base)
    factor = both if operator == "OR" else arithmetic("*", number_code(2), both, base)
    found = arithmetic("+", arithmetic("-", code, factor, base), number_code(mask), base)
    return replace(found, base=base, low=0, high=(1 << bits) - 1, stops=code.stops)


def _kept(code: Code, mask: int, bits: int) -> Code:
    """The bits of a mask: for each run of ones in it a part of the number."""
    parts: list[Code] = []
    at = 0
    while mask >> at:
        if not mask >> at & 1:
            at += 1
            continue
        count = 1
        while mask >> at + count & 1:
            count += 1
        part = code if at == 0 else arithmetic("/", code, number_code(1 << at), "")
        if at + count < bits:
            part = arithmetic("MOD", part, number_code(1 << count), "")
        parts.append(part if at == 0 else arithmetic("*", part, number_code(1 << at), ""))
        at += count
    if not parts:
        return number_code(0, "DINT")
    found = parts[0]
    for part in parts[1:]:
        found = arithmetic("+", found, part, "")
    return replace(found, low=0, high=mask, stops=code.stops)


def needs_one_family(left: Code, right: Code, at: int) -> None:
    """Refuses two operands that aren't of one kind."""
    if left.family != right.family:
        raise NotTaken(at, f"{told_type(left)} and {told_type(right)} don't go together")


def told_type(code: Code) -> str:
    """The type of an expression in words."""
    return code.base or ("a number" if code.stored != "BOOL" else "BOOL")
