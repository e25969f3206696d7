"""The value of an expression of constants, by docs/LANGUAGE.md, 'Meaning'; None where a part of it changes, or where it stops."""
from __future__ import annotations

from vcp_tools.read.source import GREATEST, LEAST
from vcp_tools.read.syntax import ARGUMENTS, Expr, Types


def constant(types: Types, expr: Expr) -> int | None:
    """The value that an expression has in every cycle, where its parts say so."""
    plain = types.value(expr)
    if plain is not None or expr.form in ("literal", "name"):
        return plain
    parts = [constant(types, part) for part in expr.parts]
    if expr.form in ("AND", "OR") and (0 if expr.form == "AND" else 1) in parts:
        return 0 if expr.form == "AND" else 1
    known = [part for part in parts if part is not None]
    if len(known) < len(parts):
        return _by_type(types, expr, parts)
    value = _call(expr, known) if expr.form == "call" else _operator(expr.form, known)
    name = types.of(expr)
    return value if value is not None and name is not None and LEAST[name] <= value <= GREATEST[name] else None


def _call(expr: Expr, values: list[int]) -> int | None:
    """The value of a function."""
    name = expr.text.upper()
    if name not in ARGUMENTS or len(values) != ARGUMENTS[name]:
        return None
    if "_TO_" in name:
        return values[0]
    if name == "LIMIT":
        return min(max(values[1], values[0]), values[2])
    if name == "SEL":
        return values[2] if values[0] else values[1]
    return abs(values[0]) if name == "ABS" else min(values) if name == "MIN" else max(values)


def _operator(form: str, values: list[int]) -> int | None:
    """The value of an operator."""
    first, last = values[0], values[-1]
    if form == "neg":
        return -first
    if form == "NOT":
        return 1 - first
    if form in ("/", "MOD"):
        if last == 0:
            return None
        quotient = abs(first) // abs(last) * (1 if (first < 0) == (last < 0) else -1)
        return quotient if form == "/" else first - quotient * last
    return {
        "+": first + last, "-": first - last, "*": first * last, "=": int(first == last), "<>": int(first != last), "<": int(first < last),
        ">": int(first > last), "<=": int(first <= last), ">=": int(first >= last), "AND": first & last, "OR": first | last, "XOR": first ^ last,
    }[form]


def _by_type(types: Types, expr: Expr, parts: list[int | None]) -> int | None:
    """The value of a comparison of something that changes with a constant outside its type: it is the same for all values of the type."""
    if expr.form not in ("=", "<>", "<", ">", "<=", ">=") or (parts[0] is None) == (parts[1] is None):
        return None
    changing = 0 if parts[0] is None else 1
    name = types.of(expr.parts[changing])
    limit = parts[1 - changing]
    if name is None or limit is None:
        return None
    ends = [[value, limit] if changing == 0 else [limit, value] for value in (LEAST[name], GREATEST[name])]
    found = {_operator(expr.form, pair) for pair in ends}
    if expr.form in ("=", "<>") and LEAST[name] <= limit <= GREATEST[name]:
        return None
    return found.pop() if len(found) == 1 else None
