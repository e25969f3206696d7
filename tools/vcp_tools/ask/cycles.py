"""One cycle of a program, and a row of cycles, in terms of z3.

A number is a bit vector of as many bits as its proved range needs; each result is computed in so many bits that none is lost. Of each operation that its
proved range is kept to is taken as known.
"""
from __future__ import annotations

from dataclasses import dataclass
from functools import cached_property, lru_cache
from typing import Any, Mapping, Sequence

from vcp_tools.ask.operations import Graph
from vcp_tools.needs import need_module
from vcp_tools.read.image import Operation
from vcp_tools.read.source import GREATEST, LEAST

Interval = tuple[int, int]
Cause = tuple[int, str]
"""An operation, and RANGE or DIVZERO."""


@lru_cache(maxsize=None)
def solver_module() -> Any:
    """The module `z3`; a refusal that says how it is installed where it is missing."""
    return need_module("z3")


def bits_of(interval: Interval) -> int:
    """The least number of bits that has all values between two ends, in two's complement."""
    return max((it if it >= 0 else ~it).bit_length() for it in interval) + 1


def fitted(term: Any, bits: int) -> Any:
    """A number in this many bits, of which it needs no more."""
    z3 = solver_module()
    more = bits - term.size()
    return z3.SignExt(more, term) if more > 0 else z3.Extract(bits - 1, 0, term) if more < 0 else term


def _same(left: Any, right: Any) -> Any:
    """Whether two values of one kind are equal."""
    if solver_module().is_bool(left):
        return left == right
    bits = max(left.size(), right.size())
    return fitted(left, bits) == fitted(right, bits)


def value_term(value: int, like: Any) -> Any:
    """A value as a term of the same kind as another; a number has at least the bits that it needs."""
    z3 = solver_module()
    return z3.BoolVal(bool(value)) if z3.is_bool(like) else z3.BitVecVal(value, max(like.size(), bits_of((value, value))))


def equals(term: Any, value: int) -> Any:
    """Whether a term has a value."""
    return _same(term, value_term(value, term))


def between(term: Any, least: int, greatest: int) -> Any:
    """Whether a term lies between two ends."""
    z3 = solver_module()
    if z3.is_bool(term):
        return z3.BoolVal(True) if (least, greatest) == (0, 1) else equals(term, least)
    bits = max(term.size(), bits_of((least, greatest)))
    wide = fitted(term, bits)
    return z3.And(z3.BitVecVal(least, bits) <= wide, wide <= z3.BitVecVal(greatest, bits))


@dataclass(frozen=True)
class Instant:
    """A cycle: its inputs, the kept values with which it begins, its outputs, whether it is released, whether it stops in a way that is asked for, and the
    kept values with which the next cycle begins, if it is released."""

    inputs: list[Any]
    kept: list[Any]
    outputs: list[Any]
    released: Any
    stops: Mapping[Cause, Any]
    behind: list[Any]

    @property
    def terms(self) -> list[Any]:
        """All of them."""
        return [*self.inputs, *self.kept, *self.outputs, self.released, *self.stops.values(), *self.behind]


class Relation:
    """What one cycle of a program does: a formula over the terms of an instant and the kept values of the next one."""

    def __init__(self, graph: Graph, causes: Sequence[Cause] = ()) -> None:
        self.graph = graph
        self._values: list[Any] = []
        self._intervals: list[Interval] = []
        self._fine: list[Any] = []
        self._stops: dict[Cause, Any] = {}
        self._may_stop = {(it.operation, it.cause) for it in graph.may_stop}
        self._wanted = sorted(self._may_stop & set(causes))
        self._checks: list[tuple[Cause, Any]] = []
        self.present = self._instant("", "'")
        for operation in graph.operations:
            self._add(operation)
        self.formula = self._formula()

    def _constant(self, name: str, operation: int) -> Any:
        """A constant for the value of an operation, of its type and range."""
        z3 = solver_module()
        if self.graph.operations[operation].type == "BOOL":
            return z3.Bool(name)
        return z3.BitVec(name, bits_of(self.graph.ranges[operation] or (0, 0)))

    def _kept(self, mark: str) -> list[Any]:
        return [self._constant(f"kept{at}{mark}", cell.load) for at, cell in enumerate(self.graph.cells)]

    def _instant(self, mark: str, behind: str) -> Instant:
        """The terms of an instant, whose names end with a mark, those of the next one with another."""
        z3 = solver_module()
        inputs = [self._constant(f"input{at}{mark}", slot.operation) for at, slot in enumerate(self.graph.inputs)]
        outputs = [self._constant(f"output{at}{mark}", slot.operation) for at, slot in enumerate(self.graph.outputs)]
        stops = {cause: z3.Bool(f"stop{cause[0]}{cause[1]}{mark}") for cause in self._wanted}
        return Instant(inputs, self._kept(mark), outputs, z3.Bool(f"released{mark}"), stops, self._kept(behind))

    def at(self, cycle: int) -> tuple[Instant, Any]:
        """The terms of a cycle, and the formula that ties them to each other."""
        instant = self._instant(f"@{cycle}", f"@{cycle + 1}")
        return instant, solver_module().substitute(self.formula, *zip(self.present.terms, instant.terms))

    def carried(self, inputs: Sequence[int], kept: Sequence[int]) -> tuple[list[int], Cause | None]:
        """The values of the operations in a cycle of given inputs and kept values, up to one that stops, and how it stops."""
        z3 = solver_module()
        terms = [*self.present.inputs, *self.present.kept]
        given = [z3.BoolVal(bool(value)) if z3.is_bool(term) else z3.BitVecVal(value, term.size()) for term, value in zip(terms, [*inputs, *kept])]
        told = [int(z3.is_true(it)) if z3.is_bool(it) else int(it.as_signed_long())
                for it in z3.simplify(z3.substitute(self._all, *zip(terms, given))).children()]
        stop = next((cause for (cause, _), comes in zip(self._checks, told[len(self._values):]) if comes), None)
        return told[: len(self._values) if stop is None else stop[0]], stop

    @cached_property
    def _all(self) -> Any:
        """The values of all operations and the conditions of all stops as one term."""
        z3 = solver_module()
        parts = [*self._values, *(condition for _, condition in self._checks)]
        return z3.Function("all", *(it.sort() for it in parts), z3.BoolSort())(*parts)

    def _formula(self) -> Any:
        """All values of the operations, tied to the terms of the present and the next instant."""
        z3 = solver_module()
        ties = [_same(term, self._values[slot.operation]) for term, slot in zip(self.present.outputs, self.graph.outputs)]
        ends = [_same(term, self._values[cell.store]) for term, cell in zip(self.present.behind, self.graph.cells)]
        stops = [self.present.stops[cause] == self._stops[cause] for cause in self._wanted]
        return z3.And(*ties, *stops, self.present.released == z3.And(z3.BoolVal(True), *self._fine, *ends))

    def _add(self, operation: Operation) -> None:
        """Adds an operation's value, the ways in which it stops, and what is known of it where it doesn't."""
        z3 = solver_module()
        read = [self._values[it] for it in operation.operands]
        exact = self._exact(operation, read)
        if (operation.number, "DIVZERO") in self._may_stop:
            self._stop((operation.number, "DIVZERO"), equals(read[1], 0))
        if (operation.number, "RANGE") in self._may_stop:
            self._stop((operation.number, "RANGE"), z3.Not(between(exact, LEAST[operation.type], GREATEST[operation.type])))
        interval = self.graph.ranges[operation.number]
        if interval is None:
            self._fine.append(z3.BoolVal(False))
            interval = (0, 0)
        elif not _within(self._hull(operation), interval):
            self._fine.append(between(exact, *interval))
        self._values.append(exact if operation.type == "BOOL" else fitted(exact, bits_of(interval)))
        self._intervals.append(interval)

    def _stop(self, cause: Cause, condition: Any) -> None:
        """Notes when an operation stops: what stands before it doesn't stop then."""
        z3 = solver_module()
        if cause in self.present.stops:
            self._stops[cause] = z3.And(*self._fine, condition)
        self._checks.append((cause, condition))
        self._fine.append(z3.Not(condition))

    def _hull(self, operation: Operation) -> Interval:
        """Two ends between which the values of an operation lie by those of its operands, or of its type."""
        read = [self._intervals[it] for it in operation.operands]
        kind = operation.kind
        if kind in ("INPUT", "LOAD") or operation.type == "BOOL" and kind not in ("STORE", "OUT"):
            return LEAST[operation.type], GREATEST[operation.type]
        if kind == "CONST":
            return operation.own, operation.own
        if kind in ("STORE", "OUT", "CONV"):
            return read[0]
        if kind == "SEL":
            return min(read[1][0], read[2][0]), max(read[1][1], read[2][1])
        if kind == "NEG":
            return -read[0][1], -read[0][0]
        if kind in ("DIV", "MOD"):
            size = max(abs(read[0][0]), abs(read[0][1]))
            return -size, size
        ends = [_of_ends(kind, left, right) for left in read[0] for right in read[1]]
        return min(ends), max(ends)

    def _exact(self, operation: Operation, read: Sequence[Any]) -> Any:
        """The value of an operation, in as many bits as it may take."""
        z3 = solver_module()
        kind = operation.kind
        if kind == "INPUT":
            return self.present.inputs[operation.own]
        if kind == "LOAD":
            return self.present.kept[operation.own]
        if kind == "CONST":
            return z3.BoolVal(bool(operation.own)) if operation.type == "BOOL" else z3.BitVecVal(operation.own, bits_of((operation.own, operation.own)))
        if kind in ("STORE", "OUT"):
            return read[0]
        if kind == "CONV":
            return z3.If(read[0], z3.BitVecVal(1, 2), z3.BitVecVal(0, 2)) if operation.operand_type == "BOOL" else read[0]
        if kind in ("NOT", "AND", "OR", "XOR"):
            return z3.Not(read[0]) if kind == "NOT" else {"AND": z3.And, "OR": z3.Or, "XOR": z3.Xor}[kind](*read)
        if kind == "EQ":
            return _same(*read)
        if kind == "SEL":
            return _chosen(*read)
        return _number(kind, read)


def _within(inner: Interval, outer: Interval) -> bool:
    return outer[0] <= inner[0] and inner[1] <= outer[1]


def _of_ends(kind: str, left: int, right: int) -> int:
    """ADD, SUB or MUL of two numbers."""
    return left + right if kind == "ADD" else left - right if kind == "SUB" else left * right


def _chosen(choice: Any, where_false: Any, where_true: Any) -> Any:
    """SEL of two values of one kind."""
    z3 = solver_module()
    if z3.is_bool(where_true):
        return z3.If(choice, where_true, where_false)
    bits = max(where_false.size(), where_true.size())
    return z3.If(choice, fitted(where_true, bits), fitted(where_false, bits))


def _number(kind: str, read: Sequence[Any]) -> Any:
    """LT, and what an operation computes of numbers: in so many bits that nothing is lost. Where a divisor is 0 the operation stops, and it means nothing."""
    z3 = solver_module()
    bits = sum(it.size() for it in read) if kind == "MUL" else max(it.size() for it in read) + 1
    wide = [fitted(it, bits) for it in read]
    if kind == "NEG":
        return -wide[0]
    left, right = wide
    if kind == "LT":
        return left < right
    if kind == "DIV":
        return left / right
    return z3.SRem(left, right) if kind == "MOD" else left + right if kind == "ADD" else left - right if kind == "SUB" else left * right
