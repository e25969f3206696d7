"""The variables of a program as objects: single ones, arrays, structures, and instances of function blocks."""
from __future__ import annotations

import itertools
import re
from dataclasses import dataclass
from typing import Callable, Iterator, Union

from vcp_tools.read.wider_tree import Declared, File, Initial, NotTaken, Term, TypeText, Unit
from vcp_tools.simulate.blocks import ORDER, OTHER_NAMES, Block
from vcp_tools.simulate.values import RANGES, Kind, Variable

Thing = Union[Variable, "Array", "Structure", "Instance", Block]
Frame = dict[str, Thing]
_TIME_PART = re.compile(r"([0-9][0-9_]*(?:\.[0-9]+)?)(ms|[dhms])", re.I)
_MILLISECONDS = {"D": 86_400_000, "H": 3_600_000, "M": 60_000, "S": 1000, "MS": 1}
_INPUTS = ("VAR_INPUT",)


@dataclass
class Array:
    """An array: its ranges of indices, and its elements by their indices."""

    ranges: list[tuple[int, int]]
    elements: dict[tuple[int, ...], Thing]


@dataclass
class Structure:
    """A structure: its fields by their names in capitals."""

    fields: Frame


@dataclass
class Instance:
    """An instance of a function block of the user: its unit, and its variables by their names in capitals."""

    unit: Unit
    fields: Frame


def milliseconds(text: str, at: int) -> int:
    """The number of milliseconds of a literal of time."""
    digits = text.partition("#")[2]
    parts = _TIME_PART.findall(digits)
    total = 0
    for number, unit in parts:
        whole, _, behind = number.replace("_", "").partition(".")
        scale = _MILLISECONDS[unit.upper()]
        exact = int(whole + behind) * scale
        if exact % 10 ** len(behind):
            raise NotTaken(at, f"`{text}` is no whole number of milliseconds")
        total += exact // 10 ** len(behind)
    return -total if digits.startswith("-") else total


class Types:
    """The types of a file, and what is made of them. `constant` gives the value of a constant expression."""

    def __init__(self, file: File, is_long: bool, constant: Callable[[Term], int], frames: list[Frame]) -> None:
        self.named = {it.name.upper(): it for it in file.types}
        self.blocks = {it.name.upper(): it for it in file.units if it.kind == "FUNCTION_BLOCK"}
        self.constant = constant
        self.frames = frames
        self.symbols: dict[str, int] = {}
        self.by_type: dict[tuple[str, str], int] = {}
        self.time = Kind(-(2**63), 2**63 - 1, 64) if is_long else Kind.of("TIME")

    def enter(self, name: str, text: TypeText) -> None:
        """Learns the values of an enumeration, and of those inside."""
        if text.form == "enumeration":
            following = 0
            for symbol, _, value in text.values:
                number = following if value is None else self.constant(value)
                self.symbols.setdefault(symbol.upper(), number)
                if name:
                    self.by_type[name.upper(), symbol.upper()] = number
                following = number + 1
        if text.element is not None:
            self.enter("", text.element)
        for field in text.fields:
            self.enter("", field.type)

    def kind(self, text: TypeText) -> Kind | None:
        """The kind of variables of a type that holds one value; None of others."""
        name = text.name.upper()
        if text.form == "enumeration":
            return Kind.of("INT")
        if text.form == "subrange":
            base = self.kind(TypeText("simple", text.at, text.name))
            if base is None:
                raise NotTaken(text.at, f"`{text.name}` has no subranges")
            low, high = text.ranges[0]
            return Kind(self.constant(low), self.constant(high), base.width, base.bits)
        if text.form != "simple":
            return None
        if name in self.named:
            return self.kind(self.named[name].type)
        if name == "TIME":
            return self.time
        return Kind.of(name) if name in RANGES else None

    def make(self, text: TypeText, initial: Initial | None) -> Thing:
        """A thing of a type, with its initial value."""
        kind = self.kind(text)
        if kind is not None:
            return Variable(kind, self._first(text, kind) if initial is None or initial.value is None else self.constant(initial.value))
        name = text.name.upper()
        if text.form == "array":
            return self._array(text, initial)
        if text.form == "structure":
            return Structure(self.frame(text.fields, dict(_by_capitals(initial))))
        if name in self.named:
            return self.make(self.named[name].type, initial or self.named[name].initial)
        if name in ORDER:
            block = Block(name, self.time)
            self._set(block.fields, {OTHER_NAMES.get(name, {}).get(field, field): it for field, it in _by_capitals(initial)})
            return block
        if name in self.blocks:
            return Instance(self.blocks[name], self.frame(self.blocks[name].declared, dict(_by_capitals(initial))))
        raise NotTaken(text.at, f"`{text.name}` is no type that is taken")

    def _first(self, text: TypeText, kind: Kind) -> int:
        """The value with which a variable of a type begins: that of its type, 0, or the first one of a subrange or an enumeration."""
        if text.form == "simple" and text.name.upper() in self.named:
            named = self.named[text.name.upper()]
            return self.constant(named.initial.value) if named.initial and named.initial.value else self._first(named.type, kind)
        if text.form == "enumeration":
            first = text.values[0][2]
            return 0 if first is None else self.constant(first)
        return kind.low if text.form == "subrange" else 0

    def _array(self, text: TypeText, initial: Initial | None) -> Array:
        ranges = [(self.constant(low), self.constant(high)) for low, high in text.ranges]
        values = list(_flat(initial)) if initial is not None and initial.items else []
        elements: dict[tuple[int, ...], Thing] = {}
        assert text.element is not None
        for at, index in enumerate(itertools.product(*(range(low, high + 1) for low, high in ranges))):
            elements[index] = self.make(text.element, values[at] if at < len(values) else None)
        return Array(ranges, elements)

    def frame(self, declared: list[Declared], initials: dict[str, Initial]) -> Frame:
        """The things of declarations, with other initial values where these are given by name. Their own initial values and types may name what is declared
        before them."""
        found: Frame = {}
        for it in declared:
            name = it.name.upper()
            if it.section in ("VAR_IN_OUT", "VAR_EXTERNAL"):
                continue
            if name in initials:
                found[name] = self.make(it.type, initials[name])
                continue
            self.frames.append(found)
            try:
                found[name] = self.make(it.type, it.initial)
            finally:
                self.frames.pop()
        return found

    def _set(self, fields: dict[str, Variable], initials: dict[str, Initial]) -> None:
        for name, initial in initials.items():
            if name not in fields or initial.value is None:
                raise NotTaken(initial.at, f"there is no input `{name}`")
            fields[name].number = self.constant(initial.value)


def _by_capitals(initial: Initial | None) -> list[tuple[str, Initial]]:
    return [] if initial is None else [(name.upper(), it) for name, it in initial.fields]


def _flat(initial: Initial) -> Iterator[Initial]:
    """The entries of a list one by one, those of inner lists, too."""
    for times, item in initial.items:
        for _ in range(times):
            if item.items:
                yield from _flat(item)
            else:
                yield item


def leaves(name: str, thing: Thing) -> Iterator[tuple[str, Variable]]:
    """The single variables of a thing, each with its name in rows: indices and fields behind underscores, `m` before a negative index."""
    if isinstance(thing, Variable):
        yield name, thing
    elif isinstance(thing, Array):
        for index, element in thing.elements.items():
            yield from leaves("_".join((name, *(str(it).replace("-", "m") for it in index))), element)
    else:
        for field, inner in thing.fields.items():
            yield from leaves(f"{name}_{field}", inner)
