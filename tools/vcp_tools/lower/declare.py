"""Types and declarations of the original: what each variable becomes in the profile."""
from __future__ import annotations

import itertools
from dataclasses import replace
from typing import Iterator

from vcp_tools.lower.blocks import OTHER_NAMES, STANDARD
from vcp_tools.lower.code import NUMBERS, STORED, Code
from vcp_tools.lower.nodes import ArrayType, Elements, Fields, FieldType, Group, Leaf, Node, Scalar, Symbol, Type, leaves
from vcp_tools.lower.text import Declaration, Line, Names
from vcp_tools.read.source import GREATEST, LEAST
from vcp_tools.read.wider_tree import Act, Declared, File, Initial, NotTaken, Term, TypeText, Unit

NOT_TAKEN = {
    **dict.fromkeys(("REAL", "LREAL"), "there is no REAL: count in a fixed point (docs/PATTERNS.md, 'Fixed point')"),
    **dict.fromkeys(("STRING", "WSTRING"), "there are no strings"),
    **dict.fromkeys(("DATE", "LDATE", "TIME_OF_DAY", "TOD", "DATE_AND_TIME", "DT"), "there are no dates and times of day: what depends on them is an input"),
    **dict.fromkeys(("ULINT", "LWORD"), "the largest type is LINT"),
    "LTIME": "LTIME isn't taken: TIME is",
}
"""The types that aren't taken, with what is said of them."""
MOST_ELEMENTS = 1024
"""So many variables there are at most: more names no program of the profile has."""


class Declaring:
    """The state of a lowering: names, types, variables, and the lines that are written."""

    def __init__(self, file: File, period: int, has_long_times: bool) -> None:
        self.file = file
        self.period = period
        stored = "LINT" if has_long_times else "DINT"
        self.time = Scalar("TIME", stored, LEAST[stored], GREATEST[stored])
        self.names = Names()
        self.types = {it.name.upper(): it for it in file.types}
        self.units = {it.name.upper(): it for it in file.units if it.kind != "PROGRAM"}
        self.symbols: dict[str, Symbol] = {}
        self.symbols_of: dict[tuple[str, str], Symbol] = {}
        self.declared: list[Declaration] = []
        self.constants: dict[str, Declaration] = {}
        self.timers: list[tuple[Leaf, int]] = []
        self.inputs: set[str] = set()
        self.out: list[Line] = []
        self.depth = 1
        self.at = 0
        self.frame: dict[str, Node] = {}
        self.globals: dict[str, Node] = {}
        self._open_types: list[str] = []
        self._constants_of: dict[str, dict[str, Node]] = {}

    def expression(self, term: Term) -> Code:
        """The code of an expression; what has to be done before it is written first."""
        raise NotImplementedError

    def body(self, acts: list[Act]) -> None:
        """Writes statements."""
        raise NotImplementedError

    def emit(self, text: str, remark: str = "") -> None:
        """Writes a line that comes from where the reading is."""
        self.out.append(Line(self.depth, text, self.at, remark))

    def constant(self, term: Term) -> int:
        """The value of a constant expression."""
        before = len(self.out)
        number = self.expression(term).number
        if number is None or len(self.out) > before:
            raise NotTaken(term.at, "a constant is wanted here")
        return number

    def type_of(self, text: TypeText) -> Type:
        """The type that a text names."""
        if text.form == "array":
            assert text.element is not None
            ranges = tuple((self.constant(low), self.constant(high)) for low, high in text.ranges)
            if any(high < low for low, high in ranges):
                raise NotTaken(text.at, "the last index is below the first")
            return ArrayType(ranges, self.type_of(text.element))
        if text.form == "structure":
            return Fields("", self._fields(text.fields))
        if text.form == "enumeration":
            return self._enumeration("", text)
        if text.form == "subrange":
            return self._subrange(text)
        return self._named(text)

    def _named(self, text: TypeText) -> Type:
        name = text.name.upper()
        if name == "TIME":
            return self.time
        if name in NUMBERS or name == "BOOL":
            low, high = NUMBERS.get(name, (0, 1))
            return Scalar(name, STORED[name], low, high)
        if name in NOT_TAKEN:
            raise NotTaken(text.at, NOT_TAKEN[name])
        if name in self._open_types:
            raise NotTaken(text.at, f"`{text.name}` is made of itself")
        self._open_types.append(name)
        try:
            return self._of_name(text, name)
        finally:
            self._open_types.pop()

    def _of_name(self, text: TypeText, name: str) -> Type:
        """The type of a name that the text declares, or that of a block of the standard."""
        if name in self.types:
            named = self.types[name]
            found = self._enumeration(named.name, named.type) if named.type.form == "enumeration" else self.type_of(named.type)
            if isinstance(found, Scalar) and named.initial is not None and named.initial.value is not None:
                return replace(found, first=self.constant(named.initial.value))
            return found
        if name in STANDARD:
            block = STANDARD[name]
            parts = [*((it, "VAR_INPUT") for it in block.inputs), *((it, "VAR_OUTPUT") for it in block.outputs), *((it, "VAR") for it in block.own)]
            return Fields(name, tuple(FieldType(field, text.at, section, self._elementary(kind), None) for (field, kind), section in parts), standard=name)
        unit = self.units.get(name)
        if unit is not None and unit.kind == "FUNCTION_BLOCK":
            before, self.frame = self.frame, self.constants_of(unit)
            try:
                return Fields(unit.name, self._fields([it for it in unit.declared if not it.is_constant]), unit)
            finally:
                self.frame = before
        raise NotTaken(text.at, f"`{text.name}` is no type that is taken")

    def constants_of(self, unit: Unit) -> dict[str, Node]:
        """The constants of a function block, which all its instances share."""
        name = unit.name.upper()
        if name not in self._constants_of:
            found: dict[str, Node] = {}
            self._constants_of[name] = found
            before, self.frame = self.frame, found
            self.enter([it for it in unit.declared if it.is_constant], found, f"{unit.name}_", False)
            self.frame = before
        return self._constants_of[name]

    def _elementary(self, name: str) -> Scalar:
        found = self._named(TypeText("simple", 0, name))
        assert isinstance(found, Scalar)
        return found

    def _subrange(self, text: TypeText) -> Scalar:
        base = self._named(TypeText("simple", text.at, text.name))
        low, high = (self.constant(it) for it in text.ranges[0])
        if not isinstance(base, Scalar) or base.base not in NUMBERS or not base.low <= low <= high <= base.high:
            raise NotTaken(text.at, f"this is no range of `{text.name}`")
        return Scalar(base.base, base.stored, low, high, low)

    def _fields(self, declared: list[Declared]) -> tuple[FieldType, ...]:
        kept = [it for it in declared if it.section not in ("VAR_EXTERNAL", "VAR_IN_OUT")]
        return tuple(FieldType(it.name, it.at, it.section, self.type_of(it.type), it.initial) for it in kept)

    def _enumeration(self, name: str, text: TypeText) -> Scalar:
        """An enumeration, whose values are learnt when it is first looked at: an INT."""
        following, first = 0, None
        for symbol, at, value in text.values:
            known = self.symbols_of.get((name.upper() or str(text.at), symbol.upper()))
            number = known.number if known else following if value is None else self.constant(value)
            if not LEAST["INT"] <= number <= GREATEST["INT"]:
                raise NotTaken(at, f"`{symbol}` is {number}, and no INT")
            if known is None:
                self._learn(name.upper() or str(text.at), Symbol(f"{name}.{symbol}" if name else symbol, number, "", at), symbol)
            first = number if first is None else first
            following = number + 1
        return Scalar("INT", "INT", LEAST["INT"], GREATEST["INT"], first or 0)

    def _learn(self, owner: str, symbol: Symbol, name: str) -> None:
        self.symbols_of[owner, name.upper()] = symbol
        other = self.symbols.setdefault(name.upper(), symbol)
        if other.number != symbol.number:
            raise NotTaken(symbol.at, f"`{name}` has two numbers in two enumerations: rename one")

    def symbol_code(self, symbol: Symbol) -> Code:
        """A value of an enumeration as an expression: the constant that stands for it."""
        if not symbol.constant:
            symbol.constant = self.names.claim(symbol.name.replace(".", "_"))
            self.constants[symbol.constant] = Declaration("VAR CONSTANT", symbol.constant, "INT", str(symbol.number), symbol.at, symbol.name)
        return Code(symbol.constant, 9, "INT", "INT", symbol.number, symbol.number, is_fixed=True)

    def make(self, kind: Type, name: str, told: str, declared: Declared, initial: Initial | None, section: str) -> Node:
        """The variables of a type, declared in a section of the text."""
        if isinstance(kind, Scalar):
            return self._leaf(kind, name, told, declared, initial, section)
        if isinstance(kind, ArrayType):
            items = list(_flat(initial)) if initial is not None and initial.items else []
            if initial is not None and (initial.value is not None or initial.fields):
                raise NotTaken(initial.at, "an array begins with a list in square brackets")
            found = Elements(kind)
            indices = list(itertools.product(*(range(low, high + 1) for low, high in kind.ranges)))
            if len(indices) > MOST_ELEMENTS:
                raise NotTaken(declared.at, f"`{told}` has {len(indices)} elements, and a program has at most {MOST_ELEMENTS} names")
            if len(items) > len(indices):
                raise NotTaken(declared.at, f"`{told}` has {len(indices)} elements, and {len(items)} initial values")
            for at, index in enumerate(indices):
                inner = "_".join((name, *(str(it).replace("-", "m") for it in index)))
                inner_told = f"{told}[{','.join(map(str, index))}]"
                found.nodes[index] = self.make(kind.element, inner, inner_told, declared, items[at] if at < len(items) else None, section)
            return found
        return self._group(kind, name, told, declared, initial, section)

    def _group(self, kind: Fields, name: str, told: str, declared: Declared, initial: Initial | None, section: str) -> Group:
        if (kind.unit or kind.standard) and section in ("VAR_INPUT", "VAR_OUTPUT"):
            raise NotTaken(declared.at, f"`{told}`: an instance of {kind.name} is no input and no output of a program")
        if kind.unit is not None:
            in_out = [it for it in kind.unit.declared if it.section == "VAR_EXTERNAL" and it.name.upper() not in self.globals]
            if in_out:
                raise NotTaken(in_out[0].at, f"`{in_out[0].name}` is no global variable")
        other = OTHER_NAMES.get(kind.standard, {})
        given = {} if initial is None else {other.get(field.upper(), field.upper()): it for field, it in initial.fields}
        if initial is not None and not initial.fields:
            raise NotTaken(initial.at, f"`{told}` begins with values by name, as `(PT := T#5s)`")
        found = Group(kind)
        for field in kind.fields:
            of_field = given.pop(field.name.upper(), None)
            before = self.frame
            if of_field is None and kind.unit is not None:
                self.frame = self.constants_of(kind.unit)
            inner = f"{name}_{field.name}", f"{told}.{field.name}"
            found.nodes[field.name.upper()] = self.make(field.type, *inner, declared, of_field or field.initial, section)
            self.frame = before
        if given:
            raise NotTaken(declared.at, f"`{told}` has no `{next(iter(given))}`")
        if kind.standard and STANDARD[kind.standard].is_timer:
            elapsed = found.nodes["ELAPSED"]
            assert isinstance(elapsed, Leaf)
            self.timers.append((elapsed, declared.at))
        return found

    def _leaf(self, kind: Scalar, name: str, told: str, declared: Declared, initial: Initial | None, section: str) -> Leaf:
        """One variable; that of an input or an output has to have its name."""
        if initial is not None and initial.value is None:
            raise NotTaken(initial.at, f"`{told}` begins with one value")
        number = kind.first if initial is None or initial.value is None else self._first(kind, initial.value)
        if section in ("VAR_INPUT", "VAR_OUTPUT") and not self.names.is_free(name):
            raise NotTaken(declared.at, f"`{told}` would be named `{name}`, and something else is")
        leaf = Leaf(kind, self.names.claim(name), declared.at, number if section == "VAR CONSTANT" else None)
        shown = "" if number == 0 or section == "VAR_INPUT" else _told_number(number, kind.stored)
        kept = [it for it in declared.attributes if it != "CONSTANT"]
        remarks = [it for it in (told if told != leaf.name else "", f"AT {declared.address}" if declared.address else "", *kept) if it]
        made = Declaration(section, leaf.name, kind.stored, shown, declared.at, ", ".join(remarks))
        if section == "VAR CONSTANT":
            self.constants[leaf.name] = replace(made, initial=_told_number(number, kind.stored))
        else:
            self.declared.append(made)
        if section == "VAR_INPUT":
            self.inputs.add(leaf.name)
        return leaf

    def _first(self, kind: Scalar, term: Term) -> int:
        """The value of an initial expression, which is one of the type."""
        code = self.expression(term)
        number = self.constant(term)
        if code.family != (kind.base if kind.base in ("BOOL", "TIME") else "number") or not kind.low <= number <= kind.high:
            raise NotTaken(term.at, f"the initial value is no {kind.base}" + ("" if kind.base in ("BOOL", "TIME") else f" from {kind.low} to {kind.high}"))
        return number

    def enter(self, declared: list[Declared], frame: dict[str, Node], prefix: str, in_program: bool) -> None:
        """Declares the variables of a unit into a frame."""
        for it in declared:
            if it.section in ("VAR_EXTERNAL", "VAR_IN_OUT"):
                if it.section == "VAR_IN_OUT" and in_program:
                    raise NotTaken(it.at, "VAR_IN_OUT isn't taken in a PROGRAM")
                continue
            target = self.globals if it.section == "VAR_GLOBAL" else frame
            if it.name.upper() in target:
                raise NotTaken(it.at, f"`{it.name}` is declared twice")
            kind = self.type_of(it.type)
            initial = it.initial
            if initial is None and it.type.form == "simple" and not isinstance(kind, Scalar) and it.type.name.upper() in self.types:
                initial = self.types[it.type.name.upper()].initial
            target[it.name.upper()] = self.make(kind, f"{prefix}{it.name}", it.name, it, initial, _section(it, in_program))

    def restart(self, unit_fields: list[Declared], frame: dict[str, Node], sections: tuple[str, ...]) -> None:
        """Gives variables of some sections their initial values."""
        for it in unit_fields:
            if it.section in sections and not it.is_constant:
                initials = {made.name: made.initial for made in self.declared}
                for leaf in leaves(frame[it.name.upper()]):
                    zero = "FALSE" if leaf.type.stored == "BOOL" else "0"
                    self.emit(f"{leaf.name} := {initials.get(leaf.name) or zero};")


def _section(declared: Declared, in_program: bool) -> str:
    """The section of the text in which a variable stands: an address of inputs or outputs makes it one."""
    kind = declared.address[1:2].upper()
    if declared.is_constant:
        return "VAR CONSTANT"
    if in_program and (declared.section == "VAR_INPUT" or kind == "I" and declared.section in ("VAR", "VAR_GLOBAL")):
        return "VAR_INPUT"
    if in_program and (declared.section == "VAR_OUTPUT" or kind == "Q" and declared.section in ("VAR", "VAR_GLOBAL")):
        return "VAR_OUTPUT"
    return "VAR"


def _told_number(number: int, stored: str) -> str:
    if stored == "BOOL":
        return "TRUE" if number else "FALSE"
    if number == LEAST["LINT"]:
        raise NotTaken(0, "the least LINT has no literal")
    return str(number)


def _flat(initial: Initial) -> Iterator[Initial]:
    """The entries of a list one by one, those of inner lists, too."""
    for times, item in initial.items:
        for _ in range(times):
            if item.items:
                yield from _flat(item)
            else:
                yield item


def unit_of(file: File) -> Unit:
    """The one PROGRAM of a file."""
    programs = [it for it in file.units if it.kind == "PROGRAM"]
    if len(programs) != 1:
        raise NotTaken(programs[1].at if programs else 0, "a file has one PROGRAM" if programs else "there is no PROGRAM in this file")
    return programs[0]
