"""Runs a program cycle by cycle: expressions and statements with the meaning that IEC 61131-3 gives them, from the left, with stops."""
from __future__ import annotations

import copy
from typing import Sequence

from vcp_tools.read.wider_tree import Act, Argument, Assign, Choose, Declared, File, Invoke, Leave, NotTaken, Repeat, Term, Unit, acts
from vcp_tools.simulate.blocks import ORDER, OTHER_NAMES, Block
from vcp_tools.simulate.functions import binary, called, converted, negated, read_literal
from vcp_tools.simulate.memory import Array, Frame, Instance, Structure, Thing, Types, milliseconds
from vcp_tools.simulate.values import Stop, Value, Variable, literal, truth


class _Left(Exception):
    """EXIT, CONTINUE or RETURN on its way."""

    def __init__(self, word: str) -> None:
        super().__init__(word)
        self.word = word


class Machine:
    """A program with its variables, and the time."""

    def __init__(self, file: File, period: int) -> None:
        self.file = file
        self.period = period
        self.now = 0
        self.frames: list[Frame] = [{}]
        self.types = Types(file, _has_long_times(file), lambda term: self.value(term).number, self.frames)
        self.functions = {it.name.upper(): it for it in file.units if it.kind == "FUNCTION"}
        programs = [it for it in file.units if it.kind == "PROGRAM"]
        if len(programs) != 1:
            raise NotTaken(programs[1].at if programs else 0, "one PROGRAM a file is taken")
        self.program: Unit = programs[0]
        self.globals: Frame = {}
        for it in file.types:
            self.types.enter(it.name, it.type)
        for unit in file.units:
            for declared in unit.declared:
                self.types.enter("", declared.type)
        self._declare(self.declared())

    def declared(self) -> list[Declared]:
        """The declarations of the program, global ones first."""
        return [*self.file.globals, *self.program.declared]

    def _declare(self, declared: Sequence[Declared]) -> None:
        for it in declared:
            self.types.enter("", it.type)
        for it in declared:
            if it.section != "VAR_EXTERNAL":
                frame = self.globals if it.section == "VAR_GLOBAL" else self.frames[0]
                frame[it.name.upper()] = self.types.make(it.type, it.initial)

    def of_program(self, declared: Declared) -> Thing:
        """The thing that a declaration of the program has made."""
        return (self.globals if declared.section == "VAR_GLOBAL" else self.frames[0])[declared.name.upper()]

    def cycle(self) -> None:
        """Does the body once, and lets a cycle pass."""
        for it in self.program.declared:
            if it.section == "VAR_TEMP":
                self.frames[0][it.name.upper()] = self.types.make(it.type, it.initial)
        self._body(self.program.body)
        self.now += self.period

    def _body(self, body: Sequence[Act]) -> None:
        """The statements of a unit, up to a RETURN."""
        try:
            self.run(body)
        except _Left as left:
            assert left.word == "RETURN"

    def run(self, body: Sequence[Act]) -> None:
        """Statements in order."""
        for act in body:
            if isinstance(act, Assign):
                self._assign(act)
            elif isinstance(act, Invoke):
                self._invoke(act)
            elif isinstance(act, Leave):
                raise _Left(act.word)
            elif isinstance(act, Choose):
                self._choose(act)
            else:
                self._repeat(act)

    def _assign(self, act: Assign) -> None:
        if act.how == ":=" and isinstance(source := self._thing_or_none(act.value), (Array, Structure)):
            for target in reversed(act.targets):
                self._copy(self.thing(target), source, target.at)
            return
        value = self.value(act.value)
        if act.how != ":=" and not value.is_true:
            return
        for target in reversed(act.targets):
            self._variable(target).set(value if act.how == ":=" else truth(act.how == "S="), target.at)

    def _copy(self, target: Thing, source: Thing, at: int) -> None:
        """Gives an array or structure the values of another."""
        if isinstance(target, Variable) and isinstance(source, Variable):
            target.set(source.value, at)
        elif isinstance(target, Array) and isinstance(source, Array):
            for one, other in zip(target.elements.values(), source.elements.values()):
                self._copy(one, other, at)
        elif isinstance(target, Structure) and isinstance(source, Structure):
            for name, one in target.fields.items():
                self._copy(one, source.fields[name], at)
        else:
            raise NotTaken(at, "these two aren't of one type")

    def _choose(self, act: Choose) -> None:
        selector = None if act.selector is None else self.value(act.selector).number
        for case in act.cases:
            if case.condition is not None:
                taken = self.value(case.condition).is_true
            else:
                taken = not case.labels or any(self.value(low).number <= (selector or 0) <= self.value(high).number for low, high in case.labels)
            if taken:
                self.run(case.body)
                return

    def _repeat(self, act: Repeat) -> None:
        if act.form == "FOR":
            self._for(act)
            return
        turns = 0
        while act.form == "REPEAT" or self.value(_needed(act.condition)).is_true:
            turns += 1
            if act.bound is None:
                raise NotTaken(act.at, f"{act.form} has no bound")
            if turns > act.bound and act.form == "WHILE":
                raise Stop("RANGE", act.at)
            if self._turn(act) or act.form == "REPEAT" and self.value(_needed(act.condition)).is_true:
                return
            if turns == act.bound and act.form == "REPEAT":
                raise Stop("RANGE", act.at)

    def _turn(self, act: Repeat) -> bool:
        """One turn of a loop; whether EXIT left it."""
        try:
            self.run(act.body)
        except _Left as left:
            if left.word == "RETURN":
                raise
            return left.word == "EXIT"
        return False

    def _for(self, act: Repeat) -> None:
        control = self._variable(_needed(act.control))
        first, last = self.value(act.bounds[0]), self.value(act.bounds[1])
        step = self.value(act.bounds[2]).number if len(act.bounds) > 2 else 1
        control.set(first, act.at)
        number, turns = first.number, 0
        while number <= last.number if step > 0 else number >= last.number:
            turns += 1
            if act.bound is not None and turns > act.bound:
                raise Stop("RANGE", act.at)
            control.set(Value(number, control.kind.width), act.at)
            if self._turn(act):
                return
            number += step

    def _invoke(self, act: Invoke) -> None:
        if act.target.form == "name" and act.target.text.upper() in self.functions:
            self._function(Term("call", act.at, act.target.text, act.values, act.named))
            return
        thing = self.thing(act.target)
        if isinstance(thing, Block):
            self._standard(thing, act)
        elif isinstance(thing, Instance):
            inputs = [it.name for it in thing.unit.declared if it.section in ("VAR_INPUT", "VAR_IN_OUT")]
            self._call(thing.unit, thing.fields, _by_name(act.values, act.named, inputs, act.at))
        else:
            raise NotTaken(act.at, "this is no function block")

    def _standard(self, block: Block, act: Invoke) -> None:
        """A call of a block of the standard."""
        other = OTHER_NAMES.get(block.name, {})
        given = _by_name(act.values, act.named, ORDER[block.name], act.at)
        for it in given:
            name = other.get(it.name.upper(), it.name.upper())
            if name not in block.fields:
                raise NotTaken(it.at, f"{block.name} has no `{it.name}`")
            if not it.is_output:
                block.fields[name].set(self.value(_needed(it.value)), it.at)
        block.call(self.now)
        for it in given:
            if it.is_output and it.value is not None:
                self._variable(it.value).set(block.fields[other.get(it.name.upper(), it.name.upper())].value, it.at)

    def _call(self, unit: Unit, fields: Frame, given: list[Argument]) -> None:
        """A call of a unit of the user, with the frame that it works in."""
        sections = {it.name.upper(): it.section for it in unit.declared}
        for it in given:
            name = it.name.upper()
            if name not in sections:
                raise NotTaken(it.at, f"`{unit.name}` has no `{it.name}`")
            if sections[name] == "VAR_IN_OUT":
                fields[name] = self.thing(_needed(it.value))
            elif not it.is_output:
                self._pass(fields[name], _needed(it.value), it.at)
        for declared in unit.declared:
            if declared.section == "VAR_TEMP":
                fields[declared.name.upper()] = self.types.make(declared.type, declared.initial)
        self.frames.append(fields)
        try:
            self._body(unit.body)
        finally:
            self.frames.pop()
        for it in given:
            if it.is_output and it.value is not None:
                self._copy(self.thing(it.value), fields[it.name.upper()], it.at)

    def _pass(self, target: Thing, term: Term, at: int) -> None:
        """Gives an input its argument."""
        if isinstance(target, Variable):
            target.set(self.value(term), at)
        else:
            self._copy(target, copy.deepcopy(self.thing(term)), at)

    def _function(self, term: Term) -> Value:
        """A call of a function of the user: its variables begin anew."""
        unit = self.functions[term.text.upper()]
        assert unit.result is not None
        fields = self.types.frame(unit.declared, {})
        result = self.types.make(unit.result, None)
        fields[unit.name.upper()] = result
        inputs = [it.name for it in unit.declared if it.section in ("VAR_INPUT", "VAR_IN_OUT")]
        self._call(unit, fields, _by_name(term.parts, term.named, inputs, term.at))
        if not isinstance(result, Variable):
            raise NotTaken(term.at, "a function gives one value")
        return result.value

    def thing(self, term: Term) -> Thing:
        """What a variable's text names."""
        if term.form == "name":
            found = self.frames[-1].get(term.text.upper()) or self.globals.get(term.text.upper())
            if found is None:
                raise NotTaken(term.at, f"`{term.text}` is declared nowhere")
            return found
        inner = self.thing(term.parts[0]) if term.parts else None
        if term.form == "member" and isinstance(inner, (Structure, Instance)) and term.text.upper() in inner.fields:
            return inner.fields[term.text.upper()]
        if term.form == "member" and isinstance(inner, Block):
            name = OTHER_NAMES.get(inner.name, {}).get(term.text.upper(), term.text.upper())
            if name in inner.fields:
                return inner.fields[name]
        if term.form == "element" and isinstance(inner, Array):
            index = tuple(self.value(it).number for it in term.parts[1:])
            if any(not low <= it <= high for it, (low, high) in zip(index, inner.ranges)):
                raise Stop("RANGE", term.at)
            if index in inner.elements:
                return inner.elements[index]
        raise NotTaken(term.at, "this names no variable")

    def _thing_or_none(self, term: Term) -> Thing | None:
        """What a term names where it is a variable's text, and no value of an enumeration."""
        return self.thing(term) if term.form in ("name", "member", "element") and self._symbol(term) is None else None

    def _variable(self, term: Term) -> Variable:
        thing = self.thing(term)
        if not isinstance(thing, Variable):
            raise NotTaken(term.at, "a variable of one value is wanted")
        return thing

    def _symbol(self, term: Term) -> int | None:
        """The number of an enumeration's value; None of what is none."""
        if term.form == "name":
            name = term.text.upper()
            return None if name in self.frames[-1] or name in self.globals else self.types.symbols.get(name)
        if term.form == "symbol":
            kind, _, name = term.text.upper().partition("#")
            return self.types.by_type.get((kind, name))
        if term.form == "member" and term.parts[0].form == "name":
            return self.types.by_type.get((term.parts[0].text.upper(), term.text.upper()))
        return None

    def value(self, term: Term) -> Value:
        """The value of an expression."""
        if term.form == "literal":
            return read_literal(term.text, term.at)
        if term.form == "time":
            return Value(milliseconds(term.text, term.at), self.types.time.width)
        symbol = self._symbol(term)
        if symbol is not None:
            return Value(symbol, 16)
        if term.form in ("name", "member", "element"):
            return self._variable(term).value
        if term.form == "call":
            return self._value_of_call(term)
        if term.form in ("neg", "plus", "NOT"):
            return self._signed(term)
        left = self.value(term.parts[0])
        if term.form in ("AND_THEN", "OR_ELSE"):
            decided = left.is_true == (term.form == "OR_ELSE")
            return left if decided else self.value(term.parts[1])
        return binary(term.form, left, self.value(term.parts[1]), term.at)

    def _signed(self, term: Term) -> Value:
        inner = term.parts[0]
        if term.form == "neg" and inner.form == "literal" and "#" not in inner.text.lstrip("0123456789#"):
            return literal(-read_literal(inner.text, inner.at).number)
        value = self.value(inner)
        return value if term.form == "plus" else negated(value, term.form, term.at)

    def _value_of_call(self, term: Term) -> Value:
        name = term.text.upper()
        if name in self.functions:
            return self._function(term)
        values = [(str(at), self.value(it)) for at, it in enumerate(term.parts)]
        named = [(it.name.upper(), self.value(_needed(it.value))) for it in term.named]
        if "_TO_" in name or name.startswith("TO_"):
            kind = self.types.time if name.endswith("_TO_TIME") else None
            return converted(name, [*values, *named][0][1], kind, term.at)
        return called(name, [it for _, it in values], dict(named), term.at)


def is_input(declared: Declared) -> bool:
    """Whether a variable of the program is an input: by its section, or by an address of inputs."""
    return declared.section == "VAR_INPUT" or declared.section in ("VAR", "VAR_GLOBAL") and declared.address[1:2].upper() == "I"


def is_output(declared: Declared) -> bool:
    """Whether a variable of the program is an output: by its section, or by an address of outputs."""
    return declared.section == "VAR_OUTPUT" or declared.section in ("VAR", "VAR_GLOBAL") and declared.address[1:2].upper() == "Q"


def _needed(term: Term | None) -> Term:
    assert term is not None
    return term


def _by_name(values: Sequence[Term], named: Sequence[Argument], names: Sequence[str], at: int) -> list[Argument]:
    """Arguments by name, of those by place, too."""
    if len(values) > len(names):
        raise NotTaken(at, "there are more arguments than inputs")
    return [*(Argument(name, it.at, it, False) for name, it in zip(names, values)), *named]


def _has_long_times(file: File) -> bool:
    """Whether a literal of time is beyond the milliseconds of a DINT: TIME is a LINT then."""
    found: list[Term] = []
    for declared in [*file.globals, *(it for unit in file.units for it in unit.declared)]:
        stack = [] if declared.initial is None else [declared.initial]
        while stack:
            initial = stack.pop()
            found += [] if initial.value is None else [initial.value]
            stack += [it for _, it in initial.items] + [it for _, it in initial.fields]
    for unit in file.units:
        for act in acts(unit.body):
            found += _terms(act)
    return any(abs(milliseconds(it.text, it.at)) > 2**31 - 1 for term in found for it in term.inside() if it.form == "time")


def _terms(act: Act) -> list[Term]:
    """The expressions of a statement itself."""
    if isinstance(act, Assign):
        return [act.value, *act.targets]
    if isinstance(act, Invoke):
        return [*act.values, *(it.value for it in act.named if it.value is not None)]
    if isinstance(act, Choose):
        return [it for it in (act.selector, *(case.condition for case in act.cases)) if it is not None]
    if isinstance(act, Repeat):
        return [*act.bounds, *([act.condition] if act.condition is not None else [])]
    return []
