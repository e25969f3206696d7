"""Calls: functions of the standard as those of the profile; functions and function blocks of the user, taken in where they are called."""
from __future__ import annotations

from functools import partial
from typing import Sequence

from vcp_tools.lower import code as codes
from vcp_tools.lower.blocks import OTHER_NAMES, STANDARD
from vcp_tools.lower.code import NUMBERS, STORED, Code
from vcp_tools.lower.expressions import Expressions
from vcp_tools.lower.nodes import Elements, Group, Leaf, Node
from vcp_tools.read.source import GREATEST
from vcp_tools.read.wider_tree import Argument, Declared, File, Invoke, Leave, NotTaken, Term, Unit, acts

_FORMAL = {"LIMIT": ("MN", "IN", "MX"), "SEL": ("G", "IN0", "IN1"), "ABS": ("IN",)}
_COUNTS = {"ABS": (1, 1), "MIN": (2, 99), "MAX": (2, 99), "LIMIT": (3, 3), "SEL": (3, 3)}


class Calls(Expressions):
    """Calls in expressions and as statements."""

    def __init__(self, file: File, period: int, has_long_times: bool) -> None:
        super().__init__(file, period, has_long_times)
        self.open_units: list[str] = []
        self.frames_of: dict[str, dict[str, Node]] = {}
        self.returned = ""
        self.counted: dict[str, int] = {}
        self.loop: tuple[str, str] = ("", "")

    def call(self, term: Term) -> Code:
        """A call in an expression."""
        name = term.text.upper()
        unit = self.units.get(name)
        if unit is not None and unit.kind == "FUNCTION":
            return self._of_function(unit, term.parts, term.named, term.at)
        if unit is not None or name in STANDARD:
            raise NotTaken(term.at, f"`{term.text}` is a function block: declare an instance, call that, and read its outputs")
        if "_TO_" in name or name.startswith("TO_"):
            return self._conversion(name, term)
        if name not in _COUNTS:
            raise NotTaken(term.at, f"`{term.text}` is no function that is taken")
        return self._standard_function(name, self._ordered(name, term), term.at)

    def _ordered(self, name: str, term: Term) -> list[Code]:
        """The arguments of a standard function in order, from those by place or by name."""
        terms = list(term.parts)
        if term.named:
            names = _FORMAL.get(name, tuple(f"IN{it + 1}" for it in range(len(term.named))))
            given = {it.name.upper(): it.value for it in term.named if not it.is_output}
            if terms or set(given) != set(names):
                raise NotTaken(term.at, f"`{name}` isn't called so: its arguments are {', '.join(names)}")
            terms = [it for it in (given[formal] for formal in names) if it is not None]
        least, most = _COUNTS[name]
        if not least <= len(terms) <= most:
            raise NotTaken(term.at, f"`{name}` has {least} arguments" + (" or more" if most > least else ""))
        return self.several([partial(self.expression, it) for it in terms])

    def _standard_function(self, name: str, given: list[Code], at: int) -> Code:
        if name == "SEL":
            if given[0].base != "BOOL":
                raise NotTaken(at, "the first argument of SEL is a truth value")
            codes.needs_one_family(given[1], given[2], at)
            return codes.function(name, given, min(given[1].low, given[2].low), max(given[1].high, given[2].high), self._joined(given[1:]))
        for it in given[1:]:
            codes.needs_one_family(given[0], it, at)
        if given[0].family == "BOOL":
            raise NotTaken(at, f"`{name}` takes numbers and times")
        if name == "ABS":
            most = max(abs(given[0].low), abs(given[0].high))
            least = 0 if given[0].low <= 0 <= given[0].high else min(abs(given[0].low), abs(given[0].high))
            greatest = GREATEST[given[0].stored]
            return codes.function(name, given, least, min(most, greatest), given[0].base, most > greatest)
        if name == "LIMIT":
            low, inner, high = given
            return codes.function(name, given, min(max(inner.low, low.low), high.low), min(max(inner.high, low.high), high.high), self._joined(given))
        found = given[0]
        chosen = min if name == "MIN" else max
        for it in given[1:]:
            found = codes.function(name, [found, it], chosen(found.low, it.low), chosen(found.high, it.high), self._joined([found, it]))
        return found

    def _joined(self, given: Sequence[Code]) -> str:
        if given[0].family != "number":
            return given[0].base
        base = given[0]
        for it in given[1:]:
            base = codes.with_base(base if base.base else it, codes.joined(base, it))
        return base.base

    def _conversion(self, name: str, term: Term) -> Code:
        """A conversion by its name, as UINT_TO_INT or TO_INT: the same number; one outside the type is a stop."""
        source, _, target = name.rpartition("TO_")
        source = source.rstrip("_")
        terms = [*term.parts, *(it.value for it in term.named if it.value is not None)]
        if len(terms) != 1:
            raise NotTaken(term.at, f"`{name}` has one argument")
        value = self.expression(terms[0])
        known = {*NUMBERS, "BOOL", "TIME"}
        if target not in known or source and source not in known:
            raise NotTaken(term.at, f"`{term.text}` is no conversion that is taken")
        if source and not self._is_of(value, source):
            raise NotTaken(term.at, f"the argument of `{term.text}` is {codes.told_type(value)}")
        if target == "BOOL":
            return value if value.family == "BOOL" else codes.compared("<>", value, codes.number_code(0))
        if target == "TIME":
            return self.converted(value, "TIME", self.time.low, self.time.high, self.time.stored, term.at)
        low, high = NUMBERS[target]
        return self.converted(value, target, low, high, STORED[target], term.at)

    def _is_of(self, value: Code, source: str) -> bool:
        """Whether a value is of the type that a conversion is from, or widens to it."""
        if source in ("BOOL", "TIME"):
            return value.family == source
        low, high = NUMBERS[source]
        return value.family == "number" and (low <= value.low and value.high <= high or bool(value.base) and codes.converts(value.base, low, high))

    def _of_function(self, unit: Unit, values: list[Term], named: list[Argument], at: int) -> Code:
        """A call of a function of the user, which is taken in."""
        frame = self._frame_of(unit)
        given = self._given(unit, values, named, at)
        sections = {it.name.upper(): it for it in unit.declared}
        single = [it for it in given if not it.is_output and isinstance(frame.get(it.name.upper()), Leaf)]
        found = self.several([partial(self.expression, _needed(it)) for it in single])
        self._enter(unit, at)
        inner = dict(frame)
        for it in given:
            if not it.is_output and sections[it.name.upper()].section == "VAR_IN_OUT":
                inner[it.name.upper()] = self._aliased(sections[it.name.upper()].name, it)
        for it, value in zip(single, found):
            leaf = frame[it.name.upper()]
            assert isinstance(leaf, Leaf)
            self.store(leaf, value, it.at)
        for it in given:
            name = it.name.upper()
            if not it.is_output and it not in single and sections[name].section == "VAR_INPUT":
                self.copy(frame[name], self.direct(_needed(it)), it.at)
        missing = [it for it in unit.declared if it.section == "VAR_INPUT" and it.name.upper() not in {one.name.upper() for one in given}]
        self.restart(missing, frame, ("VAR_INPUT",))
        self.restart(unit.declared, frame, ("VAR", "VAR_TEMP", "VAR_OUTPUT"))
        result = frame[unit.name.upper()]
        if not isinstance(result, Leaf):
            raise NotTaken(unit.at, "a function that is taken gives one value")
        first = result.type.first
        self.emit(f"{result.name} := {('TRUE' if first else 'FALSE') if result.type.stored == 'BOOL' else first};")
        self.taken_in(unit, inner)
        self.open_units.pop()
        self._outputs(given, frame)
        self.called_units += 1
        return result.code

    def _frame_of(self, unit: Unit) -> dict[str, Node]:
        """The variables of a function, declared at its first call."""
        name = unit.name.upper()
        if name not in self.frames_of:
            frame: dict[str, Node] = {}
            assert unit.result is not None
            before, self.frame = self.frame, frame
            blocks = [it for it in unit.declared if it.section == "VAR_GLOBAL"]
            if blocks:
                raise NotTaken(blocks[0].at, "VAR_GLOBAL is outside a function")
            self.enter(unit.declared, frame, f"{unit.name}_", False)
            for it in frame.values():
                if _has_instance(it):
                    raise NotTaken(unit.at, f"`{unit.name}` is a function and keeps nothing: it has no instances of function blocks")
            kind = self.type_of(unit.result)
            frame[name] = self.make(kind, unit.name, unit.name, _result(unit), None, "VAR")
            self.frame = before
            self.frames_of[name] = frame
        return self.frames_of[name]

    def _enter(self, unit: Unit, at: int) -> None:
        if unit.name.upper() in self.open_units:
            raise NotTaken(at, f"`{unit.name}` calls itself")
        self.open_units.append(unit.name.upper())

    def _given(self, unit: Unit, values: list[Term], named: list[Argument], at: int) -> list[Argument]:
        """The arguments of a call by name."""
        inputs = [it.name for it in unit.declared if it.section in ("VAR_INPUT", "VAR_IN_OUT")]
        if len(values) > len(inputs):
            raise NotTaken(at, f"`{unit.name}` has {len(inputs)} inputs")
        given = [*(Argument(name, it.at, it, False) for name, it in zip(inputs, values)), *named]
        lawful = {it.name.upper(): it.section for it in unit.declared}
        for it in given:
            section = lawful.get(it.name.upper())
            if section != "VAR_OUTPUT" if it.is_output else section not in ("VAR_INPUT", "VAR_IN_OUT"):
                raise NotTaken(it.at, f"`{unit.name}` has no {'output' if it.is_output else 'input'} `{it.name}`")
        for declared in unit.declared:
            if declared.section == "VAR_IN_OUT" and declared.name.upper() not in {it.name.upper() for it in given}:
                raise NotTaken(at, f"`{declared.name}` of `{unit.name}` is VAR_IN_OUT: a variable is wanted for it")
        return given

    def _aliased(self, name: str, it: Argument) -> Node:
        node = self.direct(_needed(it))
        if isinstance(node, Leaf) and node.constant is not None:
            raise NotTaken(it.at, f"`{name}` is VAR_IN_OUT, and this is a constant")
        return node

    def taken_in(self, unit: Unit, frame: dict[str, Node]) -> None:
        """Writes the statements of a unit with its variables."""
        before = self.frame, self.returned, self.loop, self.bounds
        self.frame, self.loop, self.bounds = frame, ("", ""), {}
        self.returned = self.flag("returned") if any(isinstance(it, Leave) and it.word == "RETURN" for it in acts(unit.body)) else ""
        if self.returned:
            self.emit(f"{self.returned} := FALSE;")
        self.body(unit.body)
        self.frame, self.returned, self.loop, self.bounds = before

    def flag(self, word: str, stored: str = "BOOL") -> str:
        """A variable of the lowering's own."""
        raise NotImplementedError

    def copy(self, target: Node, source: Node, at: int) -> None:
        """Gives a variable of many values those of another, one by one."""
        if isinstance(target, Leaf) and isinstance(source, Leaf):
            self.store(target, source.code, at)
        elif isinstance(target, Elements) and isinstance(source, Elements) and target.type.ranges == source.type.ranges:
            for index, one in target.nodes.items():
                self.copy(one, source.nodes[index], at)
        elif isinstance(target, Group) and isinstance(source, Group) and list(target.nodes) == list(source.nodes) and not target.type.standard:
            for name, inner in target.nodes.items():
                self.copy(inner, source.nodes[name], at)
        else:
            raise NotTaken(at, "these two aren't of one type")

    def _outputs(self, given: list[Argument], frame: dict[str, Node], other: dict[str, str] | None = None) -> None:
        """Gives variables the outputs of a call."""
        for it in given:
            if it.is_output and it.value is not None:
                source = frame[(other or {}).get(it.name.upper(), it.name.upper())]
                node, steps = self.root(it.value)
                self.each(node, steps, partial(self.copy, source=source, at=it.at), it.at)

    def invoke(self, act: Invoke) -> None:
        """A call as a statement."""
        if act.target.form == "name" and act.target.text.upper() not in self.frame and act.target.text.upper() not in self.globals:
            unit = self.units.get(act.target.text.upper())
            if unit is None or unit.kind != "FUNCTION":
                raise NotTaken(act.at, f"`{act.target.text}` is no instance and no function that is taken")
            self._of_function(unit, act.values, act.named, act.at)
            return
        node, steps = self.root(act.target)
        self.each(node, steps, lambda it: self._instance(it, act), act.at)

    def _instance(self, node: Node, act: Invoke) -> None:
        """A call of an instance of a function block."""
        if not isinstance(node, Group) or not (node.type.standard or node.type.unit):
            raise NotTaken(act.at, "this is no instance of a function block")
        if node.type.standard:
            self._standard_block(node, act)
            return
        unit = node.type.unit
        assert unit is not None
        self._enter(unit, act.at)
        given = self._given(unit, act.values, act.named, act.at)
        frame = {**self.constants_of(unit), **node.nodes}
        for it in given:
            if not it.is_output:
                self._pass(unit, frame, it)
        self.restart(unit.declared, frame, ("VAR_TEMP",))
        self.taken_in(unit, frame)
        self.open_units.pop()
        self._outputs(given, node.nodes)

    def _pass(self, unit: Unit, frame: dict[str, Node], it: Argument) -> None:
        name = it.name.upper()
        if any(one.name.upper() == name and one.section == "VAR_IN_OUT" for one in unit.declared):
            frame[name] = self._aliased(it.name, it)
            return
        target = frame[name]
        if isinstance(target, Leaf):
            self.store(target, self.expression(_needed(it)), it.at)
        else:
            self.copy(target, self.direct(_needed(it)), it.at)

    def _standard_block(self, node: Group, act: Invoke) -> None:
        """A call of a block of the standard: its inputs, its statements, its outputs."""
        name = node.type.standard
        block, other = STANDARD[name], OTHER_NAMES.get(name, {})
        inputs, outputs = [it for it, _ in block.inputs], [it for it, _ in block.outputs]
        if len(act.values) > len(inputs) + len(outputs):
            raise NotTaken(act.at, f"{name} has {len(inputs)} inputs")
        places = [Argument(field, it.at, it, field in outputs) for field, it in zip([*inputs, *outputs], act.values)]
        given = [*places, *act.named]
        for it in given:
            field = other.get(it.name.upper(), it.name.upper())
            if field not in (outputs if it.is_output else inputs):
                raise NotTaken(it.at, f"{name} has no {'output' if it.is_output else 'input'} `{it.name}`")
            if not it.is_output:
                leaf = node.nodes[field]
                assert isinstance(leaf, Leaf)
                self.store(leaf, self.expression(_needed(it)), it.at)
        if block.is_timer and not self.period:
            raise NotTaken(act.at, f"a {name} wants --cycle-time, as --cycle-time 100ms")
        names = {field: leaf.name for field, leaf in node.nodes.items() if isinstance(leaf, Leaf)}
        for line in block.lines:
            depth = (len(line) - len(line.lstrip(" "))) // 2
            self.depth += depth
            self.emit(_filled(line.lstrip(" "), names))
            self.depth -= depth
        self._outputs(given, node.nodes, other)


def _filled(line: str, names: dict[str, str]) -> str:
    """A line of a block with the variables of an instance."""
    for field, name in names.items():
        line = line.replace("{" + field + "}", name).replace("{" + field.lower() + "}", name)
    return line


def _needed(it: Argument) -> Term:
    if it.value is None:
        raise NotTaken(it.at, f"`{it.name}` has no value")
    return it.value


def _has_instance(node: Node) -> bool:
    if isinstance(node, Elements):
        return any(_has_instance(it) for it in node.nodes.values())
    return isinstance(node, Group) and (bool(node.type.standard) or node.type.unit is not None or any(_has_instance(it) for it in node.nodes.values()))


def _result(unit: Unit) -> Declared:
    assert unit.result is not None
    return Declared(unit.name, unit.at, "VAR", (), unit.result, "", None)
