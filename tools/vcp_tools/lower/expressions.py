"""Expressions: what has to be done before one is written as statements, and the rest as an expression of the profile."""
from __future__ import annotations

import re
from typing import Callable, Sequence

from vcp_tools.lower import code as codes
from vcp_tools.lower.blocks import OTHER_NAMES
from vcp_tools.lower.code import NUMBERS, STRINGS_OF_BITS, Code
from vcp_tools.lower.declare import Declaring
from vcp_tools.lower.nodes import Elements, Group, Leaf, Node, Symbol
from vcp_tools.lower.text import Declaration, Line
from vcp_tools.read.source import GREATEST, LEAST, literal_value, type_of_number
from vcp_tools.read.wider_tree import File, NotTaken, Term

_TIME_PART = re.compile(r"([0-9][0-9_]*)(?:\.([0-9]+))?(ms|[dhms])", re.I)
_MILLISECONDS = {"d": 86_400_000, "h": 3_600_000, "m": 60_000, "s": 1000, "ms": 1}
ALWAYS = "DINT_TO_INT(2147483647)"
"""What always stops."""
Step = str | list[Code]


def time_of(text: str, at: int) -> int:
    """The milliseconds of a literal of time."""
    run = text.partition("#")[2]
    total = 0
    for whole, behind, unit in _TIME_PART.findall(run.replace("_", "")):
        exact = int(whole + behind) * _MILLISECONDS[unit.lower()]
        if exact % 10 ** len(behind):
            raise NotTaken(at, f"`{text}` is no whole number of milliseconds")
        total += exact // 10 ** len(behind)
    return -total if run.startswith("-") else total


class Expressions(Declaring):
    """Variables and expressions."""

    def __init__(self, file: File, period: int, has_long_times: bool) -> None:
        super().__init__(file, period, has_long_times)
        self.used: dict[str, int] = {}
        self._made: dict[str, int] = {}
        self.bounds: dict[str, tuple[int, int]] = {}
        self.controls: set[str] = set()
        self.wants_stop = False
        self.called_units = 0

    def kept(self, value: Code) -> Code:
        """A variable that gets a value, to be read in its place."""
        found = self._part(value)
        self.emit(f"{found.text} := {value.text};")
        return found

    def _part(self, value: Code) -> Code:
        """A variable for a value."""
        number = self.used.get(value.stored, 0) + 1
        self.used[value.stored] = number
        name = f"part_{value.stored.lower()}_{number}"
        if self._made.get(value.stored, 0) < number:
            self._made[value.stored] = number
            self.names.claim(name)
            self.declared.append(Declaration("VAR", name, value.stored, "", self.at, "a part of an expression"))
        return codes.name_code(name, value.stored, value.base, value.low, value.high)

    def stop(self, remark: str = "") -> None:
        """Stops the run, with RANGE."""
        self.wants_stop = True
        self.emit(f"out_of_range := {ALWAYS};", remark)

    def several(self, makers: Sequence[Callable[[], Code]]) -> list[Code]:
        """Several values in order: where a later one has to do something first, the earlier ones are kept before that."""
        found: list[Code] = []
        for maker in makers:
            mark, calls = len(self.out), self.called_units
            value = maker()
            if len(self.out) > mark:
                later = self.out[mark:]
                del self.out[mark:]
                found = [it if it.is_fixed or it.is_name and self.called_units == calls else self.kept(it) for it in found]
                self.out += later
            found.append(value)
        return found

    def found_symbol(self, term: Term) -> Symbol | None:
        """The value of an enumeration that a term names."""
        if term.form == "symbol":
            owner, _, name = term.text.upper().partition("#")
            return self.symbols_of.get((owner, name))
        if term.form == "member" and term.parts[0].form == "name" and term.parts[0].text.upper() in self.types:
            self.type_of_name(term.parts[0])
            return self.symbols_of.get((term.parts[0].text.upper(), term.text.upper()))
        if term.form == "name" and term.text.upper() not in self.frame and term.text.upper() not in self.globals:
            return self.symbols.get(term.text.upper())
        return None

    def type_of_name(self, term: Term) -> None:
        """Looks at a named type, so that its values are known."""
        named = self.types[term.text.upper()]
        if named.type.form == "enumeration":
            self._enumeration(named.name, named.type)

    def root(self, term: Term) -> tuple[Node, list[Step]]:
        """The variable that a text begins with, and the fields and indices behind it; indices are computed first."""
        if term.form == "name":
            node = self.frame.get(term.text.upper()) or self.globals.get(term.text.upper())
            if node is None:
                raise NotTaken(term.at, f"`{term.text}` is declared nowhere that is seen here")
            return node, []
        if term.form == "member":
            node, steps = self.root(term.parts[0])
            return node, [*steps, term.text]
        if term.form != "element":
            raise NotTaken(term.at, "a variable is wanted here")
        node, steps = self.root(term.parts[0])
        return node, [*steps, [self._index(it) for it in term.parts[1:]]]

    def _index(self, term: Term) -> Code:
        index = self.expression(term)
        if index.family != "number":
            raise NotTaken(term.at, "an index is a number")
        return index if index.is_simple else self.kept(index)

    def each(self, node: Node, steps: list[Step], act: Callable[[Node], None], at: int) -> None:
        """Does something with the variable that is meant: of an index that is no constant in a CASE, one branch an element."""
        if not steps:
            act(node)
        elif isinstance(steps[0], str):
            self.each(self._field(node, steps[0], at), steps[1:], act, at)
        else:
            if not isinstance(node, Elements) or len(steps[0]) != len(node.type.ranges):
                raise NotTaken(at, "this is no array with so many indices")
            self._element(node, (), steps[0], steps[1:], act, at)

    def _field(self, node: Node, name: str, at: int) -> Node:
        if not isinstance(node, Group):
            raise NotTaken(at, f"`{name}` is no member of a structure or an instance")
        found = OTHER_NAMES.get(node.type.standard, {}).get(name.upper(), name.upper())
        visible = {it.name.upper() for it in node.type.fields if not node.type.standard or it.section != "VAR"}
        if found not in visible:
            raise NotTaken(at, f"{node.type.name or 'the structure'} has no `{name}`")
        return node.nodes[found]

    def _element(self, node: Elements, known: tuple[int, ...], indices: list[Code], rest: list[Step], act: Callable[[Node], None], at: int) -> None:
        """The same for what is behind some indices that are known."""
        if len(known) == len(indices):
            self.each(node.nodes[known], rest, act, at)
            return
        index, (low, high) = indices[len(known)], node.type.ranges[len(known)]
        if index.number is not None:
            if not low <= index.number <= high:
                raise NotTaken(at, f"the index {index.number} is outside {low}..{high}")
            self._element(node, (*known, index.number), indices, rest, act, at)
            return
        first, last = max(low, index.low), min(high, index.high)
        if first > last:
            raise NotTaken(at, f"the index is never from {low} to {high}")
        self.emit(f"CASE {index.text} OF")
        for number in range(first, last + 1):
            self.depth += 1
            self.emit(f"{number}:")
            self.depth += 1
            self._element(node, (*known, number), indices, rest, act, at)
            self.depth -= 2
        if index.low < low or index.high > high:
            self.emit("ELSE")
            self.depth += 1
            self.stop(f"stops where the index is outside {low}..{high}")
            self.depth -= 1
        self.emit("END_CASE;")

    def is_direct(self, steps: list[Step]) -> bool:
        """Whether all indices are constants."""
        return all(isinstance(step, str) or all(it.number is not None for it in step) for step in steps)

    def direct(self, term: Term) -> Node:
        """The variable that a text without variable indices names."""
        node, steps = self.root(term)
        if not self.is_direct(steps):
            raise NotTaken(term.at, "an index that is no constant isn't taken here")
        found: list[Node] = []
        self.each(node, steps, found.append, term.at)
        return found[0]

    def _read(self, term: Term) -> Code:
        """The value of a variable."""
        node, steps = self.root(term)
        found: list[Code] = []
        if self.is_direct(steps):
            self.each(node, steps, lambda it: found.append(self._leaf_code(it, term.at)), term.at)
            return found[0]
        mark = len(self.out)
        probe: list[Code] = []
        self.each(node, steps, lambda it: probe.append(self._leaf_code(it, term.at)), term.at)
        low, high = min(it.low for it in probe), max(it.high for it in probe)
        del self.out[mark:]
        target = self._part(codes.name_code("", probe[0].stored, probe[0].base, low, high))
        self.each(node, steps, lambda it: self.emit(f"{target.text} := {self._leaf_code(it, term.at).text};"), term.at)
        return target

    def _leaf_code(self, node: Node, at: int) -> Code:
        if not isinstance(node, Leaf):
            raise NotTaken(at, "a variable of one value is wanted here")
        code = node.code
        if node.name in self.bounds:
            low, high = self.bounds[node.name]
            return codes.name_code(node.name, code.stored, code.base, low, high)
        return code

    def expression(self, term: Term) -> Code:
        """The code of an expression; what has to be done before it is written first."""
        if term.form == "literal":
            return self._literal(term)
        if term.form == "time":
            return codes.number_code(time_of(term.text, term.at), "TIME", self.time.stored)
        symbol = self.found_symbol(term)
        if symbol is not None:
            return self.symbol_code(symbol)
        if term.form == "symbol":
            raise NotTaken(term.at, f"`{term.text}` is no value of an enumeration that is known")
        if term.form in ("name", "member", "element"):
            return self._read(term)
        if term.form == "call":
            return self.call(term)
        if term.form in ("AND_THEN", "OR_ELSE"):
            return self._guarded(term)
        if term.form in ("neg", "plus", "NOT"):
            return self._signed(term)
        left, right = self.several([lambda: self.expression(term.parts[0]), lambda: self.expression(term.parts[1])])
        return self.binary(term.form, left, right, term.at)

    def call(self, term: Term) -> Code:
        """A call in an expression."""
        raise NotImplementedError

    def _literal(self, term: Term) -> Code:
        upper = term.text.upper()
        if upper.rpartition("#")[2] in ("TRUE", "FALSE"):
            return codes.truth_code(upper.endswith("TRUE"))
        base, _, run = upper.partition("#")
        if base == "BOOL":
            if run not in ("0", "1"):
                raise NotTaken(term.at, f"`{term.text}` is no BOOL")
            return codes.truth_code(run == "1")
        base = base if base in NUMBERS else ""
        run = run if base else upper
        sign = -1 if run.startswith("-") else 1
        value = literal_value(run.lstrip("+-"))
        if value is None:
            raise NotTaken(term.at, f"`{term.text}` is too large: a number is at most 2^63 - 1")
        number = sign * value[1]
        if base and not NUMBERS[base][0] <= number <= NUMBERS[base][1]:
            raise NotTaken(term.at, f"`{term.text}` is outside {base}")
        if base:
            return codes.number_code(number, base)
        return Code(term.text, codes.PRIMARY, type_of_number(number), "", number, number, is_fixed=True)

    def _signed(self, term: Term) -> Code:
        inner = term.parts[0]
        if term.form == "neg" and inner.form == "literal":
            code = self._literal(inner)
            if not code.base:
                return codes.number_code(-code.low)
        code = self.expression(inner)
        if term.form == "NOT":
            return self._negation(code, term.at)
        if code.family == "BOOL":
            raise NotTaken(term.at, "a sign comes before a number")
        return code if term.form == "plus" else codes.minus(code)

    def _negation(self, code: Code, at: int) -> Code:
        if code.base == "BOOL":
            return codes.negation(code)
        bits = STRINGS_OF_BITS.get(code.base)
        if bits is None:
            raise NotTaken(at, "NOT takes a truth value or a string of bits: put brackets round a comparison, as NOT (i = 3)")
        return codes.arithmetic("-", codes.number_code((1 << bits) - 1, code.base), code, code.base)

    def _guarded(self, term: Term) -> Code:
        """AND_THEN and OR_ELSE: AND and OR, or an IF where the second operand may stop or has to do something first."""
        left = self.expression(term.parts[0])
        operator = "AND" if term.form == "AND_THEN" else "OR"
        before, self.out = self.out, []
        self.depth += 1
        right = self.expression(term.parts[1])
        self.depth -= 1
        first, self.out = self.out, before
        if left.base != "BOOL" or right.base != "BOOL":
            raise NotTaken(term.at, f"{term.form} takes truth values")
        if not first and not right.stops:
            return codes.logic(operator, left, right)
        found = self.kept(left)
        self.emit(f"IF {found.text if operator == 'AND' else f'NOT {found.text}'} THEN")
        self.out += first
        self.out.append(Line(self.depth + 1, f"{found.text} := {right.text};", self.at))
        self.emit("END_IF;")
        return found

    def binary(self, operator: str, left: Code, right: Code, at: int) -> Code:
        """Two operands round an operator."""
        if operator in ("AND", "OR", "XOR"):
            return self._logic(operator, left, right, at)
        if operator in ("=", "<>", "<", ">", "<=", ">="):
            codes.needs_one_family(left, right, at)
            if left.family == "BOOL" and operator not in ("=", "<>"):
                raise NotTaken(at, f"`{operator}` compares numbers and times")
            return codes.compared(operator, left, right)
        if "BOOL" in (left.family, right.family):
            raise NotTaken(at, f"`{operator}` takes numbers and times")
        return self._arithmetic(operator, left, right, at)

    def _arithmetic(self, operator: str, left: Code, right: Code, at: int) -> Code:
        times = [it.family == "TIME" for it in (left, right)]
        lawful = {"+": times[0] == times[1], "-": times[0] == times[1], "*": not all(times), "/": not times[1], "MOD": not any(times)}[operator]
        if not lawful:
            raise NotTaken(at, f"`{operator}` isn't for {codes.told_type(left)} and {codes.told_type(right)}")
        if right.number == 0 and operator in ("/", "MOD"):
            return codes.arithmetic(operator, left, right, left.base)
        base = "TIME" if any(times) else codes.joined(left, right)
        return codes.arithmetic(operator, left, right, base)

    def _logic(self, operator: str, left: Code, right: Code, at: int) -> Code:
        if left.base == right.base == "BOOL":
            return codes.logic(operator, left, right)
        if right.number is None and left.number is not None:
            left, right = right, left
        bits = STRINGS_OF_BITS.get(left.base) or STRINGS_OF_BITS.get(right.base)
        if bits is None or "BOOL" in (left.base, right.base) or "TIME" in (left.base, right.base):
            raise NotTaken(at, f"{operator} takes truth values, or a string of bits and a constant mask")
        mask = right.number
        base = max((it.base for it in (left, right) if it.base in STRINGS_OF_BITS), key=lambda it: STRINGS_OF_BITS[it])
        if mask is None or not 0 <= mask < 1 << bits or left.base not in STRINGS_OF_BITS:
            raise NotTaken(at, f"{operator} of two strings of bits isn't taken: one side is a constant mask")
        bits = max(bits, STRINGS_OF_BITS[left.base])
        number = left if left.is_simple else self.kept(left)
        return codes.masked(operator, number, mask, STRINGS_OF_BITS[left.base] if mask < 1 << STRINGS_OF_BITS[left.base] else bits, base)

    def checked(self, value: Code, low: int, high: int, what: str) -> None:
        """Stops where a value, which is simple, is outside a range in which it isn't known to be."""
        tests = []
        if value.low < low:
            tests.append(f"{value.within(codes.ORDER + 1)} < {low}")
        if value.high > high:
            tests.append(f"{value.within(codes.ORDER + 1)} > {high}")
        if tests:
            self.emit(f"IF {' OR '.join(tests)} THEN")
            self.depth += 1
            self.stop(f"stops where {what} is outside {low}..{high}")
            self.depth -= 1
            self.emit("END_IF;")

    def store(self, leaf: Leaf, value: Code, at: int) -> None:
        """Gives a variable a value, which is of its type or converts to it; a stop where it is outside its range."""
        kind = leaf.type
        if leaf.constant is not None:
            raise NotTaken(at, f"`{leaf.name}` is a constant")
        if leaf.name in self.inputs:
            raise NotTaken(at, f"`{leaf.name}` is an input: it gets its value from the rows")
        if leaf.name in self.controls:
            raise NotTaken(at, f"`{leaf.name}` is the control variable of a FOR that is round this: it isn't set there")
        family = kind.base if kind.base in ("BOOL", "TIME") else "number"
        if value.family != family:
            raise NotTaken(at, f"{codes.told_type(value)} isn't assigned to {kind.base}")
        base_low, base_high = NUMBERS.get(kind.base, (kind.low, kind.high))
        fits = kind.low <= value.low and value.high <= kind.high
        if family == "number" and not fits and not (value.base and codes.converts(value.base, base_low, base_high)):
            raise NotTaken(at, f"{codes.told_type(value)} isn't assigned to {kind.base} without a conversion, as {value.base or 'DINT'}_TO_{kind.base}")
        if value.is_fixed and value.number is not None and not fits:
            raise NotTaken(at, f"{value.number} is outside {kind.low}..{kind.high}")
        if value.stored != kind.stored and LEAST[kind.stored] <= LEAST[value.stored] and kind.stored != "BOOL":
            self.emit(f"{leaf.name} := {value.text};")
        else:
            value = codes.in_type(value, kind.stored)
            self.emit(f"{leaf.name} := {value.text};")
        own = codes.name_code(leaf.name, kind.stored, kind.base, value.low, value.high)
        self.checked(own, kind.low, kind.high, leaf.name)

    def converted(self, value: Code, base: str, low: int, high: int, stored: str, at: int) -> Code:
        """A value in another type of the original; a stop where it is outside it."""
        if value.family == "BOOL":
            return codes.with_base(codes.in_type(value, stored), base)
        whole = low == LEAST[stored] and high == GREATEST[stored]
        if not (whole or low <= value.low and value.high <= high):
            value = value if value.is_simple else self.kept(value)
            self.checked(value, low, high, f"{value.text}")
            value = Code(value.text, value.level, value.stored, value.base, max(value.low, low), min(value.high, high), False, value.is_fixed, value.is_name)
        found = codes.in_type(value, stored)
        if at and found.is_fixed and found.low > found.high:
            raise NotTaken(at, f"the value is outside {base}")
        return codes.with_base(found, base)
