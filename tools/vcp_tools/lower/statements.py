"""Statements: assignments, choices, loops with their bounds, and EXIT, CONTINUE and RETURN by guards."""
from __future__ import annotations

from dataclasses import replace
from functools import partial
from typing import Callable, Sequence

from vcp_tools.lower import code as codes
from vcp_tools.lower.calls import Calls
from vcp_tools.lower.code import Code
from vcp_tools.lower.nodes import Elements, Group, Leaf, Node
from vcp_tools.lower.text import Declaration
from vcp_tools.read.source import GREATEST, LEAST, TYPES
from vcp_tools.read.wider_tree import Act, Assign, Case, Choose, Invoke, Leave, NotTaken, Repeat, Term, Unit


class Statements(Calls):
    """Statements of all kinds."""

    def flag(self, word: str, stored: str = "BOOL") -> str:
        """A variable of the lowering's own, named by a word and a number."""
        self.counted[word] = self.counted.get(word, 0) + 1
        name = self.names.claim(f"{word}_{self.counted[word]}")
        self.declared.append(Declaration("VAR", name, stored, "", self.at, "of the lowering"))
        return name

    def body(self, acts: Sequence[Act]) -> None:
        """Writes statements; what stands behind one that may leave is guarded."""
        for number, act in enumerate(acts):
            used = dict(self.used)
            at, self.at = self.at, act.at
            self._act(act)
            self.used = used
            words = _leaving(act)
            if words and number + 1 < len(acts):
                self.emit(f"IF {self._not_left(words)} THEN")
                self.depth += 1
                self.body(acts[number + 1 :])
                self.depth -= 1
                self.emit("END_IF;")
                self.at = at
                return
            self.at = at

    def _not_left(self, words: set[str]) -> str:
        flags = {"EXIT": self.loop[0], "CONTINUE": self.loop[1], "RETURN": self.returned}
        return " AND ".join(f"NOT {flags[word]}" for word in ("EXIT", "CONTINUE", "RETURN") if word in words)

    def _act(self, act: Act) -> None:
        if isinstance(act, Assign):
            self._assign(act)
        elif isinstance(act, Invoke):
            self.invoke(act)
        elif isinstance(act, Leave):
            self._leave(act)
        elif isinstance(act, Choose):
            self._choose(act)
        else:
            self._repeat(act)

    def _leave(self, act: Leave) -> None:
        flag = {"EXIT": self.loop[0], "CONTINUE": self.loop[1], "RETURN": self.returned}[act.word]
        if not flag:
            raise NotTaken(act.at, f"{act.word} is in a loop alone")
        self.emit(f"{flag} := TRUE;")

    def _assign(self, act: Assign) -> None:
        if act.how == ":=" and self._is_whole(act):
            for target in reversed(act.targets):
                self._set(target, partial(self._copied, act.value))
            return
        value = self.expression(act.value)
        if act.how != ":=":
            if value.base != "BOOL":
                raise NotTaken(act.at, f"`{act.how}` takes a truth value")
            self.emit(f"IF {value.text} THEN")
            self.depth += 1
            self._store(act.targets[0], codes.truth_code(act.how == "S="))
            self.depth -= 1
            self.emit("END_IF;")
            return
        if not value.is_simple and (len(act.targets) > 1 or any(it.form == "element" or it.form == "member" for it in act.targets)):
            direct = len(act.targets) == 1 and self._is_direct(act.targets[0])
            value = value if direct else self.kept(value)
        for target in reversed(act.targets):
            self._store(target, value)

    def _is_direct(self, term: Term) -> bool:
        """Whether a target has no index that is computed."""
        return all(it.form in ("literal", "name", "symbol", "neg") and (it.form != "name" or self._is_constant(it))
                   for element in term.inside() if element.form == "element" for it in element.parts[1:])

    def _is_constant(self, term: Term) -> bool:
        node = self.frame.get(term.text.upper()) or self.globals.get(term.text.upper())
        return node is None or isinstance(node, Leaf) and node.constant is not None

    def _is_whole(self, act: Assign) -> bool:
        """Whether an array or a structure is assigned."""
        if act.value.form not in ("name", "member", "element") or self.found_symbol(act.value) is not None:
            return False
        mark = len(self.out)
        node, steps = self.root(act.value)
        found: list[Node] = []
        self.each(node, steps, found.append, act.value.at)
        del self.out[mark:]
        return isinstance(found[0], (Elements, Group))

    def _copied(self, value: Term, target: Node) -> None:
        """Gives an array or a structure the values of another."""
        self.copy(target, self.direct(value), value.at)

    def _set(self, term: Term, act: Callable[[Node], None]) -> None:
        node, steps = self.root(term)
        self.each(node, steps, act, term.at)

    def _store(self, term: Term, value: Code) -> None:
        node, steps = self.root(term)

        def one(target: Node) -> None:
            if not isinstance(target, Leaf):
                raise NotTaken(term.at, "a variable of one value is wanted here")
            self.store(target, value, term.at)

        self.each(node, steps, one, term.at)

    def run_program(self, unit: Unit) -> None:
        """Writes the statements of the program."""
        self.taken_in(unit, self.frame)

    def checked_input(self, leaf: Leaf) -> None:
        """Stops where an input is outside its type."""
        low, high = LEAST[leaf.type.stored], GREATEST[leaf.type.stored]
        self.checked(codes.name_code(leaf.name, leaf.type.stored, leaf.type.base, low, high), leaf.type.low, leaf.type.high, leaf.name)

    def _condition(self, term: Term) -> Code:
        found = self.expression(term)
        if found.base != "BOOL":
            raise NotTaken(term.at, f"the condition is {codes.told_type(found)}: a truth value is wanted, as from a comparison")
        return found

    def _choose(self, act: Choose) -> None:
        if act.selector is None:
            self._if(act.cases)
        else:
            self._case(act, act.selector)

    def _if(self, cases: Sequence[Case]) -> None:
        """IF with its branches; a condition that has something to be done first stands in an IF of its own, in the ELSE."""
        first = cases[0]
        assert first.condition is not None
        self.emit(f"IF {self._condition(first.condition).text} THEN")
        self._inner(first.body)
        for number, case in enumerate(cases[1:], 1):
            self.at = case.at
            if case.condition is None:
                self.emit("ELSE")
            else:
                mark = len(self.out)
                self.depth += 1
                condition = self._condition(case.condition)
                self.depth -= 1
                if len(self.out) > mark:
                    del self.out[mark:]
                    self.emit("ELSE")
                    self.depth += 1
                    self._if(cases[number:])
                    self.depth -= 1
                    break
                self.emit(f"ELSIF {condition.text} THEN")
            self._inner(case.body)
        self.emit("END_IF;")

    def _inner(self, acts: Sequence[Act]) -> None:
        self.depth += 1
        self.body(acts)
        self.depth -= 1

    def _case(self, act: Choose, selector: Term) -> None:
        value = self.expression(selector)
        if value.family != "number":
            raise NotTaken(selector.at, "CASE chooses by a number or an enumeration")
        if value.number is not None:
            value = replace(self.kept(value), low=value.low, high=value.high)
        self.emit(f"CASE {value.text} OF")
        for case in act.cases:
            self.at = case.at
            if case.labels:
                self.depth += 1
                self.emit(", ".join(self._label(low, high, value) for low, high in case.labels) + ":")
                self._inner(case.body)
                self.depth -= 1
            else:
                self.emit("ELSE")
                self._inner(case.body)
        self.emit("END_CASE;")

    def _label(self, low: Term, high: Term, selector: Code) -> str:
        ends = [self.expression(it) for it in ((low,) if low is high else (low, high))]
        for end, term in zip(ends, (low, high)):
            if end.number is None or end.family != "number":
                raise NotTaken(term.at, "a label is a constant number")
            if not -GREATEST[selector.stored] - 1 <= end.number <= GREATEST[selector.stored]:
                raise NotTaken(term.at, f"the label {end.number} is no {selector.stored}")
        if len(ends) > 1 and ends[0].low > ends[1].low:
            raise NotTaken(high.at, "the last value is below the first")
        return "..".join(it.text if it.level == 9 and "#" not in it.text else str(it.number) for it in ends)

    def _repeat(self, act: Repeat) -> None:
        words = {word for it in act.body for word in _leaving(it)}
        before = self.loop
        if act.form == "FOR":
            self._for(act, words)
        elif act.bound is None:
            raise NotTaken(act.at, f"{act.form} has no bound: write one behind {'DO' if act.form == 'WHILE' else 'REPEAT'}, as (*@ bound 10 *)")
        else:
            self._bounded(act, act.bound, words)
        self.loop = before

    def _for(self, act: Repeat, words: set[str]) -> None:
        control = self.direct(_needed(act.control))
        if not isinstance(control, Leaf) or control.type.base in ("BOOL", "TIME") or control.constant is not None or control.name in self.inputs:
            raise NotTaken(act.at, "the control variable of a FOR is a number's variable")
        if control.name in self.controls:
            raise NotTaken(act.at, f"`{control.name}` is the control variable of a FOR that is round this")
        ends = [self.expression(it) for it in act.bounds]
        step = ends[2].number if len(ends) > 2 else 1
        if step is None or step == 0:
            raise NotTaken(act.bounds[2].at, "the step of a FOR is a constant other than 0")
        if any(it.family != "number" for it in ends):
            raise NotTaken(act.at, "the bounds of a FOR are numbers")
        if ends[0].number is None or ends[1].number is None:
            self._open_for(act, control, ends, step, words)
        else:
            self._fixed_for(act, control, ends[0].number, ends[1].number, step, words)

    def _fixed_for(self, act: Repeat, control: Leaf, first: int, last: int, step: int, words: set[str]) -> None:
        """A FOR with constant bounds; one that may be left counts in a variable of its own."""
        kind = control.type
        turns = (last - first) // step + 1
        ends = first, first + max(turns - 1, 0) * step
        if not (kind.low <= min(ends) and max(ends) <= kind.high):
            raise NotTaken(act.at, f"`{control.name}` has values from {kind.low} to {kind.high}")
        if act.bound is not None and turns > act.bound:
            raise NotTaken(act.at, f"this FOR has {turns} turns, and its bound is {act.bound}")
        if turns <= 0:
            self.emit(f"{control.name} := {first};")
            return
        by = f" BY {step}" if step != 1 else ""
        leaves = bool(words & {"EXIT", "RETURN"})
        counter = self.flag("turn", kind.stored) if leaves else control.name
        self._open_loop(words)
        self.emit(f"FOR {counter} := {first} TO {last}{by} DO")
        self.depth += 1
        if leaves:
            self.emit(f"IF {self._going(words)} THEN")
            self.depth += 1
            self.emit(f"{control.name} := {counter};")
        self._turn(act, words, control, (min(ends), max(ends)))
        if leaves:
            self.depth -= 1
            self.emit("END_IF;")
        self.depth -= 1
        self.emit("END_FOR;")

    def _open_loop(self, words: set[str]) -> None:
        """The flags of a loop, as it begins."""
        self.loop = (self.flag("left") if "EXIT" in words else "", self.flag("continued") if "CONTINUE" in words else "")
        if self.loop[0]:
            self.emit(f"{self.loop[0]} := FALSE;")

    def _going(self, words: set[str]) -> str:
        return self._not_left(words & {"EXIT", "RETURN"})

    def _turn(self, act: Repeat, words: set[str], control: Leaf | None = None, bounds: tuple[int, int] = (0, 0)) -> None:
        """The body of a loop, once."""
        if "CONTINUE" in words:
            self.emit(f"{self.loop[1]} := FALSE;")
        before = dict(self.bounds), set(self.controls)
        if control is not None:
            self.bounds[control.name] = bounds
            self.controls.add(control.name)
        self.body(act.body)
        self.bounds, self.controls = before

    def _open_for(self, act: Repeat, control: Leaf, ends: list[Code], step: int, words: set[str]) -> None:
        """A FOR whose bounds are computed, with a bound of turns: it counts in a wider variable, so that its last step stays in range."""
        if act.bound is None:
            raise NotTaken(act.at, "the bounds of this FOR are no constants: write how many turns it has at most behind DO, as (*@ bound 10 *)")
        stored = codes.wider(control.type.stored, ends[0].stored, ends[1].stored)
        if stored == "LINT":
            raise NotTaken(act.at, "a FOR whose bounds are computed counts in INT or DINT")
        last, following = self.flag("last", stored), self.flag("next", TYPES[TYPES.index(stored) + 1])
        turn, left = self.flag("turn", "DINT"), self.flag("left")
        first = ends[0] if ends[0].is_simple else self.kept(ends[0])
        self.emit(f"{last} := {ends[1].text};")
        self.store(control, first, act.at)
        self.emit(f"{following} := {control.name};")
        self.loop = (left, self.flag("continued") if "CONTINUE" in words else "")
        self.emit(f"{left} := FALSE;")
        self.emit(f"FOR {turn} := 1 TO {act.bound + 1} DO")
        self.depth += 1
        self.emit(f"IF {self._going(words | {'EXIT'})} THEN")
        self.depth += 1
        self.emit(f"IF {following} {'<=' if step > 0 else '>='} {last} THEN")
        self.depth += 1
        self._past(turn, act.bound)
        self.store(control, codes.name_code(following, TYPES[TYPES.index(stored) + 1], control.type.base, -GREATEST["LINT"], GREATEST["LINT"]), act.at)
        self.emit(f"{following} := {following} + {step};" if step > 0 else f"{following} := {following} - {-step};")
        self._turn(act, words, control, (control.type.low, control.type.high))
        self.depth -= 1
        self.emit("ELSE")
        self.depth += 1
        self.emit(f"{left} := TRUE;")
        self._close(3)

    def _past(self, turn: str, bound: int) -> None:
        """Stops at the turn behind the last one."""
        self.emit(f"IF {turn} > {bound} THEN")
        self.depth += 1
        self.stop(f"stops where there are more than {bound} turns")
        self.depth -= 1
        self.emit("END_IF;")

    def _close(self, levels: int) -> None:
        """Ends two IFs and a FOR, or one IF and a FOR."""
        for level in range(levels):
            self.depth -= 1
            self.emit("END_FOR;" if level == levels - 1 else "END_IF;")

    def _bounded(self, act: Repeat, bound: int, words: set[str]) -> None:
        """WHILE and REPEAT with a bound of turns: one turn more is a stop."""
        turn, left = self.flag("turn", "DINT"), self.flag("left")
        self.loop = (left, self.flag("continued") if "CONTINUE" in words else "")
        all_words = words | {"EXIT"}
        self.emit(f"{left} := FALSE;")
        self.emit(f"FOR {turn} := 1 TO {bound + 1 if act.form == 'WHILE' else bound} DO")
        self.depth += 1
        self.emit(f"IF {self._going(all_words)} THEN")
        self.depth += 1
        if act.form == "WHILE":
            self.emit(f"{left} := {codes.negation(self._condition(_needed(act.condition))).text};")
            self.emit(f"IF NOT {left} THEN")
            self.depth += 1
            self._past(turn, bound)
            self._turn(act, words)
        else:
            self._turn(act, words)
            guard = self._going(words)
            if guard:
                self.emit(f"IF {guard} THEN")
                self.depth += 1
            self.emit(f"{left} := {self._condition(_needed(act.condition)).text};")
            self.emit(f"IF {turn} = {bound} AND NOT {left} THEN")
            self.depth += 1
            self.stop(f"stops where there are more than {bound} turns")
            self.depth -= 1
            self.emit("END_IF;")
            if not guard:
                self._close(2)
                return
        self._close(3)


def _leaving(act: Act) -> set[str]:
    """By which words a statement may leave those round it."""
    if isinstance(act, Leave):
        return {act.word}
    if isinstance(act, Choose):
        return {word for case in act.cases for it in case.body for word in _leaving(it)}
    if isinstance(act, Repeat):
        return {word for it in act.body for word in _leaving(it)} & {"RETURN"}
    return set()


def _needed(term: Term | None) -> Term:
    assert term is not None
    return term
