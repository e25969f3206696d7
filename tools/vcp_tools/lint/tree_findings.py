"""What is lawful and likely a mistake, by the tree of a program: names that nothing sets or reads, labels, branches, counters."""
from __future__ import annotations

from dataclasses import dataclass
from typing import Iterator, Sequence

from vcp_tools.lint.constants import constant
from vcp_tools.read.source import GREATEST, LEAST, Source
from vcp_tools.read.syntax import Assign, Branch, Choice, Declaration, Expr, Loop, Statement, Tree, Types, expressions


@dataclass(frozen=True)
class Finding:
    """A likely mistake: its kind by a short name, the byte of the source at which it is told, and what is said."""

    kind: str
    at: int
    message: str


def tree_findings(source: Source, tree: Tree) -> Iterator[Finding]:
    """All findings of a program's tree."""
    types = Types(tree)
    yield from _uses(tree)
    for statement in tree.statements():
        if isinstance(statement, Choice):
            yield from _branches(source, types, statement)
        elif isinstance(statement, Loop):
            yield from _turns(types, statement)
    yield from _lost(tree.body, source)
    yield from _counters(tree, types)


def reads(statement: Statement) -> set[str]:
    """The names in capitals that a statement reads, those of its bodies, too."""
    found = {part.text.upper() for expr in expressions(statement) for part in expr.inside() if part.form == "name"}
    for body in _bodies(statement):
        for inner in body:
            found |= reads(inner)
    return found


def sets(statement: Statement) -> set[str]:
    """The names in capitals that a statement sets, those of its bodies, too."""
    found = set() if isinstance(statement, Choice) else {statement.name.upper()}
    for body in _bodies(statement):
        for inner in body:
            found |= sets(inner)
    return found


def _bodies(statement: Statement) -> list[list[Statement]]:
    if isinstance(statement, Choice):
        return [branch.body for branch in statement.branches]
    return [statement.body] if isinstance(statement, Loop) else []


def _uses(tree: Tree) -> Iterator[Finding]:
    """Names that nothing sets, or nothing reads."""
    read: set[str] = set().union(*(reads(statement) for statement in tree.body)) if tree.body else set()
    read |= {part.text.upper() for it in tree.declarations if it.initial for part in it.initial.inside() if part.form == "name"}
    written: set[str] = set().union(*(sets(statement) for statement in tree.body)) if tree.body else set()
    elsewhere = _read_elsewhere(tree)
    for it in tree.declarations:
        name = it.name.upper()
        if it.section in ("VAR", "VAR RETAIN") and name in read and name in written and name not in elsewhere:
            yield Finding("feeds-itself-alone", it.at, f"the variable `{it.name}` is read for its own next value alone: its value goes nowhere")
        if it.section == "VAR_INPUT" and name not in read:
            yield Finding("input-never-read", it.at, f"the input `{it.name}` is never read: its column changes nothing")
        elif it.section == "VAR_OUTPUT" and name not in written:
            yield Finding("output-never-set", it.at, f"the output `{it.name}` is never set: it keeps its initial value")
        elif it.section == "VAR CONSTANT" and name not in read:
            yield Finding("never-read", it.at, f"the constant `{it.name}` is never read")
        elif it.section in ("VAR", "VAR RETAIN"):
            yield from _variable_uses(it, name in read, name in written)


def _read_elsewhere(tree: Tree) -> set[str]:
    """The names in capitals that something reads which sets another name: a variable that sets its own next value alone isn't among them."""
    found: set[str] = set()
    for statement in tree.statements():
        names = {part.text.upper() for expr in expressions(statement) for part in expr.inside() if part.form == "name"}
        found |= names - {statement.name.upper()} if isinstance(statement, Assign) else names - _only_set(statement)
    return found


def _only_set(statement: Statement) -> set[str]:
    """The one name that all branches of a choice set, where they set one alone."""
    found = sets(statement)
    return found if len(found) == 1 else set()


def _variable_uses(it: Declaration, is_read: bool, is_set: bool) -> Iterator[Finding]:
    if not is_read and not is_set:
        yield Finding("never-read", it.at, f"the variable `{it.name}` is neither read nor set")
    elif not is_read:
        yield Finding("never-read", it.at, f"the variable `{it.name}` is set and never read: its value goes nowhere")
    elif not is_set:
        yield Finding("never-set", it.at, f"the variable `{it.name}` is read and never set: it keeps its initial value; is it a constant?")


def _branches(source: Source, types: Types, choice: Choice) -> Iterator[Finding]:
    """Branches that can't be taken."""
    if choice.selector is not None:
        yield from _labels(source, types, choice)
        return
    before: list[tuple[str, int]] = []
    for branch in choice.branches:
        if branch.condition is None:
            continue
        value = constant(types, branch.condition)
        text = _spelled(branch.condition)
        same = next((at for spelled, at in before if spelled == text), None)
        if value == 0:
            yield Finding("branch-never-taken", branch.at, "the condition is always FALSE: this branch is never taken")
        elif value == 1 and branch is not choice.branches[-1]:
            yield Finding("branch-never-taken", branch.at, "the condition is always TRUE: no branch behind this one is ever taken")
        elif value == 1:
            yield Finding("condition-always-true", branch.at, "the condition is always TRUE")
        elif same is not None:
            yield Finding("branch-never-taken", branch.at, f"the condition is the one at {source.told(same)}: this branch is never taken")
        before.append((text, branch.at))


def _spelled(expr: Expr) -> str:
    """An expression in one spelling, without regard to case, blanks and brackets."""
    if not expr.parts:
        return expr.text.upper()
    return f"{expr.form}:{expr.text.upper() if expr.form == 'call' else ''}({','.join(_spelled(part) for part in expr.parts)})"


def _labels(source: Source, types: Types, choice: Choice) -> Iterator[Finding]:
    """Labels that overlap, and branches of which each label stands before."""
    taken: list[tuple[int, int, int]] = []
    for branch in choice.branches:
        ranges = [(types.value(first), types.value(last), first.start) for first, last in branch.labels]
        known = [(low, high, at) for low, high, at in ranges if low is not None and high is not None]
        if known and all(_covered(low, high, taken) for low, high, _ in known):
            yield Finding("branch-never-taken", branch.at, "each label of this branch comes before, and the first such branch is taken: this one never is")
        else:
            for index, (low, high, at) in enumerate(known):
                yield from _overlap(source, low, high, at, taken + known[:index])
        taken += known


def _overlap(source: Source, low: int, high: int, at: int, taken: Sequence[tuple[int, int, int]]) -> Iterator[Finding]:
    other = next(((max(low, first), min(high, last), place) for first, last, place in taken if first <= high and low <= last), None)
    if other is not None:
        values = str(other[0]) if other[0] == other[1] else f"{other[0]} to {other[1]}"
        yield Finding("labels-overlap", at, f"the label holds {values}, and so does the one at {source.told(other[2])}, whose branch is taken")


def _covered(low: int, high: int, taken: Sequence[tuple[int, int, int]]) -> bool:
    """Whether each value of a range is in one of the others."""
    for first, last, _ in sorted(taken):
        if first <= low <= last:
            low = last + 1
    return low > high


def _turns(types: Types, loop: Loop) -> Iterator[Finding]:
    """A FOR without a turn."""
    values = [constant(types, bound) for bound in loop.bounds]
    step = values[2] if len(values) > 2 else 1
    first, last = values[0], values[1]
    if first is not None and last is not None and step is not None and (first > last if step > 0 else first < last):
        yield Finding("branch-never-taken", loop.at, f"the FOR goes from {first} to {last} by {step}: it has no turn")


def _lost(body: Sequence[Statement], source: Source) -> Iterator[Finding]:
    """Values that are set and set anew before anything reads them."""
    unread: dict[str, int] = {}
    for statement in body:
        for name in reads(statement):
            unread.pop(name, None)
        if isinstance(statement, Assign):
            name = statement.name.upper()
            if name in unread:
                yield Finding("value-lost", unread[name], f"the value is never read: `{statement.name}` is set anew at {source.told(statement.at)}")
            unread[name] = statement.at
            continue
        for name in sets(statement):
            unread.pop(name, None)
        for inner in _bodies(statement):
            yield from _lost(inner, source)


def _counters(tree: Tree, types: Types) -> Iterator[Finding]:
    """Variables that only grow, or only shrink, and that nothing limits."""
    assignments = list(_guarded(tree.body, frozenset()))
    for it in tree.declarations:
        if it.section not in ("VAR", "VAR RETAIN", "VAR_OUTPUT") or it.type == "BOOL":
            continue
        own = [(assign, guards) for assign, guards in assignments if assign.name.upper() == it.name.upper()]
        steps = [_step(types, assign) for assign, _ in own]
        loops = any(isinstance(statement, Loop) and statement.name.upper() == it.name.upper() for statement in tree.statements())
        known = [step for step in steps if step]
        if not own or loops or len(known) < len(steps) or any(it.name.upper() in guards for _, guards in own):
            continue
        if all(step > 0 for step in known) or all(step < 0 for step in known):
            yield _growth(it, own[0][0], known, types)


def _growth(it: Declaration, assign: Assign, steps: Sequence[int], types: Types) -> Finding:
    """What is said of a counter that nothing limits."""
    start = types.value(it.initial) if it.initial is not None else 0
    way = "grows" if steps[0] > 0 else "shrinks"
    room = GREATEST[it.type] - (start or 0) if steps[0] > 0 else (start or 0) - LEAST[it.type]
    cycle = room // abs(steps[0])
    often = f"where it is set once a cycle, the run stops in cycle {cycle}" if len(steps) == 1 else "the run stops when it leaves its type"
    return Finding("counter-only-grows", assign.at, f"`{it.name}` only {way}, and nothing limits or resets it: {often} (RANGE); limit it, as by MIN(.., ..)")


def _step(types: Types, assign: Assign) -> int | None:
    """By how much `v := v + c` or `v := v - c` changes its variable; None of any other assignment."""
    value = assign.value
    if value.form not in ("+", "-"):
        return None
    first, last = value.parts
    if first.form == "name" and first.text.upper() == assign.name.upper():
        by = constant(types, last)
        return None if by is None else by if value.form == "+" else -by
    if value.form == "+" and last.form == "name" and last.text.upper() == assign.name.upper():
        return constant(types, first)
    return None


def _guarded(body: Sequence[Statement], guards: frozenset[str]) -> Iterator[tuple[Assign, frozenset[str]]]:
    """Each assignment with the names that the conditions and selectors round it read."""
    for statement in body:
        if isinstance(statement, Assign):
            yield statement, guards
        elif isinstance(statement, Loop):
            yield from _guarded(statement.body, guards)
        else:
            yield from _guarded_branches(statement, guards)


def _guarded_branches(choice: Choice, guards: frozenset[str]) -> Iterator[tuple[Assign, frozenset[str]]]:
    read = set(guards)
    if choice.selector is not None:
        read |= _names(choice.selector)
    for branch in choice.branches:
        read |= _condition_names(branch)
        yield from _guarded(branch.body, frozenset(read))


def _condition_names(branch: Branch) -> set[str]:
    return _names(branch.condition) if branch.condition is not None else set()


def _names(expr: Expr) -> set[str]:
    return {part.text.upper() for part in expr.inside() if part.form == "name"}
