"""A whole program of the profile from the tree of a text as controllers have it."""
from __future__ import annotations

import re
from dataclasses import dataclass
from typing import Iterator

from vcp_tools.lower.declare import unit_of
from vcp_tools.lower.expressions import time_of
from vcp_tools.lower.nodes import leaves
from vcp_tools.lower.statements import Statements
from vcp_tools.lower.text import Declaration, Line
from vcp_tools.read.source import GREATEST, Source
from vcp_tools.read.wider_text import blanked
from vcp_tools.read.wider_tree import Act, Assign, Choose, Declared, File, Initial, Invoke, Repeat, Term, acts

_SECTIONS = ("VAR_INPUT", "VAR_OUTPUT", "VAR CONSTANT", "VAR")


@dataclass(frozen=True)
class Lowered:
    """What is written: the text, and remarks with their places in the original."""

    text: str
    notes: list[tuple[int, str]]


def lowered(file: File, source: Source, name: str, period: int, told_period: str) -> Lowered:
    """The program of the profile. Raises NotTaken at what isn't taken."""
    work = Statements(file, period, any(abs(time_of(it.text, it.at)) > GREATEST["DINT"] for it in _all_terms(file) if it.form == "time"))
    unit = unit_of(file)
    for named in file.types:
        if named.type.form == "enumeration":
            work.type_of_name(Term("name", named.at, named.name))
    global_declared = [Declared(it.name, it.at, "VAR_GLOBAL", it.attributes, it.type, it.address, it.initial) for it in file.globals]
    all_declared = [*global_declared, *unit.declared]
    work.at = unit.at
    exact = [it for it in all_declared if it.section in ("VAR_INPUT", "VAR_OUTPUT") or it.address[1:2].upper() in ("I", "Q")]
    work.enter([it for it in all_declared if it.is_constant], work.frame, "", True)
    work.enter(exact, work.frame, "", True)
    work.enter([it for it in all_declared if it not in exact and not it.is_constant], work.frame, "", True)
    for leaf in [leaf for it in exact for leaf in leaves((work.globals if it.section == "VAR_GLOBAL" else work.frame)[it.name.upper()])]:
        if leaf.name in work.inputs and leaf.type.stored != "BOOL":
            work.at = leaf.at
            work.checked_input(leaf)
    work.at = unit.at
    work.restart(unit.declared, work.frame, ("VAR_TEMP",))
    begun = len(work.out)
    work.run_program(unit)
    growing = list(_growing(work))
    work.out[begun:begun] = growing
    if work.wants_stop:
        work.declared.append(Declaration("VAR", "out_of_range", "INT", "", unit.at, "set where the run stops"))
    return Lowered(_written(work, source, unit.name, unit.at, name, told_period), _notes(work, file, blanked(source.text)[1]))


def _growing(work: Statements) -> Iterator[Line]:
    """The lines by which the times of timers grow as a cycle begins."""
    for leaf, at in work.timers:
        if work.period:
            yield Line(1, f"{leaf.name} := MIN({leaf.name}, {GREATEST[leaf.type.stored] - work.period}) + {work.period};", at, "a cycle has passed")


def _written(work: Statements, source: Source, program: str, at: int, name: str, told_period: str) -> str:
    """The text."""
    def told(place: int, remark: str) -> str:
        return f"  // line {source.place(place)[0]}" + (f": {remark}" if remark else "")

    cycles = f" with cycles of {told_period}" if told_period else ""
    found = [f"// Not proved: written by `vcp_tools lower` from {name}{cycles}. `vcp_tools lower --check` compares it with a second reading."]
    found.append(f"PROGRAM {program}{told(at, '')}")
    used = "\n".join(line.text for line in work.out)
    constants = [it for it in work.constants.values() if _is_named(used, it.name)]
    for section in _SECTIONS:
        group: list[Declaration] = constants if section == "VAR CONSTANT" else [it for it in work.declared if it.section == section]
        if group:
            found.append(f"{section}{told(group[0].at, '')}")
            found += [f"  {it.name} : {it.stored}{f' := {it.initial}' if it.initial else ''};{told(it.at, it.remark)}" for it in group]
            found.append(f"END_VAR{told(group[-1].at, '')}")
    found += [f"{'  ' * line.depth}{line.text}{told(line.at, line.remark)}" for line in work.out]
    found.append(f"END_PROGRAM{told(at, '')}")
    return "\n".join(found) + "\n"


def _is_named(text: str, name: str) -> bool:
    return re.search(rf"\b{re.escape(name)}\b", text, re.I) is not None


def _notes(work: Statements, file: File, pragmas: list[int]) -> list[tuple[int, str]]:
    """What the user is told: pragmas that are left out, and times that are rounded up."""
    found = [(at, "a pragma is left out") for at in pragmas]
    if not work.period:
        return found
    for term, at in _times(file):
        time = time_of(term.text, at)
        if time % work.period:
            rounded = (time // work.period + 1) * work.period
            found.append((at, f"`{term.text}` is no whole number of cycles: a timer acts as with {rounded} ms"))
    return sorted(set(found))


def _times(file: File) -> Iterator[tuple[Term, int]]:
    for it in _all_terms(file):
        if it.form == "time":
            yield it, it.at


def _all_terms(file: File) -> Iterator[Term]:
    """All expressions of a file, and their parts."""
    for declared in [*file.globals, *(it for unit in file.units for it in unit.declared)]:
        yield from _of_initial(declared.initial)
    for unit in file.units:
        for act in acts(unit.body):
            for term in _of_act(act):
                yield from term.inside()


def _of_initial(initial: Initial | None) -> Iterator[Term]:
    if initial is None:
        return
    if initial.value is not None:
        yield from initial.value.inside()
    for inner in [*(it for _, it in initial.items), *(it for _, it in initial.fields)]:
        yield from _of_initial(inner)


def _of_act(act: Act) -> Iterator[Term]:
    """The expressions of a statement itself."""
    if isinstance(act, Assign):
        yield from [act.value, *act.targets]
    elif isinstance(act, Invoke):
        yield from [*act.values, *(it.value for it in act.named if it.value is not None)]
    elif isinstance(act, Choose):
        yield from [it for it in (act.selector, *(case.condition for case in act.cases)) if it is not None]
    elif isinstance(act, Repeat):
        yield from [*act.bounds, *([act.condition] if act.condition is not None else [])]
