"""Stimuli: rows told by what changes. docs/TOOLS.md, 'rows', has the form.

The first line that is no remark has the names of the inputs with blanks between them, unless the program is given. Each later one has a number of
cycles, or a time, and `NAME=VALUE` for what changes in the first of them; what isn't named keeps its value, and begins with 0. A remark begins with `#`.
"""
from __future__ import annotations

import re
from dataclasses import dataclass
from itertools import groupby
from typing import Iterable, Iterator, Sequence

from vcp_tools.cycle_time import CycleTime
from vcp_tools.wording import listed, nearest
from vcp_tools.refusal import Refusal
from vcp_tools.read.rows_file import cell_value
from vcp_tools.read.source import GREATEST, LEAST
from vcp_tools.read.syntax import Declaration

MOST_CYCLES = 1_000_000
"""So many records a rows file may have."""
_NAME = re.compile(r"[A-Za-z_][A-Za-z0-9_]*\Z")


@dataclass(frozen=True)
class Step:
    """A line of stimuli: its number in the file, for how many cycles it holds, and what it changes."""

    line: int
    cycles: int
    changes: tuple[tuple[str, str], ...]


@dataclass(frozen=True)
class Stimuli:
    """The names of the inputs, as the file's head gives them (none where it has no head), and the steps."""

    names: tuple[str, ...]
    steps: list[Step]


def read_stimuli(text: str, file: str, period: CycleTime | None = None) -> Stimuli:
    """The stimuli of a text, in which times may stand for cycles where it is known how long one takes; a refusal names the line."""
    names: tuple[str, ...] = ()
    steps: list[Step] = []
    for number, line in enumerate(text.removeprefix("\ufeff").splitlines(), 1):
        words = line.partition("#")[0].split()
        if not words:
            continue
        if not steps and not names and all(_NAME.match(word) for word in words):
            names = tuple(words)
            continue
        steps.append(_step(words, number, file, period))
    return Stimuli(names, steps)


def _step(words: Sequence[str], number: int, file: str, period: CycleTime | None) -> Step:
    """The step of a line's words."""
    where = f"{file}:{number}"
    cycles = _cycles(words[0], where, period)
    changes: list[tuple[str, str]] = []
    for word in words[1:]:
        name, equals, value = word.partition("=")
        if not equals or not _NAME.match(name) or value == "":
            raise Refusal(f"{where}: `{word}` isn't `NAME=VALUE`, without blanks round the `=`")
        if any(name.upper() == before.upper() for before, _ in changes):
            raise Refusal(f"{where}: `{name}` occurs twice in the line: which value is meant?")
        changes.append((name, value))
    return Step(number, cycles, tuple(changes))


def _cycles(word: str, where: str, period: CycleTime | None) -> int:
    """For how many cycles a line holds: a number, or a time."""
    if re.fullmatch(r"[0-9.]+(s|ms|us|ns|ps)", word):
        if period is None:
            raise Refusal(f"{where}: `{word}` is a time: give `--cycle-time TIME` too, or a number of cycles")
        cycles = period.cycles_in(word)
        if cycles is None:
            raise Refusal(f"{where}: `{word}` is no whole number of cycles of {period.number} {period.unit}")
    else:
        cycles = int(word) if re.fullmatch(r"[0-9]{1,7}", word) else 0
    if not 1 <= cycles <= MOST_CYCLES:
        raise Refusal(f"{where}: `{word}` is where the number of cycles is wanted, 1 to {MOST_CYCLES}: a line is `6 approach=1`")
    return cycles


def rows_of(stimuli: Stimuli, inputs: Sequence[Declaration] | None, file: str) -> tuple[list[str], list[tuple[list[str], int]]]:
    """The names and the rows that stimuli tell, each with how many cycles it holds; with the inputs of a program, in their order and with values of their
    types."""
    names = [it.name for it in inputs] if inputs is not None else list(stimuli.names)
    if not names:
        raise Refusal(f"{file}: the names of the inputs are missing: the first line has them, or the program is given")
    if inputs is not None and stimuli.names:
        _same_names(stimuli.names, names, file)
    types = {it.name.upper(): it.type for it in inputs or ()}
    column = {name.upper(): index for index, name in enumerate(names)}
    now = ["0"] * len(names)
    rows: list[tuple[list[str], int]] = []
    cycles = 0
    for step in stimuli.steps:
        for name, value in step.changes:
            now[_column(name, column, names, f"{file}:{step.line}")] = _checked(name, value, types.get(name.upper()), f"{file}:{step.line}")
        cycles += step.cycles
        if cycles > MOST_CYCLES:
            raise Refusal(f"{file}:{step.line}: more than {MOST_CYCLES} cycles")
        rows.append((list(now), step.cycles))
    if not rows:
        raise Refusal(f"{file}: no line has a number of cycles")
    return names, rows


def _same_names(given: Iterable[str], names: Sequence[str], file: str) -> None:
    """Refuses a head that isn't the program's inputs, in any order."""
    wanted = {name.upper() for name in names}
    extra = [name for name in given if name.upper() not in wanted]
    missing = [name for name in names if name.upper() not in {it.upper() for it in given}]
    if extra or missing:
        said = [f"no input of the program: {listed(extra)}"] * bool(extra) + [f"missing: {listed(missing)}"] * bool(missing)
        raise Refusal(f"{file}: the head isn't the inputs of the program: {'; '.join(said)}")


def _column(name: str, column: dict[str, int], names: Sequence[str], where: str) -> int:
    """The column of a name."""
    if name.upper() in column:
        return column[name.upper()]
    near = nearest(name, names)
    raise Refusal(f"{where}: `{name}` is no input" + (f": did you mean `{near}`?" if near else f": there are {listed(names)}"))


def _checked(name: str, value: str, type_name: str | None, where: str) -> str:
    """A value, where it is one of its type; of an unknown type any that some cell may be."""
    fits = cell_value(value, type_name) is not None if type_name else any(cell_value(value, it) is not None for it in LEAST)
    if fits:
        return value
    least, greatest = (LEAST[type_name], GREATEST[type_name]) if type_name else (LEAST["LINT"], GREATEST["LINT"])
    kind = f"a value of `{name}` : {type_name}" if type_name else "a value"
    words = "0, 1, TRUE or FALSE" if type_name == "BOOL" else f"a whole number from {least} to {greatest}"
    raise Refusal(f"{where}: `{value}` isn't {kind}: {words}")


def stimuli_lines(names: Sequence[str], rows: Iterable[Sequence[str]]) -> Iterator[str]:
    """The lines of stimuli that tell these rows: a line for each run of equal rows, with what changes."""
    yield " ".join(names)
    before: Sequence[str] = ["0"] * len(names)
    for row, equal in groupby(rows):
        changes = [f"{name}={value}" for name, value, old in zip(names, row, before) if value != old]
        yield " ".join([str(sum(1 for _ in equal)), *changes])
        before = row
