"""`vcd`: a run as a value change dump, after IEEE 1364, for GTKWave and other viewers."""
from __future__ import annotations

import argparse
import sys
from typing import Iterator

from vcp_tools.cycle_time import CycleTime
from vcp_tools.pictures.observe import Column, Observation, chosen, observe, of_origin, rows_words, warnings
from vcp_tools.program import Program
from vcp_tools.refusal import FINE, FOUND
from vcp_tools.pictures.table import add_run_words, period_of, text_of

BITS = {"BOOL": 1, "INT": 16, "DINT": 32, "LINT": 64}
USUAL = CycleTime(1, "ms")
"""How long a cycle takes where it isn't given."""


def add_words(parser: argparse.ArgumentParser) -> None:
    """The words of `vcd`."""
    add_run_words(parser, "the rows file; behind it the names to show, else all inputs, outputs and variables")


def run(given: argparse.Namespace) -> int:
    """Prints the dump; the status is 9 where the run ends early."""
    rows, names = rows_words(given.rest, given.cycles)
    period = period_of(given) or USUAL
    found = of_origin(observe(Program.found(), text_of(given), rows, given.trace), given.program, given.original)
    for line in warnings(rows):
        print(line, file=sys.stderr)
    columns = chosen(found, names) if names else found.columns
    sys.stdout.writelines(f"{line}\n" for line in dump(found, columns, period))
    return FINE if found.is_whole else FOUND


def dump(found: Observation, columns: list[Column], period: CycleTime) -> Iterator[str]:
    """The lines of the dump: the declarations, all values in cycle 0, and then each value in the cycle in which it changes."""
    yield f"$comment {found.name}, {found.cycles} cycles of {period.number} {period.unit}; {found.ending} $end"
    yield f"$timescale 1 {period.unit} $end"
    yield f"$scope module {found.name} $end"
    marks = {column.name: mark for column, mark in zip(columns, _marks())}
    for group in ("inputs", "outputs", "variables"):
        inside = [column for column in columns if column.group == group]
        if inside:
            yield f"$scope module {group} $end"
            yield from (f"$var {_kind(column)} {BITS[column.declaration.type]} {marks[column.name]} {column.name} $end" for column in inside)
            yield "$upscope $end"
    yield from ("$upscope $end", "$enddefinitions $end")
    for cycle in range(found.cycles):
        changed = [column for column in columns if cycle == 0 or column.values[cycle] != column.values[cycle - 1]]
        if changed:
            told = [_value(column, column.values[cycle], marks[column.name]) for column in changed]
            yield f"#{cycle * period.number}"
            yield from ["$dumpvars", *told, "$end"] if cycle == 0 else told
    yield f"#{found.cycles * period.number}"


def _kind(column: Column) -> str:
    return "wire" if column.declaration.type == "BOOL" else "integer"


def _value(column: Column, value: int, mark: str) -> str:
    """A value: one digit of a BOOL, else its bits in two's complement."""
    bits = BITS[column.declaration.type]
    return f"{value}{mark}" if bits == 1 else f"b{value & ((1 << bits) - 1):0{bits}b} {mark}"


def _marks() -> Iterator[str]:
    """Short names of printable characters, each once."""
    letters = [chr(code) for code in range(33, 127)]
    yield from letters
    for first in letters:
        for second in letters:
            yield first + second
