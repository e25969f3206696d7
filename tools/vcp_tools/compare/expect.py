"""`expect`: compares a run with wanted rows, and names the first difference."""
from __future__ import annotations

import argparse
import sys
from dataclasses import dataclass

from vcp_tools.cycle_time import CycleTime, cycle_told
from vcp_tools.pictures.observe import Column, Observation, chosen, observe, rows_words, warnings
from vcp_tools.files import read_bytes
from vcp_tools.program import Program
from vcp_tools.refusal import FINE, FOUND, Refusal
from vcp_tools.read.rows_file import Record, cell_value, read_rows
from vcp_tools.pictures.table import add_run_words, period_of, text_of

_ENDINGS = ("end ", "stop ", "refused ")


@dataclass(frozen=True)
class Difference:
    """Where a run isn't as it is wanted: the line of the wanted rows, and what differs."""

    line: int
    message: str


@dataclass(frozen=True)
class Wanted:
    """Wanted rows: the columns, the records, whether they name their cycles, and a last line, where there is one."""

    columns: list[Column]
    records: list[Record]
    has_cycles: bool
    ending: Record | None


def add_words(parser: argparse.ArgumentParser) -> None:
    """The words of `expect`."""
    add_run_words(parser, "the rows file; behind it the file of wanted rows")


def run(given: argparse.Namespace) -> int:
    """Compares; the status is 9 where something differs."""
    rows, rest = rows_words(given.rest, given.cycles)
    if len(rest) != 1:
        raise Refusal("WANTED is missing: a file of wanted rows" if not rest else f"`{rest[1]}` is left over behind WANTED")
    period = period_of(given)
    found = observe(Program.found(), text_of(given), rows, given.trace)
    for line in warnings(rows):
        print(line, file=sys.stderr)
    file = rest[0]
    wanted = read_wanted(file, found)
    differences = compare(found, wanted, period)
    if not differences:
        print(f"{file}: as wanted: {len(wanted.records)} rows of {len(wanted.columns)} columns; {found.ending}")
        return FINE
    first = differences[0]
    more = f" (and {len(differences) - 1} more)" if len(differences) > 1 else ""
    print(f"{file}:{first.line}: {first.message}{more}")
    return FOUND


def read_wanted(file: str, found: Observation) -> Wanted:
    """The wanted rows of a file: a head of `cycle`, where it stands, and names; rows; and a last line as a run prints it, where it stands. A column of
    times, as `table` writes it, is left aside."""
    records = _without_times(read_rows(read_bytes(file)))
    if not records:
        raise Refusal(f"{file}: there is no record: the first line has the names of what is compared")
    head = records[0].cells
    has_cycles = head[0] == "cycle"
    columns = chosen(found, head[1:] if has_cycles else head)
    ending = records[-1] if len(records) > 1 and records[-1].fields[0].startswith(_ENDINGS) else None
    body = records[1:-1] if ending else records[1:]
    for record in body:
        if len(record.fields) != len(head):
            raise Refusal(f"{file}:{record.line}: {len(record.fields)} fields, and the head has {len(head)}")
        if has_cycles and not record.cells[0].isdigit():
            raise Refusal(f"{file}:{record.line}: `{record.cells[0]}` is no number of a cycle")
        for column, cell in zip(columns, record.cells[has_cycles:]):
            if cell != "" and cell_value(cell, column.declaration.type) is None:
                raise Refusal(f"{file}:{record.line}: `{cell}` is no value of `{column.name}` : {column.declaration.type}")
    return Wanted(columns, body, has_cycles, ending)


def _without_times(records: list[Record]) -> list[Record]:
    """Records without the fields of `time/s` or `time/ms`; a last line, as of a run, stays."""
    times = [at for at, cell in enumerate(records[0].cells) if cell.startswith("time/")] if records else []
    width = len(records[0].fields) if records else 0
    return [it._replace(fields=tuple(field for at, field in enumerate(it.fields) if at not in times)) if len(it.fields) == width else it
            for it in records] if times else records


def compare(found: Observation, wanted: Wanted, period: CycleTime | None = None) -> list[Difference]:
    """All differences, in order."""
    differences = []
    for number, record in enumerate(wanted.records):
        cycle = int(record.cells[0]) if wanted.has_cycles else number
        if cycle >= found.cycles:
            differences.append(Difference(record.line, f"{cycle_told(cycle, period)} is wanted, and the run ends before it: {found.ending}"))
            break
        for column, cell in zip(wanted.columns, record.cells[wanted.has_cycles :]):
            value = cell_value(cell, column.declaration.type)
            if cell != "" and value != column.values[cycle]:
                differences.append(Difference(record.line, f"{cycle_told(cycle, period)}: {column.name} is {column.values[cycle]}, and {cell} is wanted"))
    return differences or _ending_differences(found, wanted)


def _ending_differences(found: Observation, wanted: Wanted) -> list[Difference]:
    """What differs behind the rows: the last line, or how many cycles there are."""
    last = wanted.records[-1].line if wanted.records else 1
    if wanted.ending is not None:
        said = ",".join(wanted.ending.fields)
        return [] if said == found.ending else [Difference(wanted.ending.line, f"the run ends with `{found.ending}`, and `{said}` is wanted")]
    if not found.is_whole:
        return [Difference(last, f"the run ends early, of which nothing is wanted: {found.ending}")]
    if not wanted.has_cycles and found.cycles > len(wanted.records):
        return [Difference(last, f"the run has {found.cycles} cycles, and {len(wanted.records)} rows are wanted")]
    return []
