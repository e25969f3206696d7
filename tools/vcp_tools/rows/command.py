"""`rows`: stimuli to a rows file and back, a check for input that `vcp` accepts without warning, and rows that reach all of a program."""
from __future__ import annotations

import argparse
import sys
from itertools import chain
from typing import Iterator, Mapping, Sequence

from vcp_tools.ask.cycles import Interval
from vcp_tools.ask.inputs import read_inputs
from vcp_tools.ask.reach import add_words as add_reach_words, run as run_reach
from vcp_tools.explain.hints_rows import Looked, encoding_of
from vcp_tools.files import read_bytes
from vcp_tools.cycle_time import CycleTime, read_cycle_time
from vcp_tools.program_text import add_form_word
from vcp_tools.refusal import FINE, FOUND, Refusal
from vcp_tools.read.declarations import inputs_of
from vcp_tools.read.image import Slot
from vcp_tools.read.rows_file import Record, cell_value, record_of, stream_rows
from vcp_tools.read.syntax import Declaration
from vcp_tools.rows.stimuli import read_stimuli, rows_of, stimuli_lines

MOST_TOLD = 200
"""So many faults of a rows file are told at most, one by one."""


def add_words(parser: argparse.ArgumentParser) -> None:
    """The words of `rows`."""
    below = parser.add_subparsers(dest="what", required=True, metavar="WHAT")
    make = below.add_parser("make", help="the rows file of stimuli, on standard output")
    make.add_argument("stimuli", help="lines as `6 approach=1`: for six cycles, from the first on with approach 1")
    make.add_argument("program", nargs="?", help="the source or the instruction list whose inputs these are: their order, names and types are kept to")
    add_form_word(make)
    make.add_argument("--cycle-time", metavar="TIME", help="how long a cycle takes, as 500ms, where lines have times, as `3s approach=1`")
    back = below.add_parser("stimuli", help="the stimuli of a rows file, on standard output")
    back.add_argument("rows", help="a rows file")
    check = below.add_parser("check", help="what is wrong in a rows file, or accepted without warning")
    check.add_argument("rows", help="a rows file")
    check.add_argument("program", nargs="?", help="the source or the instruction list whose inputs these are: names and cells are looked at, too")
    add_form_word(check)
    check.add_argument("--inputs", metavar="FILE", help="a table `input,least,greatest`, as `vcp_study ranges` takes it: the rows that break it are named")
    reach = below.add_parser("reach", help="rows by which each branch and label is taken, and each BOOL output turns; and what no row reaches")
    add_reach_words(reach)


def run(given: argparse.Namespace) -> int:
    """Does what the words of `rows` ask for."""
    if given.what == "reach":
        return run_reach(given)
    if given.what == "make":
        return _make(given.stimuli, given.program, read_cycle_time(given.cycle_time) if given.cycle_time else None)
    return _back(given.rows) if given.what == "stimuli" else _check(given.rows, given.program, given.inputs)


def _make(file: str, program: str | None, period: CycleTime | None) -> int:
    stimuli = read_stimuli(read_bytes(file).decode("utf-8", "replace"), file, period)
    names, steps = rows_of(stimuli, inputs_of(program) if program else None, file)
    print(",".join(names))
    for row, cycles in steps:
        sys.stdout.write((",".join(row) + "\n") * cycles)
    return FINE


def _back(file: str) -> int:
    data = read_bytes(file)
    header = header_of(data, file)
    records = (it.cells for it in stream_rows(data) if isinstance(it, Record) and it.number > 1)
    for line in stimuli_lines(header.cells, records):
        print(line)
    return FINE


def header_of(data: bytes, file: str) -> Record:
    """The header of a rows file that has as many cells in each record; else a refusal."""
    if encoding_of(data):
        raise Refusal(f"{file}: the file is in UTF-16: save it in UTF-8")
    header = record_of(data, 1)
    if header is None:
        raise Refusal(f"{file}: there is no record")
    for it in stream_rows(data):
        if isinstance(it, Record) and len(it.fields) != len(header.fields):
            raise Refusal(f"{file}:{it.line}: {len(it.fields)} fields, and the header has {len(header.fields)} (`vcp_tools rows check {file}` says more)")
    return header


def _check(file: str, program: str | None, inputs: str | None) -> int:
    if inputs and program is None:
        raise Refusal("rows check: `--inputs` wants the program whose inputs these are: rows check ROWS P --inputs FILE")
    data = read_bytes(file)
    declared = inputs_of(program) if program else None
    within = read_inputs(inputs, [Slot(it.name, it.type, number) for number, it in enumerate(declared)]) if inputs and declared is not None else {}
    looked = Looked(data, declared)
    lines = data.count(b"\n")
    told = 0
    for message in chain((f"{hint.line}:{hint.start + 1}: {hint.message}" for hint in
                          looked.faults(lambda record: print(f"rows: {record} of {lines} records", file=sys.stderr))),
                         _broken(data, declared or [], within, inputs)):
        told += 1
        if told <= MOST_TOLD:
            print(f"{file}:{message}")
    if told > MOST_TOLD:
        print(f"{file}: and {told - MOST_TOLD} more")
    elif not told and looked.header is not None:
        kept = f", all as in {inputs}" if inputs else ""
        print(f"{file}: {looked.rows} rows of {len(looked.header.fields)} inputs{kept}, and nothing that vcp accepts without warning")
    return FOUND if told else FINE


def _broken(data: bytes, declared: Sequence[Declaration], within: Mapping[int, Interval], inputs: str | None) -> Iterator[str]:
    """The cells whose values aren't between the ends that are assumed of their inputs; what is no value of its type is told elsewhere."""
    header = record_of(data, 1)
    if header is None or not within:
        return
    ends = {declared[number].name.upper(): (declared[number].type, *interval) for number, interval in within.items()}
    columns = [ends.get(name.upper()) for name in header.cells]
    for record in stream_rows(data):
        if isinstance(record, int) or record.number == 1:
            continue
        for at, (cell, column) in enumerate(zip(record.cells, columns)):
            value = cell_value(cell, column[0]) if column else None
            if column and value is not None and not column[1] <= value <= column[2]:
                start = sum(len(field) + 1 for field in record.fields[:at])
                where = f"{record.line}:{start + 1}"
                yield f"{where}: {header.cells[at]} is {value} in cycle {record.number - 2}: {column[1]} to {column[2]} is assumed by {inputs}"
