"""`simulate`: the run of a text as it stands, in a plain interpreter."""
from __future__ import annotations

import argparse
from typing import Iterator, Sequence

from vcp_tools.cycle_time import read_cycle_time
from vcp_tools.files import read_bytes
from vcp_tools.pictures.observe import rows_words
from vcp_tools.read.rows_file import Record, read_rows
from vcp_tools.read.source import Source
from vcp_tools.read.wider_file import source_and_tree
from vcp_tools.read.wider_tree import File, NotTaken
from vcp_tools.refusal import FINE, FOUND, Refusal
from vcp_tools.simulate.interpreter import Machine, is_input, is_output
from vcp_tools.simulate.memory import leaves
from vcp_tools.simulate.values import Stop, Variable


def add_words(parser: argparse.ArgumentParser) -> None:
    """The words of `simulate`."""
    parser.add_argument("program", metavar="P", help="the text, as a controller has it")
    parser.add_argument("rest", metavar="ROWS", nargs="*", help="the rows file; the column of an element or a field has its name with underscores")
    parser.add_argument("--cycles", type=int, metavar="N", help="so many cycles, in the place of ROWS, for a program without inputs")
    parser.add_argument("--cycle-time", metavar="TIME", help="how long a cycle takes, as 100ms; a text with times wants it")


def run(given: argparse.Namespace) -> int:
    """Prints the run as `vcp plain` prints one; the status is 9 where it stops."""
    rows, names = rows_words(given.rest, given.cycles)
    if names:
        raise Refusal(f"`{names[0]}`: one rows file is wanted")
    source, tree = source_and_tree(given.program)
    last = ""
    for last in simulated(given.program, source, tree, given.cycle_time, rows):
        print(last)
    return FINE if last.startswith("end") else FOUND


def simulated(name: str, source: Source, tree: File, cycle_time: str | None, rows: Sequence[str]) -> Iterator[str]:
    """The lines of a run: the outputs of each cycle, and how it ends. A refusal where the text has what isn't taken."""
    try:
        machine = Machine(tree, period_of(cycle_time))
        yield from _lines(machine, source, rows)
    except NotTaken as fault:
        raise Refusal(f"{name}:{source.told(fault.at)}: {fault.message}") from None


def period_of(cycle_time: str | None) -> int:
    """How many milliseconds a cycle takes; 0 where it isn't given."""
    if not cycle_time:
        return 0
    found = read_cycle_time(cycle_time)
    scale = {"s": (1000, 1), "ms": (1, 1), "us": (1, 1000), "ns": (1, 10**6), "ps": (1, 10**9)}[found.unit]
    if found.number * scale[0] % scale[1]:
        raise Refusal(f"--cycle-time: {cycle_time} is no whole number of milliseconds")
    return found.number * scale[0] // scale[1]


def _lines(machine: Machine, source: Source, rows: Sequence[str]) -> Iterator[str]:
    declared = machine.declared()
    inputs = [leaf for it in declared if is_input(it) for leaf in leaves(it.name, machine.of_program(it))]
    outputs = [leaf for it in declared if is_output(it) for leaf in leaves(it.name, machine.of_program(it))]
    cycles = _cells(rows, inputs)
    yield ",".join(["cycle", *(name for name, _ in outputs)])
    cycle = 0
    for cells in cycles:
        try:
            for (_, variable), number in zip(inputs, cells):
                if not variable.kind.low <= number <= variable.kind.high:
                    raise Stop("RANGE", 0)
                variable.number = number
            machine.cycle()
        except Stop as stop:
            yield f"stop {cycle} {stop.kind} {source.told(stop.at)}"
            return
        yield ",".join(map(str, (cycle, *(variable.number for _, variable in outputs))))
        cycle += 1
    yield f"end {cycle}"


def _cells(rows: Sequence[str], inputs: Sequence[tuple[str, Variable]]) -> Iterator[list[int]]:
    """The values of the inputs in each cycle, in the inputs' order; the names of the columns are looked at before the first."""
    if rows[0] == "--cycles":
        if inputs:
            raise Refusal("the program has inputs: a rows file is wanted in the place of --cycles")
        return ([] for _ in range(int(rows[1])))
    records = read_rows(read_bytes(rows[0]))
    heads = [it.upper() for it in records[0].cells] if records else []
    for name, _ in inputs:
        if heads.count(name.upper()) != 1:
            raise Refusal(f"{rows[0]}: one column `{name}` is wanted")
    if len(heads) != len(inputs):
        raise Refusal(f"{rows[0]}: {len(heads)} columns, and {len(inputs)} are wanted")
    places = [heads.index(name.upper()) for name, _ in inputs]
    return (_numbers(rows[0], record, places) for record in records[1:])


def _numbers(file: str, record: Record, places: Sequence[int]) -> list[int]:
    """The numbers of a record, in the inputs' order."""
    try:
        return [int(record.cells[at]) for at in places]
    except (ValueError, IndexError):
        raise Refusal(f"{file}:{record.line}: this is no row of {len(places)} numbers") from None
