"""`table`: inputs, outputs and variables of a run side by side, cycle by cycle."""
from __future__ import annotations

import argparse
import sys
from typing import Iterator, Sequence

from vcp_tools.cycle_time import CycleTime, read_cycle_time
from vcp_tools.pictures.observe import Column, Observation, chosen, observe, of_origin, rows_words, warnings
from vcp_tools.program import Program
from vcp_tools.program_text import ProgramText, add_form_word
from vcp_tools.read.origin import WORDS
from vcp_tools.refusal import FINE, FOUND


def add_run_words(parser: argparse.ArgumentParser, rest: str) -> None:
    """The words that name a run: P, ROWS or `--cycles N`, and what stands behind."""
    parser.add_argument("program", metavar="P", help="the source, or an instruction list")
    parser.add_argument("rest", metavar="ROWS", nargs="*", help=rest)
    parser.add_argument("--cycles", type=int, metavar="N", help="so many cycles, in the place of ROWS, for a program without inputs")
    parser.add_argument("--trace", action="store_true", help="compare each value that the image has an operation for with `trace`, cycle by cycle")
    parser.add_argument("--cycle-time", metavar="TIME", help="how long a cycle takes, as 500ms or 20us: times are shown in s or ms, too")
    parser.add_argument("--from", dest="original", metavar="ORIGINAL", help=WORDS)
    add_form_word(parser)


def text_of(given: argparse.Namespace) -> ProgramText:
    """The text of the program that is given."""
    return ProgramText.read(given.program, given.as_list)


def period_of(given: argparse.Namespace) -> CycleTime | None:
    """How long a cycle takes; None where it isn't given."""
    return read_cycle_time(given.cycle_time) if given.cycle_time else None


def add_words(parser: argparse.ArgumentParser) -> None:
    """The words of `table`."""
    add_run_words(parser, "the rows file; behind it the names to show, else all inputs and outputs")
    parser.add_argument("--all", action="store_true", help="show the variables, too")
    parser.add_argument("--csv", action="store_true", help="commas in the place of columns")
    parser.add_argument("--changes", action="store_true", help="leave out a cycle in which nothing changes that is shown")
    parser.add_argument("--changes-of", metavar="NAMES", help="leave out a cycle in which none of these names changes, with commas between them")


def run(given: argparse.Namespace) -> int:
    """Prints the table; the status is 9 where the run ends early."""
    rows, names = rows_words(given.rest, given.cycles)
    period = period_of(given)
    found = of_origin(observe(Program.found(), text_of(given), rows, given.trace), given.program, given.original)
    for line in warnings(rows):
        print(line, file=sys.stderr)
    columns = found.columns if given.all and not names else chosen(found, names)
    watched = chosen(found, given.changes_of.split(",")) if given.changes_of else columns if given.changes else None
    sys.stdout.writelines(f"{line}\n" for line in table_lines(found, columns, given.csv, watched, period))
    return FINE if found.is_whole else FOUND


def table_lines(
    found: Observation, columns: Sequence[Column], with_commas: bool, watched: Sequence[Column] | None, period: CycleTime | None
) -> Iterator[str]:
    """The head, a line a cycle, or one for each cycle in which a watched column changes, and the last line of the run."""
    unit = period.unit_for(found.cycles) if period else ""
    head = ["cycle", *([f"time/{unit}"] if period else []), *(column.name for column in columns)]
    last = max(0, found.cycles - 1)
    widest = [str(last), *([period.at(last, unit)] if period else []), *(_widest(column.values) for column in columns)]
    widths = [max(len(name), len(cell)) for name, cell in zip(head, widest)]
    before: list[int] | None = None

    def line(cells: Sequence[str]) -> str:
        return ",".join(cells) if with_commas else "  ".join(cell.rjust(width) for cell, width in zip(cells, widths))

    yield line(head)
    for cycle in range(found.cycles):
        seen = [column.values[cycle] for column in watched or ()]
        if watched is None or seen != before:
            yield line([str(cycle), *([period.at(cycle, unit)] if period else []), *(str(column.values[cycle]) for column in columns)])
        before = seen
    yield found.ending


def _widest(values: Sequence[int]) -> str:
    """The value that takes the most room."""
    return max(str(min(values)), str(max(values)), key=len) if values else ""
