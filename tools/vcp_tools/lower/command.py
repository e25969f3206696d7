"""`lower`: writes the program of the profile, or compares it with the second reading."""
from __future__ import annotations

import argparse
import sys
import tempfile
from pathlib import Path

from vcp_tools.files import write_bytes
from vcp_tools.lower.check import compared
from vcp_tools.lower.program import Lowered, lowered
from vcp_tools.pictures.observe import rows_words
from vcp_tools.program import Program
from vcp_tools.read.wider_file import source_and_tree
from vcp_tools.read.wider_tree import NotTaken
from vcp_tools.refusal import FINE, FOUND, Refusal
from vcp_tools.simulate.command import period_of, simulated


def add_words(parser: argparse.ArgumentParser) -> None:
    """The words of `lower`."""
    parser.add_argument("program", metavar="P", help="the text, as a controller has it")
    parser.add_argument("-o", metavar="FILE", dest="output", help="where the program of the profile is written, else to standard output")
    parser.add_argument("--cycle-time", metavar="TIME", help="how long a cycle takes, as 100ms; a text with timers wants it")
    parser.add_argument("--check", metavar="ROWS", help="run both on these rows, P as `simulate` does and what is written by `vcp run`, and compare them")
    parser.add_argument("--cycles", type=int, metavar="N", help="the same for so many cycles, for a program without inputs")


def run(given: argparse.Namespace) -> int:
    """Writes the text, or compares; the status is 9 where the two differ."""
    source, tree = source_and_tree(given.program)
    try:
        found = lowered(tree, source, Path(given.program).name, period_of(given.cycle_time), given.cycle_time or "")
    except NotTaken as fault:
        raise Refusal(f"{given.program}:{source.told(fault.at)}: {fault.message}") from None
    for at, note in found.notes:
        print(f"{given.program}:{source.told(at)}: {note}", file=sys.stderr)
    if given.check is not None or given.cycles is not None:
        return _check(given, found, list(simulated(given.program, source, tree, given.cycle_time, _rows(given))))
    if given.output:
        write_bytes(given.output, found.text.encode("latin-1"))
    else:
        sys.stdout.write(found.text)
    return FINE


def _rows(given: argparse.Namespace) -> list[str]:
    """The words that name the rows."""
    return rows_words([] if given.check is None else [given.check], given.cycles)[0]


def _check(given: argparse.Namespace, found: Lowered, wanted: list[str]) -> int:
    """Compares both runs, and says the first difference."""
    with tempfile.TemporaryDirectory() as folder:
        file = Path(folder) / "lowered.st"
        write_bytes(file, found.text.encode("latin-1"))
        printed = Program.found().must("run", file, *_rows(given), statuses=(0, 2, 3), shown=("run", given.output or "the lowered text", *_rows(given)))
    difference = compared(wanted, printed.text.rstrip("\n").split("\n"))
    print(f"{given.program}: {difference or f'both readings are the same: {wanted[-1]}'}")
    return FOUND if difference else FINE
