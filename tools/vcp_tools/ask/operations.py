"""The operations of a program, as `vcp list` tells them, with what `vcp_study ranges --all` proves of the values of each.

The names of inputs, outputs and cells and the first values of cells aren't told by `list`: the image itself has them.
"""
from __future__ import annotations

import re
import tempfile
from dataclasses import dataclass
from pathlib import Path
from typing import Mapping

from vcp_tools.files import write_bytes
from vcp_tools.program import Program
from vcp_tools.program_text import ProgramText
from vcp_tools.read.image import Cell, Operation, Slot, read_image
from vcp_tools.read.range_lines import MayStop, RangesOfAll, read_ranges_of_all
from vcp_tools.refusal import Refusal

_LINE = re.compile(
    r"(?P<number>\d+) (?P<kind>[A-Z]+) (?P<taken>[A-Z]+) (?P<type>[A-Z]+)(?P<operands>(?: \d+)*)(?: (?:in|val|cell|out) (?P<own>-?\d+))?"
    r" sig \d+ cor (?P<correction>\d+) at (?P<line>\d+):(?P<column>\d+)(?P<turns>(?: \w+=-?\d+)*)")


@dataclass(frozen=True)
class Graph:
    """The operations of a program in order, its inputs, outputs and cells, the least and the greatest value of each operation (None where no value
    comes there), and the ways in which an operation may stop."""

    operations: list[Operation]
    inputs: list[Slot]
    outputs: list[Slot]
    cells: list[Cell]
    ranges: Mapping[int, tuple[int, int] | None]
    may_stop: list[MayStop]

    def output(self, name: str) -> Slot:
        """The output of this name, as it is declared."""
        return next(it for it in self.outputs if it.name == name)


def read_listing(text: str) -> list[Operation]:
    """The operations that `vcp list` prints; a refusal where a line is none."""
    found = []
    for number, line in enumerate(text.rstrip("\n").split("\n")):
        match = _LINE.fullmatch(line)
        if match is None or int(match["number"]) != number:
            raise Refusal(f"vcp list: this is no line of operation {number}: `{line[:80]}`")
        turns = tuple((name, int(value)) for name, _, value in (it.partition("=") for it in match["turns"].split()))
        operands = tuple(map(int, match["operands"].split()))
        found.append(Operation(number, match["kind"], match["taken"], match["type"], operands, int(match["own"] or 0),
                               int(match["line"]), int(match["column"]), turns, int(match["correction"])))
    return found


def graph_of(vcp: Program, study: Program, text: ProgramText, shown: str, inputs: str | None = None) -> Graph:
    """The operations of the image of a text, and what is proved of their values, of rows within a table of inputs where one is given; a refusal, with the
    name that is shown, where the text isn't accepted."""
    image = text.image(vcp, shown=shown)
    with tempfile.TemporaryDirectory() as folder:
        at = Path(folder) / "image"
        write_bytes(at, image)
        operations = read_listing(vcp.must("list", at, shown=("list", "M")).text)
        words: list[str | Path] = ["--all"]
        if inputs is not None:
            words += ["--inputs", Path(folder) / "inputs.csv"]
            write_bytes(Path(folder) / "inputs.csv", inputs.encode())
        told = read_ranges_of_all(study.must("ranges", at, *words, or_found=True, shown=("ranges", "M", "--all")).text)
    return graph_with(operations, image, told)


def graph_with(operations: list[Operation], image: bytes, told: RangesOfAll) -> Graph:
    """The graph of a listing, with the names and first values of its image; a refusal where they don't go together."""
    head = read_image(image, "image")
    ends = [(told.ranges.get(cell.load), cell.initial) for cell in head.cells]
    are_begun = all(it is None or it[0] <= first <= it[1] for it, first in ends)
    if head.operations != operations or set(told.ranges) != set(range(len(operations))) or not are_begun:
        raise Refusal("`vcp list`, `vcp_study ranges` and the image don't have the same operations: the programs are of different versions")
    return Graph(operations, head.inputs, head.outputs, head.cells, told.ranges, told.may_stop)
