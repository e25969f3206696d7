"""What `vcp_study ranges` says of an image, after docs/FORMATS.md."""
from __future__ import annotations

import re
import tempfile
from dataclasses import dataclass, field
from pathlib import Path

from vcp_tools.files import write_bytes
from vcp_tools.program import Program
from vcp_tools.refusal import Refusal

_OPERATION = r"operation (?P<operation>\d+) (?P<kind>[A-Z]+)(?: (?P<name>\w+))? at (?P<line>\d+):(?P<column>\d+)(?P<turns>(?: \w+=-?\d+)*)"
_RANGE = r" (?:none|(?P<least>-?\d+)\.\.(?P<greatest>-?\d+))"
_VALUES = re.compile(_OPERATION + _RANGE)
_MAY_STOP = re.compile(_OPERATION + r" (?P<cause>RANGE|DIVZERO) of (?P<reads>.*)")
_VARIABLE = re.compile(r"(?P<name>\w+) (?P<type>BOOL|INT|DINT|LINT)" + _RANGE)
_NO_SEARCH = re.compile(r"no search: more than \d+ operations")


@dataclass(frozen=True)
class MayStop:
    """A way in which an operation may stop, whatever the rows: RANGE or DIVZERO, its place, and the turns round it; and what it reads, with the ranges."""

    operation: int
    kind: str
    cause: str
    line: int
    column: int
    turns: str
    reads: str = field(default="", compare=False)


@dataclass(frozen=True)
class Ranges:
    """The operations that are named, how many may stop, of how many, and whether it was searched for those that may."""

    may_stop: list[MayStop]
    named: int
    all: int
    searched: bool

    @property
    def ending(self) -> str:
        """How many may stop, in words."""
        return f"may stop at {self.named} of {self.all} operations" if self.named else "can't stop"


@dataclass(frozen=True)
class RangesOfAll:
    """The least and the greatest value of each operation, None where no value comes there, the ways in which operations may stop, and the names, types and
    ends of outputs and of variables that are kept."""

    ranges: dict[int, tuple[int, int] | None]
    may_stop: list[MayStop]
    variables: list[tuple[str, str, tuple[int, int] | None]]


def _ends(match: re.Match[str]) -> tuple[int, int] | None:
    """The ends of a range; None where no value is in it."""
    return None if match["least"] is None else (int(match["least"]), int(match["greatest"]))


def _stop_of(match: re.Match[str]) -> MayStop:
    """The way to stop that a line tells."""
    line, column = int(match["line"]), int(match["column"])
    return MayStop(int(match["operation"]), match["kind"], match["cause"], line, column, match["turns"].strip(), match["reads"])


def _lines(text: str) -> tuple[list[str], int, int, bool]:
    """The lines before the last one, what that one tells, and whether it was searched; a refusal where it is no such line."""
    lines = text.rstrip("\n").split("\n")
    match = re.fullmatch(r"may stop (\d+) of (\d+)", lines[-1])
    if match is None:
        raise Refusal(f"ranges: this is no last line of it: `{lines[-1][:60]}`")
    front = lines[:-1]
    searched = not (front and _NO_SEARCH.fullmatch(front[-1]))
    return front if searched else front[:-1], int(match[1]), int(match[2]), searched


def read_ranges(text: str) -> Ranges:
    """What a text tells without `--all`; a refusal where a line is none of it."""
    lines, named, able, searched = _lines(text)
    stops = []
    for line in lines:
        match = _MAY_STOP.fullmatch(line)
        if match is None:
            raise Refusal(f"ranges: this is no line of it: `{line[:60]}`")
        stops.append(_stop_of(match))
    return Ranges(stops, named, able, searched)


def read_ranges_of_all(text: str) -> RangesOfAll:
    """What `--all` tells of each operation; a refusal where a line is none of it."""
    ranges: dict[int, tuple[int, int] | None] = {}
    may_stop = []
    variables = []
    for line in _lines(text)[0]:
        values, stop, variable = _VALUES.fullmatch(line), _MAY_STOP.fullmatch(line), _VARIABLE.fullmatch(line)
        if values:
            ranges[int(values["operation"])] = _ends(values)
        elif stop:
            may_stop.append(_stop_of(stop))
        elif variable:
            variables.append((variable["name"], variable["type"], _ends(variable)))
        else:
            raise Refusal(f"ranges: this is no line of it: `{line[:60]}`")
    return RangesOfAll(ranges, may_stop, variables)


def ranges_of(image: bytes) -> Ranges:
    """What the built program says of an image; a refusal where none is built."""
    with tempfile.TemporaryDirectory() as folder:
        at = Path(folder) / "image"
        write_bytes(at, image)
        outcome = Program.found("vcp_study").must("ranges", at, or_found=True, shown=("ranges", "M"))
        found = read_ranges(outcome.text)
        if outcome.has_found != (found.named > 0):
            raise Refusal(f"vcp_study ranges: it ends with status {outcome.status}, and {found.named} operations are named")
        return found
