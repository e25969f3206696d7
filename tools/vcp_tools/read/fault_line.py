"""The lines of error and the last lines of runs, after docs/ERRORS.md, and what that document says of each code."""
from __future__ import annotations

import re
from dataclasses import dataclass
from functools import lru_cache

from vcp_tools.program import TOP

_REFUSED = re.compile(r"(?P<file>.+?)(?::(?P<first>\d+))?(?::(?P<second>\d+))? (?P<code>[A-Z]\d) (?P<word>[A-Z][a-z]+)(?P<rest> .*)?\Z")
_STOP = re.compile(r"stop (?P<cycle>\d+) (?P<kind>RANGE|DIVZERO|OPERAND) (?P<line>\d+):(?P<column>\d+)(?P<turns>(?: \S+=-?\d+)*)\Z")
_PARTED = re.compile(r"parted (?P<cycle>\d+) first (?P<first>.+) second (?P<second>.+)\Z")
_DIFFER = re.compile(r"differ (?P<cycle>\d+) (?P<name>\S+) first (?P<first>-?\d+) second (?P<second>-?\d+)\Z")
_OUTPUT = re.compile(r"refused (?P<cycle>\d+) (?P<name>\S+) found (?P<found>\d+) expected (?P<expected>\d+)\Z")


@dataclass(frozen=True)
class FaultLine:
    """A line of error. `code` is as `S4`, or `read`, `write`, `memory`, `usage`; `first` and `second` are the numbers behind the file's name, as
    many as there are."""

    text: str
    code: str
    word: str = ""
    file: str = ""
    first: int | None = None
    second: int | None = None


@dataclass(frozen=True)
class StopLine:
    """The last line of a run that stopped: its cycle, kind, place and the turns round it."""

    text: str
    cycle: int
    kind: str
    line: int
    column: int
    turns: str


@dataclass(frozen=True)
class RefusedOutput:
    """The last line of a run whose output was refused: the cycle, the output and both residues."""

    text: str
    cycle: int
    name: str
    found: int
    expected: int


@dataclass(frozen=True)
class Disagreement:
    """The last line of a run of two channels that disagreed: the cycle, the output where two values were released, and what each channel has."""

    text: str
    cycle: int
    name: str
    first: str
    second: str


def read_fault(line: str) -> FaultLine | None:
    """The fault that a line of error tells; None where it is no such line."""
    line = line.rstrip("\r\n")
    for end, code in ((" read fault", "read"), ("write fault", "write"), ("no memory", "memory")):
        if line.endswith(end):
            return FaultLine(line, code, file=line[: -len(end)])
    if line.startswith("usage: vcp"):
        return FaultLine(line, "usage")
    match = _REFUSED.match(line)
    if match is None:
        return None
    first, second = (None if match[name] is None else int(match[name]) for name in ("first", "second"))
    return FaultLine(line, match["code"], match["word"], match["file"], first, second)


def read_ending(line: str) -> StopLine | RefusedOutput | Disagreement | None:
    """The early end that the last line of a run tells; None where the run came to its end."""
    stop = _STOP.match(line)
    if stop:
        return StopLine(line, int(stop["cycle"]), stop["kind"], int(stop["line"]), int(stop["column"]), stop["turns"].strip())
    output = _OUTPUT.match(line)
    if output:
        return RefusedOutput(line, int(output["cycle"]), output["name"], int(output["found"]), int(output["expected"]))
    channels = _DIFFER.match(line) or _PARTED.match(line)
    if channels:
        return Disagreement(line, int(channels["cycle"]), channels.groupdict().get("name", ""), channels["first"], channels["second"])
    return None


@lru_cache(maxsize=1)
def meanings() -> dict[str, str]:
    """What docs/ERRORS.md says of each code that refuses a file, by the code."""
    found: dict[str, str] = {}
    document = TOP / "docs" / "ERRORS.md"
    for row in document.read_text(encoding="utf-8").split("\n") if document.is_file() else []:
        match = re.match(r"\| `FILE\S*(?: ([A-Z]\d) [^`]*)` \| (.*) \|\Z", row)
        if match:
            found.setdefault(match[1], match[2])
    return found
