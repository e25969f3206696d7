"""What `plain`, `run` and `exec` print, and the words of one cycle, as `trace` prints them; after docs/FORMATS.md, 'Printed lines'."""
from __future__ import annotations

from array import array
from dataclasses import dataclass
from typing import Sequence

from vcp_tools.refusal import Refusal


@dataclass(frozen=True)
class PrintedRun:
    """A printed run: the names of its columns, the values of each in all cycles, how many cycles there are, and its last line."""

    names: list[str]
    columns: list[Sequence[int]]
    cycles: int
    ending: str

    @property
    def rows(self) -> list[list[int]]:
        """A row of values a cycle."""
        return [list(row) for row in zip(*self.columns)] if self.columns else [[] for _ in range(self.cycles)]

    @property
    def is_whole(self) -> bool:
        """Whether the run came to the end of its rows."""
        return self.ending.startswith("end ")


@dataclass(frozen=True)
class Word:
    """The word of an operation in one cycle: the word itself, its value, the residue found and the residue expected."""

    operation: int
    kind: str
    word: int
    value: int
    residue: int
    expected: int


def read_run(text: str) -> PrintedRun:
    """The run that a text tells; a refusal where it is none."""
    head, _, rest = text.partition("\n")
    if not head.startswith("cycle"):
        raise Refusal(f"this is no printed run: it begins with `{head[:40]}`")
    names = head.split(",")[1:]
    body, _, ending = rest.rstrip("\n").rpartition("\n")
    if ending[:1].isdigit():
        body, ending = f"{body}\n{ending}".lstrip("\n"), ""
    cells = body.replace("\n", ",").split(",") if body else []
    width = len(names) + 1
    if len(cells) % width:
        raise Refusal(f"this is no printed run: its rows aren't of {width} fields each")
    try:
        return PrintedRun(names, [array("q", map(int, cells[at::width])) for at in range(1, width)], len(cells) // width, ending)
    except (ValueError, OverflowError):
        raise Refusal("this is no printed run: a field is no number of 64 bits") from None


def read_trace(text: str) -> tuple[list[Word], str]:
    """The words of a traced cycle, and the last line, which is `released` where the cycle was."""
    lines = text.rstrip("\n").split("\n")
    words = []
    for line in lines:
        parts = line.split(" ")
        if parts[0].isdigit() and len(parts) == 6:
            words.append(Word(int(parts[0]), parts[1], int(parts[2]), int(parts[3]), int(parts[4]), int(parts[5])))
    return words, lines[-1]
