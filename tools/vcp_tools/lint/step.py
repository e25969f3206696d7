"""The least step of an image with which no operand has, in the place of its word, one of another operation or of the cycle before with the residue that is
expected: with which no fault of the classes `from` and `late` (docs/COVER.md) has the difference 0."""
from __future__ import annotations

from typing import Iterator

from vcp_tools.read.image import Image, goes_into

MOST_STEP = 1000
"""The greatest step that an image has."""
_CODES = {1: (1 << 30, 214748365), 2: (1 << 60, 922337203685477581)}
"""By the version of an image: how many signatures there are, and by how much they grow from an operation to the next."""
_ABOUT = "a word of another operation or of the cycle before never passes for the right one (docs/COVER.md)"
_APART = 5
"""Signatures so many operations apart differ by 1, but where they begin anew."""


def least_step(image: Image) -> int | None:
    """The least step with which there is none; None where no step of 1 to 1000 does."""
    wanted = _Readings(image)
    return next((step for step in range(1, MOST_STEP + 1) if not any(wanted.unseen(step))), None)


class _Readings:
    """The operands that an image reads, by which words might stand in their places."""

    def __init__(self, image: Image) -> None:
        self.operations = image.operations
        self.cells = image.cells
        self.count, growth = _CODES[image.version]
        self.signatures = [(image.seed + growth * number) % self.count for number in range(len(image.operations))]
        found = [(read, it.number, it.wanted(place)) for it in image.operations for place, read in enumerate(it.operands)]
        self.operands = sorted(set(found))

    def unseen(self, step: int) -> Iterator[tuple[int, int]]:
        """Each operation and one whose word may stand there: of an operand the word that a later operation, or its own, answered in the cycle before; of a
        LOAD, which reads a word of the cycle before, that of an earlier operation in this one."""
        for read, reader, wanted in self.operands:
            other = read + _APART * step
            if other >= len(self.operations):
                break
            if other >= reader and self._are(read, other, step) and goes_into(self.operations[other].type, wanted):
                yield reader, other
        for cell in self.cells:
            other = cell.store - _APART * step
            if 0 <= other < cell.load and self._are(other, cell.store, step) and goes_into(self.operations[other].type, cell.type):
                yield cell.load, other

    def _are(self, read: int, other: int, step: int) -> bool:
        """Whether the second operation's signature is greater by just the step."""
        return self.signatures[other] == self.signatures[read] + step


def step_told(image: Image) -> str:
    """What is said of the step, in a line."""
    least = least_step(image)
    if least is None:
        return f"there are too many operations for a step of 1 to {MOST_STEP} with which {_ABOUT}"
    return f"--step {least} is the least with which {_ABOUT}"
