"""The lines of `audit`, after docs/FORMATS.md, 'Printed lines', and which operations no output is reached from."""
from __future__ import annotations

import re
from dataclasses import dataclass, field

from vcp_tools.read.image import Image
from vcp_tools.refusal import Refusal


@dataclass(frozen=True)
class Audited:
    """An output and a number of cycle borders: how many operations are reached, and the blind ones among them."""

    output: str
    borders: int
    reached: int
    blind: list[int] = field(default_factory=list)


def read_audit(text: str) -> list[Audited]:
    """The audit that a text tells; a refusal where it is none."""
    found: list[Audited] = []
    for line in text.rstrip("\n").split("\n") if text else []:
        reached = re.fullmatch(r"(\S+) (\d+) reached (\d+) blind \d+", line)
        blind = re.fullmatch(r"blind (\d+) [A-Z]+", line)
        if reached:
            found.append(Audited(reached[1], int(reached[2]), int(reached[3])))
        elif blind and found:
            found[-1].blind.append(int(blind[1]))
        else:
            raise Refusal(f"this is no audit: `{line[:60]}`")
    return found


def reached_from(image: Image, output: int, borders: int) -> list[set[int]]:
    """For each number of borders up to this one the operations from which a path of data leads to an output's OUT across so many."""
    found: list[set[int]] = []
    ends = {image.outputs[output].operation}
    for _ in range(borders + 1):
        reached = _closure(image, ends)
        found.append(reached)
        ends = {cell.store for cell in image.cells if cell.load in reached}
    return found


def _closure(image: Image, ends: set[int]) -> set[int]:
    """These operations and all that they rest on within one cycle."""
    reached = set(ends)
    for operation in reversed(image.operations):
        if operation.number in reached:
            reached.update(operation.operands)
    return reached
