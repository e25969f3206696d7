"""Classes of faults that are told by the words of a run, as `vcp trace` prints them: bits that flip, and words of the cycle before."""
from __future__ import annotations

import os
from concurrent.futures import ThreadPoolExecutor
from pathlib import Path
from typing import Iterator, Sequence

from vcp_tools.campaign.folder import digest
from vcp_tools.campaign.sites import Class, Faults, cycles_of
from vcp_tools.files import read_bytes
from vcp_tools.program import Program
from vcp_tools.read.image import Image, goes_into, read_image
from vcp_tools.read.run_lines import read_trace
from vcp_tools.refusal import Refusal

MOST_ADDED = 1 << 62
"""A line of a script adds at most so much."""
BITS = (0, 31)
"""The bits that `vcp_study sites M ROWS flips` turns."""
MOST_BIT = 62
"""The highest bit that a line of a script turns; a word of the narrow code has no higher one but its sign."""
TOLD_BY_WORDS = ("flips", "late")
"""The classes that are told by the words of one run."""


class Traced(Faults):
    """Faults whose lines are known already."""

    def __init__(self, name: str, title: str, image: bytes, lines: Sequence[bytes]) -> None:
        super().__init__(name, len(lines))
        self.remark = f"# {title} of {digest(image)}".encode("ascii")
        self.lines = lines

    def text(self, start: int, count: int) -> bytes:
        """The script of some of them."""
        return b"".join(line + b"\n" for line in [self.remark, *self.lines[start : start + count]])


def faults_of(name: str, programs: tuple[Program, Program], image: Path, rows: Sequence[str], cycles: int, bits: tuple[int, int],
              shown: tuple[str, str] | None = None) -> Faults:
    """The faults of a class over rows, or so many cycles of them. `bits` are those that `flips` turns; `shown` has the names of M and ROWS where these are
    copies."""
    vcp, study = programs
    if name == "flips" and (bits != BITS or len(rows) > 1):
        title = f"flips of the bits {bits[0]} to {bits[1]}"
        return _told(name, title, image, flips(words_of(vcp, image, rows), bits))
    if name == "late" and len(rows) > 1:
        data = read_bytes(image)
        return _told(name, name, image, late(read_image(data, str(image)), words_of(vcp, image, rows)))
    return Class(study, str(image), rows[0] if name in TOLD_BY_WORDS else str(cycles), name, shown)


def _told(name: str, title: str, image: Path, lines: Iterator[bytes]) -> Traced:
    return Traced(name, title, read_bytes(image), list(lines))


def words_of(vcp: Program, image: Path, rows: Sequence[str]) -> list[list[int]]:
    """The words of all operations in each cycle of a run that is released."""

    def traced(cycle: int) -> list[int]:
        words, end = read_trace(vcp.must("trace", image, *rows, str(cycle), statuses=(0, 2, 3)).text)
        if end != "released":
            return []
        if [word.operation for word in words] != list(range(len(words))):
            raise Refusal(f"vcp trace: what it printed of cycle {cycle} breaks off")
        return [word.word for word in words]

    with ThreadPoolExecutor(os.cpu_count()) as pool:
        return [words for words in pool.map(traced, range(cycles_of(vcp, str(image), rows))) if words]


def flips(words: Sequence[Sequence[int]], bits: tuple[int, int]) -> Iterator[bytes]:
    """Each of some bits of each result's word turned, in each cycle: the number that does it is told by the word's bit."""
    for cycle, row in enumerate(words):
        for operation, word in enumerate(row):
            for bit in range(bits[0], bits[1] + 1):
                yield b"result %d %d add %d" % (cycle, operation, -(1 << bit) if word >> bit & 1 else 1 << bit)


def late(image: Image, words: Sequence[Sequence[int]]) -> Iterator[bytes]:
    """Each operand as the word that an operation from its own on answered in the cycle before, where its type goes there: the difference is added. Where
    there is none, or a line can't add it, there is no fault."""
    stores = {cell.load: cell.store for cell in image.cells}
    for cycle in range(1, len(words)):
        before, now = words[cycle - 1], words[cycle]
        for operation in image.operations:
            store = stores.get(operation.number)
            read = [before[store]] if store is not None else [now[it] for it in operation.operands]
            for place, word in enumerate(read):
                wanted = operation.wanted(place)
                for other in image.operations[operation.number :]:
                    added = before[other.number] - word
                    if other.number != store and goes_into(other.type, wanted) and 0 < abs(added) <= MOST_ADDED:
                        yield b"operand %d %d %d add %d" % (cycle, operation.number, place, added)
