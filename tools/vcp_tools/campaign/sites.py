"""Scripts of a class of faults: whole, in parts, or drawn. The classes are those that `vcp_study sites` writes, and `late` (traced.py)."""
from __future__ import annotations

import os
import random
from concurrent.futures import ThreadPoolExecutor
from typing import Sequence

from vcp_tools.program import Program
from vcp_tools.read import script as script_form
from vcp_tools.read.run_lines import read_run
from vcp_tools.read.script import Part
from vcp_tools.refusal import Refusal

CLASSES = ("bits", "stale", "skip", "from", "operator", "all", "flips", "late")
"""The classes of faults; a script that has such a name is given as ./bits."""


def cycles_of(vcp: Program, image: str, rows: Sequence[str], shown: Sequence[str] | None = None) -> int:
    """The cycles of a run that are begun; a refusal where the run's output isn't whole. `shown` has the names of M and ROWS where these are copies."""
    words = [image, *rows]
    outcome = vcp.must("exec", *words, statuses=(0, 2, 3), shown=["exec", *(shown or words)[:2], *words[2:]])
    run = read_run(outcome.text) if outcome.output.endswith(b"\n") else None
    end = run.ending.split(" ") if run is not None else []
    if run is None or len(end) < 2 or end[0] not in ("end", "stop", "refused") or not end[1].isdigit() or int(end[1]) != len(run.rows):
        raise Refusal("vcp exec: what it printed breaks off")
    return len(run.rows) + (end[0] != "end")


class Faults:
    """The faults of a class, in their order, from whatever tells them. `name` is that of the class, and `count` how many faults it has."""

    def __init__(self, name: str, count: int) -> None:
        self.name, self.count = name, count

    def text(self, start: int, count: int) -> bytes:
        """A script: a remark, and a line for each fault from one on; a refusal where there aren't as many."""
        raise NotImplementedError

    def parts(self) -> tuple[bytes, list[Part]]:
        """The whole script, and its parts. A class without a fault has one part, with none."""
        starts = range(0, self.count, script_form.MOST) or range(1)
        with ThreadPoolExecutor(os.cpu_count()) as pool:
            texts = list(pool.map(lambda start: self.text(start, script_form.MOST), starts))
        parts = [_part(text, start, min(script_form.MOST, self.count - start)) for start, text in zip(starts, texts)]
        return b"".join([texts[0], *(_behind_remark(text) for text in texts[1:])]), parts

    def drawn(self, number: int, seed: int) -> tuple[bytes, list[Part]]:
        """The script of so many faults of the class, each as likely as each other and none twice, and its parts."""
        if not 0 < number <= self.count:
            raise Refusal(f"--draw {number}: the class has {self.count} faults")
        remark = self.text(0, 1).split(b"\n")[0] + b"\n"
        lines = self.at(sorted(random.Random(seed).sample(range(self.count), number)))
        starts = range(0, number, script_form.MOST)
        texts = [b"".join(line + b"\n" for line in lines[start : start + script_form.MOST]) for start in starts]
        return remark + b"".join(texts), [_part(remark + text, start, text.count(b"\n")) for start, text in zip(starts, texts)]

    def at(self, places: Sequence[int]) -> list[bytes]:
        """The lines of the faults at these places, which rise."""
        windows: list[tuple[int, int]] = []
        end = 0
        for begin, place in enumerate(places):
            if begin < end:
                continue
            while end < len(places) and places[end] < place + script_form.MOST:
                end += 1
            windows.append((begin, end))

        def found(window: tuple[int, int]) -> list[bytes]:
            wanted = places[window[0] : window[1]]
            lines = self.text(wanted[0], wanted[-1] - wanted[0] + 1).split(b"\n")
            return [lines[place - wanted[0] + 1] for place in wanted]

        with ThreadPoolExecutor(os.cpu_count()) as pool:
            return [line for lines in pool.map(found, windows) for line in lines]

    def behind(self, cycle: int) -> int:
        """The place of the first fault behind a cycle, in a class that goes by cycles."""
        low, high = 0, self.count
        while low < high:
            middle = (low + high) // 2
            is_behind = int(self.at([middle])[0].split()[1]) > cycle
            low, high = (low, middle) if is_behind else (middle + 1, high)
        return low


class Class(Faults):
    """A class of `vcp_study sites`, of an image over so many cycles or a rows file."""

    def __init__(self, study: Program, image: str, over: str, name: str, shown: Sequence[str] | None = None) -> None:
        self.study = study
        self.words = ["sites", image, over, name]
        number = study.must(*self.words, "--count", shown=["sites", *(shown or (image, over)), name, "--count"]).text.strip()
        if not number.isdigit():
            raise Refusal(f"vcp_study sites: `{number[:40]}` is no number of faults")
        super().__init__(name, int(number))

    def text(self, start: int, count: int) -> bytes:
        """What `sites` writes, which has to have as many lines as it should."""
        text = self.study.must(*self.words, str(start), str(count)).output
        if not text.startswith(b"# sites ") or not text.endswith(b"\n") or text.count(b"\n") - 1 != min(count, max(0, self.count - start)):
            raise Refusal(f"vcp_study sites: what it printed of the faults from {start} on breaks off")
        return text


def _behind_remark(text: bytes) -> bytes:
    """A script without its first line."""
    return text[text.index(b"\n") + 1 :]


def _part(text: bytes, start: int, faults: int) -> Part:
    """A part, whose line n is line start + n of the whole script."""
    return Part(text, start, range(2, faults + 2), faults)
