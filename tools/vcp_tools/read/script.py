"""Scripts of faults, after docs/FORMATS.md, 'The fault script': their groups, cut into parts of at most so many faults, never within a group."""
from __future__ import annotations

import re
from dataclasses import dataclass
from typing import Sequence

from vcp_tools.refusal import Refusal

MOST = 10_000
"""So many faults `vcp inject` takes at once."""
MOST_BYTES = 1_000_000
"""A part has at most so many bytes, but for a single line or group; `vcp inject` takes 1,048,576."""


@dataclass
class Part:
    """A part of a script: its text, how many lines of the whole script stand before its second line, the line of its own in which each group's first
    fault stands, and how many faults it has."""

    text: bytes
    first: int
    groups: Sequence[int]
    faults: int = 0


@dataclass
class Group:
    """Lines that aren't cut: a group or a single fault, or a line between them; the number of the first, of the first fault, and how many faults."""

    start: int
    lines: list[bytes]
    fault: int = 0
    faults: int = 0

    @property
    def size(self) -> int:
        """How many bytes its lines have."""
        return sum(map(len, self.lines)) + len(self.lines)


def digest_of_remark(script: bytes) -> str:
    """The digest of an image that the first line of a script names; empty where it names none."""
    first = script.split(b"\n", 1)[0].decode("latin-1").strip()
    found: list[str] = re.findall(r"(?<![0-9a-f])[0-9a-f]{64}(?![0-9a-f])", first) if first.startswith("#") else []
    return found[0] if found else ""


def runs_of(numbers: Sequence[int]) -> list[list[int]]:
    """Numbers that rise, as runs of consecutive ones: the first of each, and how many there are."""
    if isinstance(numbers, range):
        return [[numbers.start, len(numbers)]] if numbers else []
    found: list[list[int]] = []
    for number in numbers:
        if found and number == sum(found[-1]):
            found[-1][1] += 1
        else:
            found.append([number, 1])
    return found


def groups_of(script: bytes, file: str) -> list[Group]:
    """The lines of a script, those of a group together; remarks are left empty, so that each line keeps its number. A line is what `inject` takes for one:
    a CR before its LF is dropped, words stand between spaces and tabs, and a line of blanks is no empty one."""
    lines = [line[:-1] if line.endswith(b"\r") else line for line in script.split(b"\n")]
    lines[-1] += b"\r" if script.endswith(b"\r") else b""
    if lines[-1] == b"":
        lines.pop()
    found: list[Group] = []
    grouped = False
    for number, line in enumerate(lines, 1):
        if not grouped:
            found.append(Group(number, []))
        group = found[-1]
        if not line or line.startswith(b"#"):
            group.lines.append(b"")
            continue
        group.lines.append(line)
        words = line.strip(b" \t")
        if words == b"begin":
            grouped = True
        elif words == b"end":
            grouped = False
        else:
            group.faults += 1
            group.fault = group.fault or number
    if grouped:
        raise Refusal(f"{file}:{found[-1].start}: the group that begins here has no `end`")
    return found


def cut(script: bytes, file: str, most: int = MOST) -> list[Part]:
    """The parts of a script. A remark stands before each, so that line n of a part is line first + n of the script."""
    parts: list[Part] = []
    held: list[Group] = []
    faults = size = 0
    for group in groups_of(script, file):
        if group.faults > most:
            raise Refusal(f"{file}:{group.start}: the group that begins here has {group.faults} faults, and {most} are judged at once")
        if held and (faults + group.faults > most or size + group.size > MOST_BYTES):
            parts.append(_part(held, len(parts) + 1))
            held, faults, size = [], 0, 0
        held.append(group)
        faults += group.faults
        size += group.size
    return [*parts, _part(held, len(parts) + 1)]


def _part(groups: Sequence[Group], number: int) -> Part:
    """A part with these groups. A CR that isn't dropped in the script, at its end without LF, isn't dropped in the part."""
    first = groups[0].start - 2 if groups else -1
    lines = [line + b"\r\n" if line.endswith(b"\r") else line + b"\n" for group in groups for line in group.lines]
    text = b"# part %d\n" % number + b"".join(lines)
    return Part(text, first, [group.fault - first for group in groups if group.fault], sum(group.faults for group in groups))
