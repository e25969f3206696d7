"""What `vcp_study cover` says of an image, after docs/FORMATS.md, 'What becomes of faults in every run': read, and checked against its own totals."""
from __future__ import annotations

import re
import tempfile
from dataclasses import dataclass, field
from pathlib import Path
from typing import Iterable, Sequence

from vcp_tools.files import write_bytes
from vcp_tools.program import Program
from vcp_tools.refusal import Refusal

CLASSES = ("add", "rest", "stale", "skip", "from", "late", "operator")
"""The classes of faults, in their order; `all` has all seven."""
TOLD = ("refused", "nothing", "shows", "runs-on", "beyond")
"""What a fault is told to be; the first two are certain."""
BY_CLASS, BY_DELAY = "by what the fault does", "by how many cycles later it is refused"
_HEAD = re.compile(r"# cover (\w+) (\d+) of ([0-9a-f]{64})")
_HEADING = re.compile(r" +faults +refused +nothing +shows +runs-on +beyond  (by .*)")
_ROW = re.compile(r" *(\d+) +(\d+) +(\d+) +(\d+) +(\d+) +(\d+)  (\S.*)")
_SHOWS = re.compile(r"shows (\d+) (\w+): (.*): (operation (\d+) .*)")
_LEFT = re.compile(r"(beyond|runs-on (\d+) (\d+)): faults (\d+) of (operation (\d+) .*)")
_TOTALS = re.compile(r"faults (\d+)" + "".join(rf" {name} (\d+)" for name in TOLD))


@dataclass(frozen=True)
class Shows:
    """A fault that shows: across how many cycle borders, at which output first, as a script spells it with N for the cycle, and its operation, as a number and
    as it is told."""

    borders: int
    output: str
    fault: str
    operation: int
    told: str


@dataclass(frozen=True)
class Left:
    """Faults of an operation that run on or are beyond: which of both, across how many borders which operation that may stop is reached (-1 of what is
    beyond), how many they are, and their operation, as a number and as it is told."""

    what: str
    borders: int
    stop: int
    faults: int
    operation: int
    told: str


@dataclass
class Cover:
    """The class, the horizon and the digest of the image; the numbers of faults, all and by what they are told to be, of each class and of each delay; the
    faults that show; those that are left; and the totals."""

    name: str
    horizon: int
    digest: str
    tables: dict[str, dict[str, list[int]]] = field(default_factory=dict)
    shows: list[Shows] = field(default_factory=list)
    left: list[Left] = field(default_factory=list)
    totals: list[int] = field(default_factory=list)

    @property
    def uncertain(self) -> int:
        """How many faults are neither refused nor nothing."""
        return sum(self.totals[3:])

    @property
    def ending(self) -> str:
        """The line of totals."""
        return f"faults {self.totals[0]}" + "".join(f" {name} {number}" for name, number in zip(TOLD, self.totals[1:]))


def read_cover(text: str) -> Cover:
    """The cover that a text tells; a refusal where it is none, is cut off, or doesn't add up."""
    lines = text.split("\n")
    head, totals = _HEAD.fullmatch(lines[0]), _TOTALS.fullmatch(lines[-2]) if len(lines) > 2 and not lines[-1] else None
    if head is None or totals is None:
        raise Refusal("cover: what it printed breaks off")
    found = Cover(head[1], int(head[2]), head[3], totals=[int(it) for it in totals.groups()])
    rows: dict[str, list[int]] | None = None
    for line in lines[1:-2]:
        heading, row, shows, left = (form.fullmatch(line) for form in (_HEADING, _ROW, _SHOWS, _LEFT))
        if heading:
            rows = found.tables.setdefault(heading[1], {})
        elif row and rows is not None and not found.shows and not found.left:
            rows[row[7]] = [int(it) for it in row.groups()[:6]]
        elif shows and not found.left:
            found.shows.append(Shows(int(shows[1]), shows[2], shows[3], int(shows[5]), shows[4]))
        elif left:
            found.left.append(Left(left[1].split()[0], int(left[2] or -1), int(left[3] or -1), int(left[4]), int(left[6]), left[5]))
        else:
            raise Refusal(f"cover: this is no line of it: `{line[:60]}`")
    _check(found)
    return found


def _check(found: Cover) -> None:
    """Refuses tables and lines that don't add up to the totals."""
    if set(found.tables) != {BY_CLASS, BY_DELAY}:
        raise Refusal("cover: its two tables aren't there")
    if _columns(found.tables[BY_CLASS].values()) != found.totals or found.totals[0] != sum(found.totals[1:]):
        raise Refusal("cover: the classes don't add up to the totals")
    if _columns(found.tables[BY_DELAY].values())[:2] != [found.totals[1]] * 2:
        raise Refusal("cover: the cycles don't add up to what is refused")
    lines = [len(found.shows), *(sum(it.faults for it in found.left if it.what == what) for what in TOLD[3:])]
    if lines != found.totals[3:]:
        raise Refusal("cover: the lines don't add up to the totals")


def _joined(parts: Sequence[Cover]) -> Cover:
    """What is told of several classes, as of one."""
    found = Cover(" ".join(it.name for it in parts), parts[0].horizon, parts[0].digest, {BY_CLASS: {}, BY_DELAY: {}})
    for part in parts:
        found.shows += part.shows
        found.left += part.left
        for title, rows in part.tables.items():
            for name, numbers in rows.items():
                found.tables[title][name] = _columns([found.tables[title].get(name, [0] * 6), numbers])
    found.totals = _columns(part.totals for part in parts)
    return found


def _columns(rows: Iterable[list[int]]) -> list[int]:
    """The sums of the columns of a table."""
    return [sum(column) for column in zip([0] * 6, *rows)]


def cover_of(image: bytes, horizon: int, names: Sequence[str] = ("all",)) -> Cover:
    """What the built program says of an image and these classes, together; a refusal where none is built, or where it can't tell."""
    study = Program.found("vcp_study")
    with tempfile.TemporaryDirectory() as folder:
        at = Path(folder) / "image"
        write_bytes(at, image)
        return _joined([_told(study, at, str(horizon), name) for name in names])


def _told(study: Program, image: Path, horizon: str, name: str) -> Cover:
    """What the program says of a class."""
    outcome = study.must("cover", image, horizon, name, or_found=True, shown=("cover", "M", horizon, name))
    found = read_cover(outcome.text)
    if outcome.has_found != (found.uncertain > 0):
        raise Refusal(f"vcp_study cover: it ends with status {outcome.status}, and {found.uncertain} faults aren't certain")
    return found
