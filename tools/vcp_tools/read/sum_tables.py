"""What `vcp_study sum` prints, after docs/FORMATS.md, 'Sums of verdicts': read, checked against the verdicts, and added up. It is the one place that adds."""
from __future__ import annotations

import re
from dataclasses import dataclass, field

from vcp_tools.read.verdict_lines import VERDICTS
from vcp_tools.refusal import Refusal

ACTS = ("operand add", "operand from", "operand stale", "result add", "operator", "skip")
STANDS = "stands in a cell"
ENDS = ("never reached", "died out", STANDS)
SHOWS, DELAY, NOWHERE = "by where it shows", "by how many cycles later it shows", "by how it ends where it shows nowhere"
_HEADING = re.compile(r"  faults    same   wrong  ran-on refused stopped  (by .*)")
_ROW = re.compile(r" *(\d+) +(\d+) +(\d+) +(\d+) +(\d+) +(\d+)  (\S.*)")
_TOTALS = re.compile(r"faults (\d+)" + "".join(rf" {name} (\d+)" for name in VERDICTS))
_UNSEEN = re.compile(r"(\d+) ((?:wrong|ran-on) .*)")
_STANDING = re.compile(rf"(\d+) {STANDS}")


@dataclass
class Sum:
    """Tables, each a title with its rows by their names; the faults that aren't seen, as a line's number, the rest of the line and the lines below it;
    those that stand in a cell, as a line's number and the lines below it; and the totals: all groups, and those of each verdict."""

    tables: dict[str, dict[str, list[int]]] = field(default_factory=dict)
    unseen: list[tuple[int, str, list[str]]] = field(default_factory=list)
    standing: list[tuple[int, list[str]]] = field(default_factory=list)
    totals: list[int] = field(default_factory=lambda: [0] * 6)


def read_totals(line: str) -> list[int]:
    """The totals that a last line tells; a refusal where it is none, or where they don't add up."""
    match = _TOTALS.fullmatch(line)
    totals = [int(it) for it in match.groups()] if match else []
    if not totals or totals[0] != sum(totals[1:]):
        raise Refusal(f"this is no line of totals: `{line[:60]}`")
    return totals


def totals_line(totals: list[int]) -> str:
    """The line that tells totals."""
    return f"faults {totals[0]}" + "".join(f" {name} {number}" for name, number in zip(VERDICTS, totals[1:]))


def read_sum(text: str) -> Sum:
    """The sum that a text tells; a refusal where it is none, is cut off, or doesn't add up."""
    if not text.endswith("\n"):
        raise Refusal("the tables break off")
    lines = text[:-1].split("\n")
    found = Sum(totals=read_totals(lines[-1]))
    title = ""
    below: list[str] | None = None
    for line in lines[:-1]:
        heading, row, unseen, standing = (form.fullmatch(line) for form in (_HEADING, _ROW, _UNSEEN, _STANDING))
        if heading and below is None:
            title = heading[1]
            found.tables[title] = {}
        elif row and title and below is None:
            found.tables[title][row[7]] = [int(it) for it in row.groups()[:6]]
        elif unseen and not found.standing:
            below = []
            found.unseen.append((int(unseen[1]), unseen[2], below))
        elif standing:
            below = []
            found.standing.append((int(standing[1]), below))
        elif below is not None and line.startswith("  "):
            below.append(line)
        else:
            raise Refusal(f"this is no line of tables: `{line[:60]}`")
    check(found)
    return found


def check(found: Sum) -> None:
    """Refuses tables whose rows don't add up to the totals."""
    for title, rows in found.tables.items():
        for name, numbers in rows.items():
            if numbers[0] != sum(numbers[1:]):
                raise Refusal(f"the row `{name}` doesn't add up")
        if not rows and title not in (SHOWS, DELAY, NOWHERE) and found.totals[0]:
            raise Refusal(f"the table `{title}` has no row")
    every, same, wrong, ran_on, refused, stopped = found.totals
    for title, wanted in ((SHOWS, wrong + refused), (DELAY, every - same), (NOWHERE, same)):
        if title in found.tables and sum(numbers[0] for numbers in found.tables[title].values()) != wanted:
            raise Refusal(f"the table `{title}` doesn't add up to {wanted}")
    if len(found.unseen) != wrong + ran_on:
        raise Refusal(f"{len(found.unseen)} faults are named as not seen, and {wrong + ran_on} are counted")
    counted = found.tables.get(NOWHERE, {}).get(STANDS, [0])[0]
    if len(found.standing) != counted:
        raise Refusal(f"{len(found.standing)} faults are named as standing in a cell, and {counted} are counted")


def add(into: Sum, part: Sum, first: int) -> None:
    """Adds a part's sum, of whose script `first` lines of the whole one stand before its second line."""
    for title, rows in part.tables.items():
        table = into.tables.setdefault(title, {})
        for name, numbers in rows.items():
            before = table.get(name, [0] * 6)
            table[name] = [one + other for one, other in zip(before, numbers)]
    into.unseen += [(line + first, rest, more) for line, rest, more in part.unseen]
    into.standing += [(line + first, more) for line, more in part.standing]
    into.totals = [one + other for one, other in zip(into.totals, part.totals)]


def sum_text(found: Sum, outputs: list[str]) -> str:
    """The sum as it is printed: rows in the order of acts, operations, outputs, cycles and ends."""
    places = {name: place for names in (ACTS, [f"output {it}" for it in outputs], ENDS) for place, name in enumerate(names)}
    lines = []
    for title, rows in found.tables.items():
        lines.append(f"  faults    same   wrong  ran-on refused stopped  {title}")
        ordered = sorted(rows.items(), key=lambda it: places.get(it[0], -1) if it[0] in places else _number(it[0]))
        lines += ["".join(f" {number:7d}" for number in numbers) + f"  {name}" for name, numbers in ordered]
    for line, rest, more in found.unseen:
        lines += [f"{line} {rest}", *more]
    for line, more in found.standing:
        lines += [f"{line} {STANDS}", *more]
    return "".join(f"{line}\n" for line in [*lines, totals_line(found.totals)])


def _number(name: str) -> int:
    """The number in `operation 8 ADD at 12:20` and in `after 3`; `after 16 or more` is the last one."""
    match = re.match(r"(?:operation|after) (\d+)", name)
    return int(match[1]) if match else 1 << 40
