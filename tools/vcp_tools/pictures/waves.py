"""The timing diagram of a run: the names, which stay in view, and beside them a lane each, as SVG.

A BOOL is a level over its base line, filled where it is 1. A number is a box where it holds. A number that changes by the same amount, too fast for its
values to stand in boxes, is a ramp with the values at its ends.
"""
from __future__ import annotations

from typing import Iterator, NamedTuple, Sequence

from vcp_tools.cycle_time import CycleTime
from vcp_tools.pictures.markup import element, text
from vcp_tools.pictures.observe import Column, Observation

LANE = 24
"""The height of a lane, in pixels."""
MOST_CYCLES = 3000
"""So many cycles are drawn at most, the first ones."""
MOST_NUMBERS = 3
"""So many lines of faults are named at a cycle at most."""
MOST_LETTERS = 40
"""So many letters of a name are shown at most."""
STYLE = """
.waves { display: flex; align-items: flex-start; overflow-x: auto; } .waves svg { flex: none; }
.waves .names { position: sticky; left: 0; background: var(--bg); border-right: 1px solid var(--line); }
.waves text { font: 12px ui-monospace, monospace; fill: var(--fg); } .waves .g { font-weight: 600; fill: var(--dim); } .waves .s { font-size: 10px; }
.waves .i, .waves .o, .waves .v { fill: none; stroke: var(--fg); stroke-width: 1.4; } .waves .o { stroke: var(--link); } .waves .v { stroke: var(--own); }
.waves .b { stroke: var(--line); } .waves .h { fill: var(--high); stroke: none; } .waves .t { stroke: var(--faint); } .waves .e { stroke: var(--bad-text); }
.waves .f { stroke: var(--dim); stroke-width: 2; stroke-dasharray: 3 3; } .waves .f.unseen { stroke: var(--bad-text); stroke-dasharray: none; }
.waves text.f { stroke: none; font-weight: 600; } .waves text.f.unseen { fill: var(--bad-text); stroke: none; }
@media print { .waves { overflow: visible; } }
"""
"""How the parts of a picture look: `g` groups, `i`, `o` and `v` lanes, `b` base lines, `h` a level of 1, `s` ends of ramps, `t` cycles, `e` an early end,
`f` the cycle of a fault."""
_LETTER, _DIGIT, _SMALL_DIGIT = 7.3, 6.6, 6.1
"""The width of a letter of a name, of a digit, and of one at the end of a ramp."""
_HEAD = 24


class Segment(NamedTuple):
    """A stretch of equal values: the first cycle, the one behind the last, and the value."""

    start: int
    end: int
    value: int


class Ramp(NamedTuple):
    """A stretch in which a value changes by the same amount, each time behind as many cycles: the first cycle, the one behind the last, the first and
    the last value."""

    start: int
    end: int
    first: int
    last: int


class Fault(NamedTuple):
    """A fault in a run: its cycle, the number of its line in a script, and its verdict."""

    cycle: int
    line: int
    verdict: str


def waves(found: Observation, period: CycleTime | None = None, faults: Sequence[Fault] = ()) -> str:
    """The picture of all columns of a run, group by group; with the times of cycles where it is known how long one takes, and the cycles of faults."""
    cycles = min(found.cycles, MOST_CYCLES)
    scale = max(3.0, min(26.0, 940 / max(1, cycles)))
    struck = sorted(it for it in faults if it.cycle < cycles)
    head = _HEAD + 14 * (bool(period) + bool(struck))
    names: list[str] = []
    lanes: list[str] = []
    y = head
    for group in ("inputs", "outputs", "variables"):
        inside = [column for column in found.columns if column.group == group]
        if inside:
            names.append(f'<text x="2" y="{y + 12}" class="g">{group}</text>')
            y += 20
        for column in inside:
            names.append(_name(column, y))
            lanes += _lane(column, cycles, scale, y)
            y += LANE
    unit = period.unit_for(found.cycles) if period else ""
    names.append('<text x="2" y="12">cycle</text>' + (f'<text x="2" y="26">{unit}</text>' if period else ""))
    if struck:
        names.append(f'<text x="2" y="{head - 12}">fault, line</text>')
    marks = "".join(_marks(cycles, scale, head, y, period, unit))
    left = 18 + max((len(column.name[:MOST_LETTERS]) for column in found.columns), default=0) * _LETTER
    run = [marks, *lanes, *_faults(struck, scale, head, y), _ending(found, cycles, scale, head, y)]
    pictures = (("names", max(90.0, left), names), ("lanes", cycles * scale + 60, run))
    drawn = [_svg(name, width, y + 24, parts) for name, width, parts in pictures]
    return element("div", "\n" + "\n".join(drawn) + "\n", class_="waves", role="img", aria_label="timing diagram")


def _svg(name: str, width: float, height: int, parts: Sequence[str]) -> str:
    return f'<svg xmlns="http://www.w3.org/2000/svg" class="{name}" width="{width:.0f}" height="{height}">\n' + "\n".join(parts) + "\n</svg>"


def _name(column: Column, y: int) -> str:
    """A column's name; a long one is cut, and whole where the pointer rests on it."""
    cut = column.name[:MOST_LETTERS]
    whole = f"<title>{text(column.name)}</title>" if cut != column.name else ""
    return f'<text x="10" y="{y + 15}">{whole}{text(cut)}</text>'


def _marks(cycles: int, scale: float, head: int, bottom: int, period: CycleTime | None, unit: str) -> Iterator[str]:
    """Lines with the numbers of cycles, and their times, at a distance that leaves room for them."""
    widest = max(len(str(cycles)), len(period.at(cycles, unit)) if period else 0)
    room = max(34.0, widest * _LETTER + 8)
    step = next(size * power for power in (1, 10, 100, 1000) for size in (1, 2, 5) if size * power * scale >= room or size * power == 5000)
    for cycle in range(0, cycles + 1, step):
        x = cycle * scale
        yield f'<line class="t" x1="{x:.1f}" y1="{head - 8}" x2="{x:.1f}" y2="{bottom}"/><text x="{x:.1f}" y="12">{cycle}</text>'
        if period:
            yield f'<text x="{x:.1f}" y="26">{period.at(cycle, unit)}</text>'


def _faults(faults: Sequence[Fault], scale: float, head: int, bottom: int) -> Iterator[str]:
    """A line in the middle of each cycle with faults, solid where one isn't seen, with the numbers of their lines where they have room, and with their
    verdicts where the pointer rests on it."""
    free = 0.0
    for cycle in sorted({it.cycle for it in faults}):
        here = [it for it in faults if it.cycle == cycle]
        style = "f unseen" if any(it.verdict in ("wrong", "ran-on") for it in here) else "f"
        x, words = (cycle + 0.5) * scale, ",".join(str(it.line) for it in here[:MOST_NUMBERS]) + " .." * (len(here) > MOST_NUMBERS)
        told = text(f"cycle {cycle}: " + ", ".join(f"line {it.line} {it.verdict}" for it in here))
        yield f'<line class="{style}" x1="{x:.1f}" y1="{head - 8}" x2="{x:.1f}" y2="{bottom}"><title>{told}</title></line>'
        if x >= free:
            yield f'<text class="{style}" x="{x:.1f}" y="{head - 12}">{words}</text>'
            free = x + len(words) * _LETTER + 6


def _ending(found: Observation, cycles: int, scale: float, head: int, bottom: int) -> str:
    """The end of the run, red where it is an early one; or where the drawing ends."""
    x = cycles * scale
    words = found.ending if cycles == found.cycles else f"the first {cycles} of {found.cycles} cycles"
    style = "i" if found.is_whole else "e"
    line = f'<line class="{style}" x1="{x:.1f}" y1="{head - 8}" x2="{x:.1f}" y2="{bottom}"/>'
    return line + f'<text x="2" y="{bottom + 16}">{text(words)}</text>'


def segments(values: Sequence[int]) -> Iterator[Segment]:
    """The stretches of equal values."""
    start = 0
    for cycle in range(1, len(values) + 1):
        if cycle == len(values) or values[cycle] != values[start]:
            yield Segment(start, cycle, values[start])
            start = cycle


def _fits(segment: Segment, scale: float) -> bool:
    """Whether a value has room in its box."""
    return len(str(segment.value)) * _DIGIT + 4 <= (segment.end - segment.start) * scale


def shapes(values: Sequence[int], scale: float) -> Iterator[Segment | Ramp]:
    """The stretches as they are drawn: three or more of one length and one step in which a value has no room are a ramp."""
    found = list(segments(values))
    at = 0
    while at < len(found):
        last = _ramp_end(found, at, scale)
        if last - at < 2:
            yield found[at]
            at += 1
            continue
        yield Ramp(found[at].start, found[last].end, found[at].value, found[last].value)
        at = last + 1


def _ramp_end(found: Sequence[Segment], at: int, scale: float) -> int:
    """The index of the last stretch of a ramp that begins with one."""
    first = found[at]
    if at + 1 == len(found) or _fits(first, scale):
        return at
    length, step = first.end - first.start, found[at + 1].value - first.value
    last = at
    while last + 1 < len(found):
        before, behind = found[last], found[last + 1]
        if behind.value - before.value != step or behind.end - behind.start != length or _fits(behind, scale):
            break
        last += 1
    return last


def _lane(column: Column, cycles: int, scale: float, y: int) -> list[str]:
    """The values of one name."""
    style = {"inputs": "i", "outputs": "o"}.get(column.group, "v")
    values = column.values[:cycles]
    if column.declaration.type == "BOOL":
        return _levels(values, scale, y, style)
    drawn = []
    for shape in shapes(values, scale):
        drawn.append(_ramp(shape, scale, y, style) if isinstance(shape, Ramp) else _box(shape, scale, y, style))
    return drawn


def _levels(values: Sequence[int], scale: float, y: int, style: str) -> list[str]:
    """A BOOL: its base line, which is that of 0, the stretches of 1 filled, and the level."""
    drawn = [f'<line class="b" x1="0" y1="{y + 18}" x2="{len(values) * scale:.1f}" y2="{y + 18}"/>']
    points = []
    for it in segments(values):
        x, end, level = it.start * scale, it.end * scale, y + (4 if it.value else 18)
        points.append(f"{x:.1f},{level} {end:.1f},{level}")
        if it.value:
            drawn.append(f'<rect class="h" x="{x:.1f}" y="{y + 4}" width="{end - x:.1f}" height="14"/>')
    return [*drawn, f'<polyline class="{style}" points="{" ".join(points)}"/>']


def _box(it: Segment, scale: float, y: int, style: str) -> str:
    """A box where a value holds, with the value where it has room, else where the pointer rests on it."""
    x, width = it.start * scale, (it.end - it.start) * scale
    place = f'class="{style}" x="{x:.1f}" y="{y + 3}" width="{width:.1f}" height="16"'
    if _fits(it, scale):
        return f'<rect {place}/><text x="{x + 3:.1f}" y="{y + 15}">{it.value}</text>'
    return f"<rect {place}><title>{it.value}</title></rect>"


def _ramp(it: Ramp, scale: float, y: int, style: str) -> str:
    """A slope from the first value to the last, with both where they have room, or the last alone; and where the pointer rests on it."""
    x, end = it.start * scale, it.end * scale
    low, high = y + 19, y + 3
    begin, finish = (low, high) if it.last > it.first else (high, low)
    told = f"{it.first} to {it.last}, cycles {it.start} to {it.end - 1}"
    drawn = f'<polyline class="{style}" points="{x:.1f},{begin} {end:.1f},{finish}"><title>{told}</title></polyline>'
    first, last = len(str(it.first)) * _SMALL_DIGIT, len(str(it.last)) * _SMALL_DIGIT
    above, below = y + 11, y + 20
    if first + last + 8 <= end - x:
        drawn += f'<text class="s" x="{x + 1:.1f}" y="{above if it.last > it.first else below}">{it.first}</text>'
    if last + 4 <= end - x:
        place = f'x="{end - 1:.1f}" y="{below if it.last > it.first else above}"'
        drawn += f'<text class="s" text-anchor="end" {place}>{it.last}</text>'
    return drawn
