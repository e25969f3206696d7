"""The kinds of what becomes of faults, from the worst to the best, each with a look of its own: a colour, and a pattern that shows in grey print, too."""
from __future__ import annotations

from typing import Iterable, Mapping, Sequence

from vcp_tools.pictures.markup import code, element, text
from vcp_tools.read.cover_lines import BY_CLASS, TOLD, Cover

COVER_KINDS = ("shows", "runs-on", "beyond", "refused", "nothing")
"""What a fault is told to be in every run, from the worst on."""
VERDICT_KINDS = ("wrong", "ran-on", "same", "stopped", "refused")
"""The verdicts on a fault, from the worst on, as `vcp_study faults` colours by them."""
SEEN = "certain"
"""An operation each of whose faults is refused or does nothing, in every run."""
_LOOKS = {
    "shows": "worst", "wrong": "worst", "runs-on": "bad", "ran-on": "bad", "beyond": "open", "same": "open", "blind": "blind", "refused": "fine",
    "stopped": "fair", SEEN: "fine", "nothing": "none",
}
"""The look of each kind: a class of the style."""
STYLE = """
:root { --worst: #a31515; --bad: #d9822b; --open: #f0d264; --fine: #9fcbe6; --fair: #c7b8e0; --none: #f4f4f4; --ink: #1a1a1a; }
@media (prefers-color-scheme: dark) {
  :root { --worst: #d7433f; --bad: #c06f1d; --open: #a58e2c; --fine: #2f6a8c; --fair: #6a5894; --none: #333; --ink: #eee; } }
@media print { :root { --worst: #a31515; --bad: #d9822b; --open: #f0d264; --fine: #cfe4f1; --fair: #ded4ee; --none: #fff; --ink: #000; } }
.k-worst { fill: var(--worst); } .k-bad { fill: url(#hatch); } .k-open { fill: url(#dots); } .k-fine { fill: var(--fine); } .k-fair { fill: url(#rules); }
.k-none { fill: var(--none); } .bar rect, .key rect { stroke: var(--fg); stroke-width: .6; }
.key { list-style: none; padding: 0; margin: .4em 0; display: flex; flex-wrap: wrap; gap: .2em 1.4em; } .key svg { vertical-align: -2px; margin-right: 5px; }
.bars { width: 100%; max-width: 960px; table-layout: fixed; } .bars td { vertical-align: middle; } .bars code { white-space: normal; } .bar { display: block; }
.bars th:first-child { width: 24%; } .bars th:nth-child(2) { width: 50%; }
@media (max-width: 600px) { .bars th:first-child { width: 30%; } .bars th:nth-child(2) { width: 34%; } }
.mark { display: inline-block; width: 7.5ch; padding-left: .5ch; border-left: 6px solid transparent; }
.mark.k-worst { border-color: var(--worst); color: var(--bad-text); font-weight: 700; } .mark.k-bad { border-left: 6px double var(--bad); font-weight: 600; }
.mark.k-open { border-left: 6px dotted var(--open); font-weight: 600; } .mark.k-fine { border-color: var(--fine); }
.mark.k-blind { border-left: 6px dashed var(--worst); }
"""
"""How the kinds look, by the patterns of `PATTERNS`."""
PATTERNS = (
    '<svg xmlns="http://www.w3.org/2000/svg" class="patterns" width="0" height="0" aria-hidden="true"><defs>\n'
    '<pattern id="hatch" width="6" height="6" patternUnits="userSpaceOnUse" patternTransform="rotate(45)"><rect width="6" height="6" style="fill:var(--bad)"/>'
    '<rect width="2" height="6" style="fill:var(--ink)"/></pattern>\n'
    '<pattern id="dots" width="6" height="6" patternUnits="userSpaceOnUse"><rect width="6" height="6" style="fill:var(--open)"/>'
    '<circle cx="3" cy="3" r="1.1" style="fill:var(--ink)"/></pattern>\n'
    '<pattern id="rules" width="6" height="5" patternUnits="userSpaceOnUse"><rect width="6" height="5" style="fill:var(--fair)"/>'
    '<rect width="6" height="1" style="fill:var(--ink)"/></pattern>\n'
    "</defs></svg>\n"
)
"""The patterns, once for a page."""


def look(kind: str) -> str:
    """The class of a kind."""
    return f"k-{_LOOKS[kind]}"


def by_operation(cover: Cover) -> dict[int, dict[str, int]]:
    """How many faults of each operation are neither refused nor nothing, by what they are, as `vcp_study cover` names them in its lines."""
    found: dict[int, dict[str, int]] = {}
    for operation, kind, number in [*((it.operation, "shows", 1) for it in cover.shows), *((it.operation, it.what, it.faults) for it in cover.left)]:
        counts = found.setdefault(operation, {})
        counts[kind] = counts.get(kind, 0) + number
    return found


def worst(counts: Mapping[str, int], kinds: Sequence[str], none: str = "") -> str:
    """The worst kind that is counted, or `none`."""
    return next((kind for kind in kinds if counts.get(kind)), none)


def counted(counts: Mapping[str, int], kinds: Sequence[str]) -> str:
    """Numbers with their kinds, from the worst on."""
    return ", ".join(f"{kind} {counts[kind]}" for kind in kinds if counts.get(kind))


def key(kinds: Iterable[tuple[str, str]]) -> str:
    """What the looks mean: kinds, each with its words."""
    sample = '<svg width="22" height="13" aria-hidden="true"><rect class="{}" x=".5" y=".5" width="21" height="12"/></svg>'
    return element("ul", "".join(element("li", sample.format(look(kind)) + text(words)) for kind, words in kinds), class_="key")


def bars(rows: Mapping[str, Mapping[str, int]], kinds: Sequence[str], head: str) -> str:
    """A bar for each row: the parts of its kinds, from the worst on, with their numbers beside it. What there is of a kind is seen, however little it is."""
    told = []
    for name, counts in rows.items():
        told.append("".join(element("td", it) for it in (code(name), _bar(counts, kinds), text(counted(counts, kinds) or "none"))))
    body = "\n".join(element("tr", cells) for cells in told)
    return element("div", f'<table class="bars">\n<tr><th>{text(head)}</th><th></th><th>faults</th></tr>\n{body}\n</table>', class_="scroll", tabindex="0")


def cover_bars(found: Cover) -> str:
    """A bar for each class of faults, and what its parts mean."""
    rows = {name: dict(zip(TOLD, numbers[1:])) for name, numbers in found.tables[BY_CLASS].items()}
    return bars(rows, COVER_KINDS, "class") + key((kind, kind) for kind in COVER_KINDS)


def _bar(counts: Mapping[str, int], kinds: Sequence[str]) -> str:
    """One bar, as wide as its place."""
    some = [kind for kind in kinds if counts.get(kind)]
    total, least = sum(counts[kind] for kind in some), 1.5
    wide = {kind: max(least, 100 * counts[kind] / total) for kind in some}
    over = sum(wide.values())
    at, parts = 0.0, []
    for kind in some:
        width = 100 * wide[kind] / over
        parts.append(f'<rect class="{look(kind)}" x="{at:.2f}%" y="1" width="{width:.2f}%" height="14"><title>{text(f"{kind} {counts[kind]}")}</title></rect>')
        at += width
    return f'<svg class="bar" width="100%" height="16" role="img" aria-label="{text(counted(counts, kinds) or "none")}">{"".join(parts)}</svg>'
