"""The source, a line with a mark each: the worst that is told of the operations that it stands for."""
from __future__ import annotations

from typing import Iterable, Mapping, Sequence

from vcp_tools.pictures.kinds import SEEN, counted, look, worst
from vcp_tools.pictures.markup import element, text
from vcp_tools.read.image import Image
from vcp_tools.read.source import Source

STYLE = """
.source > span { display: block; padding-left: calc(14ch + 6px); text-indent: calc(-14ch - 6px); overflow-wrap: anywhere; } .source .mark { text-indent: 0; }
.source .l { color: var(--dim); user-select: none; }
"""
"""How the source looks."""
_SAID = {SEEN: "seen"}


def marked(
    source: Source, image: Image, counts: Mapping[int, Mapping[str, int]] | None, blind: Iterable[int], kinds: Sequence[str], none: str = ""
) -> str:
    """The source with numbers of lines. Each line with operations has the worst kind of their faults, else `blind` where one of them is, else what stands for
    `none`; there are no marks where `counts` is None."""
    at: dict[int, list[int]] = {}
    for operation in image.operations:
        at.setdefault(operation.line, []).append(operation.number)
    hidden = set(blind)
    count = len(source.starts) - source.data.endswith(b"\n")
    written = []
    for number in range(1, count + 1):
        content = text(source.line(number).decode("utf-8", "replace"))
        mark = "" if counts is None else _mark(at.get(number, []), counts, hidden, kinds, none)
        written.append(f'<span id="L{number}">{mark}<span class="l">{number:>4}</span>  {content}\n</span>')
    return element("pre", "".join(written), class_="source")


def _mark(operations: Sequence[int], counts: Mapping[int, Mapping[str, int]], blind: set[int], kinds: Sequence[str], none: str) -> str:
    """The mark of a line with these operations; room for one where nothing is told of them."""
    all_of = {kind: sum(counts.get(operation, {}).get(kind, 0) for operation in operations) for kind in kinds}
    hidden = [operation for operation in operations if operation in blind]
    found = worst(all_of, kinds, "blind" if hidden else none)
    if not operations or not found:
        return element("span", "", class_="mark")
    said = [counted(all_of, kinds)] * any(all_of.values()) + [f"blind: {', '.join(map(str, hidden))}"] * bool(hidden)
    whole = f"{len(operations)} operation{'s' if len(operations) > 1 else ''}" + "".join(f"; {it}" for it in said)
    return element("span", text(_SAID.get(found, found)), class_=f"mark {look(found)}", title=whole)
