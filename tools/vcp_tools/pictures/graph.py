"""The graph of an image, as `vcp_study graph` and `vcp_study faults` draw it, in the colours of a page: each operation by the worst kind of its faults."""
from __future__ import annotations

import re
from typing import Mapping, Sequence
from xml.etree import ElementTree

from vcp_tools.pictures.kinds import VERDICT_KINDS, counted, look, worst
from vcp_tools.pictures.markup import element
from vcp_tools.refusal import Refusal

MOST_DRAWN = 600
"""An image with more operations isn't drawn: it would be too large to be looked at."""
STYLE = """
.graph { overflow: auto; max-height: 80vh; border: 1px solid var(--line); } .graph text { font: 9px ui-monospace, monospace; fill: var(--fg); }
.graph line { stroke: var(--dim); } .graph rect { stroke: var(--fg); } .graph .plain { fill: var(--none); } .graph .cell { fill: var(--link); stroke: none; }
.graph .unreached { fill: var(--none); stroke-dasharray: 2 3; } .graph .plate { fill: var(--bg); stroke: none; opacity: .82; }
.graph [data-operand].k-bad { fill: var(--bad); } .graph [data-operand].k-open { fill: var(--open); } .graph [data-operand] { fill-opacity: .45; }
.graph .blind { stroke: var(--worst); stroke-width: 3; stroke-dasharray: 7 3; }
@media print { .graph { overflow: visible; max-height: none; border: 0; } .graph svg { max-width: 100%; height: auto; } }
"""
"""How the parts of a graph look; a plate lies between a pattern and the words."""
_SVG = "{http://www.w3.org/2000/svg}"
_KINDS = set(VERDICT_KINDS)


def coloured(picture: str, counts: Mapping[int, Mapping[str, int]], kinds: Sequence[str], label: str, none: str = "") -> str:
    """The graph that `vcp_study graph` drew, each operation in the look of the worst kind of its faults, with its number; of one without any in that of
    `none`, or plain. Blind operations have a broken border, as that drawing tells them."""
    root = _root(picture)
    for box, own in _boxes(root):
        told = counts.get(int(box.attrib["data-operation"]), {})
        found = worst(told, kinds, none)
        before = box.attrib.get("class", "")
        marks = [look(found) if found and before != "unreached" else "", before if before in ("blind", "unreached") else ""]
        box.set("class", " ".join(filter(None, marks)) or "plain")
        if any(told.values()):
            _add_line(root, box, own, _short(told, kinds), counted(told, kinds))
    for box in root.iter(_SVG + "rect"):
        told = counts.get(int(box.attrib.get("data-operand", "-1")), {})
        if any(told.values()):
            box.set("class", look(worst(told, kinds)))
            _title(box, f"operation {box.attrib['data-operand']}, a constant: {counted(told, kinds)}")
    return _framed(root, label)


def by_verdicts(picture: str, label: str) -> str:
    """The graph that `vcp_study faults` drew, with the looks of its verdicts."""
    root = _root(picture)
    for box, _ in _boxes(root):
        kind = box.attrib.get("class", "")
        if kind in _KINDS:
            box.set("class", look(kind))
    return _framed(root, label)


def _root(picture: str) -> ElementTree.Element:
    """The drawing without its style and its key, which are those of a page."""
    try:
        root = ElementTree.fromstring(picture)
    except ElementTree.ParseError:
        raise Refusal("vcp_study: this is no picture") from None
    parts = list(root)
    first = next((at for at, it in enumerate(parts) if {"data-reader", "data-operation"} & set(it.attrib)), len(parts))
    for part in parts[:first]:
        root.remove(part)
    return root


def _boxes(root: ElementTree.Element) -> Sequence[tuple[ElementTree.Element, list[ElementTree.Element]]]:
    """The boxes of the operations, each with the words that stand in it."""
    found: list[tuple[ElementTree.Element, list[ElementTree.Element]]] = []
    for part in root:
        if part.tag == _SVG + "rect" and "data-operation" in part.attrib:
            found.append((part, []))
        elif part.tag == _SVG + "text" and found:
            found[-1][1].append(part)
    return found


def _short(told: Mapping[str, int], kinds: Sequence[str]) -> str:
    """The worst kind with its number, and `+` where there are others: so much has room in a box."""
    found = worst(told, kinds)
    return f"{found} {told[found]}" + " +" * (sum(map(bool, told.values())) > 1)


def _title(box: ElementTree.Element, words: str) -> None:
    """What is told where the pointer rests on a box."""
    ElementTree.SubElement(box, _SVG + "title").text = words


def _add_line(root: ElementTree.Element, box: ElementTree.Element, own: Sequence[ElementTree.Element], words: str, title: str) -> None:
    """Writes a line below the words of a box."""
    left, top = int(box.attrib["x"]), int(box.attrib["y"])
    line = ElementTree.Element(_SVG + "text", {"x": str(left + 5), "y": str(max([top + 34, *(int(it.attrib["y"]) for it in own if _is_in(it, box))]) + 11)})
    line.text = words
    _title(box, title)
    at = list(root).index(own[-1] if own else box) + 1
    root.insert(at, line)


def _is_in(words: ElementTree.Element, box: ElementTree.Element) -> bool:
    """Whether words stand in a box."""
    top, height = int(box.attrib["y"]), int(box.attrib["height"])
    return top <= int(words.attrib["y"]) <= top + height


def _framed(root: ElementTree.Element, label: str) -> str:
    """The drawing with a plate behind the words of each box, in a frame that the keyboard reaches."""
    for box, _ in _boxes(root):
        if box.attrib["class"] != "plain":
            where = {name: str(int(box.attrib[name]) + more) for name, more in (("x", 3), ("y", 3), ("width", -6), ("height", -6))}
            root.insert(list(root).index(box) + 1, ElementTree.Element(_SVG + "rect", {"class": "plate", **where}))
    _end_at_what_is_drawn(root)
    ElementTree.register_namespace("", "http://www.w3.org/2000/svg")
    drawn = re.sub(r" ?/>", "/>", ElementTree.tostring(root, encoding="unicode"))
    return element("div", drawn, class_="graph", tabindex="0", role="img", aria_label=label)


def _end_at_what_is_drawn(root: ElementTree.Element) -> None:
    """Takes away the width that only the key needed."""
    right = [int(it.attrib["x"]) + int(it.attrib.get("width", "0")) for it in root if it.tag == _SVG + "rect"]
    width = max(right, default=0) + 12
    root.set("width", str(width))
    root.set("viewBox", f"0 0 {width} {root.attrib['height']}")
