"""The page of a campaign: its verdicts as bars, at the operations of the graph, beside the lines of the source, and as a table that can be narrowed down."""
from __future__ import annotations

import re
import tempfile
from pathlib import Path
from typing import Mapping, Sequence

from vcp_tools.files import write_bytes
from vcp_tools.pictures import graph, kinds, lines
from vcp_tools.pictures.filtered import filtered
from vcp_tools.pictures.looks import looked_at
from vcp_tools.pictures.markup import code, element, line, section, table, text
from vcp_tools.program import Program
from vcp_tools.read.image import Image, read_image
from vcp_tools.read.source import Source
from vcp_tools.read.sum_tables import Sum, read_sum, totals_line
from vcp_tools.read.verdict_lines import VERDICTS

MOST_NAMED = 1000
"""So many faults that aren't seen are named at most."""
HORIZON = 2
"""The cycle borders across which the drawing of the graph tells blind operations."""
_PLACES = "by where it stands"
_OPERATION = re.compile(r"operation (\d+) ")
_MEANT = (("wrong", "a wrong value is released"), ("ran-on", "the run goes on where it should stop"), ("same", "the run is the same"),
          ("stopped", "the run stops"), ("refused", "an output is refused"))


def campaign_page(
    title: str, tables: str, image_bytes: bytes, source: Source | None, study: Program, files: Sequence[tuple[str, str, str]] = ()
) -> str:
    """The page of what `vcp_study sum` told; `files` has what was judged and by what: what it is, its name, and its SHA-256, empty where it is no file."""
    found, image = read_sum(tables), read_image(image_bytes, "the image")
    counts = {int(match[1]): named(numbers) for name, numbers in found.tables.get(_PLACES, {}).items() if (match := _OPERATION.match(name))}
    parts = [
        section("summary", "Verdicts", _summary(found)),
        section("files", "Files", table(("what", "name", "SHA-256"), [(text(what), line(name), code(it)) for what, name, it in files])) if files else "",
        _graph(image, image_bytes, counts, study),
        section("unseen", "Faults that aren't seen", _unseen(found)),
        section("operations", "Operations", _operations(found)),
        section("source", "Source", _source(source, image, counts)) if source else "",
    ]
    return looked_at(title, [part for part in parts if part])


def named(numbers: Sequence[int]) -> dict[str, int]:
    """The numbers of a row behind that of all, by their verdicts."""
    return dict(zip(VERDICTS, numbers[1:]))


def _summary(found: Sum) -> str:
    """The totals and a bar for each row of the tables, but for that of the operations."""
    unseen = found.totals[2] + found.totals[3]
    told = element("p", element("span", text(totals_line(found.totals)), class_="bad" if unseen else "good"))
    bars = [kinds.bars({"all": named(found.totals)}, kinds.VERDICT_KINDS, "faults")]
    bars += [kinds.bars({name: named(it) for name, it in rows.items()}, kinds.VERDICT_KINDS, title)
             for title, rows in found.tables.items() if rows and title != _PLACES]
    return told + kinds.key((kind, f"{kind}: {words}") for kind, words in _MEANT) + "".join(bars)


def _graph(image: Image, image_bytes: bytes, counts: Mapping[int, Mapping[str, int]], study: Program) -> str:
    """The graph, each operation by the worst verdict on a fault there; none where it would be too large."""
    if len(image.operations) > graph.MOST_DRAWN:
        return ""
    with tempfile.TemporaryDirectory() as folder:
        at = Path(folder) / "image"
        write_bytes(at, image_bytes)
        drawn = study.must("graph", at, str(HORIZON), shown=("graph", "M", str(HORIZON))).text
    label = "the graph of the operations, each by the worst verdict on its faults; the table of operations has the same"
    return section("graph", "Operations, by the worst verdict on their faults", kinds.key(_MEANT) + graph.coloured(drawn, counts, kinds.VERDICT_KINDS, label))


def _unseen(found: Sum) -> str:
    """The faults that are wrong or ran on."""
    if not found.unseen:
        return element("p", "None: each fault is refused, stops the run, or leaves it the same.", class_="good")
    rows = [(str(number), code(rest), "".join(line(it.strip()) for it in more)) for number, rest, more in found.unseen[:MOST_NAMED]]
    left = element("p", f"{len(found.unseen) - MOST_NAMED} more aren't named here.", class_="dim") if len(found.unseen) > MOST_NAMED else ""
    return filtered("unseen", table(("line", "verdict", "faults"), rows, (0,))) + left


def _operations(found: Sum) -> str:
    """The numbers of verdicts of each operation."""
    rows = [(code(name), *(element("span", str(number), class_="bad") if number and at in (2, 3) else str(number) for at, number in enumerate(numbers)))
            for name, numbers in found.tables.get(_PLACES, {}).items()]
    return filtered("operations", table(("operation", "faults", *VERDICTS), rows, range(1, 7)))


def _source(source: Source, image: Image, counts: Mapping[int, Mapping[str, int]]) -> str:
    """The source, before each line the worst verdict on a fault of its operations."""
    note = element("p", "Before each line stands the worst verdict on a fault of its operations.", class_="dim")
    return note + lines.marked(source, image, counts, (), kinds.VERDICT_KINDS)
