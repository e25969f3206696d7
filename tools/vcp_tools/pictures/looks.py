"""What people look at in a report: the graph in the colours of `cover`, bars, marks beside the source, and the cycles of faults in the run."""
from __future__ import annotations

import tempfile
from pathlib import Path
from typing import Mapping

from vcp_tools.files import read_bytes, write_bytes
from vcp_tools.pictures import filtered, graph, kinds, lines, waves
from vcp_tools.pictures.case import Case
from vcp_tools.pictures.markup import element, page, section, text
from vcp_tools.program import Program
from vcp_tools.read.verdict_lines import VERDICTS, faults_of_group

STYLE = kinds.STYLE + waves.STYLE + graph.STYLE + lines.STYLE + filtered.STYLE
_MEANT = (
    ("shows", "a fault shows: a wrong value may be released"), ("runs-on", "a fault runs on: a run may go on that would have stopped"),
    ("beyond", "a fault is beyond the horizon"), (kinds.SEEN, "each fault is refused or does nothing"),
)


def looked_at(title: str, sections: list[str]) -> str:
    """A page with pictures."""
    return page(title, sections, STYLE, kinds.PATTERNS, filtered.SCRIPT)


def kinds_in(case: Case) -> Mapping[int, Mapping[str, int]] | None:
    """How many faults of each operation aren't certain, by their kinds; None where that isn't known."""
    return None if case.cover is None else kinds.by_operation(case.cover)


def told_of_kinds(counts: Mapping[int, Mapping[str, int]] | None, operation: int) -> str:
    """What is told of an operation's faults in every run."""
    if counts is None:
        return ""
    here = counts.get(operation, {})
    return element("span", text(kinds.counted(here, kinds.COVER_KINDS)), class_="bad") if here else text(kinds.SEEN)


def graph_section(case: Case) -> str:
    """The graph, each operation by the worst of its faults; no section where the program that draws it isn't built, or where it would be too large."""
    counts = kinds_in(case)
    if counts is None or len(case.image.operations) > graph.MOST_DRAWN:
        return ""
    note = "Data flows from left to right. A broken border: blind, each difference that is made there cancels at an output (see Audit)."
    about = element("p", note, class_="dim")
    label = "the graph of the operations, each by the worst of its faults in every run; the table of operations has the same"
    drawn = graph.coloured(_drawn(case), counts, kinds.COVER_KINDS, label, kinds.SEEN)
    return section("graph", "Operations, by the worst of their faults in every run", kinds.key(_MEANT) + about + drawn)


def _drawn(case: Case) -> str:
    """The graph as the proved program draws it."""
    case.commands.append(f"vcp_study graph {case.image_name} {case.horizon}")
    with tempfile.TemporaryDirectory() as folder:
        at = Path(folder) / "image"
        write_bytes(at, case.image_bytes)
        return Program.found("vcp_study").must("graph", at, str(case.horizon), shown=("graph", case.image_name, str(case.horizon))).text


def marked_source(case: Case) -> str:
    """The source with a mark a line."""
    blind = {operation for it in case.audit for operation in it.blind}
    note = "Before each line stands the worst that becomes of the faults of its operations in every run: shows, runs-on, beyond, blind or seen."
    told = element("p", note, class_="dim") if case.cover is not None else ""
    return told + lines.marked(case.source, case.image, kinds_in(case), blind, kinds.COVER_KINDS, kinds.SEEN)


def faults_in(case: Case) -> list[waves.Fault]:
    """The faults of a script in the run: of each group each cycle once."""
    if not case.faults:
        return []
    script = read_bytes(case.faults).decode("utf-8", "replace").split("\n")
    found = []
    for it in case.verdicts[0]:
        cycles = {int(words[1]) for fault in faults_of_group(script, it.line) if len(words := fault.split()) > 1 and words[1].isdigit()}
        found += [waves.Fault(cycle, it.line, it.verdict) for cycle in sorted(cycles)]
    return found


def verdict_bars(case: Case) -> str:
    """A bar of the verdicts on the faults of the script."""
    numbers = {kind: sum(it.verdict == kind for it in case.verdicts[0]) for kind in VERDICTS}
    return kinds.bars({"faults": numbers}, kinds.VERDICT_KINDS, "script") + kinds.key((kind, kind) for kind in kinds.VERDICT_KINDS)
