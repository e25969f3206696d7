"""What is lawful and likely a mistake in an instruction list: what is told of the tree of any program, and results that aren't stored."""
from __future__ import annotations

from typing import Iterator

from vcp_tools.lint.tree_findings import Finding, tree_findings
from vcp_tools.read.instruction_list import LOADS, STORES, Instruction, parse_list
from vcp_tools.read.list_tree import list_tree
from vcp_tools.read.source import Source


def list_findings(source: Source) -> Iterator[Finding]:
    """All findings of a list."""
    read = parse_list(source)
    yield from tree_findings(source, list_tree(read))
    yield from _lost_results(source, read.instructions)


def _lost_results(source: Source, instructions: list[Instruction]) -> Iterator[Finding]:
    """Results that nothing stores before another one is loaded, or the list ends: told at the first instruction behind the last store."""
    first: Instruction | None = None
    for it in instructions:
        if it.operator in LOADS and first is not None:
            yield Finding("value-lost", first.at, f"the result is never stored: {it.operator} takes another one at {source.told(it.at)}")
        if it.operator in STORES:
            first = None
        elif it.operator in LOADS or first is None:
            first = it
    if first is not None:
        yield Finding("value-lost", first.at, "the result is never stored: the list ends")
