"""`lint`: what is lawful and likely a mistake."""
from __future__ import annotations

import argparse
from typing import Iterable, Iterator

from vcp_tools.wording import listed
from vcp_tools.read.image import Image, Operation
from vcp_tools.lint.list_findings import list_findings
from vcp_tools.lint.step import step_told
from vcp_tools.lint.tree_findings import Finding, tree_findings
from vcp_tools.program import Program
from vcp_tools.program_text import add_form_word
from vcp_tools.read.given import Given, load
from vcp_tools.refusal import FINE, FOUND, Refusal
from vcp_tools.read.origin import WORDS, Origin
from vcp_tools.read.source import Source
from vcp_tools.read.structured_text import parse

KINDS = ("same-on-both-sides", "input-never-read", "output-never-set", "never-read", "never-set", "labels-overlap", "branch-never-taken",
         "condition-always-true", "value-lost", "counter-only-grows", "feeds-itself-alone")
"""The kinds of findings."""
_ALWAYS = {
    "EQ": "the comparison is always the same", "LT": "the comparison is always FALSE, or always TRUE behind NOT", "SUB": "the difference is always 0",
    "XOR": "it is always FALSE", "DIV": "the quotient is always 1", "MOD": "the remainder is always 0", "AND": "one of them says it all",
    "OR": "one of them says it all", "SEL": "the choice changes nothing",
}
_SPELLED = {"AND": ("AND", "&"), "OR": ("OR",), "SEL": ("SEL",)}
"""Of these kinds only those are told that the source spells so: others are path conditions and assignments in branches."""


def add_words(parser: argparse.ArgumentParser) -> None:
    """The words of `lint`."""
    parser.add_argument("program", metavar="P", help="the source, or an instruction list")
    parser.add_argument("--from", dest="original", metavar="ORIGINAL", help=WORDS)
    parser.add_argument("--seed", type=int, metavar="N", help="the seed with which the least step is looked for, as `vcp compile` has it")
    add_form_word(parser)
    parser.add_argument("--allow", action="append", default=[], metavar="KIND", help=f"leave findings of this kind out; the kinds are {', '.join(KINDS)}")


def run(given: argparse.Namespace) -> int:
    """Prints each finding with its place, and the least step; the status is 9 where there is a finding."""
    unknown = [kind for kind in given.allow if kind not in KINDS]
    if unknown:
        raise Refusal(f"--allow: `{unknown[0]}` is no kind: there are {listed(KINDS)}")
    loaded = load(Program.found(), given.program, () if given.seed is None else ("--seed", str(given.seed)), given.as_list)
    if loaded.source is None:
        raise Refusal(f"{given.program}: this is an image, and the source is wanted")
    found = [finding for finding in findings(loaded, loaded.source) if finding.kind not in given.allow]
    origin = None if given.original is None else Origin(given.program, given.original)
    for finding in found:
        message = finding.message if origin is None else origin.renamed(finding.message)
        print(f"{given.program}:{loaded.source.told(finding.at)}: {message} [{finding.kind}]")
        for line in origin.told(loaded.source.place(finding.at)[0]) if origin is not None else ():
            print(line)
    if not found:
        print(f"{given.program}: nothing that is likely a mistake")
    print(f"{given.program}: {step_told(loaded.image)}")
    return FOUND if found else FINE


def findings(given: Given, source: Source, without_tree: bool = False) -> list[Finding]:
    """All findings of a program, in the order of their places, each once; those of the operations alone where no grammar is to be read."""
    read: Iterable[Finding] = [] if without_tree else list_findings(source) if source.is_list else tree_findings(source, parse(source))
    both = [*read, *_same_sides(given.image, source)]
    return sorted(set(both), key=lambda finding: (finding.at, finding.kind))


def _same_sides(image: Image, source: Source) -> Iterator[Finding]:
    """Operations that read one and the same operation twice, after equal operations were joined."""
    for operation in image.operations:
        sides = operation.operands[-2:] if operation.kind in _ALWAYS else ()
        if len(sides) < 2 or sides[0] != sides[1] or not operation.line:
            continue
        at = source.offset(operation.line, operation.column)
        if source.tokens[source.index_at(at)].upper not in _SPELLED.get(operation.kind, (source.tokens[source.index_at(at)].upper,)):
            continue
        yield Finding("same-on-both-sides", at, _same_message(image, source, operation, image.operations[sides[0]], at))


def _same_message(image: Image, source: Source, operation: Operation, operand: Operation, at: int) -> str:
    """What is said of an operation whose two sides are one."""
    name = image.name_of(operand)
    what = f"{name}" if name else f"operation {operand.number}, {operand.kind} at {operand.place}"
    joined = "" if name else ": what the source computes twice is computed once, so that no fault of one of them shows here"
    spelled = source.tokens[source.index_at(at)].text
    return f"both sides of `{spelled}` are {what}, and {_ALWAYS[operation.kind]}{joined}"
