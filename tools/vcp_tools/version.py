"""`version`: which tools, sources, programs and toolchain are here."""
from __future__ import annotations

import argparse
from typing import Iterator

from vcp_tools import VERSION
from vcp_tools.evidence.repository import changes, commit
from vcp_tools.program import TOP, find_program, in_repository, present_toolchain, promised_toolchain
from vcp_tools.proved import PROGRAMS, TOLD, digest_of, installed_summary, told_of
from vcp_tools.refusal import FINE, FOUND


def add_words(parser: argparse.ArgumentParser) -> None:
    """`version` has no words."""


def run(given: argparse.Namespace) -> int:
    """Prints what is here, a line each; the status is 9 where a program isn't the one that its record names."""
    lines = [f"vcp_tools {VERSION}", _commit(), *_programs(), *_toolchain()]
    print("\n".join(lines))
    return FOUND if any(TOLD["altered"] in line for line in lines) else FINE


def _commit() -> str:
    """The commit of the sources."""
    if in_repository():
        differing = changes(TOP)
        return f"commit {commit(TOP)}" + (f", and {len(differing)} files that differ from it or are beside it" if differing else "")
    return f"commit {installed_summary().get('commit', 'not known here: the tools are outside the repository, and were not installed by install.sh')}"


def _programs() -> Iterator[str]:
    """The proved programs."""
    for name in PROGRAMS:
        file = find_program(name)
        yield f"{name} {digest_of(file)}, {told_of(file)}" if file is not None else f"{name} {TOLD['missing']}"


def _toolchain() -> Iterator[str]:
    """The toolchain of the proofs, and the one that is here."""
    promised, present = promised_toolchain(), present_toolchain()
    if promised is not None:
        yield f"toolchain of the proofs: {promised}"
    yield f"toolchain here: {'the same' if present == promised else present}" if present is not None else "toolchain here: none"
