"""`help`: where to read on."""
from __future__ import annotations

import argparse

from vcp_tools.program import TOP, in_installation, in_repository
from vcp_tools.refusal import FINE

PAGES = (
    ("docs/START.md", "from your program to a report, on one page"),
    ("docs/PATTERNS.md", "to bring a program here by hand: what to write for timers, edges and the like"),
    ("docs/TOOLS.md", "each of these tools, with an example"),
    ("docs/PROPERTIES.md", "whether something can ever come, and rows that reach everything"),
    ("docs/CAMPAIGNS.md", "every fault of a class tried on a program"),
    ("docs/LANGUAGE.md", "the language"),
    ("docs/FORMATS.md", "rows, scripts, images, and the words of vcp and vcp_study; `man docs/vcp.1`, `man docs/vcp_study.1`"),
    ("docs/ERRORS.md", "what a line or a status means; `vcp_tools explain` and the same words say more"),
    ("docs/PROMISES.md", "what is proved, and what isn't"),
)
"""The documents, each with what it is read for."""


def add_words(parser: argparse.ArgumentParser) -> None:
    """`help` has no words."""


def run(given: argparse.Namespace) -> int:
    """Prints which document says what."""
    for page, about in PAGES:
        print(f"{page}: {about}")
    print(f"they are in {TOP}" if in_repository() or in_installation() else "they are in the repository from which the tools were installed")
    return FINE
