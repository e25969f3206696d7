#!/usr/bin/env python3
"""Whether the sections that documents refer to are there.

    checks/sections.py

A reference is a document's path with a section in quotes behind it, as `docs/LANGUAGE.md`, 'Grammar', or a link to a section of the same page, as
[Grammar](#grammar). A paragraph that begins with bold words is named by these, too. Each path of a document that stands in backquotes is to be a file. It
prints what isn't so, and its status is then 1.
"""
import re
import sys
from pathlib import Path

TOP = Path(__file__).resolve().parent.parent
PATH = r"`((?:docs|docs/dev|examples|checks|bench)/\w+\.(?:md|1|bash)|README\.md|CHANGELOG\.md)`"


def text_of(path):
    """A document in one line, so that a reference may be broken anywhere; what stands indented as code is left out."""
    lines = path.read_text(encoding="utf8").split("\n")
    return " ".join(line.strip() for line in lines if not line.startswith("    "))


def sections_of(path):
    return re.findall(r"^#+ (.*)$", path.read_text(encoding="utf8"), re.M)


def named_in(path):
    """The sections of a document and the bold words with which a paragraph begins, as they are quoted."""
    bold = re.findall(r"^\*\*([^*]+?)\.?\*\*", path.read_text(encoding="utf8"), re.M)
    return [name.replace("`", "") for name in sections_of(path) + bold]


def anchor(section):
    """The name by which a link goes to a section."""
    return re.sub(r"[^\w\- ]", "", section.lower()).replace(" ", "-")


def faults():
    for path in sorted([*TOP.glob("*.md"), *TOP.glob("docs/**/*.md"), *TOP.glob("examples/*.md"), *TOP.glob("bench/*.md")]):
        name, text = path.relative_to(TOP), text_of(path)
        for cited in re.findall(PATH, text):
            if not (TOP / cited).is_file():
                yield f"{name}: `{cited}` isn't there"
        for cited, quoted in re.findall(PATH + r", ((?:'[^']+'(?:, | and )?)+)", text):
            if (TOP / cited).is_file():
                for section in re.findall(r"'([^']+)'", quoted):
                    if section.replace("`", "") not in named_in(TOP / cited):
                        yield f"{name}: `{cited}` has no section '{section}'"
        for link in re.findall(r"\]\(#([^)]+)\)", text):
            if link not in map(anchor, sections_of(path)):
                yield f"{name}: there is no section for the link #{link}"


def main():
    found = list(faults())
    print("\n".join(found) or "sections: all that documents refer to are there")
    sys.exit(1 if found else 0)


main()
