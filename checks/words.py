#!/usr/bin/env python3
"""Whether the documents say in engineers' words what they say.

    checks/words.py            prints each phrase that comes more often than it may, with its places, and then how often `stands` comes
    checks/words.py --all      looks at docs/CLAUSES.md, too, which is made from the comments of the sources

Documents are README.md, CHANGELOG.md, and the pages and manual pages of docs/, docs/dev/, examples/ and bench/. What is shown as code, and what programs print,
in indented blocks or between backquotes, doesn't count. Its status is 1 where a phrase comes too often.
"""
import re
import sys
from pathlib import Path

TOP = Path(__file__).resolve().parent.parent
MADE = "CLAUSES.md"

PHRASES = {
    r"stands": 40, r"(?:is|are|was|were|be) told": 0, r"comes to (?!rest\b|the end\b)": 0, r"through (?:all )?its refusals": 0,
    r"shows there, but for": 0, r"nothing is driven": 0, r"writes none but the rows": 0, r"[Nn]ot seen is whatever": 0, r"comes to something": 0,
    r"carried at all is by reading": 0, r"lack of a new line": 0, r"[Ww]hat stands of": 0, r"in silence": 0,
}
"""Phrases, and how often each may come in all documents together: no term of the field, or sentences that engineers didn't understand."""


def documents(made):
    """The documents that are looked at."""
    found = [*TOP.glob("*.md"), *TOP.glob("docs/**/*.md"), *TOP.glob("docs/*.1"), *TOP.glob("examples/*.md"), *TOP.glob("bench/**/*.md")]
    return sorted(path for path in found if made or path.name != MADE)


def lines_of(path):
    """The lines of a document without its indented blocks, which begin behind an empty line; other indented lines go on with an item of a list."""
    lines, coded, empty = [], False, True
    for line in path.read_text(encoding="utf8").split("\n"):
        coded = line.startswith("    ") and (coded or empty)
        empty = not line.strip()
        if not coded:
            lines.append(line.strip())
    return lines


def text_of(path):
    """A document in one line a paragraph, without code and quoted words."""
    return re.sub(r"`[^`]*`", "` `", " ".join(lines_of(path)))


def main():
    texts = {path.relative_to(TOP): text_of(path) for path in documents("--all" in sys.argv[1:])}
    faults = []
    for phrase, most in PHRASES.items():
        sought = rf"\b{phrase}\b" if phrase[-1].isalpha() else rf"\b{phrase}"
        places = [f"{name}: .. {text[max(0, it.start() - 60):it.end() + 20]} .." for name, text in texts.items() for it in re.finditer(sought, text)]
        if len(places) > most:
            faults += [f"words: `{phrase}` comes {len(places)} times, and may {most} times:", *(f"  {place}" for place in places)]
    count = sum(len(re.findall(r"\bstands\b", text)) for text in texts.values())
    print("\n".join(faults) or f"words: `stands` comes {count} times in {len(texts)} documents, and no phrase too often")
    sys.exit(1 if faults else 0)


main()
