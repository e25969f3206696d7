"""Words in messages: lists, articles, and what a misspelt word likely is."""
from __future__ import annotations

from difflib import get_close_matches
from typing import Iterable


def nearest(word: str, known: Iterable[str]) -> str | None:
    """The one of some words that a misspelt word most likely is, without regard to case."""
    by_capitals = {name.upper(): name for name in known}
    found = get_close_matches(word.upper(), list(by_capitals), 1, 0.7)
    return by_capitals[found[0]] if found else None


def listed(words: Iterable[str], most: int = 12) -> str:
    """Words with commas, the first ones where there are many."""
    given = list(words)
    rest = f" and {len(given) - most} more" if len(given) > most else ""
    return ", ".join(given[:most]) + rest if given else "none"


def article(type_name: str) -> str:
    """A type's name with its article."""
    return ("an " if type_name == "INT" else "a ") + type_name
