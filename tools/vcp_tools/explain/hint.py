"""What is said of one fault: the message, the bytes that it speaks of, and how a reader of faults steps over it."""
from __future__ import annotations

from dataclasses import dataclass


@dataclass(frozen=True)
class Repair:
    """Bytes `start` to `end` of a text, and what is put in their place so that reading can go on behind a fault. It is no advice. `behind` is another such
    change further on."""

    start: int
    end: int
    text: str
    behind: "Repair | None" = None


@dataclass(frozen=True)
class Hint:
    """A message in plain words about the bytes `start` to `end` of a text, more lines for who reads on, and a repair where one is known."""

    message: str
    start: int
    end: int
    more: tuple[str, ...] = ()
    repair: Repair | None = None
