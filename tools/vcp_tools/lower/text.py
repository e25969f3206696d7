"""The text that is written: lines with the place in the original from which they come, and names that are used once."""
from __future__ import annotations

from dataclasses import dataclass, field

from vcp_tools.read.source import RESERVED


@dataclass
class Line:
    """A line: its depth, its text, the byte of the original from which it comes, and a remark."""

    depth: int
    text: str
    at: int
    remark: str = ""


@dataclass
class Names:
    """The names of the text."""

    taken: set[str] = field(default_factory=lambda: set(RESERVED))

    def is_free(self, name: str) -> bool:
        """Whether nothing has this name."""
        return name.upper() not in self.taken

    def claim(self, name: str) -> str:
        """This name, or one with a number behind it where something has it."""
        found, count = name, 1
        while not self.is_free(found):
            count += 1
            found = f"{name}_{count}"
        self.taken.add(found.upper())
        return found


@dataclass
class Declaration:
    """A declared variable of the text: its section, name, type and initial value, the byte of the original and a remark."""

    section: str
    name: str
    stored: str
    initial: str
    at: int
    remark: str = ""
