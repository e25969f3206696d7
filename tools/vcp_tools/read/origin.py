"""What the remarks of a text that `lower` has written say of the text it came from: lines, and the names of variables there."""
from __future__ import annotations

import re
from pathlib import Path

from vcp_tools.files import read_bytes
from vcp_tools.read.source import Source
from vcp_tools.refusal import Refusal

_LINE = re.compile(r"// line (\d+)(?:: (.*))?\Z")
_DECLARED = re.compile(r"\s*(\w+) : (?:BOOL|INT|DINT|LINT)\b")
_TOLD = re.compile(r"[A-Za-z_]\w*(?:\.\w+|\[-?\d+(?:,-?\d+)*\])+")
_QUOTED = re.compile(r"`(\w+)`")
WORDS = "the text that `lower` has written P from: its lines and names are shown"
"""What the help says of `--from`."""


class Origin:
    """The lines and names of the original of a text."""

    def __init__(self, program: str | Path, original: str | Path) -> None:
        self.original = str(original)
        self._text = Source(read_bytes(original))
        self._lines: dict[int, int] = {}
        self._names: dict[str, str] = {}
        for number, line in enumerate(read_bytes(program).decode("latin-1").split("\n"), 1):
            match = _LINE.search(line.rstrip("\r"))
            if match is None:
                continue
            self._lines[number] = int(match[1])
            declared, told = _DECLARED.match(line), _TOLD.match(match[2] or "")
            if declared and told:
                self._names[declared[1].upper()] = told[0]
        if not self._lines:
            raise Refusal(f"{program}: no line says which line of {original} it came from: `lower` has not written this text")

    def name(self, name: str) -> str:
        """The name that a variable has in the original."""
        return self._names.get(name.upper(), name)

    def renamed(self, message: str) -> str:
        """A message with the original's names where it quotes names."""
        return _QUOTED.sub(lambda match: f"`{self.name(match[1])}`", message)

    def place(self, number: int) -> str:
        """The file and the line from which a line came; empty where it doesn't say."""
        line = self._lines.get(number)
        return "" if line is None else f"{self.original}:{line}"

    def told(self, number: int) -> list[str]:
        """What is printed below the message on a line: the line from which it came."""
        place = self.place(number)
        return [f"      from {place}: {self._text.line(self._lines[number]).decode('utf-8', 'replace').strip()}"] if place else []
