"""Which faults no recorded run shows, run by run."""
from __future__ import annotations


class Shown:
    """The groups of a script, by their lines, that some run has refused or stopped."""

    def __init__(self) -> None:
        self.shown: set[int] = set()
        self.before = 0
        self.runs = 0

    def add(self, rows: str, verdicts: bytes) -> str:
        """Adds the verdicts of a run, and says by how much the list gets shorter."""
        lines = verdicts.split(b"\n")[:-1]
        for line in lines:
            number, verdict = line.split(b" ", 2)[:2]
            if verdict in (b"refused", b"stopped"):
                self.shown.add(int(number))
        left = len(lines) - len(self.shown)
        self.runs += 1
        fewer = f", {self.before - left} fewer" if self.runs > 1 else ""
        self.before = left
        return f"{rows}: behind {self.runs} run{'s' if self.runs > 1 else ''}, {left} of {len(lines)} faults are shown by none{fewer}"

    def listed(self, script: bytes, verdicts: bytes) -> bytes:
        """A line for each fault that no run shows: the number of its line in the script, and the fault."""
        lines = script.split(b"\n")
        numbers = [int(line.split(b" ", 1)[0]) for line in verdicts.split(b"\n")[:-1]]
        return b"".join(b"%d %b\n" % (number, lines[number - 1].strip()) for number in numbers if number not in self.shown)
