"""What a log of the gate says: how it ended, of which sources it is, and the axioms on which the programs stand."""
from __future__ import annotations

import re
from dataclasses import dataclass
from typing import Iterator

from vcp_tools.proved import PROGRAMS

NONE = "no log of the gate is given"
"""What is said where there is no log."""
_PASSED = re.compile(r"[0-9]+ passed, 0 failed; gate: status 0\Z")


@dataclass(frozen=True)
class GateLog:
    """The log of `.ci/run`, or of `rt ci` alone."""

    lines: tuple[str, ...]

    @staticmethod
    def read(data: bytes) -> "GateLog":
        """A log, as it was printed."""
        return GateLog(tuple(data.decode("utf-8", "replace").splitlines()))

    @property
    def ending(self) -> str:
        """How it ended: the last line of `rt ci`, and the status of `.ci/run`, which also looks at documents and tools."""
        proofs = next((line for line in reversed(self.lines) if re.match(r"[0-9]+ passed, [0-9]+ failed", line)), "no end of rt ci is reported")
        return f"{proofs}; {next((line for line in reversed(self.lines) if line.startswith('gate: status ')), 'gate: no status is reported')}"

    @property
    def has_passed(self) -> bool:
        """Whether `rt ci` passed, with all crates, and all behind it."""
        return _PASSED.match(self.ending) is not None

    @property
    def sources(self) -> dict[str, str]:
        """The digests of what the programs were made of, which `.ci/run` prints before it begins."""
        found = (re.fullmatch(r"sources (\w+) ([0-9a-f]{64})", line) for line in self.lines)
        return {match[1]: match[2] for match in found if match}

    def told(self) -> Iterator[str]:
        """The lines by which the gate says what was done, what passed and what was left out."""
        marks = re.compile(r"^rt: ok; |^FAILED|^[0-9]+ passed, |^Ran [0-9]+ tests? in |^OK\b|^(documents|tools|transcripts|usage|pictures|examples): ")
        yield from (line for line in self.lines if marks.match(line))


def axioms(log: bytes, crate: str) -> str:
    """How many axioms the build of a crate counts, by the last line of its proof; empty where the log has none, as where a proof is kept."""
    inside, found = False, ""
    for line in log.decode("utf-8", "replace").splitlines():
        if line.startswith("== "):
            inside = line == f"== {crate}"
        match = re.match(r"logic=proved .*\baxioms=([0-9]+)", line)
        if inside and match:
            found = match[1]
    return found


def of_these(log: GateLog, present: dict[str, str]) -> str:
    """Whether a log is of the sources that are here."""
    if not log.sources:
        return "not known: the log has no line `sources ..`, which .ci/run prints"
    return "the present ones" if all(log.sources.get(name) == present[name] for name in PROGRAMS) else "OTHERS than those that are here"
