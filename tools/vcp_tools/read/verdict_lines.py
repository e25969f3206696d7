"""The lines of `inject`, after docs/FORMATS.md, 'Printed lines'."""
from __future__ import annotations

from dataclasses import dataclass
from typing import Sequence

from vcp_tools.refusal import Refusal

VERDICTS = ("same", "wrong", "ran-on", "refused", "stopped")


@dataclass(frozen=True)
class Verdict:
    """The verdict on a group of faults: its line in the script, what came of it, and the rest of the line."""

    line: int
    verdict: str
    rest: str


def faults_of_group(script: Sequence[str], line: int) -> list[str]:
    """The faults of the group of a script whose first stands in this line."""
    lines = [it.strip() for it in script]
    marks = [it for it in lines[: line - 1] if it in ("begin", "end")]
    if not marks or marks[-1] == "end":
        return [lines[line - 1]]
    rest = lines[line - 1 :]
    return [it for it in rest[: rest.index("end")] if it and not it.startswith("#")]


def never_reached(faults: Sequence[str], cycles: int) -> bool:
    """Whether each fault of a group, as a line of a script, is of a cycle behind the first `cycles` ones, which are begun."""
    found = [line.split() for line in faults]
    return bool(found) and all(len(words) > 1 and words[1].isdigit() and int(words[1]) >= cycles for words in found)


def read_verdicts(text: str) -> tuple[list[Verdict], str]:
    """The verdicts of a campaign, and the line of totals."""
    lines = text.rstrip("\n").split("\n")
    found = []
    for line in lines[:-1]:
        number, _, rest = line.partition(" ")
        verdict, _, more = rest.partition(" ")
        if not number.isdigit() or verdict not in VERDICTS:
            raise Refusal(f"this is no verdict: `{line[:60]}`")
        found.append(Verdict(int(number), verdict, more))
    if not lines[-1].startswith("faults "):
        raise Refusal("the totals of the campaign are missing")
    return found, lines[-1]
