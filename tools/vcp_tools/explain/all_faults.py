"""All faults of a source: each is stepped over by a change of the text that the reader never sees, and the program is asked again."""
from __future__ import annotations

import re
import tempfile
from dataclasses import dataclass, field, replace
from pathlib import Path

from vcp_tools.read.fault_line import FaultLine, read_fault
from vcp_tools.explain.foreign import foreign, told
from vcp_tools.explain.hint import Hint, Repair
from vcp_tools.explain.hints_source import source_hint
from vcp_tools.explain.hints_types import Typed, step_over
from vcp_tools.files import read_bytes, write_bytes
from vcp_tools.program import Program
from vcp_tools.read.source import Source, Token
from vcp_tools.explain.stuck import Stuck
from vcp_tools.read.structured_text import parse

MOST_ROUNDS = 200
"""So many faults are stepped over at most."""
VALUES = ("TRUE", "7919", "DINT#7919", "LINT#7919")
"""What is put in the place of an operand of which nothing sure can be said: a value of each type."""
OF_A_NAME = ("T1", "T2", "T4")
"""Faults of a name alone, whatever stands beside it."""


class Patched:
    """A text under changes, which knows for each byte where it stands in the first text, and whether a change has made it."""

    def __init__(self, data: bytes) -> None:
        self.data = data
        self.origins = list(range(len(data) + 1))
        self.made = bytearray(len(data) + 1)

    def copy(self) -> "Patched":
        """The same text, to be changed further."""
        other = Patched(b"")
        other.data, other.origins, other.made = self.data, self.origins[:], self.made[:]
        return other

    def change(self, repair: Repair) -> None:
        """Puts a text in the place of some bytes."""
        changes = [repair]
        while changes[-1].behind is not None:
            changes.append(changes[-1].behind)
        for it in reversed(changes):
            put = it.text.encode("latin-1")
            origin = self.origins[it.start]
            self.data = self.data[: it.start] + put + self.data[it.end :]
            self.origins[it.start : it.end] = [origin] * len(put)
            self.made[it.start : it.end] = b"\1" * len(put)

    def origin(self, at: int) -> int:
        """Where a byte of the present text stands in the first one."""
        return self.origins[min(at, len(self.origins) - 1)]

    def is_made(self, start: int, end: int) -> bool:
        """Whether a change has made one of these bytes."""
        return any(self.made[start : max(end, start + 1)])


@dataclass
class AllHints:
    """The faults that are told, each with the program's line, the first text and the hint on it, the line empty where the tokens alone told it; how many
    more may follow from these; and what wasn't looked at, in words, empty where all was."""

    hints: list[tuple[str, Source, Hint]] = field(default_factory=list)
    suspected: int = 0
    left_out: str = f"{MOST_ROUNDS} faults were stepped over, and what is left wasn't looked at"


def all_hints(program: Program, file: str) -> AllHints:
    """The faults of a source, in the order in which the program tells them."""
    return _Rounds(program, file).whole()


class _Rounds:
    """Steps over one fault behind the other."""

    def __init__(self, program: Program, file: str) -> None:
        self.program, self.file = program, file
        self.first = Source(read_bytes(file))
        self.patched = Patched(self.first.data)
        self.found = AllHints()
        self.doubtful: set[str] = set()
        self.seen: set[tuple[str, int]] = set()

    def whole(self) -> AllHints:
        """All faults: first what the profile lacks, by the tokens of the whole text, and then what the program refuses of the text without it."""
        lacking = foreign(self.first)
        self.doubtful = set(lacking.doubtful)
        for hint in told(lacking.hints):
            self.found.hints.append(("", self.first, hint))
        for hint in sorted(lacking.hints, key=lambda it: -it.repair.start if it.repair else 0):
            if hint.repair is not None:
                self.patched.change(hint.repair)
        for _ in range(MOST_ROUNDS):
            fault = next_fault(self.program, self.patched.data)
            if fault is None:
                self.found.left_out = ""
                break
            if not self.step(fault):
                break
        return self.found

    def step(self, fault: FaultLine) -> bool:
        """Tells or counts a fault, and steps over it; whether a way is known."""
        source = Source(self.patched.data)
        at = source.offset(fault.first or 1, fault.second or 1)
        hint = source_hint(source, fault.code, at)
        if not self.tell(fault, source, hint) and fault.code[0] == "T":
            hint = replace(hint, repair=step_over(Typed(source, parse(source)), at) or hint.repair)
        doubt(self.doubtful, source, fault, hint, self.first)
        if hint.repair is None or (hint.repair.text.encode("latin-1") == self.patched.data[hint.repair.start : hint.repair.end]):
            place = self.first.told(self.patched.origin(at))
            self.found.left_out = f"no way round the fault at {place} is known, and behind it only what the profile lacks was looked for"
            return False
        self.patched.change(hint.repair)
        return True

    def tell(self, fault: FaultLine, source: Source, hint: Hint) -> bool:
        """Adds a fault of the present text to those that are told, unless it may follow from one before, or its message may quote what a change has made;
        whether it was added."""
        patched = self.patched
        start = patched.origin(hint.start)
        end = max(start, patched.origin(max(hint.start, hint.end - 1)) + (hint.end > hint.start))
        first, last = _quoted(source, fault.code, hint)
        may_follow = patched.is_made(hint.start, hint.end) or any(self.is_unsure(source.tokens[it], fault.code) for it in range(first, last + 1))
        if (fault.code, start) in self.seen or (may_follow and not self.stands_alone(fault, source, hint, first, last)):
            self.found.suspected += 1
            return False
        self.seen.add((fault.code, start))
        at = patched.origin(source.offset(fault.first or 1, fault.second or 1))
        place = f"{self.file}:{self.first.told(at)}" if fault.first else self.file
        self.found.hints.append((f"{place} {fault.code} {fault.word}", self.first, Hint(hint.message, start, end, hint.more)))
        return True

    def is_unsure(self, token: Token, code: str) -> bool:
        """Whether a change has made a token, or nothing sure can be said of its name, where types are looked at."""
        return self.patched.is_made(token.start, token.end) or (code[0] == "T" and token.kind == "name" and token.upper in self.doubtful)

    def stands_alone(self, fault: FaultLine, source: Source, hint: Hint, first: int, last: int) -> bool:
        """Whether a fault of types comes at the same place with the same message, whatever value stands for each operand of its statement of which nothing
        sure can be said."""
        if fault.code[0] != "T" or self.patched.is_made(hint.start, hint.end):
            return False
        unsure = [it for it in range(first, last + 1) if self.is_unsure(source.tokens[it], fault.code)]
        at = source.offset(fault.first or 1, fault.second or 1)
        if any(source.tokens[it].start <= at < source.tokens[it].end or hint.start <= source.tokens[it].start < hint.end for it in unsure):
            return False
        names = {source.tokens[it].text for it in unsure if not self.patched.is_made(source.tokens[it].start, source.tokens[it].end)}
        for value in VALUES:
            other = self.patched.copy()
            for it in reversed(unsure):
                if not source.tokens[it + 1].is_symbol(":="):
                    other.change(Repair(source.tokens[it].start, source.tokens[it].end, value))
            found = next_fault(self.program, other.data)
            if found is None or found.code != fault.code:
                return False
            changed = Source(other.data)
            there = changed.offset(found.first or 1, found.second or 1)
            said = source_hint(changed, found.code, there).message
            if other.origin(there) != self.patched.origin(at) or _without(said, {value}) != _without(hint.message, names):
                return False
        return True


def _without(message: str, words: set[str]) -> str:
    """A message with a mark in the place of each of some words."""
    return re.sub("|".join(rf"(?<![\w#]){re.escape(word)}(?![\w#])" for word in words) or "(?!)", "@", message)


def next_fault(program: Program, data: bytes, as_list: bool = False) -> FaultLine | None:
    """The program's fault of a text, which is an instruction list with `as_list`; None where there is none, or where something else than a fault came."""
    with tempfile.TemporaryDirectory() as folder:
        at = Path(folder) / "source.st"
        write_bytes(at, data)
        outcome = program.call("il", at, "--cycles", "0") if as_list else program.call("check", at)
    fault = read_fault(outcome.fault) if outcome.fault else None
    return fault if fault is not None and fault.code[0] in "STLQ" and fault.code != "L4" else None


def _quoted(source: Source, code: str, hint: Hint) -> tuple[int, int]:
    """The first and the last token from which the message of a fault may quote: of a fault of a name that name, of another one of types all of its statement
    or condition, else the token before the place and the one at it."""
    at = source.index_at(hint.start)
    last = max(at, source.index_at(max(hint.start, hint.end - 1)))
    if code in OF_A_NAME:
        return at, last
    if code[0] != "T":
        return max(0, at - 1), last
    start = at
    while start > 0 and not _parts(source.tokens[start - 1]):
        start -= 1
    while last + 1 < len(source.tokens) and not _parts(source.tokens[last + 1]):
        last += 1
    return start, last


def _parts(token: Token) -> bool:
    """Whether statements, conditions and declarations end before this token or behind it."""
    return token.is_symbol(";") or token.kind == "end" or token.is_word("THEN", "ELSE", "DO", "OF", "END_VAR", "IF", "ELSIF", "CASE", "FOR")


def doubt(doubtful: set[str], source: Source, fault: FaultLine, hint: Hint, first: Source) -> None:
    """Notes names of which nothing sure can be said any more: those of a changed declaration, those that are declared twice or nowhere, and those
    that a change makes and that the text hasn't."""
    if fault.code in ("T1", "T2"):
        doubtful.add(source.text[hint.start : hint.end].upper())
    if hint.repair is None or fault.code not in ("S1", "S3", "S4"):
        return
    stuck = Stuck(source, source.index_at(hint.start))
    if stuck.in_declaration:
        for token in source.tokens[stuck.statement_start :]:
            if token.is_symbol(":", ":=", ";"):
                return
            if token.kind == "name":
                doubtful.add(token.upper)
    changed = source.data[: hint.repair.start] + hint.repair.text.encode("latin-1") + source.data[hint.repair.end :]
    made = Source(changed)
    token = made.tokens[made.index_at(hint.repair.start)]
    if token.kind == "name" and token.start <= hint.repair.start and all(it.upper != token.upper for it in first.tokens):
        doubtful.add(token.upper)
