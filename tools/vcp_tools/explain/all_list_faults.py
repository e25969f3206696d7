"""All faults of an instruction list: each line is an instruction, and is stepped over by itself, by a change of the text that the reader never sees."""
from __future__ import annotations

from dataclasses import replace

from vcp_tools.explain.all_faults import MOST_ROUNDS, VALUES, AllHints, Patched, doubt, next_fault
from vcp_tools.explain.foreign import foreign, told
from vcp_tools.explain.hint import Hint, Repair
from vcp_tools.explain.hints_il import LEFT_OUT, has_label, il_hint, line_at
from vcp_tools.explain.hints_source import source_hint
from vcp_tools.files import read_bytes
from vcp_tools.program import Program
from vcp_tools.read.fault_line import FaultLine
from vcp_tools.read.instruction_list import ARITHMETIC, LOADS, OPERATORS, STORES, declarations_of, head_end, head_of, lines_of
from vcp_tools.read.source import Source, Token, literal_value
from vcp_tools.wording import nearest

UNKNOWN = "LD TRUE"
"""What stands for a line whose result has a type that isn't known."""


def all_list_hints(program: Program, file: str) -> AllHints:
    """The faults of a list, in the order in which the program tells them."""
    return _Rounds(program, file).whole()


class _Rounds:
    """Steps over one fault behind the other. `unknown` has the places, in the first text, of lines whose results have an unknown type."""

    def __init__(self, program: Program, file: str) -> None:
        self.program, self.file = program, file
        self.first = Source(read_bytes(file), True)
        self.patched = Patched(self.first.data)
        self.found = AllHints()
        self.doubtful: set[str] = set()
        self.unknown: set[int] = set()
        self.seen: set[tuple[str, int]] = set()

    def whole(self) -> AllHints:
        """All faults: first what the profile lacks, by the tokens of the head, and then what the program refuses of the text without it."""
        lacking = foreign(Source(self.first.data[: head_end(self.first)]))
        self.doubtful = set(lacking.doubtful)
        for hint in told(lacking.hints):
            self.found.hints.append(("", self.first, hint))
        for hint in sorted(lacking.hints, key=lambda it: -it.repair.start if it.repair else 0):
            if hint.repair is not None:
                self.patched.change(hint.repair)
        for _ in range(MOST_ROUNDS):
            fault = next_fault(self.program, self.patched.data, as_list=True)
            if fault is None:
                self.found.left_out = ""
                break
            if not self.step(fault):
                break
        return self.found

    def step(self, fault: FaultLine) -> bool:
        """Tells or counts a fault, and steps over it; whether a way is known."""
        source = Source(self.patched.data, True)
        is_line = fault.code[0] == "Q"
        read = head_of(source) if fault.code in ("S4", "S5") or fault.code[0] == "T" else source
        at = read.offset(fault.first or 1, fault.second or 1)
        hint = il_hint(source, fault.code, at) if is_line else source_hint(read, fault.code, at)
        self.tell(fault, source, hint, at)
        alone = line_at(source, source.tokens[source.index_at(at)])
        if is_line:
            repair = self.repair(source, fault.code, at)
        elif fault.code == "S1" and at >= head_end(source) and len(alone) == 1:
            repair = self.loaded(alone, is_known=False)
        else:
            repair = _within(hint.repair, head_end(source) if read is not source else len(source.data))
        if repair is None or repair.text.encode("latin-1") == self.patched.data[repair.start : repair.end]:
            if fault.code[0] != "L":
                self.found.left_out = f"no way round the fault at {self.first.told(self.patched.origin(at))} is known, and what is behind it wasn't looked at"
            else:
                self.found.left_out = ""
            return False
        doubt(self.doubtful, read, fault, replace(hint, repair=repair), self.first)
        self.patched.change(repair)
        return True

    def tell(self, fault: FaultLine, source: Source, hint: Hint, at: int) -> None:
        """Adds a fault of the present text to those that are told, or counts it, where it may follow from one before."""
        start = self.patched.origin(hint.start)
        end = max(start, self.patched.origin(max(hint.start, hint.end - 1)) + (hint.end > hint.start))
        if (fault.code, start) in self.seen or self.may_follow(fault, source, hint, at):
            self.found.suspected += 1
            return
        self.seen.add((fault.code, start))
        place = f"{self.file}:{self.first.told(self.patched.origin(at))}" if fault.first else self.file
        self.found.hints.append((f"{place} {fault.code} {fault.word}", self.first, Hint(hint.message, start, end, hint.more)))

    def may_follow(self, fault: FaultLine, source: Source, hint: Hint, at: int) -> bool:
        """Whether a fault may follow from one before: it stands in what a change has made; it is the end of a bracket that was told; it is of a name of which
        nothing sure can be said; or of a result whose type isn't known, and doesn't come with each type."""
        if self.patched.is_made(hint.start, hint.end):
            return True
        line = line_at(source, source.tokens[source.index_at(at)])
        if self.closes(line):
            return True
        if any(it.kind == "name" and it.upper in self.doubtful for it in line[1:] or line) and fault.code in ("Q2", "Q5"):
            return True
        return fault.code in ("Q4", "Q5") and self.rests_on_unknown(source, line) and not self.comes_always(fault, source, line)

    def closes(self, line: list[Token]) -> bool:
        """Whether a line closes a bracket of one before, and does nothing else."""
        before = [it for it in self.first.tokens if head_end(self.first) <= it.start < self.patched.origin(line[0].start)]
        return len(line) == 1 and line[0].is_symbol(")") and any(it.is_symbol("(") for it in before)

    def rests_on_unknown(self, source: Source, line: list[Token]) -> bool:
        """Whether the result in a line rests on one whose type isn't known."""
        return self.load_before(source, line) is not None

    def load_before(self, source: Source, line: list[Token]) -> list[Token] | None:
        """The line that stands for one of an unknown type, on which the result in a line rests; None where it rests on none."""
        for before in reversed([it for it in lines_of(source) if it[0].start < line[0].start]):
            if before[0].upper in LOADS:
                return before if self.patched.origin(before[0].start) in self.unknown else None
        return None

    def comes_always(self, fault: FaultLine, source: Source, line: list[Token]) -> bool:
        """Whether a fault comes at the same place whatever type the result has on which it rests."""
        load = self.load_before(source, line)
        assert load is not None
        for value in VALUES:
            other = self.patched.copy()
            other.change(Repair(load[-1].start, load[-1].end, value))
            found = next_fault(self.program, other.data, as_list=True)
            if found is None or found.code != fault.code or (found.first, found.second) != (fault.first, fault.second):
                return False
        return True

    def repair(self, source: Source, code: str, at: int) -> Repair | None:
        """What is put in the place of a faulty line, or of a part of it."""
        token = source.tokens[source.index_at(at)]
        line = line_at(source, token)
        if code == "Q6":
            return _renamed(source, token)
        if code == "Q1":
            return self.without_fault(source, token, line)
        operator = line[0].upper
        if operator in STORES and code != "Q4":
            return Repair(line[0].start, line[-1].end, "")
        value = _value_of(source, line) if code == "Q2" else ""
        if value or code == "Q2" and operator in ARITHMETIC:
            return Repair(line[1].start, line[-1].end, value or "1")
        return self.loaded(line, is_known=operator not in (*LOADS, *STORES, *ARITHMETIC))

    def loaded(self, line: list[Token], is_known: bool) -> Repair:
        """A load in the place of a line, whose result is a BOOL or not known."""
        if not is_known:
            self.unknown.add(self.patched.origin(line[0].start))
        return Repair(line[0].start, line[-1].end, UNKNOWN)

    def without_fault(self, source: Source, token: Token, line: list[Token]) -> Repair | None:
        """What is put in the place of a line that is no instruction."""
        if token.kind == "end":
            return Repair(len(source.data), len(source.data), "\nEND_PROGRAM\n")
        if token.is_word("END_PROGRAM"):
            return Repair(token.end, len(source.data), "\n")
        if line[-1].is_word("END_PROGRAM"):
            return Repair(line[-2].end, line[-1].start, "\n")
        if token.is_word("VAR", "VAR_INPUT", "VAR_OUTPUT"):
            return None
        if has_label(line):
            return Repair(line[0].start, line[1].end, "")
        return self.instead(source, line)

    def instead(self, source: Source, line: list[Token]) -> Repair:
        """An instruction in the place of what is none: without what is left over, with the operator that is likely meant, or nothing."""
        first, operator = line[0], line[0].upper
        if operator in OPERATORS:
            end = _operand_end(line)
            if end < len(line) and (end > 1 or operator == "NOT"):
                return Repair(line[end - 1].end, line[-1].end, "")
            return Repair(first.start, line[-1].end, "") if operator in STORES else self.loaded(line, operator not in (*LOADS, *ARITHMETIC))
        near = nearest(first.text, OPERATORS) if first.kind == "name" and first.upper not in _declared(source) else None
        if near in STORES or first.upper in LEFT_OUT and near is None or first.is_symbol(")"):
            return Repair(first.start, line[-1].end, "")
        return self.loaded(line, is_known=False)


def _value_of(source: Source, line: list[Token]) -> str:
    """A literal of the type of an operand that is none, but whose type is known: a constant's, or that of a literal outside its type; else empty."""
    token = line[-1]
    declared = next((it.type for it in declarations_of(source) if it.name.upper() == token.upper), "")
    type_name = declared or (literal_value(token.text) or (None, 0))[0]
    return f"{type_name}#0" if type_name else ""


def _declared(source: Source) -> set[str]:
    """The names in capitals that a list declares."""
    return {it.name.upper() for it in declarations_of(source)}


def _operand_end(line: list[Token]) -> int:
    """How many tokens of a line are an operator and its operand; 1 where no operand follows."""
    if line[0].upper == "NOT" or len(line) < 2:
        return 1
    if line[1].is_symbol("-"):
        return 3 if len(line) > 2 and line[2].kind == "number" and line[2].text[0].isdigit() else 1
    return 2 if line[1].kind in ("name", "number") or line[1].is_word("TRUE", "FALSE") else 1


def _renamed(source: Source, token: Token) -> Repair | None:
    """Another name for each use of a name that is reserved."""
    repair: Repair | None = None
    for it in reversed(source.tokens):
        if it.upper == token.upper:
            repair = Repair(it.start, it.start + 1, "x", repair)
    return repair


def _within(repair: Repair | None, end: int) -> Repair | None:
    """A change of a head, no further than its end: what stands behind it is no part of the text."""
    return None if repair is None else replace(repair, start=min(repair.start, end), end=min(repair.end, end), behind=_within(repair.behind, end))
