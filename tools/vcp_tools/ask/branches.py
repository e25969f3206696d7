"""What rows may reach in a program: each branch, each label of a CASE, and each turn of a BOOL output. Of each a copy of the program has an output."""
from __future__ import annotations

from dataclasses import dataclass

from vcp_tools.ask.question import Copy
from vcp_tools.read.source import Token

_NONE = "no branch of"


@dataclass(frozen=True)
class Goal:
    """What rows may reach: its place in the source, what it is, and the output of the copy that is TRUE where it is reached."""

    line: int
    column: int
    told: str
    output: str


@dataclass
class _Open:
    """A statement that is open: its word, its place, the text of its condition or selector, and whether it has an ELSE."""

    word: str
    start: int
    text: str
    has_else: bool = False


def goals_of(copy: Copy) -> list[Goal]:
    """Adds an output to a copy for each goal, and gives the goals in the order of their places, behind them the turns of outputs."""
    branches = _Branches(copy)
    branches.run()
    found = sorted(branches.goals, key=lambda it: (it.line, it.column))
    for declaration in copy.subject.declarations:
        if declaration.section == "VAR_OUTPUT" and declaration.type == "BOOL":
            line, column = copy.subject.source.place(declaration.at)
            name = declaration.name
            found.append(Goal(line, column, f"{name} turns TRUE", copy.ask(f"{name} AND NOT was({name})")))
            found.append(Goal(line, column, f"{name} turns FALSE", copy.ask(f"NOT {name} AND was({name})")))
    return found


class _Branches:
    """Goes through the statements of a program, which is one, by its tokens."""

    def __init__(self, copy: Copy) -> None:
        self.copy = copy
        self.source = copy.subject.source
        self.tokens = [it for it in self.source.tokens if copy.subject.head_end <= it.start < copy.subject.body_end]
        self.open: list[_Open] = []
        self.goals: list[Goal] = []

    def run(self) -> None:
        """Takes one statement after another."""
        at = 0
        while at < len(self.tokens):
            at = self._taken(at)

    def _taken(self, at: int) -> int:
        """Takes what begins at a token, and gives the index behind it."""
        token = self.tokens[at]
        if token.is_word("IF", "ELSIF"):
            return self._condition(at)
        if token.is_word("CASE", "FOR"):
            end = self._index(at, "OF", "DO")
            self.open.append(_Open(token.upper, token.start, self._text(token.end, self.tokens[end].start)))
            return end + 1
        if token.is_word("ELSE"):
            self.open[-1].has_else = True
            self._goal(token.start, f"ELSE of {self._shown(self.open[-1])}", token.end, " @ := TRUE;")
            return at + 1
        if token.is_word("END_IF", "END_CASE", "END_FOR"):
            self._close(token)
        elif self._begins_label(at):
            return self._labels(at)
        return self._index(at, ";") + 1

    def _condition(self, at: int) -> int:
        """IF or ELSIF: a branch."""
        token, end = self.tokens[at], self._index(at, "THEN")
        text = self._text(token.end, self.tokens[end].start)
        if token.is_word("IF"):
            self.open.append(_Open("IF", token.start, text))
        self._goal(token.start, f"{token.upper} {text}", self.tokens[end].end, " @ := TRUE;")
        return end + 1

    def _close(self, token: Token) -> None:
        """The end of a statement: where IF or CASE has no ELSE, what takes none of its branches is one, too."""
        closed = self.open.pop()
        if closed.word != "FOR" and not closed.has_else:
            self._goal(closed.start, f"{_NONE} {self._shown(closed)}", token.start, " ELSE @ := TRUE; ")

    def _begins_label(self, at: int) -> bool:
        """Whether a token is the first of the labels of a branch of CASE."""
        is_assigned = self.tokens[at].kind == "name" and self.tokens[at + 1].is_symbol(":=")
        return bool(self.open) and self.open[-1].word == "CASE" and not is_assigned and not self.tokens[at].is_symbol(";")

    def _labels(self, at: int) -> int:
        """The labels of a branch: each is a goal of its own, also where several stand before one branch."""
        end = self._index(at, ":")
        commas = [it for it in range(at, end) if self.tokens[it].is_symbol(",")]
        selector = self.open[-1].text
        for first, behind in zip([at, *(it + 1 for it in commas)], [*commas, end]):
            parts = self.tokens[first:behind]
            dots = next((it for it in range(len(parts)) if parts[it].is_symbol("..")), None)
            text = self._text(parts[0].start, parts[-1].end)
            if dots is None:
                condition = "TRUE" if not commas else f"@ OR ({selector}) = {text}"
            else:
                low, high = self._text(parts[0].start, parts[dots].start), self._text(parts[dots].end, parts[-1].end)
                condition = "TRUE" if not commas else f"@ OR ({selector}) >= {low} AND ({selector}) <= {high}"
            self._goal(parts[0].start, f"label {text} of {self._shown(self.open[-1])}", self.tokens[end].end, f" @ := {condition};")
        return end + 1

    def _goal(self, start: int, told: str, at: int, text: str) -> None:
        """Adds a goal at a place, which a text that is put in tells."""
        line, column = self.source.place(start)
        if self.copy.subject.text.is_list:
            told = f"{self._instruction(line, column)} where the result is {'FALSE' if told.startswith(_NONE) else 'TRUE'}"
        self.goals.append(Goal(line, column, told, self.copy.mark([(at, text)])))

    def _instruction(self, line: int, column: int) -> str:
        """The instruction of a list, S or R with its operand, in whose place a statement stands."""
        source = self.copy.subject.text.source
        at = source.index_at(source.offset(line, column))
        return " ".join(it.text for it in source.tokens[at : at + 2])

    def _index(self, at: int, *ends: str) -> int:
        """The index of the next one of these words or symbols."""
        return next((it for it in range(at, len(self.tokens)) if self.tokens[it].upper in ends), len(self.tokens) - 1)

    def _text(self, start: int, end: int) -> str:
        """The tokens between two places, with a blank between them where there was something."""
        inside = [it for it in self.source.tokens if start <= it.start and it.end <= end]
        gaps = ["" if left.end == right.start else " " for left, right in zip(inside, inside[1:])]
        return "".join(token.text + gap for token, gap in zip(inside, [*gaps, ""]))

    @staticmethod
    def _shown(opened: _Open) -> str:
        """A statement in words."""
        return f"{opened.word} {opened.text}"
