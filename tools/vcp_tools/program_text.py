"""A program's text as a tool is given it, in Structured Text or as an instruction list: which of both it is, and by which calls it is run, made an image of and
explained. No other module decides that."""
from __future__ import annotations

import argparse
from dataclasses import dataclass
from pathlib import Path
from typing import Sequence

from vcp_tools.files import read_bytes
from vcp_tools.program import Outcome, Program
from vcp_tools.read.instruction_list import OPERATORS, lines_of
from vcp_tools.read.source import Source, Token
from vcp_tools.refusal import Refusal

WORD = "--il"
"""The word that says of a text that can't be told that it is an instruction list."""
_STATEMENTS = ("IF", "THEN", "ELSIF", "ELSE", "END_IF", "CASE", "OF", "END_CASE", "FOR", "TO", "BY", "DO", "END_FOR")
_NO_COMMAND = 4


def add_form_word(parser: argparse.ArgumentParser) -> None:
    """The word `--il`."""
    parser.add_argument(WORD, dest="as_list", action="store_true", help="an instruction list is given, where its text doesn't tell that")


@dataclass(frozen=True)
class ProgramText:
    """A text with its file."""

    file: str
    source: Source

    @staticmethod
    def read(file: str | Path, as_list: bool = False) -> "ProgramText":
        """The text of a file. What can't be told is a list with `as_list`, and else refused."""
        source = Source(read_bytes(file))
        told = tells_list(source)
        if told is None and not as_list:
            raise Refusal(f"{file}: what follows the declarations doesn't tell whether this is Structured Text or an instruction list: {WORD} says that it's a "
                          f"list (`vcp_tools explain check {file}` and `vcp_tools explain il {file} --cycles 0` say what is wrong in the one and in the other)")
        source.is_list = told is not False
        return ProgramText(str(file), source)

    @property
    def is_list(self) -> bool:
        """Whether it is an instruction list."""
        return self.source.is_list

    @property
    def what(self) -> str:
        """What it is called."""
        return "instruction list" if self.is_list else "source"

    def copied(self, file: str | Path, data: bytes) -> "ProgramText":
        """A text of the same form in another file."""
        return ProgramText(str(file), Source(data, self.is_list))

    def run_words(self, rows: Sequence[str], code: Sequence[str] = ()) -> tuple[str, ...]:
        """The words of `vcp` by which it runs in coded words; `code` has those of seed and step."""
        return ("il" if self.is_list else "run", self.file, *rows, *code)

    def plain_words(self, rows: Sequence[str]) -> tuple[str, ...] | None:
        """The words of `vcp` by which it runs without coded words; None of a list, which hasn't such a run."""
        return None if self.is_list else ("plain", self.file, *rows)

    def image_words(self, code: Sequence[str] = ()) -> tuple[str, ...]:
        """The program and its words by which an image is made of it."""
        return ("vcp_study", "image", self.file, *code) if self.is_list else ("vcp", "compile", self.file, *code)

    def image(self, vcp: Program, code: Sequence[str] = (), shown: str = "") -> bytes:
        """The image that is made of it; a refusal, with the name that is shown in the place of the file, where it isn't accepted."""
        name, *words = self.image_words(code)
        told = [words[0], shown or self.file, *code]
        if not self.is_list:
            return vcp.must(*words, shown=told).output
        study = Program.found(name)
        outcome = study.call(*words)
        self._must_know(study, outcome)
        try:
            return study.taken(outcome, words, shown=told).output
        except Refusal as refusal:
            raise Refusal(f"{refusal} (`vcp_tools {self.explained(shown)}` says more)") from None

    def explained(self, shown: str = "") -> str:
        """The words of `vcp_tools` that say what is wrong in it."""
        return f"explain il {shown or self.file} --cycles 0" if self.is_list else f"explain check {shown or self.file}"

    def must_be_accepted(self, vcp: Program) -> None:
        """A refusal, with the program's own line, where it isn't accepted."""
        if self.is_list:
            self.image(vcp)
        else:
            vcp.must("check", self.file)

    @staticmethod
    def _must_know(study: Program, outcome: Outcome) -> None:
        """A refusal where the program that is built doesn't make images of lists."""
        if outcome.status == _NO_COMMAND:
            raise Refusal(f"{study.file}: this `vcp_study` has no command `image`, by which an image is made of an instruction list: it is an older one")


def tells_list(source: Source) -> bool | None:
    """Whether a text is an instruction list, by what stands behind its declarations: by its first line there, else by all of them; None where that can't be
    told. A text that isn't a program, that has nothing there, or whose tokens have a fault, which comes first in both, is taken as Structured Text else."""
    lines = lines_of(source)
    if not source.tokens[0].is_word("PROGRAM") or not lines or lines[0][0].is_word("END_PROGRAM"):
        return False
    first = _tells(lines[0])
    told = {it for it in map(_tells, lines) if it is not None}
    if first is None and len(told) != 1:
        return False if any(it.kind in ("bad", "open") for it in source.tokens) else None
    return first if first is not None else told.pop()


def _tells(line: Sequence[Token]) -> bool | None:
    """Whether a line is an instruction, or one of statements; None where it is neither."""
    first, behind = line[0], line[1] if len(line) > 1 else None
    if first.upper in OPERATORS and (_is_operand(behind) if behind is not None else first.upper == "NOT"):
        return True
    return False if first.is_word(*_STATEMENTS) or any(it.is_symbol(":=", ";") for it in line) or _is_set(line) else None


def _is_set(line: Sequence[Token]) -> bool:
    """Whether a name is followed by `S=` or `R=`, which the standard's Structured Text has."""
    return any(word.upper in ("S", "R") and sign.is_symbol("=") for word, sign in zip(line[1:], line[2:]))


def _is_operand(token: Token) -> bool:
    """Whether an operand begins so."""
    return token.kind in ("name", "number") or token.is_word("TRUE", "FALSE") or token.is_symbol("-")
