"""Copies of a program with more outputs: what is asked of it, in its own language.

A question becomes an output of the copy, which is computed behind the program's last statement; a variable keeps what `was(x)` speaks of. So `vcp` alone reads
and compiles what is asked. The lines of the program keep their numbers in the copy. Of an instruction list the copy is in Structured Text, too, line by line.
"""
from __future__ import annotations

import tempfile
from dataclasses import dataclass, field
from pathlib import Path
from typing import Iterable, Sequence

from vcp_tools.compare.diff import Comparison
from vcp_tools.explain.hints_source import source_hint
from vcp_tools.files import read_bytes, write_bytes
from vcp_tools.needs import find_module
from vcp_tools.program import Program
from vcp_tools.program_text import ProgramText
from vcp_tools.read.declarations import head_of_program
from vcp_tools.read.fault_line import FaultLine, read_fault
from vcp_tools.read.given import Given
from vcp_tools.read.image import MAGIC, read_image
from vcp_tools.read.instruction_list import parse_list
from vcp_tools.read.list_text import list_text
from vcp_tools.read.source import Source, Token
from vcp_tools.read.syntax import ARGUMENTS, Declaration
from vcp_tools.refusal import Refusal
from vcp_tools.wording import listed, nearest

_WORDS = ("AND", "OR", "XOR", "NOT", "MOD", "TRUE", "FALSE")
_SYMBOLS = ("(", ")", ",", "+", "-", "*", "/", "=", "<>", "<", ">", "<=", ">=", "&")


class Subject:
    """The program of which something is asked: its text, its source in Structured Text, and what it declares."""

    def __init__(self, file: str, as_list: bool = False) -> None:
        if read_bytes(file).startswith(MAGIC):
            raise Refusal(f"{file}: this is an image, and the source is wanted")
        self.file = file
        self.text = ProgramText.read(file, as_list)
        self.source = _structured(Program.found(), self.text) if self.text.is_list else self.text.source
        self.name, self.declarations = head_of_program(self.text.source, file)
        self.declared = {it.name.upper(): it for it in self.declarations}
        ends = [token for token in self.source.tokens if token.is_word("END_VAR")]
        self.head_end = (ends[-1] if ends else self.source.tokens[1]).end
        closing = [token for token in self.source.tokens if token.is_word("END_PROGRAM")]
        if not closing:
            raise Refusal(f"{file}: END_PROGRAM is missing (`vcp_tools explain check {file}` says more)")
        self.body_end = closing[-1].start

    @property
    def last_line(self) -> int:
        """The line of END_PROGRAM."""
        return self.source.place(self.body_end)[0]

    def free(self, stem: str) -> str:
        """A name that the program doesn't declare, of a stem and a number."""
        number = 0
        while f"{stem}{number}".upper() in self.declared:
            number += 1
        name = f"{stem}{number}"
        self.declared[name.upper()] = Declaration(name, 0, "", "BOOL", None)
        return name

    def initial(self, declaration: Declaration) -> str:
        """The text of a declaration's initial value, with the `:=`; empty where it has none, and for an input."""
        index = self.source.index_at(declaration.at)
        tokens = self.source.tokens
        while not tokens[index].is_symbol(":=", ";"):
            index += 1
        end = next(at for at in range(index, len(tokens)) if tokens[at].is_symbol(";"))
        return "" if declaration.section == "VAR_INPUT" else self.source.text[tokens[index].start : tokens[end].start]


@dataclass
class Copy:
    """A copy of a program in the making: outputs and variables that are added, texts that are put in at bytes of the program, and statements behind its
    last one. `asked` has what stands in the lines behind the program, by their numbers."""

    subject: Subject
    outputs: list[str] = field(default_factory=list)
    variables: list[str] = field(default_factory=list)
    insertions: list[tuple[int, str]] = field(default_factory=list)
    behind: list[str] = field(default_factory=list)
    asked: dict[int, str] = field(default_factory=dict)
    _kept: dict[str, str] = field(default_factory=dict)

    def ask(self, text: str) -> str:
        """Adds an expression as an output, and gives the output's name."""
        shown = " ".join(text.split("\n"))
        name = self.subject.free("_q")
        self.outputs.append(name)
        self.behind += [f"{name} :=", self._read(shown), ";"]
        self.asked[self.subject.last_line + len(self.behind) - 1] = shown
        return name

    def mark(self, insertions: Iterable[tuple[int, str]]) -> str:
        """Adds an output that is TRUE in a cycle in which one of these texts is run; in them `@` stands for the output's name."""
        name = self.subject.free("_q")
        self.outputs.append(name)
        self.insertions += [(at, text.replace("@", name)) for at, text in insertions]
        self.insertions.append((self.subject.head_end, f" {name} := FALSE;"))
        return name

    def was(self, name: str) -> str:
        """The variable that keeps the value of a name for a cycle."""
        declaration = self.subject.declared.get(name.upper())
        if declaration is None or not declaration.section or declaration.section == "VAR CONSTANT":
            raise Refusal(f"`was({name})`: {_unknown(name, self.subject, 'no input, output or variable')}")
        if declaration.name not in self._kept:
            kept = self.subject.free("_w")
            self._kept[declaration.name] = kept
            self.variables.append(f"{kept} : {declaration.type} {self.subject.initial(declaration)}")
        return self._kept[declaration.name]

    def text(self) -> bytes:
        """The text of the copy."""
        data = self.subject.source.text
        head = f" VAR_OUTPUT {', '.join(self.outputs)} : BOOL; END_VAR" if self.outputs else ""
        head += f" VAR {'; '.join(self.variables)}; END_VAR" if self.variables else ""
        kept = [f"{variable} := {name};" for name, variable in self._kept.items()]
        pieces = [(self.subject.head_end, head), *self.insertions, (self.subject.body_end, "\n" + "\n".join([*self.behind, *kept]) + "\n")]
        parts = []
        last = 0
        for at, piece in sorted(pieces, key=lambda it: it[0]):
            parts += [data[last:at], piece]
            last = at
        return "".join([*parts, data[last:]]).encode("latin-1")

    def _read(self, text: str) -> str:
        """An expression with the variables of `was(x)` in the place of it, as long as before; a refusal where it can't be one."""
        tokens = Source(text.encode("latin-1", "replace")).tokens
        for at, token in enumerate(tokens[:-1]):
            self._look_at(token, tokens[at + 1], text)
        found = text
        for at, token in enumerate(tokens):
            if token.upper == "WAS" and at + 3 < len(tokens) and tokens[at + 1].is_symbol("(") and "WAS" not in self.subject.declared:
                if tokens[at + 2].kind != "name" or not tokens[at + 3].is_symbol(")"):
                    raise Refusal(f"`{text}`: `was(..)` takes the name of an input, an output or a variable")
                end = tokens[at + 3].end
                found = found[: token.start] + self.was(tokens[at + 2].text).ljust(end - token.start) + found[end:]
        return found

    def _look_at(self, token: Token, behind: Token, text: str) -> None:
        """Refuses a token that no expression has."""
        if token.kind == "word" and token.upper not in _WORDS or token.kind == "symbol" and token.text not in _SYMBOLS or token.kind in ("bad", "open"):
            raise Refusal(f"`{text}`: `{token.text}` has no place in an expression")
        known = [*self.subject.declared, *ARGUMENTS, "WAS"]
        if token.kind == "name" and token.upper not in known:
            raise Refusal(f"`{text}`: {_unknown(token.text, self.subject, 'no input, output, variable or function')}")


def _structured(vcp: Program, text: ProgramText) -> Source:
    """An instruction list as a program in Structured Text, line by line; a refusal where the list isn't accepted, or where the images of both don't have the
    same operations, outputs and kept values."""
    image = text.image(vcp)
    source = Source(list_text(text.source, parse_list(text.source)))
    with tempfile.TemporaryDirectory() as folder:
        at = Path(folder) / "list.st"
        write_bytes(at, source.data)
        made = vcp.must("compile", at, shown=("compile", text.file)).output
    of_list, of_text = (Given(text.file, read_image(data, text.file), data, None) for data in (image, made))
    if any(Comparison(of_list, of_text).differences()):
        raise Refusal(f"{text.file}: the image of this list hasn't the operations of the same in Structured Text, of which is asked: nothing is said of it")
    return source


def _unknown(name: str, subject: Subject, what: str) -> str:
    """What is said of a name that nothing has."""
    names = [it.name for it in subject.declarations]
    near = nearest(name, names)
    return f"`{name}` is {what}" + (f": did you mean `{near}`?" if near else f": there are {listed(names)}")


class Compiled:
    """A copy on the disk, in a folder of its own that is gone at the end."""

    def __init__(self, vcp: Program, copy: Copy) -> None:
        self.vcp = vcp
        self.copy = copy
        self._folder = tempfile.TemporaryDirectory()
        self.file = Path(self._folder.name) / "copy.st"
        self.text = ProgramText(str(self.file), Source(copy.text()))
        write_bytes(self.file, self.text.source.data)

    def __enter__(self) -> "Compiled":
        try:
            self._accepted()
        except Refusal:
            self._folder.cleanup()
            raise
        return self

    def __exit__(self, *_: object) -> None:
        self._folder.cleanup()

    def _accepted(self) -> None:
        """Refuses what `vcp` refuses: the program, with its own line, or a question, with the place in it."""
        subject = self.copy.subject
        subject.text.must_be_accepted(self.vcp)
        outcome = self.vcp.call("check", self.file)
        fault = read_fault(outcome.fault)
        if outcome.status == 0:
            return
        if fault is None or fault.first is None or fault.second is None:
            raise Refusal(f"{subject.file}: with what is asked it is too large: {outcome.fault.replace(f'{self.file} ', '')}")
        line, text = next(((at, it) for at, it in self.copy.asked.items() if abs(at - (fault.first or 0)) <= 1), (0, ""))
        if fault.first < line:
            raise Refusal(f"`{text}`: this is no condition, which is a BOOL")
        raise Refusal(f"`{text}`: {self._why(fault)} ({fault.code} {fault.word})")

    def _why(self, fault: FaultLine) -> str:
        """What is wrong in a question, where the grammar can be read."""
        if find_module("lark") is None:
            return f"`vcp` refuses it in column {fault.second}"
        source = Source(self.file.read_bytes())
        return source_hint(source, fault.code, source.offset(fault.first or 1, fault.second or 1)).message


def named_in(texts: Sequence[str], subject: Subject) -> list[str]:
    """The names of a program that stand in some expressions, but for its constants, in the order of declaration."""
    told = {token.upper for text in texts for token in Source(text.encode("latin-1", "replace")).tokens if token.kind == "name"}
    return [it.name for it in subject.declarations if it.name.upper() in told and it.section != "VAR CONSTANT"]
