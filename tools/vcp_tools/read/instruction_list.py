"""Instruction lists, by the grammar in instruction_list.lark, after docs/LANGUAGE.md, 'Instruction List'."""
from __future__ import annotations

from dataclasses import dataclass
from typing import Any, Iterable, Iterator, Sequence

from vcp_tools.read.source import RESERVED, Source, Token
from vcp_tools.read.structured_text import Builder, SyntaxFault, parse, parsed
from vcp_tools.read.syntax import Declaration

LOADS = ("LD", "LDN")
STORES = ("ST", "STN", "S", "R")
LOGIC = ("AND", "ANDN", "&", "OR", "ORN", "XOR", "XORN")
ARITHMETIC = ("ADD", "SUB", "MUL", "DIV", "MOD")
COMPARISONS = ("GT", "GE", "EQ", "NE", "LE", "LT")
OPERATORS = (*LOADS, *STORES, *LOGIC, "NOT", *ARITHMETIC, *COMPARISONS)
"""The operators; all but NOT have one operand."""
_END = " END_PROGRAM"


@dataclass(frozen=True)
class Instruction:
    """An operator in capitals, its operand as it is spelled (empty of NOT), and the byte at which it stands."""

    operator: str
    operand: str
    at: int


@dataclass(frozen=True)
class InstructionList:
    """A list: its name, its declarations, and its instructions in order."""

    name: str
    declarations: list[Declaration]
    instructions: list[Instruction]


def head_end(source: Source) -> int:
    """The byte behind the head: behind the last END_VAR, or behind the first two tokens where there is none."""
    tokens = source.tokens[:-1]
    ends = [i for i, token in enumerate(tokens) if token.is_word("END_VAR")]
    last = ends[-1] if ends else min(1, len(tokens) - 1)
    return tokens[last].end if tokens else len(source.data)


def lines_of(source: Source) -> list[list[Token]]:
    """The tokens behind the head, those that begin in one line together."""
    head = head_end(source)
    found: list[list[Token]] = []
    before = 0
    for token in source.tokens[:-1]:
        if token.start < head:
            continue
        number, _ = source.place(token.start)
        if number != before:
            found.append([])
        found[-1].append(token)
        before = number
    return found


def head_of(source: Source) -> Source:
    """The head of an instruction list, as the program that it is read as."""
    return Source(source.data[: head_end(source)] + _END.encode())


def declarations_of(source: Source) -> list[Declaration]:
    """The declarations of an instruction list's head; none where it has a fault."""
    try:
        return parse(head_of(source)).declarations
    except SyntaxFault:
        return []


class Lines:
    """Puts a LINE_END between tokens that begin in different lines, and tells operators from names: an operator stands first in its line."""

    always_accept = ("AMPERSAND",)
    """`&` is an operator, though no rule names its terminal."""

    def process(self, stream: Iterable[Any]) -> Iterator[Any]:
        """The tokens with their ends of lines."""
        line = 1
        first = True
        for token in stream:
            if token.line != line:
                yield token.update(type="LINE_END", value="")
                line, first = token.line, True
            yield token.update(type=_kind(token, first))
            first = False


def _kind(token: Any, first: bool) -> str:
    """The terminal that a token is, by what it spells and whether it stands first in its line."""
    word = token.upper()
    if first and word in OPERATORS:
        return "ALONE" if word == "NOT" else "OPERATOR"
    if token.type == "NAME" and word in RESERVED:
        return "RESERVED"
    return "TYPED" if token.type == "NUMBER" and not token[0].isdigit() else str(token.type)


class ListBuilder(Builder):
    """Makes the instructions."""

    def list(self, parts: Sequence[Any]) -> list[Instruction]:
        """Instructions, with the ends of lines between them."""
        return [it for it in parts if isinstance(it, Instruction)]

    def instruction(self, parts: Sequence[Any]) -> Instruction:
        """An operator, and an operand."""
        return Instruction(parts[0].upper(), "".join(map(str, parts[1:])), parts[0].start_pos)


def parse_list(source: Source) -> InstructionList:
    """The list of a text; raises SyntaxFault at the first token that the grammar takes neither in the head nor behind it."""
    head = parse(head_of(source))
    end = head_end(source)
    blank = "".join(letter if letter == "\n" else " " for letter in source.text[:end])
    instructions = parsed(blank + source.text[end:], "instruction_list", "list", ListBuilder, Lines)
    return InstructionList(head.name, head.declarations, instructions)
