"""The declarations of a program's source, by its tokens alone: names, sections and types, for tools that need no tree."""
from __future__ import annotations

from pathlib import Path

from vcp_tools.files import read_bytes
from vcp_tools.read.source import TYPES, Source, Token
from vcp_tools.read.syntax import Declaration
from vcp_tools.refusal import Refusal

_SECTIONS = ("VAR_INPUT", "VAR_OUTPUT", "VAR")


class _NoDeclaration(Exception):
    """A token that no declaration has here."""

    def __init__(self, token: Token) -> None:
        super().__init__(token.text)
        self.token = token


def name_and_declarations(source: Source) -> tuple[str, list[Declaration]]:
    """The program's name and its declarations in order, without their initial values; raises _NoDeclaration where the head is none."""
    tokens = source.tokens
    if not tokens[0].is_word("PROGRAM") or tokens[min(1, len(tokens) - 1)].kind != "name":
        raise _NoDeclaration(tokens[0])
    at = 2
    found: list[Declaration] = []
    while tokens[at].is_word(*_SECTIONS):
        section = tokens[at].upper
        at += 1
        if tokens[at].is_word("CONSTANT", "RETAIN"):
            section += " " + tokens[at].upper
            at += 1
        while not tokens[at].is_word("END_VAR"):
            at = _declaration(tokens, at, section, found)
        at += 1
    return tokens[1].text, found


def _declaration(tokens: list[Token], at: int, section: str, found: list[Declaration]) -> int:
    """Adds the names of a declaration, and gives the index behind its `;`."""
    names = [at]
    while tokens[names[-1] + 1].is_symbol(",") and tokens[names[-1] + 2].kind == "name":
        names.append(names[-1] + 2)
    behind = names[-1] + 1
    if tokens[at].kind != "name" or not tokens[behind].is_symbol(":") or not tokens[behind + 1].is_word(*TYPES):
        raise _NoDeclaration(tokens[min(behind, len(tokens) - 1)])
    found += [Declaration(tokens[it].text, tokens[it].start, section, tokens[behind + 1].upper, None) for it in names]
    end = behind + 2
    while not tokens[end].is_symbol(";"):
        if tokens[end].kind == "end" or tokens[end].is_word("END_VAR"):
            raise _NoDeclaration(tokens[end])
        end += 1
    return end + 1


def declarations_of(program: str | Path) -> list[Declaration]:
    """All declarations of a program's source; a refusal where its head is none."""
    return head_of_program(Source(read_bytes(program)), program)[1]


def head_of_program(source: Source, program: str | Path) -> tuple[str, list[Declaration]]:
    """The name and the declarations of a source; a refusal where its head is none."""
    try:
        return name_and_declarations(source)
    except _NoDeclaration as fault:
        raise Refusal(f"{program}:{source.told(fault.token.start)}: this is no program (`vcp_tools explain check {program}` says why)") from None


def inputs_of(program: str | Path) -> list[Declaration]:
    """The inputs of a program's source, in order; a refusal where the source is none."""
    return [it for it in declarations_of(program) if it.section == "VAR_INPUT"]
