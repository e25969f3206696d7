"""Where reading got stuck: the token at which no program goes on, those before it, and what is open round it."""
from __future__ import annotations

from dataclasses import dataclass
from functools import cached_property

from vcp_tools.read.source import TYPES, UNUSED_WORDS, Source, Token


@dataclass(frozen=True)
class Opener:
    """A construct that is open: the token that opened it, and the index of that token."""

    token: Token
    index: int
    has_else: bool = False


class Stuck:
    """A source, and the index of the token at which no program goes on."""

    def __init__(self, source: Source, index: int) -> None:
        self.source = source
        self.tokens = source.tokens
        self.index = index
        self.here = self.tokens[index]
        nothing = Token("end", "", 0, 0)
        self.before = self.tokens[index - 1] if index > 0 else nothing
        self.two_before = self.tokens[index - 2] if index > 1 else nothing
        self.behind = self.tokens[min(index + 1, len(self.tokens) - 1)]

    @cached_property
    def openers(self) -> list[Opener]:
        """What is open before the token, the innermost last."""
        found: list[Opener] = []
        for index, token in enumerate(self.tokens[: self.index]):
            if token.is_symbol("("):
                found.append(Opener(token, index))
            elif token.is_symbol(")") and found and found[-1].token.is_symbol("("):
                found.pop()
            elif token.kind == "word":
                _follow(found, token, index)
        return found

    def closed_too_early(self, unclosed: Token) -> tuple[Token, Token] | None:
        """An opener behind `unclosed` and the end that closes it, where that end stands below `unclosed` by its indentation: then the end of the
        inner one is likely the one that is missing."""
        found: list[Opener] = []
        for index, token in enumerate(self.tokens[: self.index]):
            top = found[-1].token if found else None
            if token.kind != "word":
                continue
            _follow(found, token, index)
            if top is None or not token.upper.startswith("END_") or top.start <= unclosed.start:
                continue
            inner, outer, closing = (self.indentation(it) for it in (top, unclosed, token))
            if None not in (inner, outer, closing) and closing == outer and closing != inner:
                return top, token
        return None

    def indentation(self, token: Token) -> int | None:
        """How far right a token stands, where it is the first of its line; else None."""
        line, column = self.source.place(token.start)
        before = self.source.line(line)[: column - 1]
        return len(before.expandtabs(4)) if before.strip() == b"" else None

    @cached_property
    def statement_start(self) -> int:
        """The index of the first token of the statement or declaration that the token stands in."""
        index = self.index
        while index > 0 and not _ends_statement(self.tokens, index - 1):
            index -= 1
        return index

    @property
    def in_declaration(self) -> bool:
        """Whether the token stands in a block of declarations."""
        return bool(self.openers) and self.openers[-1].token.upper.startswith("VAR")

    def in_condition(self) -> str | None:
        """The word (IF, ELSIF, CASE or FOR) whose condition, selector or bounds the token stands in."""
        for token in reversed(self.tokens[: self.index]):
            if token.is_word("THEN", "OF", "DO", "ELSE") or token.is_symbol(";"):
                return None
            if token.is_word("IF", "ELSIF", "CASE", "FOR"):
                return token.upper
        return None


def _follow(found: list[Opener], token: Token, index: int) -> None:
    """What is open behind a reserved word."""
    word = token.upper
    if word in ("PROGRAM", "VAR", "VAR_INPUT", "VAR_OUTPUT", "IF", "CASE", "FOR"):
        found.append(Opener(token, index))
    elif word == "ELSE" and found and found[-1].token.is_word("IF", "CASE"):
        found[-1] = Opener(found[-1].token, found[-1].index, True)
    elif word.startswith("END_"):
        while found and found[-1].token.is_symbol("("):
            found.pop()
        if found:
            found.pop()


def _ends_statement(tokens: list[Token], index: int) -> bool:
    """Whether a statement or declaration begins behind this token."""
    token = tokens[index]
    if index == 1 and tokens[0].is_word("PROGRAM"):
        return True
    if token.is_symbol(";") or token.is_word("THEN", "ELSE", "OF", "DO", "END_VAR", "VAR", "VAR_INPUT", "VAR_OUTPUT", "CONSTANT", "RETAIN"):
        return True
    return token.is_symbol(":") and not tokens[index + 1].is_word(*TYPES, *UNUSED_WORDS) and tokens[index - 1].kind == "number"


def ends_operand(token: Token) -> bool:
    """Whether an expression may end with this token."""
    return token.kind in ("name", "number") or token.is_symbol(")") or token.is_word("TRUE", "FALSE")
