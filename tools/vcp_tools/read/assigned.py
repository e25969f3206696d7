"""What the statement at an operation's place assigns, by the source's tokens alone: its variable, or those that stand under its condition; of an instruction
what its result is stored in."""
from __future__ import annotations

import re
from bisect import bisect_right
from dataclasses import dataclass, field

from vcp_tools.read.image import Operation
from vcp_tools.read.instruction_list import LOADS, STORES, lines_of
from vcp_tools.read.source import Source, Token

MOST_NAMES = 3
"""So many variables under a condition are named at most."""
_PLACE = re.compile(r"operation \d+,? [A-Z]+(?P<named> [^:]*?)? at (?P<line>\d+):(?P<column>\d+)(?: \w+=-?\d+)*")
_NAMED = ("INPUT", "CONST", "LOAD", "STORE", "OUT")
"""The kinds whose operations have a name or a value of their own."""


@dataclass
class _Span:
    """Tokens from one place of the text to another, and the variables that they are for: one that is assigned, or those under a condition."""

    start: int
    end: int
    is_condition: bool
    names: list[str] = field(default_factory=list)


@dataclass
class _Open:
    """A construct that is open: its word, and the spans of its conditions, its selector and its labels, on which what follows in it rests."""

    word: str
    spans: list[_Span]


class Assigned:
    """The spans of a source."""

    def __init__(self, source: Source) -> None:
        self.source = source
        self.spans: list[_Span] = []
        self._open: list[_Open] = []
        if source.is_list:
            self._instructions(lines_of(source))
        else:
            self._statements(source.tokens)
        self.spans.sort(key=lambda it: it.start)
        self._starts = [it.start for it in self.spans]

    def at(self, line: int, column: int) -> str:
        """`for NAME` where an assignment stands at a place, `in the condition for NAME, ..` where a condition does; else empty."""
        if not line:
            return ""
        offset = self.source.offset(line, column)
        index = bisect_right(self._starts, offset) - 1
        if index < 0 or offset >= self.spans[index].end:
            return ""
        span = self.spans[index]
        more = f" and {len(span.names) - MOST_NAMES} more" if len(span.names) > MOST_NAMES else ""
        where = "in the condition for" if span.is_condition else "for"
        return f"{where} {', '.join(span.names[:MOST_NAMES])}{more}" if span.names else ""

    def of(self, operation: Operation) -> str:
        """The same of an operation that has no name or value of its own; else empty."""
        return "" if operation.kind in _NAMED else self.at(operation.line, operation.column)

    def named(self, text: str) -> str:
        """A text with ` for NAME` behind each operation in it that is told with its place and without a name."""
        def told(match: re.Match[str]) -> str:
            said = "" if match["named"] else self.at(int(match["line"]), int(match["column"]))
            return match[0] + (f" {said}" if said else "")

        return _PLACE.sub(told, text)

    def _instructions(self, lines: list[list[Token]]) -> None:
        """Takes the lines of a list: each instruction from a load on is for what the result is stored in next, in one variable or in several."""
        waiting: list[_Span] = []
        is_stored = False
        for line in lines:
            operator = line[0].upper
            if operator in LOADS or is_stored and operator not in STORES:
                waiting = []
            is_stored = operator in STORES
            self.spans.append(_Span(line[0].start, line[-1].end, False))
            waiting.append(self.spans[-1])
            for span in waiting if is_stored and len(line) > 1 else ():
                span.names.append(line[1].text)

    def _statements(self, tokens: list[Token]) -> None:
        """Takes all statements, behind the declarations."""
        at = max((at for at, token in enumerate(tokens) if token.is_word("END_VAR")), default=0) + 1
        while at < len(tokens):
            at = self._statement(tokens, at)

    def _statement(self, tokens: list[Token], at: int) -> int:
        """Takes what begins at a token, and gives the index behind it."""
        token = tokens[at]
        if token.is_word("IF", "ELSIF", "CASE", "FOR"):
            return self._head(tokens, at)
        if token.is_word("END_IF", "END_CASE", "END_FOR") and self._open:
            self._open.pop()
        elif token.kind == "name" and at + 1 < len(tokens) and tokens[at + 1].is_symbol(":="):
            return self._span(tokens, at, (";",), _Span(token.start, token.end, False, []), token.text)
        elif token.kind in ("name", "number") or token.is_symbol("-") or token.is_word("TRUE", "FALSE"):
            return self._labels(tokens, at)
        return at + 1

    def _head(self, tokens: list[Token], at: int) -> int:
        """From IF, ELSIF, CASE or FOR to its THEN, OF or DO."""
        word = tokens[at].upper
        if word == "FOR":
            self._open.append(_Open(word, []))
            name = tokens[min(at + 1, len(tokens) - 1)].text
            return self._span(tokens, at, ("DO",), _Span(tokens[at].start, tokens[at].end, False, []), name)
        span = _Span(tokens[at].start, tokens[at].end, True)
        if word == "ELSIF" and self._open:
            self._open[-1].spans.append(span)
        else:
            self._open.append(_Open(word, [span]))
        return self._span(tokens, at, ("THEN", "OF"), span)

    def _labels(self, tokens: list[Token], at: int) -> int:
        """The labels before a branch of CASE, which its selector is compared with."""
        if not self._open or self._open[-1].word != "CASE":
            return at + 1
        span = _Span(tokens[at].start, tokens[at].end, True)
        self._open[-1].spans.append(span)
        return self._span(tokens, at, (":",), span)

    def _span(self, tokens: list[Token], at: int, ends: tuple[str, ...], span: _Span, name: str = "") -> int:
        """Lets a span go up to one of these ends, and notes a name that is assigned at each construct that is open."""
        self.spans.append(span)
        if name:
            span.names.append(name)
            for held in [span for opened in self._open for span in opened.spans]:
                if all(name.upper() != it.upper() for it in held.names):
                    held.names.append(name)
        while at < len(tokens) and tokens[at].upper not in (*ends, ";", "END_PROGRAM"):
            span.end = tokens[at].end
            at += 1
        return at + 1 if at < len(tokens) and tokens[at].upper in ends else at
