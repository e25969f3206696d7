"""The tokens of a source text and their places, after docs/LANGUAGE.md, 'Tokens'.

The text is kept as one character a byte, so that offsets and columns count bytes, as the program's places do. Reading goes on behind what
is no token, so that a faulty text has tokens, too.
"""
from __future__ import annotations

import re
from bisect import bisect_right
from dataclasses import dataclass

GRAMMAR_WORDS = frozenset(
    "PROGRAM END_PROGRAM VAR VAR_INPUT VAR_OUTPUT CONSTANT RETAIN END_VAR BOOL INT DINT LINT IF THEN ELSIF ELSE END_IF CASE OF END_CASE "
    "FOR TO BY DO END_FOR AND OR XOR NOT MOD TRUE FALSE".split()
)
"""The reserved words that a form of the grammar uses."""
UNUSED_WORDS = frozenset(
    "SINT USINT UINT UDINT ULINT REAL LREAL STRING TIME ARRAY STRUCT WHILE REPEAT UNTIL EXIT CONTINUE RETURN AT FUNCTION FUNCTION_BLOCK".split()
)
"""The reserved words that no form uses: they are no names, either."""
RESERVED = GRAMMAR_WORDS | UNUSED_WORDS
TYPES = ("BOOL", "INT", "DINT", "LINT")
"""The types, each number wider than the one before."""
LEAST = {"BOOL": 0, "INT": -(2**15), "DINT": -(2**31), "LINT": -(2**63)}
GREATEST = {"BOOL": 1, "INT": 2**15 - 1, "DINT": 2**31 - 1, "LINT": 2**63 - 1}
GREATEST_NUMBER = 2**63 - 1
"""The greatest number that a literal may spell."""

_GAP = re.compile(r"[ \t\r\n]+|//[^\n]*|\(\*.*?\*\)|/\*.*?\*/", re.S)
_WORD = re.compile(r"[A-Za-z_][A-Za-z0-9_]*")
_TYPED = re.compile(r"(BOOL|INT|DINT|LINT)#([+-](?=[0-9]))?[A-Za-z0-9_#]*", re.I)
_RUN = re.compile(r"[0-9][A-Za-z0-9_#]*")
_SYMBOL = re.compile(r":=|\.\.|<>|<=|>=|[:;,()+\-*/=<>&]")
_DECIMAL = re.compile(r"[0-9]+(_[0-9]+)*\Z")
_BASED = re.compile(r"(2|8|16)#([0-9A-Fa-f]+(?:_[0-9A-Fa-f]+)*)\Z")


@dataclass(frozen=True)
class Token:
    """A token with its bytes `start` to `end` of the text. `kind` is `word` (reserved), `name`, `number`, `symbol`, `bad` (a byte that begins
    no token), `open` (a comment that isn't closed) or `end` (behind the last one)."""

    kind: str
    text: str
    start: int
    end: int

    @property
    def upper(self) -> str:
        """The text in capitals: words and names are compared so."""
        return self.text.upper()

    def is_word(self, *words: str) -> bool:
        """Whether this is one of these reserved words."""
        return self.kind == "word" and self.upper in words

    def is_symbol(self, *symbols: str) -> bool:
        """Whether this is one of these symbols."""
        return self.kind == "symbol" and self.text in symbols


class Source:
    """A source text: its lines, its tokens, and the places of both; and whether it is an instruction list."""

    def __init__(self, data: bytes, is_list: bool = False) -> None:
        self.data = data
        self.is_list = is_list
        self.text = data.decode("latin-1")
        self.starts = [0] + [at + 1 for at, byte in enumerate(data) if byte == 10]
        self.tokens = _tokens(self.text)

    def place(self, offset: int) -> tuple[int, int]:
        """The line and column of a byte, both from 1."""
        line = bisect_right(self.starts, offset)
        return line, offset - self.starts[line - 1] + 1

    def told(self, offset: int) -> str:
        """The place of a byte as `LINE:COL`."""
        return "%d:%d" % self.place(offset)

    def offset(self, line: int, column: int) -> int:
        """The byte at a line and a column, or the last one where the text has none there."""
        if line > len(self.starts):
            return len(self.data)
        return min(self.starts[line - 1] + column - 1, len(self.data))

    def line(self, number: int) -> bytes:
        """The bytes of a line, without its end."""
        if number > len(self.starts):
            return b""
        end = self.starts[number] if number < len(self.starts) else len(self.data)
        return self.data[self.starts[number - 1] : end].rstrip(b"\r\n")

    def index_at(self, offset: int) -> int:
        """The index of the token that holds this byte, or of the next one behind it."""
        return min(bisect_right([token.end for token in self.tokens[:-1]], offset), len(self.tokens) - 1)


def _tokens(text: str) -> list[Token]:
    """All tokens of a text, the last one its end."""
    found = []
    at = 3 if text.startswith("\xef\xbb\xbf") else 0
    while at < len(text):
        gap = _GAP.match(text, at)
        if gap:
            at = gap.end()
            continue
        token = _token_at(text, at)
        found.append(token)
        at = token.end
    found.append(Token("end", "", len(text), len(text)))
    return found


def _token_at(text: str, at: int) -> Token:
    """The token that begins at this byte, which no gap does."""
    if text.startswith(("(*", "/*"), at):
        return Token("open", text[at : at + 2], at, len(text))
    for kind, form in (("number", _TYPED), ("word", _WORD), ("number", _RUN), ("symbol", _SYMBOL)):
        match = form.match(text, at)
        if match:
            if kind == "word" and match[0].upper() not in RESERVED:
                kind = "name"
            return Token(kind, match[0], at, match.end())
    return Token("bad", text[at], at, at + 1)


def literal_value(text: str) -> tuple[str | None, int] | None:
    """The type that a literal names, if it does, and its number; None where it is none of the forms or too large."""
    type_name: str | None = None
    typed = re.match(r"(BOOL|INT|DINT|LINT)#", text, re.I)
    run = text
    sign = 1
    if typed:
        type_name = typed[1].upper()
        run = text[typed.end() :]
        if type_name == "BOOL" and run.upper() in ("TRUE", "FALSE"):
            return type_name, int(run.upper() == "TRUE")
        if type_name != "BOOL" and run[:1] in ("+", "-") and run[1:2].isdigit():
            sign = -1 if run[0] == "-" else 1
            run = run[1:]
    number = _run_value(run)
    return None if number is None else (type_name, sign * number)


def _run_value(run: str) -> int | None:
    """The number that a run of digits spells, in base 2, 8, 10 or 16."""
    based = _BASED.match(run)
    try:
        if based:
            value = int(based[2].replace("_", ""), int(based[1]))
        elif _DECIMAL.match(run):
            value = int(run.replace("_", ""))
        else:
            return None
    except ValueError:
        return None
    return value if value <= GREATEST_NUMBER else None


def type_of_number(value: int) -> str:
    """The type of a literal without one: the least number type that holds it."""
    return next(name for name in ("INT", "DINT", "LINT") if LEAST[name] <= value <= GREATEST[name])
