"""The parts of expressions that IEC 61131-3 has and this profile lacks: members, elements, calls of instances, literals of time, direct addresses."""
from __future__ import annotations

import re
from dataclasses import dataclass, field

from vcp_tools.explain import lacking
from vcp_tools.explain.hint import Hint, Repair
from vcp_tools.read.source import Source, Token

_TIMES = frozenset("T TIME LT LTIME".split())
_DATES = frozenset("D DATE LD LDATE TOD TIME_OF_DAY LTOD LTIME_OF_DAY DT DATE_AND_TIME LDT LDATE_AND_TIME".split())
_TIME = re.compile(r"#[ \t]*[+-]?[A-Za-z0-9_.]*")
_DATE = re.compile(r"#[A-Za-z0-9_.:-]*")
_ADDRESS = re.compile(r"%[A-Za-z]*[0-9.]*\*?")


@dataclass
class Foreign:
    """The hints on what the profile lacks, in the order of the text, and the names of which nothing sure can be said any more, as their repairs change them."""

    hints: list[Hint] = field(default_factory=list)
    doubtful: set[str] = field(default_factory=set)


@dataclass(frozen=True)
class Chain:
    """A name with what hangs on it, as `x[i].Q`: the index behind it, its members, and whether it has an index in brackets, a bit, or a `^`."""

    end: int
    members: tuple[str, ...] = ()
    has_index: bool = False
    has_bit: bool = False
    has_pointer: bool = False

    @property
    def is_plain(self) -> bool:
        """Whether nothing hangs on the name."""
        return not (self.members or self.has_index or self.has_bit or self.has_pointer)


class Tokens:
    """The tokens of a text with the kinds of names that were declared so far, and the hints."""

    def __init__(self, source: Source) -> None:
        self.source = source
        self.tokens = source.tokens
        self.found = Foreign()
        self.kinds: dict[str, str] = {}
        self.blocks: dict[str, str] = {}
        self.constants: set[str] = set()

    def token(self, at: int) -> Token:
        """The token of an index; the last one behind the end."""
        return self.tokens[min(at, len(self.tokens) - 1)]

    def is_mark(self, at: int, mark: str) -> bool:
        """Whether a token is this symbol, or this character that begins no token of the profile."""
        token = self.token(at)
        return token.kind in ("symbol", "bad") and token.text == mark

    def touches(self, at: int) -> bool:
        """Whether a token begins where the one before ends."""
        return self.token(at).start == self.token(at - 1).end

    def behind(self, at: int) -> int:
        """The index behind the bracket that closes the one at this index; this index where none does before a `;`."""
        depth = 0
        for index in range(at, len(self.tokens)):
            text = self.tokens[index].text
            depth += (text in ("(", "[")) - (text in (")", "]"))
            if depth == 0:
                return index + 1
            if text == ";" or self.tokens[index].kind == "end":
                break
        return at

    def index_from(self, start: int, offset: int) -> int:
        """The index of the first token from one on that begins at a byte or behind it."""
        return next((it for it in range(start, len(self.tokens)) if self.tokens[it].start >= offset), len(self.tokens) - 1)

    def text(self, start: int, end: int) -> str:
        """The text of some tokens, on one line."""
        return " ".join(self.source.text[self.tokens[start].start : self.tokens[end - 1].end].split())

    def say(self, start: int, end: int, message: str, repair: Repair | None) -> None:
        """Adds a hint on the bytes from one token through the one before another."""
        self.found.hints.append(Hint(message, self.tokens[start].start, self.tokens[end - 1].end, repair=repair))

    def put(self, start: int, end: int, text: str) -> Repair:
        """A text in the place of some tokens."""
        return Repair(self.tokens[start].start, self.tokens[end - 1].end, text)

    def changed(self, names: list[str], kind: str, block: str = "") -> None:
        """Notes names whose declaration a repair changes."""
        for name in map(str.upper, names):
            self.kinds[name] = kind
            self.blocks[name] = block
            self.found.doubtful.add(name)

    def constants_of(self, values: list[tuple[str, str]], opener: Token) -> None:
        """Has the values of an enumeration declared before a block, each once."""
        new = [f"{name} : INT := {value};" for name, value in values if name.upper() not in self.constants]
        self.constants.update(name.upper() for name, _ in values)
        if new:
            text = f"VAR CONSTANT {' '.join(new)} END_VAR "
            self.found.hints.append(Hint("", opener.start, opener.start, repair=Repair(opener.start, opener.start, text)))

    def values_of(self, at: int, behind: int) -> list[tuple[str, str]]:
        """The values of an enumeration in brackets, each with its number."""
        found: list[tuple[str, str]] = []
        number = 0
        for index in range(at + 1, behind - 1):
            if self.tokens[index].kind != "name" or self.is_mark(index - 1, ":="):
                continue
            if self.is_mark(index + 1, ":="):
                minus = self.is_mark(index + 2, "-")
                given = self.token(index + 2 + minus)
                number = -int(given.text) if minus and given.text.isdigit() else int(given.text) if given.text.isdigit() else number
            found.append((self.tokens[index].text, str(number)))
            number += 1
        return found

    def chain(self, at: int) -> Chain:
        """The name at an index with all that hangs on it."""
        end = at + 1
        members: list[str] = []
        has_index = has_bit = has_pointer = False
        while True:
            if self.is_mark(end, "[") and self.behind(end) > end:
                has_index, end = True, self.behind(end)
            elif self.is_mark(end, "^") and self.touches(end):
                has_pointer, end = True, end + 1
            elif self.is_mark(end, ".") and self.touches(end) and self.touches(end + 1) and self.token(end + 1).kind in ("name", "word", "number"):
                has_bit = has_bit or self.token(end + 1).kind == "number"
                members += [self.token(end + 1).text] if self.token(end + 1).kind != "number" else []
                end += 2
            else:
                return Chain(end, tuple(members), has_index, has_bit, has_pointer)

    def expression(self, start: int, end: int) -> None:
        """Says what some tokens of an expression have that the profile lacks."""
        at = start
        while at < end:
            at = self.operand(at)

    def operand(self, at: int) -> int:
        """What begins at a token of an expression, and the index behind it."""
        token = self.token(at)
        if self.is_mark(at, "%"):
            return self.address(at)
        if token.kind not in ("name", "word"):
            return at + 1
        if self.is_mark(at + 1, "#") and self.touches(at + 1):
            return self.literal(at)
        chain = self.chain(at)
        if token.kind == "word" or chain.is_plain:
            return at + 1
        if self.is_mark(chain.end, "(") and self.behind(chain.end) > chain.end:
            return self.call(at, chain)
        self.say(at, chain.end, f"`{self.text(at, chain.end)}`: {self.told(token, chain)}", self.put(at, chain.end, self.in_place_of(token, chain)))
        return chain.end

    def told(self, name: Token, chain: Chain, formal: tuple[str, ...] = ()) -> str:
        """What is said of a name with what hangs on it, in a call with these formal names."""
        kind, block = self.kinds.get(name.upper, ""), self.blocks.get(name.upper, "")
        parts = (*chain.members, *formal)
        blocks = bool(formal) or self.is_of_block(name, chain)
        if chain.has_index:
            return lacking.NO_ARRAYS + (f"; and {lacking.no_block(block, parts)}" if blocks else "")
        if chain.has_pointer:
            return lacking.NO_POINTERS
        if kind.startswith("enumeration") and chain.members:
            return f"there are no enumerations: write the constant, `{chain.members[-1]}` (docs/PATTERNS.md, 'States')"
        if blocks:
            return lacking.no_block(block, parts)
        if chain.has_bit and not chain.members:
            return lacking.NO_BITS
        own = "_".join((name.text, *chain.members))
        return f"there are no structures, blocks or enumerations, and so no members: declare a constant or variable `{own}` (docs/PATTERNS.md)"

    def is_of_block(self, name: Token, chain: Chain) -> bool:
        """Whether a name with what hangs on it is a function block, or an input or output of one."""
        named = bool(chain.members) and lacking.is_part_of_block(chain.members[-1])
        return named or self.kinds.get(name.upper) in ("block", "blocks")

    def in_place_of(self, name: Token, chain: Chain) -> str:
        """What stands for it so that reading can go on."""
        if self.kinds.get(name.upper, "").startswith("enumeration") and chain.members and chain.members[-1].upper() in self.constants:
            return chain.members[-1]
        is_number = bool(chain.members) and chain.members[-1].upper() in lacking.NUMBERS
        return "0" if is_number and not self.is_mark(chain.end, ":=") else name.text

    def call(self, at: int, chain: Chain) -> int:
        """The call of an instance, `t(IN := a, PT := T#5s)`: one thing to mend, with all that stands in its brackets."""
        behind = self.behind(chain.end)
        given = range(chain.end, behind)
        formal = tuple(self.token(it - 1).text for it in given if self.is_mark(it, ":=") or self.is_mark(it, "=") and self.is_mark(it + 1, ">"))
        what = f"`{self.text(at, chain.end)}(..)`"
        told = self.told(self.token(at), chain, formal or ("IN",))
        self.say(at, chain.end + 1, f"{what}: {told}" if chain.has_index else f"{what} is no statement: {told}", self.put(at, behind, ""))
        return behind

    def literal(self, at: int) -> int:
        """`T#5s`, `D#2024-01-31` and `STATE#OPEN`; the index behind it."""
        token = self.token(at)
        form = _TIME if token.upper in _TIMES else _DATE
        match = form.match(self.source.text, token.end)
        end = self.index_from(at, match.end() if match else token.end)
        put = "0"
        if token.upper in _TIMES:
            message = lacking.NO_TIME
        elif token.upper in _DATES:
            message = lacking.NO_DATE
        elif token.kind == "name":
            value = self.token(at + 2).text
            put = value if value.upper() in self.constants else put
            message = f"there are no enumerations: write the constant, `{value}` (docs/PATTERNS.md, 'States')"
        else:
            return at + 1
        self.say(at, end, f"`{self.text(at, end)}`: {message}", self.put(at, end, put))
        return end

    def address(self, at: int) -> int:
        """`%IX0.0` outside a declaration; the index behind it."""
        match = _ADDRESS.match(self.source.text, self.token(at).start)
        end = max(at + 1, self.index_from(at, match.end() if match else 0))
        text = self.text(at, end)
        if not re.match(r"%[IQM]", text, re.I):
            return at + 1
        stop = self.statement_end(end) if self.is_mark(end, ":=") else end
        is_bool = re.match(r"%[IQM](X|[0-9*])", text, re.I) is not None
        self.say(at, end, f"`{text}`: {lacking.NO_ADDRESSES}", self.put(at, stop, "" if stop > end else "FALSE" if is_bool else "0"))
        return stop

    def statement_end(self, at: int) -> int:
        """The index of the `;` that ends the statement of a token, or of the text's end."""
        return next(it for it in range(at, len(self.tokens)) if self.token(it).is_symbol(";") or self.token(it).kind == "end")
