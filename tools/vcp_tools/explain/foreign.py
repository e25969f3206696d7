"""What IEC 61131-3 has and this profile lacks, read as what it is there, by tokens alone, so that it is told in a text with other faults, too.

Each is one thing to mend: arrays, function blocks with their calls and members, enumerations, direct addresses, literals of time, `S=` and `R=`.
"""
from __future__ import annotations

from typing import Iterator

from vcp_tools.explain import lacking
from vcp_tools.explain.foreign_parts import Foreign, Tokens
from vcp_tools.explain.hint import Hint, Repair
from vcp_tools.read.source import TYPES, Source, Token

_OPENERS = frozenset("VAR_GLOBAL VAR_IN_OUT VAR_TEMP VAR_STAT VAR_INST VAR_EXTERNAL VAR_ACCESS VAR_CONFIG".split())
"""Blocks of declarations that the profile hasn't."""
_ATTRIBUTES = frozenset("CONSTANT RETAIN PERSISTENT NON_RETAIN".split())


class _Scan(Tokens):
    """Goes through the tokens from the first to the last."""

    def whole(self) -> Foreign:
        """All that the text has."""
        at = 0
        while self.token(at).kind != "end":
            if self.opens(at):
                at = self.block(at)
            elif self.token(at).upper == "TYPE" and self.token(at + 1).kind == "name" and self.is_mark(at + 2, ":"):
                at = self.types(at)
            else:
                at = self.statement(at) if self.begins(at) else self.operand(at)
        return self.found

    def opens(self, at: int) -> bool:
        """Whether a block of declarations begins here."""
        token = self.token(at)
        behind = self.token(at + 1)
        return token.is_word("VAR", "VAR_INPUT", "VAR_OUTPUT") or token.upper in _OPENERS and behind.kind in ("name", "word")

    def begins(self, at: int) -> bool:
        """Whether a statement may begin with this token."""
        before = self.token(at - 1) if at > 0 else self.token(len(self.tokens))
        if before.is_symbol(";", ":") or before.is_word("THEN", "ELSE", "DO", "OF", "END_VAR", "END_IF", "END_CASE", "END_FOR", "REPEAT"):
            return True
        return at == 2 and self.token(0).is_word("PROGRAM")

    def block(self, at: int) -> int:
        """A block of declarations, and the index behind it."""
        opener = self.token(at)
        at += 1
        while self.token(at).upper in _ATTRIBUTES:
            at += 1
        while self.token(at).kind != "end" and not self.token(at).is_word("END_VAR", "END_PROGRAM"):
            end = at
            while self.token(end).kind != "end" and not self.token(end).is_symbol(";") and not self.token(end).is_word("END_VAR"):
                end += 1
            if end > at:
                self.declaration(at, end, opener)
            at = end + self.token(end).is_symbol(";")
        return at

    def declaration(self, at: int, end: int, opener: Token) -> None:
        """One declaration, up to its `;`."""
        colon = next((it for it in range(at, end) if self.token(it).is_symbol(":")), end)
        address = next((it for it in range(at, colon) if self.token(it).is_word("AT") and self.is_mark(it + 1, "%")), None)
        names = [token.text for token in self.tokens[at : colon if address is None else address] if token.kind == "name"]
        if address is not None and colon < end:
            stop = next(it for it in range(address, colon + 1) if it == colon or self.token(it).is_symbol(","))
            begin = address - bool(names)
            put = "" if names else f"at_{self.tokens[address].start}"
            self.say(begin, stop, f"`{self.text(begin, stop)}`: {lacking.NO_ADDRESSES}", Repair(self.tokens[address].start, self.tokens[stop].start, put))
        if colon + 1 < end:
            self.type_of(colon + 1, end, names, opener)

    def type_of(self, at: int, end: int, names: list[str], opener: Token) -> None:
        """The type of a declaration, with its initial value."""
        first = self.token(at)
        initial = next((it for it in range(at, end) if self.token(it).is_symbol(":=")), end)
        if first.is_symbol("("):
            self.enumeration(at, end, names, opener)
        elif first.is_word("ARRAY"):
            self.array(at, end, initial, names)
        elif first.kind == "name" and self.kinds.get(first.upper) == "enumeration type":
            self.kinds.update(dict.fromkeys(map(str.upper, names), "enumeration"))
            self.say(at, at + 1, f"`{first.text}`: {lacking.no_enumeration(self.blocks[first.upper])}", self.put(at, at + 1, "INT"))
            self.expression(initial, end)
        elif first.kind == "name" and lacking.is_block(first.text):
            self.changed(names, "block", first.upper)
            message = f"`{first.text}` is no type of the language, which has BOOL, INT, DINT and LINT: {lacking.no_block(first.text)}"
            self.say(at, at + 1, message, self.put(at, end, "BOOL"))
        elif first.upper in lacking.TYPE_WAYS:
            self.changed(names, "other type")
            message = f"`{first.text}` is no type of the language, which has BOOL, INT, DINT and LINT: {lacking.TYPE_WAYS[first.upper]}"
            self.say(at, at + 1, message, self.put(at, end, "INT"))
        elif first.is_word(*TYPES):
            self.expression(initial, end)

    def array(self, at: int, end: int, initial: int, names: list[str]) -> None:
        """`ARRAY[1..3] OF INT`, and of blocks."""
        of = max((it for it in range(at, initial) if self.token(it).is_word("OF")), default=None)
        element = self.token(of + 1) if of is not None and of + 1 < initial else self.token(at)
        blocks = lacking.is_block(element.text)
        message = f"`{self.text(at, initial)}`: {lacking.NO_ARRAYS}" + (f"; and {lacking.no_block(element.text)}" if blocks else "")
        self.changed(names, "blocks" if blocks else "array", element.upper if blocks else "")
        put = element.upper if element.is_word(*TYPES) else "BOOL" if blocks else "INT"
        self.say(at, initial, message, self.put(at, end, put))

    def enumeration(self, at: int, end: int, names: list[str], opener: Token) -> None:
        """`(OPEN, WARN, LOWER)`, where it is declared in place: its values are put before the block as constants."""
        behind = self.behind(at)
        values = self.values_of(at, behind) if behind > at else []
        if not values:
            return
        self.kinds.update(dict.fromkeys(map(str.upper, names), "enumeration"))
        typed = behind < end and self.token(behind).kind in ("name", "word")
        self.say(at, behind, f"`{self.text(at, behind)}`: {lacking.no_enumeration(values[0][0])}", self.put(at, behind + typed, "INT"))
        self.constants_of(values, opener)
        self.expression(behind, end)

    def types(self, at: int) -> int:
        """`TYPE .. END_TYPE`, which is left out; the values of its enumerations are put before the first block as constants."""
        end = next((it for it in range(at, len(self.tokens)) if self.token(it).upper == "END_TYPE"), None)
        opener = next((token for token in self.tokens[end or at :] if token.is_word("VAR", "VAR_INPUT", "VAR_OUTPUT")), None)
        if end is None or opener is None:
            return at + 1
        repair: Repair | None = self.put(at, end + 1, "")
        for name in range(at + 1, end):
            if self.token(name).kind != "name" or not self.is_mark(name + 1, ":") or self.is_mark(name + 1, ":="):
                continue
            behind = self.behind(name + 2) if self.is_mark(name + 2, "(") else name + 2
            values = self.values_of(name + 2, behind) if behind > name + 2 else []
            is_struct = self.token(name + 2).is_word("STRUCT")
            if not values and not is_struct:
                continue
            stop = behind if values else name + 3
            self.kinds[self.token(name).upper] = "enumeration type" if values else "structure"
            self.blocks[self.token(name).upper] = values[0][0] if values else ""
            begin = at if repair else name
            self.say(begin, stop, f"`{self.text(begin, stop)}`: {lacking.no_enumeration(values[0][0]) if values else lacking.NO_STRUCTURES}", repair)
            repair = None
            self.constants_of(values, opener)
        return end + 1

    def statement(self, at: int) -> int:
        """What begins at a token with which a statement may begin, and the index behind it."""
        token = self.token(at)
        if token.kind != "name":
            return self.operand(at)
        chain = self.chain(at)
        if self.token(chain.end).upper in ("S", "R") and self.token(chain.end).kind == "name" and self.is_mark(chain.end + 1, "="):
            return self.set_or_reset(at, chain.end)
        if self.is_mark(chain.end, "(") and self.behind(chain.end) > chain.end:
            return self.call(at, chain)
        if not chain.is_plain and self.is_mark(chain.end, ":=") and self.is_of_block(token, chain):
            end = self.statement_end(chain.end)
            self.say(at, chain.end, f"`{self.text(at, chain.end)}`: {self.told(token, chain)}", self.put(at, end, ""))
            return end
        return self.operand(at)

    def set_or_reset(self, at: int, word: int) -> int:
        """`q S= x` and `q R= x`."""
        self.operand(at)
        end = self.statement_end(word)
        name, given = self.text(at, word), self.text(word + 2, end) if end > word + 2 else ".."
        if not given.replace("_", "a").isalnum():
            given = f"({given})"
        operator = "OR" if self.token(word).upper == "S" else "AND NOT"
        message = f"there is no `{self.token(word).upper}=`: write `{name} := {name} {operator} {given};` (docs/PATTERNS.md)"
        self.say(at, word + 2, message, self.put(word, word + 2, f":= {self.token(at).text} {operator} ("))
        self.found.hints.append(Hint("", self.token(end).start, self.token(end).start, repair=Repair(self.token(end - 1).end, self.token(end - 1).end, ")")))
        return word + 2


def foreign(source: Source) -> Foreign:
    """All such constructs of a text."""
    return _Scan(source).whole()


def hint_at(source: Source, at: int) -> Hint | None:
    """The hint on the construct that holds a byte; None where none does."""
    return next((it for it in told(foreign(source).hints) if it.start <= at < max(it.end, it.repair.end if it.repair else 0)), None)


def told(hints: list[Hint]) -> Iterator[Hint]:
    """The hints that have a message, in the order of the text."""
    yield from sorted((it for it in hints if it.message), key=lambda it: it.start)
