"""The tree of a program's text, by the grammar in structured_text.lark.

The tree serves messages and the search for likely mistakes. Whether a text is a program, the program `vcp` says.
"""
from __future__ import annotations

from typing import Any, Sequence

from vcp_tools.needs import need_module
from vcp_tools.read.grammar import reader
from vcp_tools.read.source import Source, literal_value
from vcp_tools.read.syntax import Assign, Branch, Choice, Declaration, Expr, Loop, Statement, Tree

_BOM = "\xef\xbb\xbf"


class SyntaxFault(Exception):
    """The grammar takes no token here: the byte `at` of the text, and the token's text, empty at the end."""

    def __init__(self, at: int, text: str) -> None:
        super().__init__(text)
        self.at = at
        self.text = text


class _Labels(list[tuple[Expr, Expr]]):
    """The labels before a branch of CASE."""


class Builder:
    """Makes the tree of what each rule of the grammar has read. Tokens are strings that know their places."""

    def program(self, parts: Sequence[Any]) -> Tree:
        """PROGRAM, a name, blocks, statements, END_PROGRAM."""
        return Tree(str(parts[1]), [it for block in parts[2:-2] for it in block], parts[-2])

    def block(self, parts: Sequence[Any]) -> list[Declaration]:
        """The words of a block's head, declarations, END_VAR."""
        heads = [it.upper() for it in parts[:-1] if isinstance(it, str)]
        found = [it for it in parts if isinstance(it, list)]
        return [Declaration(name, at, " ".join(heads), type_name, initial) for group in found for name, at, type_name, initial in group]

    def declaration(self, parts: Sequence[Any]) -> list[tuple[str, int, str, Expr | None]]:
        """Names, a type, and an initial value where one stands."""
        initial = parts[-1] if isinstance(parts[-1], Expr) else None
        words = [it for it in parts if not isinstance(it, Expr)]
        return [(str(name), name.start_pos, words[-1].upper(), initial) for name in words[:-1]]

    def statements(self, parts: Sequence[Statement]) -> list[Statement]:
        """Statements in order."""
        return list(parts)

    def assign(self, parts: Sequence[Any]) -> Assign:
        """A name and its value."""
        return Assign(str(parts[0]), parts[0].start_pos, parts[1])

    def elsif(self, parts: Sequence[Any]) -> Branch:
        """A word, a condition, THEN, statements."""
        return Branch(parts[0].start_pos, parts[1], [], parts[3])

    def else_(self, parts: Sequence[Any]) -> Branch:
        """ELSE and its statements."""
        return Branch(parts[0].start_pos, None, [], parts[1])

    def if_(self, parts: Sequence[Any]) -> Choice:
        """IF as a branch, further branches, END_IF."""
        return Choice(parts[0].start_pos, None, [self.elsif(parts[:4]), *parts[4:-1]])

    def labels(self, parts: Sequence[tuple[Expr, Expr]]) -> _Labels:
        """The labels before a `:`."""
        return _Labels(parts)

    def label(self, parts: Sequence[Expr]) -> tuple[Expr, Expr]:
        """The first and the last value, the same node twice where it is one value."""
        return parts[0], parts[-1]

    def constant(self, parts: Sequence[Any]) -> Expr:
        """A literal, with a sign or without, or a name."""
        last = parts[-1]
        form = "name" if last.type == "NAME" else "literal"
        inner = Expr(form, last.start_pos, last.start_pos, last.end_pos, str(last))
        return inner if len(parts) == 1 else self.signed([parts[0], inner])

    def case(self, parts: Sequence[Any]) -> Choice:
        """CASE, a selector, OF, labels and statements, ELSE where it stands, END_CASE."""
        branches: list[Branch] = []
        for part in parts[3:-1]:
            if isinstance(part, _Labels):
                branches.append(Branch(part[0][0].start, None, list(part), []))
            elif isinstance(part, Branch):
                branches.append(part)
            else:
                branches[-1].body.append(part)
        return Choice(parts[0].start_pos, parts[1], branches)

    def for_(self, parts: Sequence[Any]) -> Loop:
        """FOR, a name, bounds with the words between them, statements, END_FOR."""
        bounds = [it for it in parts if isinstance(it, Expr)]
        return Loop(parts[0].start_pos, str(parts[1]), parts[1].start_pos, bounds, parts[-2])

    def binary(self, parts: Sequence[Any]) -> Expr:
        """Two operands round an operator."""
        left, operator, right = parts
        form = "AND" if operator == "&" else operator.upper()
        return Expr(form, operator.start_pos, left.start, right.end, str(operator), [left, right])

    def signed(self, parts: Sequence[Any]) -> Expr:
        """A sign or NOT before an operand."""
        operator, inner = parts
        form = "neg" if operator == "-" else "NOT"
        return Expr(form, operator.start_pos, operator.start_pos, inner.end, str(operator), [inner])

    def literal(self, parts: Sequence[Any]) -> Expr:
        """A literal."""
        return Expr("literal", parts[0].start_pos, parts[0].start_pos, parts[0].end_pos, str(parts[0]))

    def name(self, parts: Sequence[Any]) -> Expr:
        """A name."""
        return Expr("name", parts[0].start_pos, parts[0].start_pos, parts[0].end_pos, str(parts[0]))

    def call(self, parts: Sequence[Any]) -> Expr:
        """A function's name, its arguments, and the closing bracket."""
        name, closing = parts[0], parts[-1]
        return Expr("call", name.start_pos, name.start_pos, closing.end_pos, str(name), list(parts[1:-1]))

    def brackets(self, parts: Sequence[Any]) -> Expr:
        """What stands in brackets, with their places."""
        opening, inner, closing = parts
        return Expr(inner.form, inner.at, opening.start_pos, closing.end_pos, inner.text, inner.parts)

    def __getattr__(self, name: str) -> Any:
        """The rules whose names are words of Python."""
        if name in ("if", "for", "else"):
            return getattr(self, name + "_")
        raise AttributeError(name)

    def NUMBER(self, token: Any) -> Any:  # noqa: N802
        """A literal, which is at most 2^63 - 1."""
        if literal_value(str(token)) is None:
            raise SyntaxFault(token.start_pos, str(token))
        return token


def parsed(text: str, name: str, start: str, builder: type, postlex: type | None = None, lexer: str = "basic") -> Any:
    """What a builder makes of a text by a grammar; raises SyntaxFault at the first token that the grammar doesn't take."""
    exceptions = need_module("lark").exceptions
    if text.startswith(_BOM):
        text = "   " + text[3:]
    try:
        return reader(name, start, builder, postlex, lexer).parse(text)
    except exceptions.UnexpectedCharacters as error:
        raise SyntaxFault(error.pos_in_stream, text[error.pos_in_stream]) from None
    except exceptions.UnexpectedToken as error:
        at_end = error.token.type == "$END"
        raise SyntaxFault(len(text) if at_end else error.token.start_pos, "" if at_end else str(error.token)) from None


def parse(source: Source) -> Tree:
    """The tree of a source; raises SyntaxFault at the first token that the grammar doesn't take."""
    tree: Tree = parsed(source.text, "structured_text", "program", Builder)
    return tree
