"""The tree of Structured Text as controllers have it, by the grammar in wider_text.lark. It serves `lower` and `simulate` alike."""
from __future__ import annotations

import re
from typing import Any, Sequence

from vcp_tools.read.structured_text import SyntaxFault, parsed
from vcp_tools.read.wider_tree import (
    Act, Argument, Assign, Case, Choose, Declared, File, Initial, Invoke, Leave, NamedType, Repeat, Term, TypeText, Unit,
)

_OPEN = re.compile(r"\(\*|/\*|//|\{|'|\"")
_BOUND = re.compile(r"\(\*@[ \t]*bound[ \t]+[0-9]+[ \t]*\*\)", re.I)
_PART = re.compile(r"\(\*|\*\)")


class _Labels(list[tuple[Term, Term]]):
    """The labels before a branch of CASE."""


class _Body(list[Act]):
    """Statements in order."""


class Builder:
    """Makes the tree of what each rule of the grammar has read. Tokens are strings that know their places."""

    def file(self, parts: Sequence[Any]) -> File:
        """Types, global variables and units in any order."""
        found = File([], [], [])
        for part in parts:
            if isinstance(part, Unit):
                found.units.append(part)
            elif part and isinstance(part[0], NamedType):
                found.types += part
            else:
                found.globals += part
        return found

    def types(self, parts: Sequence[Any]) -> list[NamedType]:
        """TYPE, named types, END_TYPE."""
        return [it for it in parts if isinstance(it, NamedType)]

    def named_type(self, parts: Sequence[Any]) -> NamedType:
        """A name, a type, and an initial value where one stands."""
        return NamedType(str(parts[0]), parts[0].start_pos, parts[1], _initial(parts[2]) if len(parts) > 2 else None)

    def globals(self, parts: Sequence[Any]) -> list[Declared]:
        """VAR_GLOBAL, attributes, declarations, END_VAR."""
        return self.block(parts)

    def block(self, parts: Sequence[Any]) -> list[Declared]:
        """A section, attributes, declarations, END_VAR."""
        heads = [it.upper() for it in parts[:-1] if isinstance(it, str)]
        found = [it for part in parts if isinstance(part, list) for it in part]
        for it in found:
            it.section, it.attributes = heads[0], tuple(heads[1:])
        return found

    def declaration(self, parts: Sequence[Any]) -> list[Declared]:
        """Names, a type, and an initial value where one stands."""
        kind = next(it for it in parts if isinstance(it, TypeText))
        initial = _initial(parts[-1]) if parts[-1] is not kind else None
        return [Declared(str(name), name.start_pos, "VAR", (), kind, address, initial) for name, address in parts[: parts.index(kind)]]

    def declared(self, parts: Sequence[Any]) -> tuple[Any, str]:
        """A name, and an address where one stands."""
        return parts[0], str(parts[2]) if len(parts) > 2 else ""

    def simple_type(self, parts: Sequence[Any]) -> TypeText:
        """The name of a type."""
        return TypeText("simple", parts[0].start_pos, str(parts[0]))

    def subrange(self, parts: Sequence[Any]) -> TypeText:
        """The base of a subrange, and its ends."""
        return TypeText("subrange", parts[0].start_pos, str(parts[0]), [(parts[-2], parts[-1])])

    def array(self, parts: Sequence[Any]) -> TypeText:
        """ARRAY, ranges, OF, the type of an element."""
        ranges: list[tuple[Term, Term]] = [it for it in parts if isinstance(it, tuple)]  # type: ignore[misc]
        return TypeText("array", parts[0].start_pos, "", ranges, parts[-1])

    def dimension(self, parts: Sequence[Any]) -> tuple[Term, Term]:
        """The first and the last index."""
        return parts[0], parts[1]

    def structure(self, parts: Sequence[Any]) -> TypeText:
        """STRUCT, declarations, END_STRUCT."""
        return TypeText("structure", parts[0].start_pos, "", fields=[it for part in parts if isinstance(part, list) for it in part])

    def enumeration(self, parts: Sequence[Any]) -> TypeText:
        """Names in brackets, with a base where one stands."""
        values: list[tuple[str, int, Term | None]] = [it for it in parts if isinstance(it, tuple)]  # type: ignore[misc]
        base = str(parts[-1]) if isinstance(parts[-1], str) and getattr(parts[-1], "type", "") == "TYPE_WORD" else ""
        return TypeText("enumeration", values[0][1], base, values=values)

    def enumerated(self, parts: Sequence[Any]) -> tuple[str, int, Term | None]:
        """A name, with its value where one stands."""
        return str(parts[0]), parts[0].start_pos, parts[1] if len(parts) > 1 else None

    def list_initial(self, parts: Sequence[Any]) -> Initial:
        """Initial values of an array's elements."""
        items: list[tuple[int, Initial]] = [it if isinstance(it, tuple) else (1, _initial(it)) for it in parts]  # type: ignore[misc]
        return Initial(items[0][1].at, items=items)

    def repeated(self, parts: Sequence[Any]) -> tuple[int, Initial]:
        """A number, and the value that stands so many times."""
        return int(str(parts[0]).replace("_", "")), _initial(parts[1])

    def fields_initial(self, parts: Sequence[Any]) -> Initial:
        """Initial values by name."""
        return Initial(parts[0].start_pos, fields=list(parts[1:]))

    def field_initial(self, parts: Sequence[Any]) -> tuple[str, Initial]:
        """A name and its value."""
        return str(parts[0]), _initial(parts[1])

    def unit_of(self, kind: str, parts: Sequence[Any], result: TypeText | None) -> Unit:
        """A unit of a kind."""
        declared = [it for part in parts if isinstance(part, list) and not isinstance(part, _Body) for it in part]
        return Unit(kind, str(parts[1]), parts[0].start_pos, declared, list(parts[-2]), result)

    def program(self, parts: Sequence[Any]) -> Unit:
        """PROGRAM, a name, blocks, statements, END_PROGRAM."""
        return self.unit_of("PROGRAM", parts, None)

    def function(self, parts: Sequence[Any]) -> Unit:
        """FUNCTION, a name, a type, blocks, statements, END_FUNCTION."""
        return self.unit_of("FUNCTION", parts, parts[2])

    def function_block(self, parts: Sequence[Any]) -> Unit:
        """FUNCTION_BLOCK, a name, blocks, statements, END_FUNCTION_BLOCK."""
        return self.unit_of("FUNCTION_BLOCK", parts, None)

    def statements(self, parts: Sequence[Act]) -> _Body:
        """Statements in order."""
        return _Body(parts)

    def assign(self, parts: Sequence[Any]) -> Assign:
        """A variable and its value, which may be an assignment again."""
        target, value = parts
        if isinstance(value, Assign):
            return Assign(target.at, [target, *value.targets], value.value)
        return Assign(target.at, [target], value)

    def set(self, parts: Sequence[Any]) -> Assign:
        """A variable, `S=`, a value."""
        return Assign(parts[0].at, [parts[0]], parts[2], "S=")

    def reset(self, parts: Sequence[Any]) -> Assign:
        """A variable, `R=`, a value."""
        return Assign(parts[0].at, [parts[0]], parts[2], "R=")

    def invocation(self, parts: Sequence[Any]) -> Invoke:
        """A variable or a function with its arguments in brackets."""
        values, named = _arguments(parts[2:-1])
        return Invoke(parts[0].at, parts[0], values, named)

    def leave(self, parts: Sequence[Any]) -> Leave:
        """EXIT, CONTINUE or RETURN."""
        return Leave(parts[0].start_pos, parts[0].upper())

    def elsif(self, parts: Sequence[Any]) -> Case:
        """A word, a condition, THEN, statements."""
        return Case(parts[0].start_pos, parts[1], [], list(parts[3]))

    def else_(self, parts: Sequence[Any]) -> Case:
        """ELSE and its statements."""
        return Case(parts[0].start_pos, None, [], list(parts[1]))

    def if_(self, parts: Sequence[Any]) -> Choose:
        """IF as a branch, further branches, END_IF."""
        return Choose(parts[0].start_pos, None, [self.elsif(parts[:4]), *parts[4:-1]])

    def labels(self, parts: Sequence[tuple[Term, Term]]) -> _Labels:
        """The labels before a `:`."""
        return _Labels(parts)

    def label(self, parts: Sequence[Term]) -> tuple[Term, Term]:
        """The first and the last value, the same node twice where it is one value."""
        return parts[0], parts[-1]

    def negative(self, parts: Sequence[Any]) -> Term:
        """A sign before a number."""
        return Term("neg", parts[0].start_pos, "-", [Term("literal", parts[1].start_pos, str(parts[1]))])

    def case(self, parts: Sequence[Any]) -> Choose:
        """CASE, a selector, OF, labels and statements, ELSE where it stands, END_CASE."""
        cases: list[Case] = []
        for part in parts[3:-1]:
            if isinstance(part, _Labels):
                cases.append(Case(part[0][0].at, None, list(part), []))
            elif isinstance(part, Case):
                cases.append(part)
            else:
                cases[-1].body.append(part)
        return Choose(parts[0].start_pos, parts[1], cases)

    def for_(self, parts: Sequence[Any]) -> Repeat:
        """FOR, a variable, bounds with the words between them, statements, END_FOR."""
        terms = [it for it in parts if isinstance(it, Term)]
        return Repeat("FOR", parts[0].start_pos, list(parts[-2]), terms[0], terms[1:], bound=_bound(parts))

    def while_(self, parts: Sequence[Any]) -> Repeat:
        """WHILE, a condition, DO, statements, END_WHILE."""
        return Repeat("WHILE", parts[0].start_pos, list(parts[-2]), condition=parts[1], bound=_bound(parts))

    def repeat(self, parts: Sequence[Any]) -> Repeat:
        """REPEAT, statements, UNTIL, a condition, END_REPEAT."""
        body = next(it for it in parts if isinstance(it, _Body))
        return Repeat("REPEAT", parts[0].start_pos, list(body), condition=parts[-2], bound=_bound(parts))

    def binary(self, parts: Sequence[Any]) -> Term:
        """Two operands round an operator."""
        left, operator, right = parts
        return Term("AND" if operator == "&" else operator.upper(), operator.start_pos, str(operator), [left, right])

    def signed(self, parts: Sequence[Any]) -> Term:
        """A sign or NOT before an operand."""
        operator, inner = parts
        return Term({"-": "neg", "+": "plus"}.get(operator, "NOT"), operator.start_pos, str(operator), [inner])

    def literal(self, parts: Sequence[Any]) -> Term:
        """A literal."""
        return Term("time" if parts[0].type == "TIME_LITERAL" else "literal", parts[0].start_pos, str(parts[0]))

    def symbol(self, parts: Sequence[Any]) -> Term:
        """The value of an enumeration with its type."""
        return Term("symbol", parts[0].start_pos, str(parts[0]))

    def name(self, parts: Sequence[Any]) -> Term:
        """A name."""
        return Term("name", parts[0].start_pos, str(parts[0]))

    def member(self, parts: Sequence[Any]) -> Term:
        """A variable and its member."""
        return Term("member", parts[0].at, str(parts[1]), [parts[0]])

    def element(self, parts: Sequence[Any]) -> Term:
        """A variable and its indices."""
        return Term("element", parts[0].at, "", list(parts[:-1]))

    def call(self, parts: Sequence[Any]) -> Term:
        """A function's name and its arguments."""
        values, named = _arguments(parts[2:-1])
        return Term("call", parts[0].start_pos, str(parts[0]), values, named)

    def brackets(self, parts: Sequence[Any]) -> Term:
        """What stands in brackets."""
        inner: Term = parts[1]
        return inner

    def formal(self, parts: Sequence[Any]) -> Argument:
        """A name and its value."""
        return Argument(str(parts[0]), parts[0].start_pos, parts[1], False)

    def output(self, parts: Sequence[Any]) -> Argument:
        """A name and the variable that gets its value."""
        return Argument(str(parts[0]), parts[0].start_pos, parts[2] if len(parts) > 2 else None, True)

    def __getattr__(self, name: str) -> Any:
        """The rules whose names are words of Python."""
        if name in ("if", "for", "else", "while"):
            return getattr(self, name + "_")
        raise AttributeError(name)


def _initial(part: Any) -> Initial:
    """An initial value, of an expression, too."""
    return part if isinstance(part, Initial) else Initial(part.at, part)


def _arguments(parts: Sequence[Any]) -> tuple[list[Term], list[Argument]]:
    """Arguments by place and by name."""
    return [it for it in parts if isinstance(it, Term)], [it for it in parts if isinstance(it, Argument)]


def _bound(parts: Sequence[Any]) -> int | None:
    """The number of turns that a remark gives."""
    found = [it for it in parts if isinstance(it, str) and it.startswith("(*@")]
    return int(re.sub(r"[^0-9]", "", found[0])) if found else None


def blanked(text: str) -> tuple[str, list[int]]:
    """A text of the same length with blanks for comments, nested ones, too, and for pragmas; and where pragmas stand. A bound of turns stays. Raises
    SyntaxFault where one isn't closed."""
    parts: list[str] = []
    pragmas: list[int] = []
    at = 0
    while match := _OPEN.search(text, at):
        parts.append(text[at : match.start()])
        end = _end(text, match)
        kept = match[0] in "'\"" or _BOUND.fullmatch(text, match.start(), end)
        part = text[match.start() : end]
        parts.append(part if kept else re.sub(r"[^\n]", " ", part))
        if match[0] == "{":
            pragmas.append(match.start())
        at = end
    return "".join(parts) + text[at:], pragmas


def _end(text: str, match: re.Match[str]) -> int:
    """Where what is opened ends."""
    if match[0] == "(*":
        depth, at = 1, match.end()
        while depth:
            part = _PART.search(text, at)
            if part is None:
                raise SyntaxFault(match.start(), "(*")
            depth += 1 if part[0] == "(*" else -1
            at = part.end()
        return at
    if match[0] in "'\"":
        return match.end()
    closing = {"//": "\n", "/*": "*/", "{": "}"}[match[0]]
    found = text.find(closing, match.end())
    if found < 0 and match[0] != "//":
        raise SyntaxFault(match.start(), match[0])
    return len(text) if found < 0 else found + (0 if match[0] == "//" else len(closing))


def parse_wider(text: str) -> File:
    """The tree of a text; raises SyntaxFault at the first token that the grammar doesn't take."""
    tree: File = parsed(blanked(text)[0], "wider_text", "file", Builder, lexer="contextual")
    return tree
