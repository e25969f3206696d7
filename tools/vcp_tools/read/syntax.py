"""The tree of a program, as `structured_text` reads it, and the types of its parts, after docs/LANGUAGE.md, 'Types'.

The tree serves messages and the search for likely mistakes. Whether a text is a program, the program `vcp` says.
"""
from __future__ import annotations

from dataclasses import dataclass, field
from typing import Iterator

from vcp_tools.read.source import TYPES, literal_value, type_of_number

COMPARISONS = frozenset(("=", "<>", "<", ">", "<=", ">="))
BOOLEAN = frozenset(("AND", "XOR", "OR"))
ARITHMETIC = frozenset(("+", "-", "*", "/", "MOD"))
ARGUMENTS = {
    "ABS": 1, "MIN": 2, "MAX": 2, "LIMIT": 3, "SEL": 3, "INT_TO_DINT": 1, "INT_TO_LINT": 1, "DINT_TO_LINT": 1, "DINT_TO_INT": 1,
    "LINT_TO_INT": 1, "LINT_TO_DINT": 1, "BOOL_TO_INT": 1,
}
"""The functions, each with its number of arguments."""


@dataclass
class Expr:
    """An expression. `form` is `literal`, `name`, `call`, or the operator in capitals (`neg` for a sign); `at` is its place by the
    program's faults: the operator, the function's name, the name or the literal. `start` to `end` are its bytes."""

    form: str
    at: int
    start: int
    end: int
    text: str = ""
    parts: list["Expr"] = field(default_factory=list)

    def inside(self) -> Iterator["Expr"]:
        """This expression and all that it is made of."""
        yield self
        for part in self.parts:
            yield from part.inside()


@dataclass
class Declaration:
    """A declared name: its section (`VAR_INPUT`, `VAR_OUTPUT`, `VAR`, `VAR CONSTANT` or `VAR RETAIN`), its type and its initial value."""

    name: str
    at: int
    section: str
    type: str
    initial: Expr | None


@dataclass
class Assign:
    """`name := value`."""

    name: str
    at: int
    value: Expr


@dataclass
class Branch:
    """A branch of IF or CASE: the place of its IF, ELSIF, ELSE or first label, what it is taken by, and its statements. A branch of IF has
    one condition, one of CASE pairs of a first and a last label, an ELSE neither."""

    at: int
    condition: Expr | None
    labels: list[tuple[Expr, Expr]]
    body: list["Statement"]


@dataclass
class Choice:
    """IF or CASE: the selector of a CASE, and the branches in order, an ELSE last."""

    at: int
    selector: Expr | None
    branches: list[Branch]


@dataclass
class Loop:
    """FOR: the control variable, its bounds and its step."""

    at: int
    name: str
    name_at: int
    bounds: list[Expr]
    body: list["Statement"]


Statement = Assign | Choice | Loop


@dataclass
class Tree:
    """A program: its name, its declarations in order, and its statements."""

    name: str
    declarations: list[Declaration]
    body: list[Statement]

    def declared(self) -> dict[str, Declaration]:
        """The first declaration of each name, by the name in capitals."""
        found: dict[str, Declaration] = {}
        for declaration in self.declarations:
            found.setdefault(declaration.name.upper(), declaration)
        return found

    def statements(self) -> Iterator[Statement]:
        """All statements, each before those of its bodies."""
        yield from _statements(self.body)


def _statements(body: list[Statement]) -> Iterator[Statement]:
    for statement in body:
        yield statement
        if isinstance(statement, Choice):
            for branch in statement.branches:
                yield from _statements(branch.body)
        elif isinstance(statement, Loop):
            yield from _statements(statement.body)


def expressions(statement: Statement) -> Iterator[Expr]:
    """The expressions of a statement itself, without those of its bodies."""
    if isinstance(statement, Assign):
        yield statement.value
    elif isinstance(statement, Loop):
        yield from statement.bounds
    else:
        if statement.selector is not None:
            yield statement.selector
        for branch in statement.branches:
            if branch.condition is not None:
                yield branch.condition
            for first, last in branch.labels:
                yield first
                if last is not first:
                    yield last


class Types:
    """The types and constant values of the expressions of one program."""

    def __init__(self, tree: Tree) -> None:
        self.declared = tree.declared()

    def of(self, expr: Expr) -> str | None:
        """The type of an expression; None where a part of it has none."""
        if expr.form == "literal":
            return self._literal(expr)
        if expr.form == "name":
            declaration = self.declared.get(expr.text.upper())
            return declaration.type if declaration else None
        parts = [self.of(part) for part in expr.parts]
        if expr.form == "call":
            return self._call(expr, parts)
        if expr.form in COMPARISONS or expr.form in BOOLEAN or expr.form == "NOT":
            return "BOOL"
        return wider(parts)

    def _literal(self, expr: Expr) -> str | None:
        if expr.text.upper() in ("TRUE", "FALSE"):
            return "BOOL"
        value = literal_value(expr.text)
        return None if value is None else value[0] or type_of_number(value[1])

    def _call(self, expr: Expr, parts: list[str | None]) -> str | None:
        name = expr.text.upper()
        if "_TO_" in name:
            return name.split("_TO_")[1] if name in ARGUMENTS else None
        return wider(parts[1:] if name == "SEL" else parts) if name in ARGUMENTS else None

    def value(self, expr: Expr) -> int | None:
        """The value of a constant form: a literal, a sign before one, or a constant's name; else None."""
        if expr.form == "literal":
            if expr.text.upper() in ("TRUE", "FALSE"):
                return int(expr.text.upper() == "TRUE")
            value = literal_value(expr.text)
            return None if value is None else value[1]
        if expr.form == "neg":
            inner = self.value(expr.parts[0])
            return None if inner is None else -inner
        declaration = self.declared.get(expr.text.upper()) if expr.form == "name" else None
        if declaration is None or declaration.section != "VAR CONSTANT" or declaration.at > expr.at:
            return None
        return self.value(declaration.initial) if declaration.initial is not None else 0


def wider(types: list[str | None]) -> str | None:
    """The widest of some types; None where one is unknown."""
    known = [name for name in types if name is not None]
    return None if len(known) < len(types) or not known else max(known, key=TYPES.index)
