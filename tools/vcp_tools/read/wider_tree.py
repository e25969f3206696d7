"""The tree of Structured Text as controllers have it, as `wider_text` reads it: programs, functions, function blocks and types.

Each node has the byte `at` which it begins, of an operator the operator's own: places are told by it.
"""
from __future__ import annotations

from dataclasses import dataclass, field
from typing import Iterator


@dataclass
class Term:
    """An expression. `form` is `literal`, `time`, `symbol` (the value of an enumeration with its type), `name`, `member`, `element`, `call`, or the operator in
    capitals (`neg` for a sign). `text` is the literal, the name, the member or the function; `parts` are what it is made of: of a member and an
    element the variable first. `named` has the arguments of a call by name."""

    form: str
    at: int
    text: str = ""
    parts: list["Term"] = field(default_factory=list)
    named: list["Argument"] = field(default_factory=list)

    def inside(self) -> Iterator["Term"]:
        """This expression and all that it is made of."""
        yield self
        for part in self.parts:
            yield from part.inside()
        for argument in self.named:
            if argument.value is not None:
                yield from argument.value.inside()


@dataclass
class Argument:
    """An argument by name: `name := value`, or `name => value` of an output, whose value may be missing."""

    name: str
    at: int
    value: Term | None
    is_output: bool


@dataclass
class Initial:
    """An initial value: one expression, a list, or fields by name. An entry of a list may stand several times."""

    at: int
    value: Term | None = None
    items: list[tuple[int, "Initial"]] = field(default_factory=list)
    fields: list[tuple[str, "Initial"]] = field(default_factory=list)


@dataclass
class TypeText:
    """A type as it is written. `form` is `simple`, `subrange`, `array`, `structure` or `enumeration`; `name` is that of a simple one, or of the
    base of a subrange or an enumeration."""

    form: str
    at: int
    name: str = ""
    ranges: list[tuple[Term, Term]] = field(default_factory=list)
    element: "TypeText | None" = None
    fields: list["Declared"] = field(default_factory=list)
    values: list[tuple[str, int, Term | None]] = field(default_factory=list)


@dataclass
class Declared:
    """A declared name with the section in which it stands, its attributes, its type, its address and its initial value."""

    name: str
    at: int
    section: str
    attributes: tuple[str, ...]
    type: TypeText
    address: str
    initial: Initial | None

    @property
    def is_constant(self) -> bool:
        """Whether it is a constant."""
        return "CONSTANT" in self.attributes


@dataclass
class Assign:
    """`target := value`, with further targets of a chain, outermost first; `how` is `:=`, `S=` or `R=`."""

    at: int
    targets: list[Term]
    value: Term
    how: str = ":="


@dataclass
class Invoke:
    """A call as a statement: a function block or a function."""

    at: int
    target: Term
    values: list[Term]
    named: list[Argument]


@dataclass
class Leave:
    """EXIT, CONTINUE or RETURN."""

    at: int
    word: str


@dataclass
class Case:
    """A branch: of IF with its condition, of CASE with pairs of a first and a last label, an ELSE with neither."""

    at: int
    condition: Term | None
    labels: list[tuple[Term, Term]]
    body: list["Act"]


@dataclass
class Choose:
    """IF or CASE: the selector of a CASE, and the branches in order, an ELSE last."""

    at: int
    selector: Term | None
    cases: list[Case]


@dataclass
class Repeat:
    """A loop. `form` is FOR, WHILE or REPEAT. A FOR has its control variable, its bounds and its step; a WHILE or REPEAT its condition. `bound` is the
    number of turns that a remark gives."""

    form: str
    at: int
    body: list["Act"]
    control: Term | None = None
    bounds: list[Term] = field(default_factory=list)
    condition: Term | None = None
    bound: int | None = None


Act = Assign | Invoke | Leave | Choose | Repeat


@dataclass
class Unit:
    """A PROGRAM, FUNCTION or FUNCTION_BLOCK: its kind, its declarations in order, its statements, and the type that a function has."""

    kind: str
    name: str
    at: int
    declared: list[Declared]
    body: list[Act]
    result: TypeText | None = None


@dataclass
class NamedType:
    """A type with a name, and its initial value."""

    name: str
    at: int
    type: TypeText
    initial: Initial | None


@dataclass
class File:
    """All that a file has, in order."""

    types: list[NamedType]
    globals: list[Declared]
    units: list[Unit]


def acts(body: list[Act]) -> Iterator[Act]:
    """All statements, each before those of its bodies."""
    for act in body:
        yield act
        if isinstance(act, Choose):
            for case in act.cases:
                yield from acts(case.body)
        elif isinstance(act, Repeat):
            yield from acts(act.body)


class NotTaken(Exception):
    """What a text has that a tool doesn't take: the byte `at` which it begins, and what is said of it."""

    def __init__(self, at: int, message: str) -> None:
        super().__init__(message)
        self.at = at
        self.message = message
