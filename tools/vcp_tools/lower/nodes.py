"""Types and variables of the original, and the variables of the profile that stand for them."""
from __future__ import annotations

from dataclasses import dataclass, field
from typing import Iterator, Union

from vcp_tools.lower.code import Code, name_code, number_code, truth_code
from vcp_tools.read.wider_tree import Initial, TypeText, Unit


@dataclass(frozen=True)
class Scalar:
    """A type of single values: its elementary type, the type that holds it in the profile, and its range, which may be narrower."""

    base: str
    stored: str
    low: int
    high: int
    first: int = 0


@dataclass(frozen=True)
class ArrayType:
    """An array: its ranges of indices, and the type of an element."""

    ranges: tuple[tuple[int, int], ...]
    element: "Type"


@dataclass(frozen=True)
class FieldType:
    """A field of a structure, or a variable of a function block: its section, its type and its initial value."""

    name: str
    at: int
    section: str
    type: "Type"
    initial: Initial | None


@dataclass(frozen=True)
class Fields:
    """A structure, or a function block: its fields, and of a block the unit or the name of the standard's."""

    name: str
    fields: tuple[FieldType, ...]
    unit: Unit | None = None
    standard: str = ""


Type = Union[Scalar, ArrayType, Fields]


@dataclass
class Leaf:
    """A variable of the profile: its name, its type, and its value where it is a constant."""

    type: Scalar
    name: str
    at: int
    constant: int | None = None

    @property
    def code(self) -> Code:
        """It as an expression."""
        if self.constant is None:
            return name_code(self.name, self.type.stored, self.type.base, self.type.low, self.type.high)
        fixed = truth_code(bool(self.constant)) if self.type.stored == "BOOL" else number_code(self.constant, "", self.type.stored)
        return Code(self.name, 9, self.type.stored, self.type.base, fixed.low, fixed.high, is_fixed=True)


@dataclass
class Elements:
    """An array of variables."""

    type: ArrayType
    nodes: dict[tuple[int, ...], "Node"] = field(default_factory=dict)


@dataclass
class Group:
    """A structure or an instance: its variables by their names in capitals."""

    type: Fields
    nodes: dict[str, "Node"] = field(default_factory=dict)


Node = Union[Leaf, Elements, Group]


def leaves(node: Node) -> Iterator[Leaf]:
    """All variables of a node, in order."""
    if isinstance(node, Leaf):
        yield node
    else:
        for inner in node.nodes.values():
            yield from leaves(inner)


@dataclass
class Symbol:
    """A value of an enumeration: its number, and the constant of the profile that stands for it."""

    name: str
    number: int
    constant: str
    at: int


@dataclass
class TypeName:
    """A named type, before it is looked at: its text, and its initial value."""

    text: TypeText
    initial: Initial | None
