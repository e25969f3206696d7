"""Images, after docs/FORMATS.md, 'The image': the graph of a program as bytes."""
from __future__ import annotations

import struct
from dataclasses import dataclass

from vcp_tools.refusal import Refusal

MAGIC = b"VCPANBD\n"
TYPE_NAMES = ("BOOL", "INT", "DINT", "LINT")
KIND_NAMES = ("INPUT", "CONST", "LOAD", "STORE", "OUT", "CONV", "NEG", "NOT", "ADD", "SUB", "MUL", "DIV", "MOD", "EQ", "LT", "AND", "OR", "XOR", "SEL")
OPERANDS = {"INPUT": 0, "CONST": 0, "LOAD": 0, "STORE": 1, "OUT": 1, "CONV": 1, "NEG": 1, "NOT": 1, "SEL": 3}
"""The operations that a kind reads in its own cycle, where they aren't two. A LOAD reads the STORE of the cycle before."""

_OF_BOOL = ("NOT", "AND", "OR", "XOR")
_NUMBERS = ("INT", "DINT", "LINT")


@dataclass(frozen=True)
class Slot:
    """An input or output: its name, its type and its operation (an input's is its own number)."""

    name: str
    type: str
    operation: int


@dataclass(frozen=True)
class Cell:
    """A value that is kept from cycle to cycle: its name, type, initial value, LOAD and STORE."""

    name: str
    type: str
    initial: int
    load: int
    store: int


@dataclass(frozen=True)
class Operation:
    """An operation: its kind, the type of its operands and its own, the operations that it reads, its own number (of an input, an output or a
    cell, or the value of a CONST), its place, the turns round it, and its correction."""

    number: int
    kind: str
    operand_type: str
    type: str
    operands: tuple[int, ...]
    own: int
    line: int
    column: int
    turns: tuple[tuple[str, int], ...]
    correction: int

    def wanted(self, place: int) -> str:
        """The type that is wanted of an operand."""
        return "BOOL" if self.kind in _OF_BOOL or (self.kind == "SEL" and place == 0) else self.operand_type

    @property
    def place(self) -> str:
        """The place in the source; 0:0 is none."""
        return f"{self.line}:{self.column}"


@dataclass(frozen=True)
class Image:
    """A graph with its seed and step. `version` is 1 for the narrow code and 2 for the wide one."""

    version: int
    step: int
    seed: int
    inputs: list[Slot]
    outputs: list[Slot]
    cells: list[Cell]
    operations: list[Operation]

    def name_of(self, operation: Operation) -> str:
        """The name or value that an INPUT, LOAD, STORE, OUT or CONST has; empty for other kinds."""
        if operation.kind == "INPUT":
            return self.inputs[operation.own].name
        if operation.kind == "OUT":
            return self.outputs[operation.own].name
        if operation.kind in ("LOAD", "STORE"):
            return self.cells[operation.own].name
        return str(operation.own) if operation.kind == "CONST" else ""


def goes_into(given: str, wanted: str) -> bool:
    """Whether a value of a type is taken where another is wanted."""
    return given == wanted if "BOOL" in (given, wanted) else _NUMBERS.index(given) <= _NUMBERS.index(wanted)


class _Reader:
    """Takes big-endian fields one behind the other."""

    def __init__(self, data: bytes) -> None:
        self.data = data
        self.at = len(MAGIC)

    def take(self, form: str) -> tuple[int, ...]:
        """The fields of this form, as `struct` spells it."""
        found = struct.unpack_from(">" + form, self.data, self.at)
        self.at += struct.calcsize(">" + form)
        return found

    def text(self) -> str:
        """A name: its length and its bytes."""
        (length,) = self.take("I")
        self.at += length
        return self.data[self.at - length : self.at].decode("ascii")


def read_image(data: bytes, file: str) -> Image:
    """The image of these bytes; a refusal where they are none. Corrections aren't checked: the program does that."""
    if not data.startswith(MAGIC):
        raise Refusal(f"{file}: this is no image, as `vcp compile` writes it")
    try:
        return _read(_Reader(data))
    except (struct.error, IndexError, UnicodeDecodeError):
        raise Refusal(f"{file}: the image is damaged or cut off (`vcp_tools explain list {file}` says where)") from None


def _read(reader: _Reader) -> Image:
    version, step, seed, name_count, input_count, output_count, cell_count, turn_count, count = reader.take("HHIIIIIII")
    names = [reader.text() for _ in range(name_count)]
    inputs = []
    for number in range(input_count):
        name, type_code = reader.take("IB")
        inputs.append(Slot(names[name], TYPE_NAMES[type_code], number))
    outputs = []
    for _ in range(output_count):
        name, type_code, operation = reader.take("IBI")
        outputs.append(Slot(names[name], TYPE_NAMES[type_code], operation))
    cells = []
    for _ in range(cell_count):
        name, type_code, initial, load, store = reader.take("IBqII")
        cells.append(Cell(names[name], TYPE_NAMES[type_code], initial, load, store))
    turns: list[tuple[tuple[str, int], ...]] = [()]
    for _ in range(turn_count):
        parent, name, value = reader.take("IIq")
        turns.append(turns[parent] + ((names[name], value),))
    correction = "I" if version == 1 else "Q"
    operations = [_operation(number, reader.take("BBBIIIqIII" + correction), turns) for number in range(count)]
    return Image(version, step, seed, inputs, outputs, cells, operations)


def _operation(number: int, fields: tuple[int, ...], turns: list[tuple[tuple[str, int], ...]]) -> Operation:
    kind = KIND_NAMES[fields[0]]
    operands = fields[3 : 3 + OPERANDS.get(kind, 2)]
    return Operation(number, kind, TYPE_NAMES[fields[1]], TYPE_NAMES[fields[2]], operands, fields[6], fields[7], fields[8], turns[fields[9]], fields[10])
