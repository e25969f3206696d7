"""`diff`: whether two programs or images have the same operations, and else where they part.

Two operations are the same where they have the same kind and types, the same name or value, and the same operands, which are compared so in turn. Numbers,
places, signatures and corrections are left aside. A LOAD stands for its cell: cells with one name are one, and of those that are left the first with the first.
"""
from __future__ import annotations

import argparse
from dataclasses import dataclass
from typing import Hashable, Iterator

from vcp_tools.wording import article
from vcp_tools.read.image import Cell, Image, Operation, Slot
from vcp_tools.read.range_lines import ranges_of
from vcp_tools.program import Program, find_program
from vcp_tools.program_text import add_form_word
from vcp_tools.read.given import Given, load
from vcp_tools.refusal import FINE, FOUND

MAY_STOP = frozenset(("ADD", "SUB", "MUL", "DIV", "MOD", "NEG", "CONV"))
"""The kinds whose value may be outside its type, or which divide by 0."""
MOST = 20
"""So many differences are told at most."""


def add_words(parser: argparse.ArgumentParser) -> None:
    """The words of `diff`."""
    parser.add_argument("first", metavar="A", help="a source, an instruction list or an image")
    parser.add_argument("second", metavar="B", help="a source, an instruction list or an image")
    add_form_word(parser)


def run(given: argparse.Namespace) -> int:
    """Prints whether both have the same operations; the status is 9 where they haven't."""
    program = Program.found()
    comparison = Comparison(*(load(program, file, (), given.as_list) for file in (given.first, given.second)))
    differences = list(comparison.differences())
    for note in comparison.notes():
        print(note)
    if not differences:
        print(comparison.verdict())
        return FINE
    print(f"A has {len(comparison.a.image.operations)} operations and B {len(comparison.b.image.operations)}: not the same ones")
    for difference in differences[:MOST]:
        print(difference)
    if len(differences) > MOST:
        print(f"and {len(differences) - MOST} more differences")
    if ranges_told(comparison):
        print(ranges_told(comparison))
    return FOUND


class Trees:
    """Numbers for operations: two operations of any graphs have one number exactly where they are the same."""

    def __init__(self) -> None:
        self.numbers: dict[Hashable, int] = {}

    def of(self, image: Image, cell_names: dict[str, str]) -> list[int]:
        """The number of each operation of a graph; `cell_names` has the name by which a cell is known, by its own."""
        found: list[int] = []
        for operation in image.operations:
            own: Hashable = operation.own if operation.kind == "CONST" else None
            if operation.kind == "INPUT":
                own = image.name_of(operation).upper()
            elif operation.kind == "LOAD":
                own = cell_names[image.name_of(operation)]
            key = (operation.kind, operation.operand_type, operation.type, own, *(found[it] for it in operation.operands))
            found.append(self.numbers.setdefault(key, len(self.numbers)))
        return found


@dataclass(frozen=True)
class Pair:
    """A cell of A and the one of B that stands for it."""

    a: Cell
    b: Cell


@dataclass(frozen=True)
class Parting:
    """The operations at which two graphs part, of A and of B, and those that read them there."""

    a: Operation
    b: Operation
    reader_a: Operation
    reader_b: Operation


class Comparison:
    """Two graphs side by side."""

    def __init__(self, a: Given, b: Given) -> None:
        self.a, self.b = a, b
        self.pairs, self.alone = _paired(a.image.cells, b.image.cells)
        trees = Trees()
        names_a = {cell.name: cell.name.upper() for cell in a.image.cells}
        names_b = {cell.name: cell.name.upper() for cell in b.image.cells} | {pair.b.name: pair.a.name.upper() for pair in self.pairs}
        self.parted: tuple[set[int], set[int]] = (set(), set())
        self.trees_a = trees.of(a.image, names_a)
        self.trees_b = trees.of(b.image, names_b)
        self.known_a, self.known_b = frozenset(self.trees_a), frozenset(self.trees_b)

    def notes(self) -> Iterator[str]:
        """What differs and is no operation: the code, and names of cells."""
        first, second = self.a.image, self.b.image
        if (first.seed, first.step) != (second.seed, second.step):
            yield f"seed and step are {first.seed} and {first.step} in A, {second.seed} and {second.step} in B, which changes the code and no operation"
        for pair in self.pairs:
            if pair.a.name.upper() != pair.b.name.upper():
                yield f"the cell {pair.a.name} of A is taken for {pair.b.name} of B"

    def verdict(self) -> str:
        """What is said of two graphs without a difference."""
        count = len(self.a.image.operations)
        if self.trees_a == self.trees_b:
            return f"the same {count} operations in the same order"
        return f"the same {count} operations in another order: the same values, and the same stops, but where two stop in one cycle the other may be reported"

    def differences(self) -> Iterator[str]:
        """All differences, in words."""
        if self.a.image.version != self.b.image.version:
            codes = {1: "narrow", 2: "wide"}
            yield f"A is in the {codes[self.a.image.version]} code and B in the {codes[self.b.image.version]} one"
        yield from _slots("input", self.a.image.inputs, self.b.image.inputs)
        yield from _slots("output", self.a.image.outputs, self.b.image.outputs)
        yield from self._cells()
        yield from self._ends()
        yield from self._stops()

    def _cells(self) -> Iterator[str]:
        for side, cell in self.alone:
            yield f"only {side} keeps {cell.name} : {cell.type} from cycle to cycle"
        for pair in self.pairs:
            if (pair.a.type, pair.a.initial) != (pair.b.type, pair.b.initial):
                yield f"{pair.a.name} begins with {pair.a.initial} as {article(pair.a.type)} in A, and with {pair.b.initial} as {article(pair.b.type)} in B"

    def _ends(self) -> Iterator[str]:
        """Outputs and kept values that are computed in another way, those together that part at one place."""
        by_name = {slot.name.upper(): slot for slot in self.b.image.outputs}
        ends = [(f"output {slot.name}", slot.operation, by_name[slot.name.upper()].operation) for slot in self.a.image.outputs if slot.name.upper() in by_name]
        ends += [(f"kept value {pair.a.name}", pair.a.store, pair.b.store) for pair in self.pairs]
        parts: dict[str, list[str]] = {}
        for what, first, second in ends:
            parting = self._parting(first, second)
            if parting is not None:
                self.parted[0].add(parting.a.number)
                self.parted[1].add(parting.b.number)
                parts.setdefault(self._parting_told(parting), []).append(what)
        for told, names in parts.items():
            yield f"{', '.join(names)}: {told}"

    def _parting_told(self, parting: Parting) -> str:
        """Where the sides part, with the line of each."""
        is_exchanged = self._is_exchanged(parting.a, parting.b)
        by_readers = not is_exchanged and self._is_told_by_readers(parting)
        (in_a, line_a), (in_b, line_b) = (
            given.told_with(it, reader) if by_readers else (given.told(it), given.line_of(it))
            for given, it, reader in ((self.a, parting.a, parting.reader_a), (self.b, parting.b, parting.reader_b)))
        exchanged = ", the same operands in another order" if is_exchanged else ""
        lines = [f"in A {in_a}; in B {in_b}{exchanged}"]
        return "\n".join([*lines, *(f"    {side}: {line}" for side, line in (("A", line_a), ("B", line_b)) if line)])

    def _parting(self, first: int, second: int) -> Parting | None:
        """Where the operations behind an OUT or STORE part, if they do: the first place on the way from the end to the inputs, but where both sides know
        what the other one has there, the place at which another one of these is read."""
        reader_a, reader_b = self.a.image.operations[first], self.b.image.operations[second]
        a, b = (given.image.operations[it.operands[0]] for given, it in ((self.a, reader_a), (self.b, reader_b)))
        if self.trees_a[a.number] == self.trees_b[b.number]:
            return None
        while self._same_head(a, b) and not self._is_exchanged(a, b) and not self._both_know(a, b):
            if self._is_elsewhere(Parting(a, b, reader_a, reader_b)):
                break
            reader_a, reader_b = a, b
            x, y = next((x, y) for x, y in zip(a.operands, b.operands) if self.trees_a[x] != self.trees_b[y])
            a, b = self.a.image.operations[x], self.b.image.operations[y]
        return Parting(a, b, reader_a, reader_b)

    def _both_know(self, one: Operation, other: Operation) -> bool:
        """Whether each side has the other one's operation, too, so that neither is new."""
        return self.trees_a[one.number] in self.known_b and self.trees_b[other.number] in self.known_a

    def _is_elsewhere(self, parting: Parting) -> bool:
        """Whether one of both is an operation that the other side has, too, and that stands in another line than what reads it here. Of what an OUT or STORE
        reads, whose place is the declaration, that says nothing."""
        a, b = self.trees_a[parting.a.number] in self.known_b, self.trees_b[parting.b.number] in self.known_a
        is_in_a, is_in_b = (it.line != reader.line for it, reader in ((parting.a, parting.reader_a), (parting.b, parting.reader_b)))
        return _has_place(parting.reader_a) and _has_place(parting.reader_b) and (a and is_in_a or b and is_in_b)

    def _is_told_by_readers(self, parting: Parting) -> bool:
        """Whether what parts is told where it is read: where neither is new, or one stands elsewhere, as a constant does that is read for the first time."""
        pairs = (parting.a, parting.reader_a), (parting.b, parting.reader_b)
        if not all(_has_place(reader) for _, reader in pairs):
            return False
        is_constant = any(it.kind == "CONST" and it.line != reader.line for it, reader in pairs)
        return is_constant or self._both_know(parting.a, parting.b) or self._is_elsewhere(parting)

    def _is_exchanged(self, one: Operation, other: Operation) -> bool:
        """Whether two operations of one kind have the same operands in another order."""
        first, second = [self.trees_a[it] for it in one.operands], [self.trees_b[it] for it in other.operands]
        return one.kind == other.kind and first != second and sorted(first) == sorted(second)

    def _same_head(self, one: Operation, other: Operation) -> bool:
        """Whether two different operations have the same kind and types, and operands, of which then one differs."""
        if not one.operands or (one.kind, one.operand_type, one.type) != (other.kind, other.operand_type, other.type):
            return False
        return any(self.trees_a[x] != self.trees_b[y] for x, y in zip(one.operands, other.operands))

    def stops_alone(self) -> tuple[list[Operation], list[Operation]]:
        """The operations of each side that may stop by their kind, and that the other side doesn't have."""
        found: list[list[Operation]] = []
        for given, trees, known in ((self.a, self.trees_a, self.known_b), (self.b, self.trees_b, self.known_a)):
            found.append([it for it in given.image.operations if it.kind in MAY_STOP and trees[it.number] not in known])
        return found[0], found[1]

    def _stops(self) -> Iterator[str]:
        """Operations of one side that may stop, and that rest on no place at which both sides part: those are told there."""
        for side, given, alone, parted in zip("AB", (self.a, self.b), self.stops_alone(), self.parted):
            told = _resting_on(given.image, parted)
            first = [it for it in alone if it.number not in told and not any(given.image.operations[x] in alone for x in it.operands)]
            if first:
                more = f", and {len(first) - 1} more" if len(first) > 1 else ""
                yield f"only {side} may stop at {given.told(first[0])}{more}"


def _has_place(reader: Operation) -> bool:
    """Whether an operation stands where its operands are read: an OUT or STORE stands at the declaration."""
    return bool(reader.line) and reader.kind not in ("OUT", "STORE")


def _resting_on(image: Image, operations: set[int]) -> set[int]:
    """These operations and all that rest on them within one cycle."""
    found = set(operations)
    for it in image.operations:
        if found & set(it.operands):
            found.add(it.number)
    return found


def ranges_told(comparison: Comparison) -> str:
    """What `vcp_study ranges` says of both sides, where one has an operation that may stop by its kind and that the other hasn't; else empty."""
    if not any(comparison.stops_alone()):
        return ""
    if find_program("vcp_study") is None:
        return "whether these can stop with any rows `vcp_study ranges` says, which isn't built"
    said = [ranges_of(it.image_bytes).ending for it in (comparison.a, comparison.b)]
    return f"ranges, whatever the rows: A {said[0]}, B {said[1]}"


def _slots(what: str, first: list[Slot], second: list[Slot]) -> Iterator[str]:
    """Inputs or outputs that aren't the same names and types in the same order."""
    one = [(slot.name.upper(), slot.type) for slot in first]
    other = [(slot.name.upper(), slot.type) for slot in second]
    for slot in first:
        if (slot.name.upper(), slot.type) not in other:
            yield f"only A has the {what} {slot.name} : {slot.type}"
    for slot in second:
        if (slot.name.upper(), slot.type) not in one:
            yield f"only B has the {what} {slot.name} : {slot.type}"
    if sorted(one) == sorted(other) and one != other:
        yield f"the {what}s are in another order"


def _paired(first: list[Cell], second: list[Cell]) -> tuple[list[Pair], list[tuple[str, Cell]]]:
    """Which cell of B stands for which one of A, and the cells of each side that are left."""
    by_name = {cell.name.upper(): cell for cell in second}
    pairs = [Pair(cell, by_name[cell.name.upper()]) for cell in first if cell.name.upper() in by_name]
    taken_a = {pair.a.name for pair in pairs}
    taken_b = {pair.b.name for pair in pairs}
    left_a = [cell for cell in first if cell.name not in taken_a]
    left_b = [cell for cell in second if cell.name not in taken_b]
    if [(cell.type, cell.initial) for cell in left_a] == [(cell.type, cell.initial) for cell in left_b]:
        return pairs + [Pair(a, b) for a, b in zip(left_a, left_b)], []
    return pairs, [("A", cell) for cell in left_a] + [("B", cell) for cell in left_b]
