"""What is said of a rejected rows file (R1 to R5, L4), and of input that `vcp` accepts without warning."""
from __future__ import annotations

import re
from dataclasses import dataclass
from itertools import islice
from typing import Callable, Iterator

from vcp_tools.wording import article, listed, nearest
from vcp_tools.read.rows_file import Record, cell_value, record_of, stream_rows
from vcp_tools.read.source import GREATEST, LEAST
from vcp_tools.read.syntax import Declaration

MOST_RECORDS = 1_000_000
"""So many records a rows file may have behind its header."""
PROGRESS = 250_000
"""Behind so many records of a large file it is said how far reading has come."""
MOST_KEPT = 100_000
"""So many different records without a fault are kept at most, to be known again."""
_SEPARATORS = {";": "semicolons", "\t": "tabs", "|": "bars"}


@dataclass(frozen=True)
class RowsHint:
    """A message about a line of a rows file and the bytes `start` to `end` of it, both 0 where it speaks of the whole line."""

    message: str
    line: int
    start: int = 0
    end: int = 0


def encoding_of(data: bytes) -> str | None:
    """The encoding that a file has in place of UTF-8, where it can be told."""
    if data[:2] in (b"\xff\xfe", b"\xfe\xff") or (data[:64].count(0) > 2):
        return "UTF-16"
    return None


def header_hint(data: bytes, inputs: list[Declaration]) -> RowsHint:
    """R1: which names are missing, left over or misspelt, or why no name is read at all."""
    if encoding_of(data):
        return RowsHint("the file is in UTF-16: save it in UTF-8 (or ASCII), as `CSV UTF-8` of a spreadsheet", 1)
    header = record_of(data, 1)
    names = [it.name for it in inputs]
    first = f"its first line is to be `{','.join(names)}`" if names else "its first line is to be the name of each input, between commas"
    if header is None:
        return RowsHint(f"the file has no record: {first}", 1)
    shown = header.line
    if header.cells[0].startswith(("#", "//", "(*")):
        return RowsHint(f"the file begins with a remark, and rows have none: {first}", shown)
    for mark, word in _SEPARATORS.items():
        if len(header.cells) == 1 and mark in header.fields[0]:
            return RowsHint(f"the fields are between {word}, and commas are wanted: {first}", shown)
    return _names_hint(header, names) if names else RowsHint(f"the header isn't each input once: {first}", shown)


def _names_hint(header: Record, names: list[str]) -> RowsHint:
    """Which names of a header aren't the inputs'."""
    wanted = {name.upper(): name for name in names}
    given = [cell.upper() for cell in header.cells]
    missing = [name for capitals, name in wanted.items() if capitals not in given]
    twice = [cell for index, cell in enumerate(header.cells) if cell.upper() in given[:index]]
    extra = [cell for cell in header.cells if cell.upper() not in wanted]
    if not set(given) & set(wanted) and all(re.match(r"[+-]?[0-9]+\Z|TRUE\Z|FALSE\Z", cell) for cell in given):
        return RowsHint(f"the header is missing: the first line is to be `{','.join(names)}`", header.line)
    said = []
    for cell in list(extra):
        near = nearest(cell, missing)
        if near:
            said.append(f"`{cell}` is misspelt: the input is `{near}`")
            extra.remove(cell)
            missing.remove(near)
    if missing:
        said.append(f"missing: {listed(missing)}")
    if extra:
        blank = " (a comma too many?)" if "" in extra else ""
        said.append(f"no input of the program: {listed(cell or 'a blank name' for cell in extra)}{blank}")
    if twice:
        said.append(f"twice: {listed(twice)}")
    return RowsHint("the header isn't each input once: " + "; ".join(said or ["the names differ"]), header.line)


def width_hint(header: Record, record: Record) -> RowsHint:
    """R2: a record with too few or too many fields, with the line in which it stands."""
    here = f"record {record.number} is in line {record.line} and has {len(record.fields)} fields, and the header {len(header.fields)}"
    if record.cells[-1] == "" and len(record.cells) == len(header.fields) + 1:
        return RowsHint(f"a comma too many at the line's end: {here}", record.line)
    for mark, word in _SEPARATORS.items():
        if len(record.fields) == 1 and mark in record.fields[0]:
            return RowsHint(f"the fields are between {word}, and commas are wanted: {here}", record.line)
    digits = sum(cell.isdigit() for cell in record.cells)
    if len(record.fields) > len(header.fields) and digits > 1:
        return RowsHint(f"a decimal comma, or a field too many: {here}; numbers are whole", record.line)
    if len(record.fields) < len(header.fields):
        first = header.cells[len(record.fields)]
        return RowsHint(f"fields are missing, from `{first}` on: {here}", record.line)
    return RowsHint(f"a field too many: {here}", record.line)


def cell_hint(header: Record, record: Record, column: int, inputs: list[Declaration]) -> RowsHint:
    """R3: a cell that is no value of its input."""
    name = header.cells[column - 1] if column <= len(header.cells) else f"column {column}"
    cell = record.cells[column - 1] if column <= len(record.cells) else ""
    declaration = next((it for it in inputs if it.name.upper() == name.upper()), None)
    type_name = declaration.type if declaration else None
    start = sum(len(field.encode()) + 1 for field in record.fields[: column - 1])
    where = f"record {record.number}, line {record.line}, column {column}"
    message = f"`{cell}` is no value of `{name}` ({where}): {_cell_reason(cell, type_name)}"
    return RowsHint(message, record.line, start, start + max(1, len(record.fields[column - 1].encode())))


def _cell_reason(cell: str, type_name: str | None) -> str:
    """Why a cell is no value of a type, or of one that isn't known."""
    if type_name is None:
        return "cells are whole decimal numbers in the type of the input, and of a BOOL also TRUE and FALSE"
    values = "0, 1, TRUE or FALSE" if type_name == "BOOL" else f"whole numbers from {LEAST[type_name]} to {GREATEST[type_name]}"
    wants = f"{article(type_name)} has {values}"
    if cell == "":
        return f"the cell is blank, and each cycle needs a value: {wants}"
    if re.match(r"[+-]?[0-9]*[.,][0-9]*\Z", cell):
        return f"fractions are none of its values: {wants}"
    if re.match(r"(16#|0x)[0-9A-F]+\Z", cell, re.I):
        return f"rows have decimal numbers alone, as {int(re.split('#|x', cell, flags=re.I)[1], 16)}: {wants}"
    if re.match(r"[+-]?[0-9]+\Z", cell):
        return f"it is out of range: {wants}"
    if cell.upper() in ("YES", "NO", "ON", "OFF", "T", "F", "X", "WAHR", "FALSCH"):
        return f"write 1 or 0: {wants}"
    return wants


def form_hint(has_rows: bool, inputs: list[Declaration]) -> str:
    """R4: a rows file where none is wanted, or none where one is."""
    if has_rows:
        return "the program has no inputs: give `--cycles N` in place of a rows file"
    return f"the program has inputs ({listed(it.name for it in inputs)}): give a rows file in place of `--cycles N`"


class Looked:
    """A rows file that is looked through: what is wrong with it, in the order of its lines, and how many records there were when all was told."""

    def __init__(self, data: bytes, inputs: list[Declaration] | None) -> None:
        self.data = data
        self.inputs = inputs
        self.header: Record | None = None
        self.last: Record | None = None
        self._types: list[str | None] = []
        self._good: set[tuple[str, ...]] = set()
        self._empty: list[int] = []

    @property
    def rows(self) -> int:
        """How many records were read behind the header."""
        return self.last.number - 1 if self.last else 0

    def faults(self, progress: Callable[[int], None] | None = None) -> Iterator[RowsHint]:
        """What the program refuses, and what it reads in silence, while the file is read; `progress` is told how many records were read."""
        if encoding_of(self.data):
            yield RowsHint("the file is in UTF-16: save it in UTF-8 (or ASCII)", 1)
            return
        beyond = 0
        for it in stream_rows(self.data):
            if isinstance(it, int):
                self._empty.append(it)
                continue
            yield from self._passed("in the midst" if self.header else "before the header")
            self.last = it
            yield from self._record(it) if self.header else self._head(it)
            beyond = it.line if it.number == MOST_RECORDS + 2 else beyond
            if progress and it.number % PROGRESS == 0:
                progress(it.number)
        yield from self._passed("at the end" if self.header else "before the header")
        if self.header is None:
            yield RowsHint("the file has no record", 1)
        elif self.rows == 0:
            yield RowsHint("there is no record behind the header: a run has no cycle", self.header.line)
        elif beyond:
            yield RowsHint(f"there are {self.rows} rows, and {MOST_RECORDS} are the most: run them in parts", beyond)

    def _passed(self, where: str) -> Iterator[RowsHint]:
        """The empty lines since the record before; of a single column one in the midst may be a blank cell."""
        alone = self.header is not None and len(self.header.fields) == 1 and where == "in the midst"
        for line in self._empty:
            if alone:
                yield RowsHint("the line is empty: a blank cell of the one column is skipped without a message, and all later rows move up a cycle", line)
            else:
                yield RowsHint(f"an empty line {where} is skipped without a message: records are no lines behind it", line)
        self._empty.clear()

    def _head(self, header: Record) -> Iterator[RowsHint]:
        """The names of a header."""
        self.header = header
        if self.inputs is None:
            return
        types = {it.name.upper(): it.type for it in self.inputs}
        self._types = [types.get(cell.upper()) for cell in header.cells]
        if sorted(cell.upper() for cell in header.cells) != sorted(types):
            yield header_hint(self.data, self.inputs)

    def _record(self, record: Record) -> Iterator[RowsHint]:
        """The width and the cells of a record."""
        assert self.header is not None
        if record.fields in self._good:
            return
        is_good = True
        if len(record.fields) != len(self.header.fields):
            is_good = False
            yield width_hint(self.header, record)
        for column, (cell, type_name) in enumerate(zip(record.cells, self._types), 1):
            if type_name and cell_value(cell, type_name) is None:
                is_good = False
                yield cell_hint(self.header, record, column, self.inputs or [])
        if is_good and len(self._good) < MOST_KEPT:
            self._good.add(record.fields)


def silent_faults(data: bytes, most: int) -> list[RowsHint]:
    """The first so many faults of a rows file whose inputs aren't known."""
    return list(islice(Looked(data, None).faults(), most))
