"""Rows files, after docs/FORMATS.md, 'The rows file': records with the lines in which they stand, read as a stream."""
from __future__ import annotations

import io
import re
from typing import Iterator, NamedTuple

from vcp_tools.read.source import GREATEST, LEAST

_NUMBER = re.compile(r"[+-]?[0-9]+\Z")
_FIELD = re.compile(r'"((?:[^"]|"")*)(?P<closing>"?)([^,]*)|([^,]*)')


class Record(NamedTuple):
    """A record of a rows file: its number from 1, the header's; the line in which it begins; its fields as they stand."""

    number: int
    line: int
    fields: tuple[str, ...]

    @property
    def cells(self) -> list[str]:
        """The fields without spaces and tabs at their ends."""
        return [field.strip(" \t") for field in self.fields]


def stream_rows(data: bytes) -> Iterator[Record | int]:
    """The records of a file in order, and of each empty line, which a reader skips, its number: fields stand between commas, in double quotes where they
    begin with one. CR, LF and CR LF end a line."""
    lines = enumerate(io.TextIOWrapper(io.BytesIO(data), "utf-8-sig", "replace", newline=None), 1)
    number = 0
    for at, line in lines:
        text = line.rstrip("\n")
        if not text:
            yield at
            continue
        number += 1
        yield Record(number, at, tuple(text.split(",")) if '"' not in text else _quoted(text, line, lines))


def _quoted(text: str, line: str, lines: Iterator[tuple[int, str]]) -> tuple[str, ...]:
    """The fields of a record that has quotes, in which it may go on over more lines."""
    while True:
        fields, is_closed = _fields(text)
        if is_closed:
            return fields
        more = [line[len(line.rstrip("\n")):]]
        for _, line in lines:
            more.append(line)
            if '"' in line:
                break
        else:
            return _fields(text + "".join(more))[0]
        text = (text + "".join(more)).rstrip("\n")


def _fields(text: str) -> tuple[tuple[str, ...], bool]:
    """The fields of a record, and whether the last quote is closed."""
    fields: list[str] = []
    at = 0
    while True:
        match = _FIELD.match(text, at)
        assert match is not None
        quoted = match[1] is not None
        fields.append(match[1].replace('""', '"') + match[3] if quoted else match[4])
        at = match.end() + 1
        if at > len(text):
            return tuple(fields), not quoted or bool(match["closing"])


def read_rows(data: bytes) -> list[Record]:
    """All records of a file."""
    return [it for it in stream_rows(data) if isinstance(it, Record)]


def record_of(data: bytes, number: int) -> Record | None:
    """The record of this number, the header's 1; None where there are fewer."""
    return next((it for it in stream_rows(data) if isinstance(it, Record) and it.number == number), None)


def line_of(data: bytes, number: int) -> bytes:
    """A line of a file by its number, without its end; CR, LF and CR LF end one."""
    return next((match[1] for at, match in enumerate(re.finditer(rb"([^\r\n]*)(?:\r\n|\r|\n|\Z)", data), 1) if at == number), b"")


def cell_value(cell: str, type_name: str) -> int | None:
    """The value that a cell spells in a type; None where it spells none."""
    if type_name == "BOOL":
        return {"0": 0, "1": 1, "FALSE": 0, "TRUE": 1}.get(cell.upper())
    if not _NUMBER.match(cell) or len(cell.lstrip("+-0")) > len(str(GREATEST["LINT"])):
        return None
    value = int(cell)
    return value if LEAST[type_name] <= value <= GREATEST[type_name] else None
