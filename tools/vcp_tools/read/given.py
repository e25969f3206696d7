"""A source or an image that a tool is given: its graph, and its text where it is a source."""
from __future__ import annotations

from dataclasses import dataclass, replace
from functools import cached_property
from typing import Sequence

from vcp_tools.read.assigned import Assigned
from vcp_tools.read.image import MAGIC, Image, Operation, read_image
from vcp_tools.files import read_bytes
from vcp_tools.program import Program
from vcp_tools.program_text import ProgramText
from vcp_tools.read.source import Source
from vcp_tools.refusal import Refusal


@dataclass(frozen=True)
class Given:
    """A file with its graph. `source` is None of an image."""

    file: str
    image: Image
    image_bytes: bytes
    source: Source | None

    @cached_property
    def assigned(self) -> Assigned | None:
        """What stands at each place of the source; None of an image."""
        return None if self.source is None else Assigned(self.source)

    def told(self, operation: Operation) -> str:
        """An operation in words: its number, kind, name or value, and its place."""
        name = self.image.name_of(operation)
        if operation.kind == "CONST" and self.source is not None and operation.line:
            token = self.source.tokens[self.source.index_at(self.source.offset(operation.line, operation.column))]
            name += f" ({token.text})" if token.kind == "name" else ""
        turns = "".join(f" {turn}={value}" for turn, value in operation.turns)
        place = f" at {operation.place}{turns}" if operation.line else ""
        assigned = self.assigned.of(operation) if self.assigned is not None else ""
        place += f" {assigned}" if assigned else ""
        return f"operation {operation.number}, {operation.kind}{' ' + name if name else ''}{place}"

    def told_with(self, operation: Operation, reader: Operation) -> tuple[str, str]:
        """An operation in words, by one that reads it; and that one's line."""
        name = self.image.name_of(operation)
        read = f"{operation.kind} {name}" if name else self.told(operation)
        return f"{self.told(reader)}, which reads {read}", self.line_of(reader)

    def line_of(self, operation: Operation) -> str:
        """The line of the source at an operation's place; empty where there is none."""
        if self.source is None or not operation.line:
            return ""
        return self.source.line(operation.line).decode("utf-8", "replace").strip()


def source_of(program: Program, file: str, image: Image, as_list: bool = False) -> Source:
    """The source of an image; a refusal where another image is made of this file. Seed, step and code are left aside."""
    given = ProgramText.read(file, as_list)
    made = read_image(given.image(program), file)
    if [replace(it, correction=0) for it in made.operations] != [replace(it, correction=0) for it in image.operations]:
        raise Refusal(f"{file} isn't the source of this image: other operations are made of it")
    return given.source


def load(program: Program, file: str, code: Sequence[str] = (), as_list: bool = False) -> Given:
    """The graph of an image, or of a source, of which an image is made, with the words of seed and step; a refusal where the file is neither."""
    data = read_bytes(file)
    if data.startswith(MAGIC):
        program.must("list", file)
        return Given(file, read_image(data, file), data, None)
    given = ProgramText.read(file, as_list)
    made = given.image(program, code)
    return Given(file, read_image(made, file), made, given.source)
