"""A run with its inputs, its outputs and its variables, cycle by cycle.

The outputs are those of `run`, or of `il` where the text is an instruction list. A variable is seen by a run of the same text in which each VAR is a
VAR_OUTPUT: the meaning of a program is the same for both, and the second run has to release the same outputs and come to the same end. An image shows a
variable only where it has a cell, and so `trace` can't show each; what it shows is compared, where that is wanted.
"""
from __future__ import annotations

import tempfile
from array import array
from dataclasses import dataclass, field, replace
from itertools import islice
from pathlib import Path
from typing import Mapping, Sequence

from vcp_tools.wording import listed, nearest
from vcp_tools.explain.hints_rows import silent_faults
from vcp_tools.read.image import Image, read_image
from vcp_tools.files import read_bytes, write_bytes
from vcp_tools.pictures.runs import side_by_side
from vcp_tools.program import Outcome, Program
from vcp_tools.program_text import ProgramText
from vcp_tools.refusal import Refusal
from vcp_tools.read.rows_file import Record, cell_value, stream_rows
from vcp_tools.read.origin import Origin
from vcp_tools.read.run_lines import PrintedRun, read_run, read_trace
from vcp_tools.read.source import Source
from vcp_tools.read.declarations import head_of_program
from vcp_tools.read.syntax import Declaration

MOST_WARNED = 3
"""So many things that `vcp` accepts without warning are reported at most."""
MOST_KNOWN = 100_000
"""So many different cells of a column are kept with their values, to be known again."""
MOST_TRACED = 5000
"""So many cycles are traced at most: the work grows by the square of them."""


@dataclass(frozen=True)
class Column:
    """A name that is seen: its declaration, and its value in each cycle."""

    declaration: Declaration
    values: Sequence[int]

    @property
    def name(self) -> str:
        """The name as declared."""
        return self.declaration.name

    @property
    def group(self) -> str:
        """`inputs`, `outputs` or `variables`."""
        return {"VAR_INPUT": "inputs", "VAR_OUTPUT": "outputs"}.get(self.declaration.section, "variables")


@dataclass(frozen=True)
class Observation:
    """A run: the program's name, its columns, how many cycles were released, the last line of `run`, and what it and the calls beside it gave."""

    name: str
    columns: list[Column]
    cycles: int
    ending: str
    is_whole: bool
    outcomes: dict[str, Outcome] = field(default_factory=dict)


def observe(
    program: Program, text: ProgramText, rows: Sequence[str], traced: bool = False, also: Mapping[str, Sequence[str]] | None = None, code: Sequence[str] = ()
) -> Observation:
    """The run of a text on rows, which are a file or `--cycles` and a number; all inputs, outputs and variables, as declared. `also` has more calls that
    are made beside it, each with a name; `code` the words of seed and step."""
    with tempfile.TemporaryDirectory() as folder:
        at = Path(folder) / "opened.st"
        write_bytes(at, opened(text.source))
        of_opened = text.copied(at, opened(text.source)).run_words(rows)
        calls: dict[str, Sequence[str]] = {"run": text.run_words(rows, code), "run with variables": of_opened, **(also or {})}
        outcomes = side_by_side(program, calls, rows)
        run = read_run(program.taken(outcomes["run"], calls["run"], (0, 2, 3)).text)
        seen = outcomes.pop("run with variables")
        if seen.status not in (0, 2, 3):
            raise Refusal(f"the run with each VAR as a VAR_OUTPUT, by which variables are seen, isn't made: {_without_file(seen.fault, at)}")
    name, declarations = head_of_program(text.source, text.file)
    shown = _same_run(run, read_run(seen.text))
    inputs = _inputs(declarations, rows, run.cycles)
    columns = []
    for declaration in declarations:
        if declaration.section == "VAR_INPUT":
            columns.append(Column(declaration, inputs[declaration.name.upper()]))
        elif declaration.section != "VAR CONSTANT":
            columns.append(Column(declaration, shown.columns[shown.names.index(declaration.name)]))
    found = Observation(name, columns, run.cycles, run.ending, run.is_whole, outcomes)
    if traced:
        _compare_with_trace(program, text, rows, found, code)
    return found


def opened(source: Source) -> bytes:
    """The text with VAR_OUTPUT in the place of each VAR that isn't CONSTANT."""
    data = bytearray(source.data)
    for index in range(len(source.tokens) - 2, -1, -1):
        token, behind = source.tokens[index], source.tokens[index + 1]
        if token.is_word("VAR") and not behind.is_word("CONSTANT"):
            data[token.start : behind.end if behind.is_word("RETAIN") else token.end] = b"VAR_OUTPUT"
    return bytes(data)


def of_origin(found: Observation, program: str, original: str | None) -> Observation:
    """The run with the names of the text from which a program was written, where that is given."""
    if original is None:
        return found
    origin = Origin(program, original)
    return replace(found, columns=[Column(replace(it.declaration, name=origin.name(it.name)), it.values) for it in found.columns])


def _same_run(run: PrintedRun, found: PrintedRun) -> PrintedRun:
    """The run of the opened text; a refusal where it isn't the same run."""
    same = all(found.columns[found.names.index(name)] == column for name, column in zip(run.names, run.columns)) and found.cycles == run.cycles
    if not same or found.ending.split(" ")[:2] != run.ending.split(" ")[:2]:
        raise Refusal(f"the run with all variables as outputs isn't the same run: `{found.ending}`, and not `{run.ending}`")
    return found


def _without_file(fault: str, file: Path) -> str:
    """A line of error without the name of a file that is gone."""
    return fault.replace(f"{file}:", "").replace(str(file), "").strip()


def _inputs(declarations: Sequence[Declaration], rows: Sequence[str], cycles: int) -> dict[str, Sequence[int]]:
    """The values of each input, by its name in capitals, for so many cycles."""
    if rows[0] == "--cycles":
        return {}
    records = islice((it for it in stream_rows(read_bytes(rows[0])) if isinstance(it, Record)), cycles + 1)
    header = next(records, None)
    wanted = {it.name.upper(): it.type for it in declarations if it.section == "VAR_INPUT"}
    names = [cell.upper() for cell in header.cells] if header else []
    columns = [(array("q"), wanted[name], dict[str, int]()) for name in names]
    for record in records:
        for cell, (values, type_name, known) in zip(record.fields, columns):
            value = known.get(cell)
            if value is None:
                value = cell_value(cell.strip(" \t"), type_name) or 0
                if len(known) < MOST_KNOWN:
                    known[cell] = value
            values.append(value)
    return {name: values for name, (values, _, _) in zip(names, columns)}


def _compare_with_trace(program: Program, text: ProgramText, rows: Sequence[str], found: Observation, code: Sequence[str]) -> None:
    """Refuses where a value that the image has an operation for is another one in `trace`, or a residue isn't the expected one."""
    if found.cycles > MOST_TRACED:
        raise Refusal(f"--trace: {found.cycles} cycles are more than {MOST_TRACED}: take fewer rows")
    with tempfile.TemporaryDirectory() as folder:
        at = Path(folder) / "image"
        made = text.image(program, code)
        write_bytes(at, made)
        seen = _seen(read_image(made, str(at)))
        columns = {column.name: column.values for column in found.columns}
        for cycle in range(found.cycles):
            words, _ = read_trace(program.must("trace", at, *rows, str(cycle)).text)
            for word in words:
                name = seen.get(word.operation, "")
                if word.residue != word.expected:
                    raise Refusal(f"trace: cycle {cycle}, operation {word.operation}: the residue is {word.residue} and not {word.expected}")
                if name in columns and columns[name][cycle] != word.value:
                    raise Refusal(f"trace: cycle {cycle}: `{name}` is {word.value}, and {columns[name][cycle]} in the run")


def _seen(image: Image) -> dict[int, str]:
    """The name of each INPUT, STORE and OUT."""
    return {it.number: image.name_of(it) for it in image.operations if it.kind in ("INPUT", "STORE", "OUT")}


def chosen(found: Observation, names: Sequence[str]) -> list[Column]:
    """The columns with these names, in this order; all inputs and outputs where no name is given."""
    if not names:
        return [column for column in found.columns if column.group != "variables"]
    by_name = {column.name.upper(): column for column in found.columns}
    picked = []
    for name in names:
        column = by_name.get(name.upper())
        if column is None:
            near = nearest(name, [it.name for it in found.columns])
            guess = f": did you mean `{near}`?" if near else f": there are {listed(it.name for it in found.columns)}"
            raise Refusal(f"`{name}` is no input, output or variable" + guess)
        picked.append(column)
    return picked


def rows_words(rest: Sequence[str], cycles: int | None) -> tuple[list[str], list[str]]:
    """The words that stand for ROWS in a call, and what is left: ROWS is the first word, or none where `--cycles` is given."""
    if cycles is not None:
        return ["--cycles", str(cycles)], list(rest)
    if not rest:
        raise Refusal("ROWS is missing: a rows file, or `--cycles N` for a program without inputs")
    return [rest[0]], list(rest[1:])


def warnings(rows: Sequence[str]) -> list[str]:
    """Input of the rows file that `vcp` accepts without warning, a line each."""
    if rows[0] == "--cycles":
        return []
    return [f"{rows[0]}:{hint.line}: {hint.message}" for hint in silent_faults(read_bytes(rows[0]), MOST_WARNED)]
