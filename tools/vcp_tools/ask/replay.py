"""Rows that answer a question, written to a file and run by the proved program."""
from __future__ import annotations

from pathlib import Path
from typing import Sequence

from vcp_tools.ask.question import Subject
from vcp_tools.files import write_bytes
from vcp_tools.program import Program
from vcp_tools.read.run_lines import PrintedRun, read_run
from vcp_tools.refusal import Refusal


def rows_text(names: Sequence[str], rows: Sequence[Sequence[int]]) -> str:
    """A rows file: the names of the inputs, and a row of values a cycle."""
    return "".join(",".join(map(str, row)) + "\n" for row in [names, *rows])


class Replay:
    """A program with rows: a file of them, or so many cycles where it has no inputs."""

    def __init__(self, vcp: Program, subject: Subject, rows: Sequence[Sequence[int]], file: str) -> None:
        self.vcp = vcp
        self.subject = subject
        names = [it.name for it in subject.declarations if it.section == "VAR_INPUT"]
        self.words = [file] if names else ["--cycles", str(len(rows))]
        self.told = f"rows in {file}" if names else f"{len(rows)} cycles"
        if names:
            write_bytes(file, rows_text(names, rows).encode())

    def run(self) -> PrintedRun:
        """The run of the program itself."""
        return read_run(self.vcp.must(*self.subject.text.run_words(self.words), statuses=(0, 2, 3)).text)

    @property
    def by(self) -> str:
        """What runs it."""
        return f"`vcp {self.subject.text.run_words(self.words)[0]}`"

    def released(self, outputs: Sequence[Sequence[int]]) -> PrintedRun:
        """The run of the program itself: it has to release these values of its outputs, cycle by cycle, to the end of the rows."""
        run = self.run()
        wanted = [list(row[: len(run.names)]) for row in outputs]
        if not run.is_whole or run.rows != wanted:
            raise self.fault(f"{self.by} ends with `{run.ending}`, or releases other values")
        return run

    def of_copy(self, copy: Path) -> PrintedRun:
        """The run of a copy of the program over the same rows."""
        return read_run(self.vcp.must("run", copy, *self.words, statuses=(0, 2, 3)).text)

    def fault(self, what: str) -> Refusal:
        """Said where the proved program doesn't do what was found: the answer is withdrawn."""
        return Refusal(f"the rows that were found don't replay, and the answer is withdrawn ({self.told}): {what}")
