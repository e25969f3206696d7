"""Each fault with its verdict in a database of SQLite, for questions that nobody thought of.

Table `verdict` has a row for each group and rows file: the line of its first fault in the script, the rows, the verdict, the cycle and the output that it
names, and how many cycles behind the group's first fault that is. Table `fault` has a row for each fault: its line and the line of its group, the act, the
cycle, the operation with its kind, name and place, the operand where it has one, and what stands behind.
"""
from __future__ import annotations

import sqlite3
from typing import Iterator

from vcp_tools.read.assigned import Assigned
from vcp_tools.read.image import Image, read_image
from vcp_tools.refusal import Refusal

_TABLES = """
CREATE TABLE IF NOT EXISTS verdict (line INTEGER, rows TEXT, verdict TEXT, cycle INTEGER, output TEXT, delay INTEGER);
CREATE TABLE IF NOT EXISTS fault (line INTEGER, of_group INTEGER, act TEXT, cycle INTEGER, operation INTEGER, kind TEXT, name TEXT, place TEXT, operand INTEGER,
                                  change TEXT);
"""


class Store:
    """A database in a new file."""

    def __init__(self, file: str) -> None:
        self.file = file
        self.has_faults = False
        try:
            self.database = sqlite3.connect(file)
            self.database.executescript(_TABLES)
            if self.database.execute("SELECT count(*) FROM fault").fetchone()[0]:
                raise Refusal(f"{file}: there are faults in it already: give a new file")
        except sqlite3.Error as error:
            raise Refusal(f"{file}: it can't be used as a database: {error}") from None

    def add(self, rows: str, script: bytes, verdicts: bytes, image: bytes, assigned: Assigned | None = None) -> None:
        """Adds the verdicts of a run, and of the first run the faults; where the source is known with what stands at the places of operations."""
        try:
            faults = list(_faults(script.decode("latin-1").split("\n"), read_image(image, "image"), assigned))
            began: dict[int, int] = {}
            for fault in faults:
                began.setdefault(fault[1], fault[3])
            if not self.has_faults:
                self.database.executemany("INSERT INTO fault VALUES (?,?,?,?,?,?,?,?,?,?)", faults)
            self.database.executemany("INSERT INTO verdict VALUES (?,?,?,?,?,?)", _verdicts(rows, verdicts, began))
            self.database.commit()
        except sqlite3.Error as error:
            raise Refusal(f"{self.file}: {error}") from None
        self.has_faults = True

    def close(self) -> None:
        """Closes the file."""
        self.database.close()


_Fault = tuple[int, int, str, int, int, str, str, str, "int | None", str]


def _faults(lines: list[str], image: Image, assigned: Assigned | None) -> Iterator[_Fault]:
    """The faults of a script; the group of a fault that stands alone is its own line."""
    group = 0
    grouped = False
    for number, line in enumerate(lines, 1):
        words = line.split()
        if not words or line.startswith("#"):
            continue
        if words in (["begin"], ["end"]):
            grouped, group = words == ["begin"], 0
            continue
        group = group if grouped and group else number
        has_operand = words[0] == "operand"
        operation = image.operations[int(words[2])]
        change = " ".join(words[3 + has_operand :])
        name = image.name_of(operation) or (assigned.of(operation) if assigned else "")
        yield (number, group, words[0], int(words[1]), operation.number, operation.kind, name, operation.place,
               int(words[3]) if has_operand else None, change)


def _verdicts(rows: str, verdicts: bytes, began: dict[int, int]) -> Iterator[tuple[int, str, str, int | None, str | None, int | None]]:
    """The verdicts of a run."""
    for line in verdicts.decode("latin-1").split("\n")[:-1]:
        words = line.split(" ")
        number, verdict = int(words[0]), words[1]
        cycle = int(words[2]) if len(words) > 2 else None
        output = words[3] if verdict in ("wrong", "refused") else None
        yield number, rows, verdict, cycle, output, None if cycle is None else cycle - began[number]
