"""The proved programs `vcp` and `vcp_study`: the one place from which they are run."""
from __future__ import annotations

import os
import re
import shutil
import subprocess
from dataclasses import dataclass
from pathlib import Path
from typing import Sequence

from vcp_tools.refusal import FOUND, REFUSED, Refusal

TOP = Path(__file__).resolve().parent.parent.parent
"""The repository's folder, where the tools stand in one."""


@dataclass(frozen=True)
class Outcome:
    """What one call of a program gave: its status, standard output and standard error."""

    status: int
    output: bytes
    errors: str

    @property
    def text(self) -> str:
        """The output as text."""
        return self.output.decode("utf-8", "replace")

    @property
    def fault(self) -> str:
        """The line of error, without its end; empty where there is none."""
        lines = self.errors.rstrip("\n").split("\n")
        return lines[-1]

    @property
    def has_found(self) -> bool:
        """Whether all was written and something was found: status 9. A `vcp_study` from before that status ends with 1 there, without the line of error that
        a refusal has."""
        return self.status == FOUND or (self.status == REFUSED and not self.errors and self.output.endswith(b"\n"))


def in_repository() -> bool:
    """Whether the tools stand in the repository, and aren't installed elsewhere."""
    return (TOP / "crates.txt").is_file()


def in_installation() -> bool:
    """Whether the tools stand where `install.sh` or `dist.sh` has put them, beside the programs and the evidence."""
    return (TOP / "evidence" / "summary.txt").is_file()


def find_program(name: str = "vcp") -> Path | None:
    """A built program: VCP=FILE (VCP_STUDY=FILE for vcp_study), or the one that `./vcp` and `rt ci` leave, or that was installed with the tools, or
    where these stand elsewhere the one on the PATH. None where there is none."""
    chosen = os.environ.get(name.upper())
    if chosen:
        file = Path(chosen).absolute()
    elif in_repository():
        file = TOP / "crates" / name / "out" / name
    elif in_installation():
        file = TOP.parent.parent / "bin" / name
    else:
        file = Path(shutil.which(name) or name).absolute()
    return file if os.access(file, os.X_OK) and file.is_file() else None


def present_toolchain() -> str | None:
    """The line that `rt version` prints, of the toolchain that is on the PATH; None where there is none, or it prints no line."""
    try:
        done = subprocess.run(["rt", "version"], capture_output=True, stdin=subprocess.DEVNULL, check=False, timeout=60)
    except (OSError, subprocess.TimeoutExpired):
        return None
    lines = done.stdout.decode("utf-8", "replace").split("\n")
    return lines[0].strip() or None if done.returncode == 0 else None


def promised_toolchain() -> str | None:
    """The toolchain with which the program is proved, as docs/PROMISES.md names it; None outside the repository."""
    document = TOP / "docs" / "PROMISES.md"
    match = re.search(r"^ {4}(rattle-kit\S* .*)$", document.read_text(encoding="utf-8"), re.M) if document.is_file() else None
    return match[1].strip() if match else None


class Program:
    """A built program."""

    def __init__(self, file: Path, name: str = "vcp") -> None:
        self.file = file
        self.name = name

    @staticmethod
    def found(name: str = "vcp") -> "Program":
        """The built program; a refusal that says how it is made where none is built."""
        file = find_program(name)
        if file is None and in_installation():
            raise Refusal(f"{TOP.parent.parent / 'bin' / name} isn't there, or can't be run: install it anew, or set {name.upper()}=FILE")
        if file is None:
            asked = "check examples/add.st" if name == "vcp" else "ranges M"
            raise Refusal(
                f"no program {name} is built: run ./{name} once, as ./{name} {asked}, which proves and builds it (20 minutes or more on 4 processors, "
                f"docs/MEASURES.md), or set {name.upper()}=FILE"
            )
        return Program(file, name)

    def call(self, *words: str | Path, folder: Path | None = None) -> Outcome:
        """Runs the program with these words, in a folder where one is given, and gives what came, whatever its status."""
        try:
            done = subprocess.run([str(self.file.absolute()), *map(str, words)], cwd=folder, capture_output=True, stdin=subprocess.DEVNULL, check=False)
        except OSError as error:
            raise Refusal(f"{self.file}: the program can't be run: {error.strerror}") from None
        return Outcome(done.returncode, done.stdout, done.stderr.decode("utf-8", "replace"))

    def must(self, *words: str | Path, statuses: Sequence[int] = (0,), or_found: bool = False, shown: Sequence[str] | None = None) -> Outcome:
        """Runs the program, and refuses with its own line where it ends with another status than these, or with `or_found` without having found
        something. `shown` has the words as a reader may repeat them, where some are of files that are gone then."""
        outcome = self.call(*words)
        return outcome if or_found and outcome.has_found else self.taken(outcome, words, statuses, shown)

    def taken(self, outcome: Outcome, words: Sequence[str | Path], statuses: Sequence[int] = (0,), shown: Sequence[str] | None = None) -> Outcome:
        """What a call with these words gave, refused as `must` does."""
        if outcome.status not in statuses:
            told = outcome.fault or f"status {outcome.status}"
            again = list(map(str, words)) if shown is None else list(shown)
            for word, name in zip(map(str, words), again):
                told = told.replace(word, name) if word != name else told
            more = f" (`vcp_tools explain {' '.join(again)}` says more)" if self.name == "vcp" else ""
            raise Refusal(f"{self.name} {words[0]}: {told}{more}")
        return outcome
