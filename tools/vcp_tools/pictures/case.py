"""What a report tells: a program with its rows, its graph and its run, and the commands by which that was found out."""
from __future__ import annotations

import shlex
import tempfile
from dataclasses import dataclass, field
from functools import cached_property
from pathlib import Path
from typing import Sequence

from vcp_tools.files import write_bytes
from vcp_tools.lint.command import findings
from vcp_tools.lint.tree_findings import Finding
from vcp_tools.needs import find_module
from vcp_tools.cycle_time import CycleTime
from vcp_tools.pictures.observe import Observation
from vcp_tools.program import Outcome, Program, find_program
from vcp_tools.program_text import ProgramText
from vcp_tools.read.assigned import Assigned
from vcp_tools.read.audit_lines import Audited, read_audit
from vcp_tools.read.cover_lines import CLASSES, Cover, cover_of
from vcp_tools.read.given import Given
from vcp_tools.read.image import Image
from vcp_tools.read.range_lines import Ranges, ranges_of
from vcp_tools.read.source import Source
from vcp_tools.read.verdict_lines import Verdict, read_verdicts
from vcp_tools.refusal import Refusal

COVERED = 8
"""The cycle borders of the cover, where no more are given."""
MOST_AUDITED = 1 << 24
"""Operations times outputs times (borders + 1), at most: `L6 Audit` of docs/ERRORS.md."""
MOST_PAIRED = 10_000
"""Of an image with more operations the classes whose faults are pairs of operations are left out: their number goes by the square."""
PAIRED = ("from", "late")
"""These classes."""


@dataclass
class Case:
    """What a report tells: the files, the graph, the run, and every command by which that was found out, as a reader may repeat it."""

    program: Program
    text: ProgramText
    rows: list[str]
    horizon: int
    faults: str | None
    image_bytes: bytes
    image: Image
    run: Observation
    period: CycleTime | None = None
    original: str | None = None
    code: list[str] = field(default_factory=list)
    found_something: bool = False
    commands: list[str] = field(default_factory=list)

    @property
    def file(self) -> str:
        """The file of the source."""
        return self.text.file

    @property
    def source(self) -> Source:
        """The source."""
        return self.text.source

    @property
    def image_name(self) -> str:
        """The name under which the commands write the image."""
        return Path(self.file).stem + ".img"

    def call(self, *words: str, statuses: Sequence[int] = (0,)) -> Outcome:
        """Runs the program, with the image in the place of its name, and notes the command. A refusal says how the image is made, since it is gone then."""
        with tempfile.TemporaryDirectory() as folder:
            at = Path(folder) / "image"
            write_bytes(at, self.image_bytes)
            given = [str(at) if word == self.image_name else word for word in words]
            self.note(*words)
            try:
                return self.program.must(*given, statuses=statuses, shown=words)
            except Refusal as refusal:
                made = f"; `{self.image_command}` makes that image" if self.image_name in words else ""
                raise Refusal(f"{refusal}{made}") from None

    def made(self, call: str, words: Sequence[str], statuses: Sequence[int] = (0, 2, 3)) -> bytes:
        """What a call printed that was made beside the run, with these words; it is noted."""
        self.note(*words)
        return self.program.taken(self.run.outcomes[call], words, statuses).output

    @cached_property
    def assigned(self) -> Assigned:
        """What stands at each place of the source."""
        return Assigned(self.source)

    @cached_property
    def audit(self) -> list[Audited]:
        """The audit across at most `horizon` cycle borders."""
        return read_audit(self.call("audit", self.image_name, str(self.horizon)).text)

    @cached_property
    def cover(self) -> Cover | None:
        """What becomes of each fault in every run; None where the program that tells it isn't built."""
        if find_program("vcp_study") is None:
            return None
        most = MOST_AUDITED // max(1, len(self.image.operations) * len(self.image.outputs)) - 1
        borders = min(max(COVERED, self.horizon), max(self.horizon, most))
        names = ["all"] if len(self.image.operations) <= MOST_PAIRED else [name for name in CLASSES if name not in PAIRED]
        self.commands += [f"vcp_study cover {shlex.quote(self.image_name)} {borders} {name}" for name in names]
        return cover_of(self.image_bytes, borders, names)

    @cached_property
    def verdicts(self) -> tuple[list[Verdict], str]:
        """The verdicts on the script, and the line of their totals; none where there is no script."""
        return read_verdicts(self.call("inject", self.image_name, *self.rows, self.faults).text) if self.faults else ([], "")

    @cached_property
    def findings(self) -> list[Finding]:
        """What is likely a mistake; of the operations alone where no grammar can be read."""
        return findings(Given(self.file, self.image, self.image_bytes, self.source), self.source, find_module("lark") is None)

    @cached_property
    def ranges(self) -> Ranges | None:
        """The operations that may stop, whatever the rows; None where the program that tells them isn't built."""
        if find_program("vcp_study") is None:
            return None
        self.commands.append(f"vcp_study ranges {shlex.quote(self.image_name)}")
        return ranges_of(self.image_bytes)

    @property
    def image_command(self) -> str:
        """The command that writes the image."""
        return f"{shlex.join(self.text.image_words(self.code))} >{shlex.quote(self.image_name)}"

    def note(self, *words: str) -> None:
        """Notes a call of `vcp` that was made."""
        self.commands.append("vcp " + shlex.join(words))
