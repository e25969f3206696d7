"""Several runs of the program at once, side by side, with their progress on standard error where they take long."""
from __future__ import annotations

import subprocess
import sys
import tempfile
import threading
import time
from concurrent.futures import ThreadPoolExecutor
from typing import Mapping, Sequence

from vcp_tools.files import read_bytes
from vcp_tools.program import Outcome, Program
from vcp_tools.refusal import Refusal

SECONDS = 5.0
"""So often it is said how far the runs are."""
_CHUNK = 1 << 16


def side_by_side(program: Program, calls: Mapping[str, Sequence[str]], rows: Sequence[str]) -> dict[str, Outcome]:
    """What each call gives, by its name. The rows tell how many cycles there are at most."""
    cycles = int(rows[1]) if rows[0] == "--cycles" else max(0, read_bytes(rows[0]).count(b"\n") - 1)
    progress = _Progress(list(calls), cycles)
    try:
        with ThreadPoolExecutor(len(calls)) as pool:
            found = [pool.submit(_called, program, words, progress, name) for name, words in calls.items()]
            return dict(zip(calls, [it.result() for it in found]))
    finally:
        progress.end()


def _called(program: Program, words: Sequence[str], progress: "_Progress", name: str) -> Outcome:
    """Runs the program, and counts the lines that it has printed."""
    with tempfile.TemporaryFile() as errors:
        try:
            running = subprocess.Popen([str(program.file), *words], stdout=subprocess.PIPE, stderr=errors, stdin=subprocess.DEVNULL)
        except OSError as error:
            raise Refusal(f"{program.file}: the program can't be run: {error.strerror}") from None
        assert running.stdout is not None
        parts = []
        with running, running.stdout as output:
            while part := output.read(_CHUNK):
                parts.append(part)
                progress.lines[name] += part.count(b"\n")
        errors.seek(0)
        return Outcome(running.returncode, b"".join(parts), errors.read().decode("utf-8", "replace"))


class _Progress:
    """Says from time to time how many cycles of each run have come."""

    def __init__(self, names: Sequence[str], cycles: int) -> None:
        self.lines = dict.fromkeys(names, 0)
        self.cycles = cycles
        self.began = time.monotonic()
        self.ended = threading.Event()
        self.thread = threading.Thread(target=self._run, daemon=True)
        self.thread.start()

    def _run(self) -> None:
        while not self.ended.wait(SECONDS):
            told = ", ".join(f"{name} {max(0, lines - 1)}" for name, lines in self.lines.items())
            print(f"vcp_tools: cycles of {self.cycles} behind {time.monotonic() - self.began:.0f} s: {told}", file=sys.stderr)

    def end(self) -> None:
        """Says no more."""
        self.ended.set()
        self.thread.join()
