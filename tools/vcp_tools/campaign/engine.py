"""What judges the parts that are left, side by side: GNU parallel, here and on other machines, or a pool where it isn't installed."""
from __future__ import annotations

import contextlib
import hashlib
import os
import shutil
import signal
import socket
import subprocess
import sys
import threading
import time
from concurrent.futures import ThreadPoolExecutor
from pathlib import Path
from typing import Sequence

from vcp_tools.needs import INSTALL
from vcp_tools.refusal import Refusal

TRIES = 3
"""So often a part is tried."""
SECONDS = 5.0
"""So often it is said how many parts are judged."""
_SENDING = ("-S", "--sshlogin", "--slf")
_SENT = ("vcp", "study", "judge", "image", "rows")


def judge(folder: Path, parts: Sequence[str], jobs: int | None, words: Sequence[str], quiet: bool, lock: int) -> None:
    """Judges parts, by the names of their scripts in the folder; what failed isn't told here, since each part is looked at then. The lock of the folder
    goes on to what judges, so that it is held until all of that has ended."""
    if not parts:
        return
    clock = None if quiet else Clock(folder, parts)
    try:
        if shutil.which("parallel"):
            _parallel(folder, parts, jobs, words, lock)
        elif words:
            raise Refusal(f"campaign: `{' '.join(words)}` goes to GNU parallel, which isn't installed: {INSTALL}")
        else:
            number = jobs or os.cpu_count() or 1
            print(f"campaign: GNU parallel isn't installed: the parts run in a pool of {number}", file=sys.stderr)
            Pool(folder, lock).judge(parts, number)
    finally:
        if clock is not None:
            clock.end()


def _parallel(folder: Path, parts: Sequence[str], jobs: int | None, words: Sequence[str], lock: int) -> None:
    call = ["parallel", "--retries", str(TRIES), "--termseq", "KILL,100"]
    if jobs is not None:
        call += ["--jobs", str(jobs)]
    if not any(word.startswith(_SENDING) for word in words):
        _run([*call, *words, "./judge", "{}"], folder, parts, lock)
        return
    name = _remote_name(folder)
    call += ["--workdir", name, "--cleanup", "--transferfile", "{}"]
    for file in _SENT:
        call += ["--basefile", file] if (folder / file).exists() else []
    for end in ("verdicts", "sums", "done"):
        call += ["--return", "{.}." + end]
    here = folder / name
    try:
        # What runs here, where `:` stands among the hosts, goes to a folder of that name, too.
        here.unlink(missing_ok=True)
        here.symlink_to(".")
        # A part whose files couldn't be fetched isn't tried again by parallel itself: it is here, as long as others come.
        left, before = list(parts), len(parts) + 1
        while 0 < len(left) < before:
            _run([*call, *words, "./judge", "{}"], folder, left, lock)
            left, before = [part for part in left if not (folder / part).with_suffix(".done").exists()], len(left)
    finally:
        here.unlink(missing_ok=True)


def _run(call: Sequence[str], folder: Path, parts: Sequence[str], lock: int) -> None:
    """Runs parallel on the names of parts, and ends it with the tool."""
    given = "".join(f"{part}\n" for part in parts).encode("ascii")
    out = sys.stderr.fileno() if _has_file(sys.stderr) else subprocess.DEVNULL
    # By the shell that `judge` is written for, here and there, whichever shell callers have, or none.
    shell = {**os.environ, "PARALLEL_SHELL": "/bin/sh"}
    running = subprocess.Popen(call, cwd=folder, env=shell, stdin=subprocess.PIPE, stdout=out, pass_fds=(lock,), start_new_session=True)
    try:
        running.communicate(given)
    except BaseException:
        _end(running)
        raise


def _remote_name(folder: Path) -> str:
    """The name that a campaign's folder has on other machines: one of its own, since files of another campaign may be left there."""
    named = f"{socket.gethostname()} {folder.resolve()}".encode("utf-8", "surrogateescape")
    return f"campaign.{hashlib.sha256(named + (folder / 'manifest').read_bytes()).hexdigest()[:12]}"


def _end(running: subprocess.Popen[bytes]) -> None:
    """Ends parallel and what it runs: it begins no more at its first signal, and kills what runs at its second."""
    for _ in range(2):
        with contextlib.suppress(ProcessLookupError, subprocess.TimeoutExpired):
            running.terminate()
            running.wait(0.5)
    try:
        running.wait(5)
    except subprocess.TimeoutExpired:
        os.killpg(running.pid, signal.SIGKILL)
        running.wait()


def _has_file(stream: object) -> bool:
    """Whether a stream is one of the process's own."""
    try:
        getattr(stream, "fileno")()
        return True
    except (AttributeError, OSError, ValueError):
        return False


class Pool:
    """Judges parts in threads, where GNU parallel isn't installed; what runs is ended with the tool."""

    def __init__(self, folder: Path, lock: int) -> None:
        self.folder, self.lock = folder, lock
        self.running: set[subprocess.Popen[bytes]] = set()
        self.ended = False

    def judge(self, parts: Sequence[str], number: int) -> None:
        """Judges parts, so many at once."""
        pool = ThreadPoolExecutor(number)
        try:
            list(pool.map(self._tried, parts))
        except BaseException:
            self.ended = True
            for it in list(self.running):
                os.killpg(it.pid, signal.SIGKILL)
            raise
        finally:
            pool.shutdown(cancel_futures=True)

    def _tried(self, part: str) -> None:
        """Judges a part, up to so many times."""
        for _ in range(TRIES):
            if self.ended:
                return
            it = subprocess.Popen(["./judge", part], cwd=self.folder, stdin=subprocess.DEVNULL, pass_fds=(self.lock,), start_new_session=True)
            self.running.add(it)
            status = it.wait()
            self.running.discard(it)
            if status == 0:
                return


class Clock:
    """Says on standard error how many parts are judged, and how long the others may take, where that takes more than a few seconds."""

    def __init__(self, folder: Path, parts: Sequence[str]) -> None:
        self.files = [folder / part.replace(".faults", ".done") for part in parts]
        self.began = time.monotonic()
        self.ended = threading.Event()
        self.thread = threading.Thread(target=self._run, daemon=True)
        self.thread.start()

    def _run(self) -> None:
        while not self.ended.wait(SECONDS):
            done = sum(file.exists() for file in self.files)
            past = time.monotonic() - self.began
            left = f", about {past / done * (len(self.files) - done):.0f} s left" if done else ""
            print(f"campaign: {done} of {len(self.files)} parts{left}", file=sys.stderr)

    def end(self) -> None:
        """Says no more."""
        self.ended.set()
        self.thread.join()
