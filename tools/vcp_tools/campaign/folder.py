"""The folder of a campaign: a lock, copies of what is judged with their digests, a manifest, and the parts.

What stands in it: `image`, `rows`, `vcp` and `study`, the copies; `judge`, what judges one part; `manifest`; `faults`, the whole script; `parts/NNNNNN.faults`,
`.verdicts`, `.sums` and `.done`, which has the digests of the other three; and at the end `verdicts` and `tables`.
"""
from __future__ import annotations

import fcntl
import hashlib
import json
import os
import shutil
import tempfile
import time
from dataclasses import asdict, dataclass
from itertools import chain
from pathlib import Path
from typing import IO, Any, Iterator, Sequence

from vcp_tools.files import read_bytes, refuse, write_bytes
from vcp_tools.read.script import Part, runs_of
from vcp_tools.refusal import Refusal

FORM = 3
"""The form of the folder; another one is another campaign."""
PATIENCE = 20
"""For so many tenths of a second the end of what is left of a campaign is waited for."""
JUDGE = """#!/bin/sh
# Judges one part and counts its verdicts, from within the folder. What it writes is whole or not at all, and .done, with the digests, comes last.
part=${1%.faults}
fail() {
    echo "judge: $part: $*" >&2
    exit 1
}
rm -f "$part.done"
./vcp inject image ROWS "$1" >"$part.verdicts.now"
status=$?
[ "$status" -eq 0 ] || fail "vcp inject ended with status $status"
./study sum image "$1" "$part.verdicts.now" SUM_ROWS >"$part.sums.now"
status=$?
totals=$(tail -n 1 "$part.verdicts.now")
case $totals in 'faults '*) ;; *) fail "the verdicts break off" ;; esac
[ "$totals" = "$(tail -n 1 "$part.sums.now")" ] || fail "vcp_study sum ended with status $status, and its tables break off"
case $totals in *' wrong 0 ran-on 0 '*) found=0 ;; *) found=9 ;; esac
# A vcp_study from before status 9 ends with 1 where a fault isn't seen.
[ "$status" -eq "$found" ] || [ "$status:$found" = 1:9 ] || fail "vcp_study sum ended with status $status, and not $found"
mv "$part.verdicts.now" "$part.verdicts" && mv "$part.sums.now" "$part.sums" &&
    sha256sum "$1" "$part.verdicts" "$part.sums" >"$part.done.now" && mv "$part.done.now" "$part.done"
"""


def digest(data: bytes) -> str:
    """The SHA-256 of bytes."""
    return hashlib.sha256(data).hexdigest()


@dataclass
class PartOf:
    """What the manifest says of a part: how many lines stand before its second one, its groups' lines as runs, its faults, and the digest of its script."""

    first: int
    groups: list[list[int]]
    faults: int
    digest: str

    @property
    def count(self) -> int:
        """How many groups it has."""
        return sum(count for _, count in self.groups)

    def lines(self) -> Iterator[int]:
        """The line of the first fault of each group."""
        return chain.from_iterable(range(first, first + count) for first, count in self.groups)


@dataclass
class Manifest:
    """What a campaign is of: digests and lengths of the copies, what was asked, and its parts."""

    form: int
    copies: dict[str, tuple[str, int]]
    asked: str
    over: str
    faults: int
    groups: int
    script: str
    parts: list[PartOf]


class Folder:
    """A folder that this process alone works in."""

    def __init__(self, at: Path) -> None:
        self.at = at
        self.lock: IO[str] | None = None

    def name(self, number: int, end: str) -> str:
        """The name of a part's file within the folder."""
        return f"parts/{number:06d}.{end}"

    def hold(self) -> None:
        """Makes the folder and takes its lock, which is held until this process ends; a refusal where another campaign holds it longer than a moment."""
        try:
            (self.at / "parts").mkdir(parents=True, exist_ok=True)
            self.lock = open(self.at / "lock", "w", encoding="ascii")
            for patience in range(PATIENCE, -1, -1):
                try:
                    fcntl.flock(self.lock, fcntl.LOCK_EX | fcntl.LOCK_NB)
                    break
                except BlockingIOError:
                    if not patience:
                        raise
                    time.sleep(0.1)
        except BlockingIOError:
            raise Refusal(f"{self.at}: another campaign works in this folder, or what is left of one that was ended: wait for its end") from None
        except OSError as error:
            refuse(self.at, error, "write")

    def release(self) -> None:
        """Gives the lock back."""
        if self.lock is not None:
            self.lock.close()

    def __enter__(self) -> "Folder":
        """Holds the folder."""
        self.hold()
        return self

    def __exit__(self, *_: object) -> None:
        """Gives the lock back."""
        self.release()

    def held(self) -> int:
        """The lock's own number."""
        assert self.lock is not None
        return self.lock.fileno()

    def manifest(self) -> Manifest | None:
        """The manifest; None where there is none, or none of this form."""
        try:
            found: dict[str, Any] = json.loads((self.at / "manifest").read_text(encoding="ascii"))
            parts = [PartOf(**it) for it in found.pop("parts")]
            copies = {name: (said[0], said[1]) for name, said in found.pop("copies").items()}
            return Manifest(parts=parts, copies=copies, **found) if found.get("form") == FORM else None
        except (OSError, ValueError, TypeError, KeyError, IndexError):
            return None

    def write(self, name: str, data: bytes) -> None:
        """Writes a file of the folder, whole or not at all."""
        now = self.at / f"{name}.now"
        try:
            write_bytes(now, data)
            os.replace(now, self.at / name)
        except BaseException:
            now.unlink(missing_ok=True)
            raise

    def write_judge(self, manifest: Manifest) -> None:
        """Writes what judges one part: anew each time, since no digest says whether it was changed."""
        rows = "rows" in manifest.copies
        self.write("judge", JUDGE.replace("SUM_ROWS", "rows" if rows else "").replace("ROWS", manifest.over).encode("ascii"))
        (self.at / "judge").chmod(0o755)

    def forget_answer(self) -> None:
        """Removes the answer of the whole, which doesn't stand while a part is missing."""
        for name in ("verdicts", "tables", "summed", "unshown"):
            (self.at / name).unlink(missing_ok=True)

    def read(self, name: str) -> bytes:
        """The bytes of a file of the folder."""
        return read_bytes(self.at / name)

    def lay_out(self, copies: Path, asked: str, over: str, script: bytes, parts: Sequence[Part]) -> Manifest:
        """Fills the folder anew: the copies, the script and its parts, and the manifest last. `over` has the words for what `inject` judges over."""
        (self.at / "manifest").unlink(missing_ok=True)
        self.forget_answer()
        for file in (self.at / "parts").iterdir():
            file.unlink()
        said = {}
        for file in sorted(copies.iterdir()):
            data = read_bytes(file)
            said[file.name] = (digest(data), len(data))
            self.write(file.name, data)
            if file.name in ("vcp", "study"):
                (self.at / file.name).chmod(0o755)
        self.write("faults", script)
        told = []
        for number, part in enumerate(parts):
            write_bytes(self.at / self.name(number, "faults"), part.text)
            told.append(PartOf(part.first, runs_of(part.groups), part.faults, digest(part.text)))
        made = Manifest(FORM, said, asked, over, sum(it.faults for it in parts), sum(len(it.groups) for it in parts), digest(script), told)
        self.write("manifest", json.dumps(asdict(made)).encode("ascii"))
        return made

    def changed_copies(self, manifest: Manifest) -> list[str]:
        """The copies, and the script, that aren't as the manifest says."""
        wanted = {**{name: said[0] for name, said in manifest.copies.items()}, "faults": manifest.script}
        return [name for name, said in wanted.items() if not (self.at / name).is_file() or digest(self.read(name)) != said]


def copies_of(files: dict[str, Path], where: Path) -> tuple[Path, dict[str, str]]:
    """A folder with copies of files under these names, and the digest of each copy. It stands beside that of the campaign, from which programs are run,
    too. The caller removes it."""
    if not where.is_dir():
        raise Refusal(f"{where}: there is no such folder")
    try:
        folder = Path(tempfile.mkdtemp(prefix=".campaign-", dir=where))
    except OSError as error:
        refuse(where, error, "write")
    try:
        for name, file in files.items():
            write_bytes(folder / name, read_bytes(file))
            (folder / name).chmod(0o755)
        return folder, {name: digest(read_bytes(folder / name)) for name in files}
    except BaseException:
        shutil.rmtree(folder, ignore_errors=True)
        raise
