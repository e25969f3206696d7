"""Whether a program that stands here is the one that was proved, by the record that `launch.sh` writes beside it."""
from __future__ import annotations

import hashlib
import re
from dataclasses import dataclass
from pathlib import Path
from typing import Callable

from vcp_tools.program import TOP, in_repository

PROGRAMS = ("vcp", "vcp_study")
"""The proved programs."""
SUMMARY = TOP / "evidence" / "summary.txt"
"""Where an installation has what was found when it was made."""
TOLD: dict[str, str] = {
    "proved": "proved from the sources that are here", "missing": "not built here", "unrecorded": "without a record of the sources it was proved from",
    "changed": "proved from other sources than those that are here", "altered": "ANOTHER PROGRAM than the one that was proved, as its record says",
    "installed": "proved, as the evidence of this installation says", "unknown": "given by VCP=FILE or the PATH: whether it is proved isn't known here",
}
"""What is said of a program in each state."""


@dataclass(frozen=True)
class Standing:
    """A program as it stands: one of the words of `TOLD`, its digest, that of the sources that are here, and its record; the digests are empty, and the
    record has no words, where there is none."""

    state: str
    digest: str
    sources: str
    record: dict[str, str]


def digest(data: bytes) -> str:
    """The SHA-256 of bytes."""
    return hashlib.sha256(data).hexdigest()


def digest_of(file: Path) -> str:
    """The SHA-256 of a file; empty where it can't be read."""
    try:
        with file.open("rb") as opened:
            return hashlib.file_digest(opened, "sha256").hexdigest() if hasattr(hashlib, "file_digest") else digest(opened.read())
    except OSError:
        return ""


def lines_of(text: str, name: str) -> dict[str, str]:
    """The lines of crates.txt for the crates that a program is made of: its own and those below it."""
    lines = {line.split("#")[0].split(":")[0].split()[0]: line for line in text.split("\n") if line.split("#")[0].split(":")[0].split()}
    found: dict[str, str] = {}
    wanted = [name]
    while wanted:
        crate = wanted.pop()
        if crate in lines and crate not in found:
            found[crate] = lines[crate]
            wanted += lines[crate].split("#")[0].partition(":")[2].split()
    return found


def sources_digest(top: Path, name: str) -> str:
    """The digest of all that a program is made of, in a folder, as `launch.sh --sources` prints it."""
    lines = lines_of((top / "crates.txt").read_text(encoding="utf-8"), name)
    files = ["HANDLES"] if (top / "HANDLES").is_file() else []
    for crate in lines:
        for part in ("src", "specs", "proofs"):
            found = (top / "crates" / crate / part).glob("**/*")
            files += [str(file.relative_to(top)) for file in found if file.suffix in (".rt", ".antt") and file.is_file()]
    listed = [f"{digest_of(top / file)}  {file}" for file in sorted(files, key=str.encode)]
    return digest("".join(line + "\n" for line in [*sorted(lines.values(), key=str.encode), *listed]).encode())


def read_record(text: str) -> dict[str, str]:
    """What a record says, by its words."""
    return {word: rest for word, _, rest in (line.partition(" ") for line in text.split("\n")) if word}


def standing(name: str, top: Path) -> Standing:
    """The program of this name that `./vcp` or `rt ci` left in a repository."""
    file = top / "crates" / name / "out" / name
    sources, record = sources_digest(top, name), file.with_name(f"{name}.proved")
    if not file.is_file():
        return Standing("missing", "", sources, {})
    said = read_record(record.read_text(encoding="utf-8", errors="replace")) if record.is_file() else {}
    found = digest_of(file)
    tests: tuple[tuple[str, Callable[[], bool]], ...] = (
        ("unrecorded", lambda: not said), ("changed", lambda: said.get("sources") != sources), ("altered", lambda: said.get("program") != found))
    return Standing(next((word for word, holds in tests if holds()), "proved"), found, sources, said)


def summary_lines(text: str) -> dict[str, str]:
    """The lines of a summary, each a key and a value behind a colon."""
    return {key: value for key, value in re.findall(r"^([\w ]+): (.*)$", text, re.M)}


def installed_summary() -> dict[str, str]:
    """What the evidence of this installation says; nothing where the tools aren't installed so."""
    return summary_lines(SUMMARY.read_text(encoding="utf-8", errors="replace")) if SUMMARY.is_file() else {}


def told_of(file: Path) -> str:
    """What is known here of a program: whether it is proved, and from what."""
    name = file.name
    if in_repository() and name in PROGRAMS and file.resolve() == (TOP / "crates" / name / "out" / name).resolve():
        return TOLD[standing(name, TOP).state]
    said = installed_summary().get(name, "")
    return TOLD["installed" if said.startswith(digest_of(file) + ", ") else "unknown"]
