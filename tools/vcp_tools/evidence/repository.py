"""The sources of the repository: the commit, what differs from it, and every file with its digest."""
from __future__ import annotations

import subprocess
from pathlib import Path

from vcp_tools.proved import digest_of
from vcp_tools.refusal import Refusal

_LEFT_OUT = frozenset((".git", "out", "__pycache__", ".mypy_cache"))
"""Folders that are no source."""


def _git(top: Path, *words: str) -> str | None:
    """What git prints in the repository; None where there is no git, or no repository of it."""
    try:
        done = subprocess.run(["git", "-C", str(top), "-c", "safe.directory=*", "-c", "core.quotePath=false", *words], capture_output=True,
                              stdin=subprocess.DEVNULL, check=False)
    except OSError:
        return None
    return done.stdout.decode("utf-8", "surrogateescape") if done.returncode == 0 else None


def commit(top: Path) -> str:
    """The commit that is checked out; a word that says why there is none."""
    inside = _git(top, "rev-parse", "--show-toplevel")
    if inside is None or Path(inside.rstrip("\n")).resolve() != top.resolve():
        return "none: this folder is no repository of git"
    return (_git(top, "rev-parse", "--verify", "-q", "HEAD") or "none: nothing is committed").strip()


def changes(top: Path) -> list[str]:
    """The files that differ from the commit, and those beside it that git wouldn't ignore."""
    if commit(top).startswith("none"):
        return []
    fields = (_git(top, "status", "--porcelain", "-z", "--no-renames", "--untracked-files=all") or "").split("\0")
    return sorted(field[3:] for field in fields if field)


def source_files(top: Path) -> list[str]:
    """The names of all sources: what the commit has, and under crates/ what stands beside it; all files but those that are made where there is no commit."""
    if commit(top).startswith("none"):
        names = [str(file.relative_to(top)) for file in top.glob("**/*") if file.is_file() and not _LEFT_OUT & set(file.relative_to(top).parts)]
    else:
        listed = (_git(top, "ls-files", "-z") or "") + (_git(top, "ls-files", "-z", "--others", "--exclude-standard", "--", "crates") or "")
        names = [name for name in set(listed.split("\0")) if name and (top / name).is_file()]
    if not names:
        raise Refusal(f"{top}: there are no sources")
    return sorted(names)


def sources(top: Path) -> str:
    """Every source with its digest, as `sha256sum` writes and checks them."""
    return "".join(f"{digest_of(top / name)}  {name}\n" for name in source_files(top))
