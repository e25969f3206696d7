"""The files of the toolchain: each program of it, and each library as a whole, with its digest."""
from __future__ import annotations

import os
import shutil
import sys
from concurrent.futures import ThreadPoolExecutor
from pathlib import Path

from vcp_tools.proved import digest, digest_of

_WHOLE = ("rattle", "logic_built")
"""Folders with one digest for all that is in them; those of `rlibs` have one a library."""
_STEP = 10_000
"""So many files lie between two lines of progress."""


def folder() -> Path | None:
    """Where the toolchain stands whose command `rt` is on the PATH; None where there is none, or its folder isn't known by a file KIT-ID."""
    command = shutil.which("rt")
    top = Path(command).resolve().parent.parent if command else None
    return top if top is not None and (top / "KIT-ID").is_file() else None


def _group(name: str) -> str:
    """Under which name a file is told: its own, or that of a folder with all that is in it."""
    parts = name.split("/")
    return parts[0] + "/" if parts[0] in _WHOLE else "/".join(parts[:2]) + ("/" if len(parts) > 2 else "") if parts[0] == "rlibs" else name


def files(top: Path) -> tuple[str, int]:
    """A line for each file or folder of a toolchain, as `sha256sum` writes it, and how many files were read. The digest of a folder is that of such lines of
    the files in it, in the order of their names."""
    names = sorted(os.path.relpath(os.path.join(at, name), top) for at, _, found in os.walk(top) for name in found)
    groups: dict[str, list[str]] = {}
    with ThreadPoolExecutor(min(4, os.cpu_count() or 1)) as pool:
        for number, (name, found) in enumerate(zip(names, pool.map(lambda it: digest_of(top / it), names)), 1):
            groups.setdefault(_group(name), []).append(f"{found}  {name}\n")
            if number % _STEP == 0:
                print(f"evidence: {number} of the {len(names)} files of the toolchain", file=sys.stderr)
    lines = [f"{digest(''.join(inside).encode())}  {name}\n" if name.endswith("/") else inside[0] for name, inside in sorted(groups.items())]
    return "".join(lines), len(names)
