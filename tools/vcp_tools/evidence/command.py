"""`evidence`: writes what stands behind the proved programs into a folder, or makes it again and compares."""
from __future__ import annotations

import argparse
import re
from pathlib import Path
from typing import Iterator

from vcp_tools.evidence.folder import LEFT_OUT, SUMS, damaged, differences, made
from vcp_tools.files import read_bytes, refuse, write_bytes
from vcp_tools.program import TOP, find_program, in_repository
from vcp_tools.proved import PROGRAMS, digest, digest_of, summary_lines
from vcp_tools.refusal import FINE, FOUND, Refusal

MOST = 40
"""So many differences are told."""
GATE = TOP / "out" / "gate.log"
"""Where the gate's log stands, if it isn't named."""


def add_words(parser: argparse.ArgumentParser) -> None:
    """The words of `evidence`."""
    parser.add_argument("-o", dest="output", metavar="FOLDER", help="write the evidence into this folder, which is made, or has evidence already")
    parser.add_argument("--check", metavar="FOLDER", help="make the evidence again and compare it with this folder")
    parser.add_argument("--gate", metavar="LOG", help="the log of the gate: what `.ci/run` printed, with standard error; else out/gate.log, or with --check "
                        "the one that is filed")
    parser.add_argument("--no-toolchain", dest="short", action="store_true", help="leave out the digests of the toolchain's files, which take a minute or more")


def run(given: argparse.Namespace) -> int:
    """Writes or compares. The status is 9 where something differs, or isn't as it should be."""
    if (given.output is None) == (given.check is None):
        raise Refusal("evidence: one of -o FOLDER, which writes it, and --check FOLDER, which makes it again, is wanted")
    gate = given.gate if given.gate is not None else GATE if in_repository() and GATE.is_file() else None
    log = read_bytes(gate) if gate is not None else None
    return check(given.check, log, given.short) if given.check else write(given.output, log, given.short)


def write(folder: str, log: bytes | None, is_short: bool) -> int:
    """Writes all that is found into a folder."""
    if not in_repository():
        raise Refusal("evidence: there are no sources here: it is made in the repository, and compared here by --check FOLDER")
    _usable(Path(folder))
    found = made(TOP, log, not is_short)
    for name in _present(Path(folder)):
        (Path(folder) / name).unlink()
    for name, data in found.files.items():
        write_bytes(Path(folder) / name, data)
    print(f"{folder}: {len(found.files)} files; {SUMS} {digest(found.files[SUMS])}")
    return _told(folder, found.lacking)


def _usable(folder: Path) -> None:
    """Makes the folder; a refusal where it stands among the sources, or has something else in it."""
    inside = folder.resolve()
    if TOP.resolve() in (inside, *inside.parents) and "out" not in inside.relative_to(TOP.resolve()).parts:
        raise Refusal(f"{folder}: this folder is among the sources: take one outside the repository, or below its folder out/")
    if folder.is_dir() and any(folder.iterdir()) and not (folder / SUMS).is_file():
        raise Refusal(f"{folder}: this folder has other files, and no evidence")
    try:
        folder.mkdir(parents=True, exist_ok=True)
    except FileExistsError:
        raise Refusal(f"{folder}: this is a file, and a folder is wanted") from None
    except OSError as error:
        refuse(folder, error, "write")


def _present(folder: Path) -> list[str]:
    """The names of the files in a folder."""
    try:
        return sorted(file.name for file in folder.iterdir() if file.is_file())
    except OSError as error:
        refuse(folder, error, "read")


def check(folder: str, log: bytes | None, is_short: bool) -> int:
    """Compares a folder with what is found now: its own bytes with its list of digests, the programs, and in the repository all else."""
    filed = {name: read_bytes(Path(folder) / name) for name in _present(Path(folder))}
    if SUMS not in filed or "summary.txt" not in filed:
        raise Refusal(f"{folder}: this is no folder of evidence: it has no {SUMS} or no summary.txt")
    harm = [f"DAMAGED {line}" for line in damaged(filed)]
    whole = f"{SUMS} {digest(filed[SUMS])}"
    if not in_repository():
        return _told(folder, [*harm, *_other_programs(filed)], f"{whole}: its files and the programs are as filed; there are no sources here")
    has_toolchain = "toolchain.txt" in filed and not is_short
    found = made(TOP, filed.get("gate.log") if log is None else log, has_toolchain)
    differing = [*harm, *differences(*(_without_toolchain(files) if is_short else files for files in (filed, found.files)))]
    if not differing:
        missing = "" if has_toolchain else "; the files of the toolchain weren't compared"
        print(f"{folder}: {whole}: the evidence is made again as it is filed{missing}")
    return _told(folder, [*differing, *found.lacking])


def _without_toolchain(files: dict[str, bytes]) -> dict[str, bytes]:
    """The files without what is said of those of the toolchain."""
    summary = re.sub(rb"(?m)^toolchain files: .*$", b"toolchain files: " + LEFT_OUT.encode(), files["summary.txt"])
    return {**{name: data for name, data in files.items() if name != "toolchain.txt"}, "summary.txt": summary}


def _other_programs(filed: dict[str, bytes]) -> Iterator[str]:
    """The programs that are here and aren't those of the evidence, and those that aren't here."""
    said = summary_lines(filed["summary.txt"].decode("utf-8", "replace"))
    for name in PROGRAMS:
        file, wanted = find_program(name), said.get(name, "none").partition(",")[0]
        if file is None:
            yield f"the program {name} isn't here"
        elif digest_of(file) != wanted:
            yield f"{file}: its digest is {digest_of(file)}, and the evidence names {wanted}"


def _told(folder: str, found: list[str] | tuple[str, ...], fine: str = "") -> int:
    """Prints what was found, or that all is well."""
    for line in found[:MOST]:
        print(f"{folder}: {line}")
    if len(found) > MOST:
        print(f"{folder}: and {len(found) - MOST} more")
    if fine and not found:
        print(f"{folder}: {fine}")
    return FOUND if found else FINE
