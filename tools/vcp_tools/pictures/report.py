"""`report`: one HTML file that tells a program and its run, to be filed, and a check that makes it again and compares."""
from __future__ import annotations

import argparse
import re
import sys
import tempfile
from pathlib import Path
from typing import Sequence

from vcp_tools.pictures.case import Case
from vcp_tools.cycle_time import CycleTime
from vcp_tools.pictures.looks import looked_at
from vcp_tools.pictures.observe import observe, of_origin, rows_words
from vcp_tools.files import read_bytes, write_bytes
from vcp_tools.program import Program
from vcp_tools.program_text import ProgramText
from vcp_tools.read.image import read_image
from vcp_tools.refusal import FINE, FOUND, Refusal
from vcp_tools.pictures.report_parts import SECTIONS
from vcp_tools.pictures.table import add_run_words, period_of, text_of

HORIZON = 2
"""The cycle borders of the audit, where none are given."""


def add_words(parser: argparse.ArgumentParser) -> None:
    """The words of `report`."""
    add_run_words(parser, "the rows file")
    parser.add_argument("--seed", type=int, metavar="N", help="the seed of the image, as `vcp compile` has it")
    parser.add_argument("--step", type=int, metavar="N", help="its step; `vcp_tools lint` names the least with which no stale or foreign word goes unseen")
    parser.add_argument("--faults", metavar="F", help="a script of faults over the image, made with the same seed and step: the verdicts are shown")
    parser.add_argument("--horizon", type=int, default=HORIZON, metavar="N", help=f"the cycle borders of the audit, {HORIZON} where it isn't given")
    parser.add_argument("-o", dest="output", metavar="FILE", help="the file to write, else standard output")
    parser.add_argument("--check", metavar="FILE", help="make the report again and compare it with this one")


def run(given: argparse.Namespace) -> int:
    """Writes the report, or compares it. A report finds something where it tells an early end, runs that differ, a fault that isn't certain in every run or
    that is missed, a blind operation, a likely mistake, or what may stop."""
    rows, rest = rows_words(given.rest, given.cycles)
    if rest:
        raise Refusal(f"`{rest[0]}` is left over behind ROWS")
    code = [word for name in ("seed", "step") if getattr(given, name) is not None for word in (f"--{name}", str(getattr(given, name)))]
    made, found_something = make(text_of(given), rows, given.horizon, given.faults, given.trace, period_of(given), given.original, code)
    if given.check:
        return check(given.check, read_bytes(given.check).decode("utf-8", "replace"), made)
    if given.output:
        write_bytes(given.output, made.encode("utf-8"))
        print(f"{given.output}: {len(made.encode())} bytes, {len(sections_of(made))} sections")
    else:
        sys.stdout.write(made)
    return FOUND if found_something else FINE


def make(
    source: ProgramText, rows: list[str], horizon: int, faults: str | None, traced: bool = False, period: CycleTime | None = None,
    original: str | None = None, code: Sequence[str] = ()
) -> tuple[str, bool]:
    """The report, as one document, and whether it found something. `code` has the words of seed and step."""
    program = Program.found()
    image_bytes = source.image(program, code)
    with tempfile.TemporaryDirectory() as folder:
        image = Path(folder) / "image"
        write_bytes(image, image_bytes)
        plain = source.plain_words(rows)
        found = observe(program, source, rows, traced, {**({"plain": plain} if plain else {}), "exec": ("exec", str(image), *rows)}, code)
    found = of_origin(found, source.file, original)
    case = Case(program, source, rows, horizon, faults, image_bytes, read_image(image_bytes, source.file), found, period, original, list(code))
    if not source.is_list:
        case.note("check", source.file)
    case.commands.append(case.image_command)
    parts = [part(case) for part in SECTIONS]
    return looked_at(f"{found.name}: program, run and audit", [part for part in parts if part]), case.found_something


def sections_of(document: str) -> dict[str, tuple[str, str]]:
    """The sections of a report: for each name its title and what is in it."""
    found = re.findall(r'<section id="([a-z]+)">\n<h2>(.*?)</h2>\n(.*?)\n</section>\n', document, re.S)
    return {name: (title, inside) for name, title, inside in found}


def check(file: str, filed: str, made: str) -> int:
    """Compares a filed report with one that was made now, section by section; the status is 9 where they differ."""
    if filed == made:
        print(f"{file}: the report is made again as it is filed")
        return FINE
    before, now = sections_of(filed), sections_of(made)
    if not before:
        raise Refusal(f"{file}: this is no report")
    for name in [*before, *(name for name in now if name not in before)]:
        if name not in now or name not in before:
            title = (before.get(name) or now[name])[0]
            print(f"{file}: {title}: only in the report that {'is filed' if name in before else 'is made now'}")
        elif before[name] != now[name]:
            print(f"{file}: {before[name][0]}: {_first_difference(before[name][1], now[name][1])}")
    return FOUND


def _first_difference(filed: str, made: str) -> str:
    """The first lines that differ, without marks."""
    for one, other in zip((filed + "\n").split("\n"), (made + "\n").split("\n")):
        if one != other:
            return f"filed `{_plain(one)}`, made now `{_plain(other)}`"
    return "it differs"


def _plain(line: str) -> str:
    return re.sub(r"\s+", " ", re.sub(r"<[^>]*>", " ", line)).strip()[:160]
