"""What a part has: its verdicts with the lines of the whole script, and its tables, both compared with its script and with one another."""
from __future__ import annotations

from dataclasses import dataclass
from pathlib import Path

from vcp_tools.campaign.folder import PartOf, digest
from vcp_tools.read.sum_tables import Sum, read_sum, read_totals
from vcp_tools.read.verdict_lines import VERDICTS
from vcp_tools.refusal import Refusal


@dataclass
class Judged:
    """A part that is whole: its verdicts with the lines of the whole script, its sum, and the totals."""

    verdicts: bytes
    sums: Sum


def judged(folder: Path, number: int, part: PartOf) -> Judged:
    """A part; a refusal that says why it is none, where it is half, changed or gone."""
    base = folder / "parts" / f"{number:06d}"
    files = [base.with_suffix(f".{end}") for end in ("faults", "verdicts", "sums", "done")]
    try:
        faults, verdicts, sums, done = (file.read_bytes() for file in files)
    except OSError as error:
        raise Refusal(f"{Path(error.filename).name} is gone") from None
    if digest(faults) != part.digest:
        raise Refusal("its script was changed")
    said = [line.split()[0] for line in done.decode("ascii", "replace").splitlines() if line]
    if said != [digest(faults), digest(verdicts), digest(sums)]:
        raise Refusal("its verdicts or tables were changed, or are of another time")
    moved = _moved(verdicts, part)
    found = read_sum(sums.decode("utf-8", "replace"))
    if found.totals != moved[1]:
        raise Refusal("its tables count other verdicts")
    return Judged(moved[0], found)


def _moved(verdicts: bytes, part: PartOf) -> tuple[bytes, list[int]]:
    """The verdicts with the lines of the whole script, and their totals, which have to count them: a verdict of each group, in order."""
    lines = verdicts.split(b"\n")
    if lines.pop() != b"" or not lines:
        raise Refusal("its verdicts break off")
    totals = read_totals(lines.pop().decode("ascii", "replace"))
    if len(lines) != part.count:
        raise Refusal(f"it has {len(lines)} verdicts, and {part.count} groups of faults")
    counts = dict.fromkeys((name.encode() for name in VERDICTS), 0)
    moved = []
    for line, group in zip(lines, part.lines()):
        number, _, rest = line.partition(b" ")
        word = rest.partition(b" ")[0]
        if number != b"%d" % group or word not in counts:
            raise Refusal(f"its verdict on line {group} isn't there")
        counts[word] += 1
        moved.append(b"%d %b\n" % (group + part.first, rest))
    if [len(lines), *counts.values()] != totals:
        raise Refusal("its totals don't count its verdicts")
    return b"".join(moved), totals
