"""Dormant faults: those whose difference still stands in a cell when the rows end, and pairs of one with a later fault."""
from __future__ import annotations

import random
from bisect import bisect_right
from itertools import accumulate
from typing import Sequence

from vcp_tools.campaign.sites import Faults
from vcp_tools.read.script import Group, groups_of
from vcp_tools.refusal import Refusal


def dormant_of(script: bytes, file: str, standing: Sequence[int]) -> list[Group]:
    """The dormant groups of a script, in order, by the lines of their first faults, which `vcp_study sum` names."""
    wanted = set(standing)
    found = [group for group in groups_of(script, file) if group.fault and group.fault in wanted]
    if len(found) != len(wanted):
        raise Refusal(f"{file}: {len(wanted)} groups are left in a cell, and {len(found)} of them are in the script")
    return found


def pairs_of(dormant: Sequence[Group], behind: Faults, number: int, seed: int, image: str) -> tuple[bytes, int]:
    """The script of so many pairs of a dormant group and a fault of a class in a later cycle, each pair as likely as each other and none twice; and how
    many pairs there are. `image` is the digest of the image."""
    first_behind = {cycle: behind.behind(cycle) for cycle in {_last_cycle(group) for group in dormant}}
    ends = list(accumulate(behind.count - first_behind[_last_cycle(group)] for group in dormant))
    most = ends[-1] if ends else 0
    if not 0 < number <= most:
        raise Refusal(f"--draw {number}: there are {most} pairs of a dormant fault and a later one of `{behind.name}`")
    drawn = []
    for place in sorted(random.Random(seed).sample(range(most), number)):
        at = bisect_right(ends, place)
        drawn.append((dormant[at], behind.count - (ends[at] - place)))
    wanted = sorted({place for _, place in drawn})
    lines = dict(zip(wanted, behind.at(wanted)))
    text = [b"# pairs of a dormant fault and one of %b, of %b\n" % (behind.name.encode("ascii"), image.encode("ascii"))]
    for group, place in drawn:
        faults = [line for line in group.lines if line and line.strip(b" \t") not in (b"begin", b"end")]
        text.append(b"".join(line + b"\n" for line in [b"begin", *faults, lines[place], b"end"]))
    return b"".join(text), most


def _last_cycle(group: Group) -> int:
    """The last cycle in which a group has a fault."""
    return max(int(line.split()[1]) for line in group.lines if len(line.split()) > 2)
