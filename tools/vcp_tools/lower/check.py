"""The comparison of two printed runs: of a text as it stands, and of the program that is written for it."""
from __future__ import annotations

from typing import Sequence


def compared(wanted: Sequence[str], found: Sequence[str]) -> str:
    """How a run by `vcp` differs first from that by the second reading; empty where it doesn't. The places of stops are those of two texts, and left aside."""
    if wanted[0].upper() != found[0].upper():
        return f"the outputs are {wanted[0]} here, and {found[0]} in what is written"
    names = wanted[0].split(",")
    for one, other in zip(wanted[1:], found[1:]):
        if one[:1].isdigit() and other[:1].isdigit():
            pairs = zip(names, one.split(","), other.split(","))
            differing = next((it for it in pairs if it[1] != it[2]), None)
            if differing:
                return f"cycle {one.split(',')[0]}: {differing[0]} is {differing[1]} by the second reading, and {differing[2]} in what is written"
        elif one.split(" ")[:3] != other.split(" ")[:3]:
            return f"`{one}` by the second reading, and `{other}` in what is written"
    return ""
