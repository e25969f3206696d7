"""The tables that the proved `vcp_study sum` makes of all parts of a campaign together, beside those that the tool has added up."""
from __future__ import annotations

import re

from vcp_tools.campaign.folder import Folder, Manifest
from vcp_tools.program import Program
from vcp_tools.refusal import FINE, FOUND, Refusal

MOST_PARTS = 10_000
"""So many parts are counted together at most."""
_LINE = re.compile(r"^(?:(\d+):)?(\d+)(?= (?:wrong|ran-on|stands) )", re.M)


def summed(folder: Folder, manifest: Manifest, tables: str) -> str:
    """Says that the program's tables of all parts are these; a refusal where they are others, or where it makes none."""
    count = len(manifest.parts)
    if count > MOST_PARTS:
        raise Refusal(f"--sum: there are {count} parts, and `vcp_study sum` counts {MOST_PARTS} together at most")
    words = ["sum", "image", *(folder.name(number, end) for number in range(count) for end in ("faults", "verdicts"))]
    words += ["rows"] if "rows" in manifest.copies else []
    study = Program(folder.at / "study", "vcp_study")
    outcome = study.taken(study.call(*words, folder=folder.at), words, (FINE, FOUND))
    folder.write("summed", outcome.output)
    if whole(outcome.text, manifest) != tables:
        raise Refusal(f"{folder.at}/summed: what `vcp_study sum` says of all parts isn't what is added up of each, which `tables` has")
    return f"summed: `vcp_study sum` over all {count} parts together, which is proved, says the same"


def whole(text: str, manifest: Manifest) -> str:
    """The tables of several parts with the lines of the whole script in the place of a part and its lines."""
    return _LINE.sub(lambda it: str(manifest.parts[int(it[1] or 1) - 1].first + int(it[2])), text)
