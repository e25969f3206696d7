"""The file of `--inputs`: between which ends the values of inputs lie."""
from __future__ import annotations

from typing import Mapping, Sequence

from vcp_tools.ask.cycles import Interval
from vcp_tools.files import read_bytes
from vcp_tools.read.image import Slot
from vcp_tools.read.rows_file import cell_value, read_rows
from vcp_tools.refusal import Refusal
from vcp_tools.wording import listed, nearest

HEAD = ["input", "least", "greatest"]


def read_inputs(file: str, inputs: Sequence[Slot]) -> dict[int, Interval]:
    """The ends of each input that the file names, by the input's number; a refusal names the line."""
    records = read_rows(read_bytes(file))
    if not records or [it.lower() for it in records[0].cells] != HEAD:
        raise Refusal(f"{file}: the first line isn't `{','.join(HEAD)}`")
    numbers = {slot.name.upper(): at for at, slot in enumerate(inputs)}
    found: dict[int, Interval] = {}
    for record in records[1:]:
        where = f"{file}:{record.line}"
        if len(record.cells) != len(HEAD):
            raise Refusal(f"{where}: {len(record.cells)} fields, and the head has {len(HEAD)}")
        name, *ends = record.cells
        at = numbers.get(name.upper())
        if at is None:
            near = nearest(name, [slot.name for slot in inputs])
            raise Refusal(f"{where}: `{name}` is no input" + (f": did you mean `{near}`?" if near else f": there are {listed(it.name for it in inputs)}"))
        if at in found:
            raise Refusal(f"{where}: `{name}` occurs twice")
        found[at] = _interval(ends, inputs[at], where)
    return found


def inputs_table(bounds: Mapping[int, Interval], inputs: Sequence[Slot]) -> str:
    """The table of these ends, as `vcp_study ranges` takes it."""
    return "".join([",".join(HEAD) + "\n", *(f"{inputs[at].name},{least},{greatest}\n" for at, (least, greatest) in sorted(bounds.items()))])


def _interval(cells: Sequence[str], slot: Slot, where: str) -> Interval:
    """The two ends that cells spell."""
    least, greatest = (cell_value(cell, slot.type) for cell in cells)
    if least is None or greatest is None:
        raise Refusal(f"{where}: `{cells[least is not None]}` is no value of `{slot.name}` : {slot.type}")
    if least > greatest:
        raise Refusal(f"{where}: the least value {least} is above the greatest, {greatest}")
    return least, greatest
