"""How long a cycle takes, as a user gives it, and the times of cycles in seconds or milliseconds."""
from __future__ import annotations

import re
from dataclasses import dataclass

from vcp_tools.refusal import Refusal

_POWERS = {"s": 12, "ms": 9, "us": 6, "ns": 3, "ps": 0}
"""How many picoseconds a unit has, as a power of ten."""


@dataclass(frozen=True)
class CycleTime:
    """The time of one cycle: a number of a unit, `s` to `ps`."""

    number: int
    unit: str

    @property
    def _picoseconds(self) -> int:
        return self.number * int(10 ** _POWERS[self.unit])

    def unit_for(self, cycles: int) -> str:
        """The unit in which so many cycles are told: seconds from one second on, else milliseconds."""
        return "s" if self._picoseconds * cycles >= 10 ** _POWERS["s"] else "ms"

    def at(self, cycle: int, unit: str) -> str:
        """When a cycle begins, in `s` or `ms`: exactly, and with as many digits behind the point for each cycle."""
        power = _POWERS[unit]
        places = next(it for it in range(power + 1) if self._picoseconds % 10 ** (power - it) == 0)
        time = self._picoseconds * cycle // 10 ** (power - places)
        return f"{time // 10**places}.{time % 10**places:0{places}d}" if places else str(time)

    def cycles_in(self, text: str) -> int | None:
        """How many cycles a time has, as `1.5s` or `500ms`; None where that is no time, or no whole number of cycles."""
        match = re.fullmatch(r"([0-9]{1,9})(?:\.([0-9]{1,9}))?(s|ms|us|ns|ps)", text)
        if match is None:
            return None
        digits, behind = match[1] + (match[2] or ""), len(match[2] or "")
        time, whole = int(digits) * int(10 ** _POWERS[match[3]]), self._picoseconds * int(10**behind)
        return time // whole if time % whole == 0 else None

    def told(self, cycles: int) -> str:
        """How long so many cycles take, with the unit."""
        unit = self.unit_for(cycles)
        return f"{self.at(cycles, unit)} {unit}"


def cycle_told(cycle: int, period: CycleTime | None) -> str:
    """A cycle in words, with its time where that is known."""
    return f"cycle {cycle} ({period.told(cycle)})" if period else f"cycle {cycle}"


def read_cycle_time(text: str) -> CycleTime:
    """A time as a number and a unit; a refusal where it is none."""
    match = re.fullmatch(r"([1-9][0-9]{0,8})(s|ms|us|ns|ps)", text)
    if match is None:
        raise Refusal(f"--cycle-time: `{text}` is no time: a whole number and one of {', '.join(_POWERS)}, as 500ms")
    return CycleTime(int(match[1]), match[2])
