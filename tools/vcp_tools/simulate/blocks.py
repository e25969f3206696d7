"""The function blocks of IEC 61131-3, 6.6.3.5, as the standard defines them: what each gives at a call, by its inputs and by the time."""
from __future__ import annotations

from typing import Callable

from vcp_tools.simulate.values import Kind, Variable

_BOOL, _INT = Kind.of("BOOL"), Kind.of("INT")
OTHER_NAMES = {
    "SR": {"SET1": "S1", "RESET": "R"}, "RS": {"SET": "S", "RESET1": "R1"}, "CTU": {"RESET": "R"}, "CTD": {"LOAD": "LD"}, "CTUD": {"RESET": "R", "LOAD": "LD"},
}
"""How other houses name the inputs of some blocks."""
ORDER = {
    "R_TRIG": ("CLK", "Q"), "F_TRIG": ("CLK", "Q"), "SR": ("S1", "R", "Q1"), "RS": ("S", "R1", "Q1"), "CTU": ("CU", "R", "PV", "Q", "CV"),
    "CTD": ("CD", "LD", "PV", "Q", "CV"), "CTUD": ("CU", "CD", "R", "LD", "PV", "QU", "QD", "CV"), "TON": ("IN", "PT", "Q", "ET"),
    "TOF": ("IN", "PT", "Q", "ET"), "TP": ("IN", "PT", "Q", "ET"),
}
"""The inputs of each block in their order, and behind them its outputs."""
_NUMBERS = {"PV": _INT, "CV": _INT}


class Block:
    """An instance of a block: its inputs and outputs, and what it keeps from call to call."""

    def __init__(self, name: str, time: Kind) -> None:
        self.name = name
        self.fields = {field: Variable(time if field in ("PT", "ET") else _NUMBERS.get(field, _BOOL), 0) for field in ORDER[name]}
        self._before: dict[str, bool] = {}
        self._since: int | None = None
        self._now = 0

    def call(self, now: int) -> None:
        """One call at a time in milliseconds: the outputs, from the inputs as they stand."""
        self._now = now
        _CALLS[self.name](self)

    def _is(self, field: str) -> bool:
        return self.fields[field].number != 0

    def _number(self, field: str) -> int:
        return self.fields[field].number

    def _give(self, **outputs: int) -> None:
        for field, number in outputs.items():
            self.fields[field].number = int(number)

    def _rises(self, field: str) -> bool:
        """Whether an input is TRUE and wasn't at the call before; at the first call, whether it is TRUE."""
        was = self._before.get(field, False)
        self._before[field] = self._is(field)
        return self._is(field) and not was

    def _falls(self, field: str) -> bool:
        """Whether an input is FALSE and wasn't at the call before."""
        was = self._before.get(field, False)
        self._before[field] = self._is(field)
        return was and not self._is(field)

    def _elapsed(self) -> int:
        """How long the present timing lasts."""
        return self._now - (self._now if self._since is None else self._since)

    def rising(self) -> None:
        """R_TRIG: Q for one call where CLK rises."""
        self._give(Q=self._rises("CLK"))

    def falling(self) -> None:
        """F_TRIG: Q for one call where CLK falls, and at the first call where CLK is FALSE, as the standard notes."""
        is_first = "CLK" not in self._before
        falls = self._falls("CLK")
        self._give(Q=falls or is_first and not self._is("CLK"))

    def set_dominant(self) -> None:
        """SR: S1 sets, and counts more than R."""
        self._give(Q1=self._is("S1") or self._is("Q1") and not self._is("R"))

    def reset_dominant(self) -> None:
        """RS: R1 resets, and counts more than S."""
        self._give(Q1=not self._is("R1") and (self._is("S") or self._is("Q1")))

    def up(self) -> None:
        """CTU: counts the rises of CU up to the greatest INT."""
        rises = self._rises("CU")
        if self._is("R"):
            self._give(CV=0)
        elif rises and self._number("CV") < 32767:
            self._give(CV=self._number("CV") + 1)
        self._give(Q=self._number("CV") >= self._number("PV"))

    def down(self) -> None:
        """CTD: counts the rises of CD down to the least INT."""
        rises = self._rises("CD")
        if self._is("LD"):
            self._give(CV=self._number("PV"))
        elif rises and self._number("CV") > -32768:
            self._give(CV=self._number("CV") - 1)
        self._give(Q=self._number("CV") <= 0)

    def up_and_down(self) -> None:
        """CTUD: counts the rises of both; where both rise at once, neither."""
        up, down = self._rises("CU"), self._rises("CD")
        count = self._number("CV")
        if self._is("R"):
            count = 0
        elif self._is("LD"):
            count = self._number("PV")
        elif up and not down:
            count = min(count + 1, 32767)
        elif down and not up:
            count = max(count - 1, -32768)
        self._give(CV=count, QU=count >= self._number("PV"), QD=count <= 0)

    def on_delay(self) -> None:
        """TON: Q where IN has been TRUE for PT; ET is how long it has been, at most PT."""
        if not self._is("IN"):
            self._since = None
            self._give(Q=False, ET=0)
            return
        if self._since is None:
            self._since = self._now
        if not self._is("Q"):
            self._give(ET=min(self._elapsed(), self._number("PT")))
            self._give(Q=self._number("ET") >= self._number("PT"))

    def off_delay(self) -> None:
        """TOF: Q where IN is TRUE, and for PT behind its fall; ET is how long it has been FALSE, at most PT."""
        falls = self._falls("IN")
        if self._is("IN"):
            self._since = None
            self._give(Q=True, ET=0)
            return
        if falls:
            self._since = self._now
        if self._since is not None:
            self._give(ET=min(self._elapsed(), self._number("PT")))
            if self._elapsed() >= self._number("PT"):
                self._since = None
        self._give(Q=self._since is not None)

    def pulse(self) -> None:
        """TP: Q for PT from a rise of IN at which no pulse lasts; ET is how long it has lasted, at most PT, and 0 once IN is FALSE behind it."""
        rises = self._rises("IN")
        if self._since is not None:
            self._give(ET=min(self._elapsed(), self._number("PT")))
            if self._elapsed() >= self._number("PT"):
                self._since = None
        if self._since is None:
            if rises:
                self._give(ET=0)
                self._since = self._now if self._number("PT") > 0 else None
            elif not self._is("IN"):
                self._give(ET=0)
        self._give(Q=self._since is not None)


_CALLS: dict[str, Callable[[Block], None]] = {
    "R_TRIG": Block.rising, "F_TRIG": Block.falling, "SR": Block.set_dominant, "RS": Block.reset_dominant, "CTU": Block.up, "CTD": Block.down,
    "CTUD": Block.up_and_down, "TON": Block.on_delay, "TOF": Block.off_delay, "TP": Block.pulse,
}
