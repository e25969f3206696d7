"""The function blocks of IEC 61131-3, 6.6.3.5, as statements of the profile, with what each keeps.

A word in braces is a variable of the instance. `{elapsed}` grows by the cycle time where a cycle begins, whether the instance is called or not, so that it is
the time since it was last set to 0.
"""
from __future__ import annotations

from dataclasses import dataclass


@dataclass(frozen=True)
class Standard:
    """A block: its inputs and outputs, its own variables, each with its type, and its statements, a line each, indented by two spaces a level."""

    inputs: tuple[tuple[str, str], ...]
    outputs: tuple[tuple[str, str], ...]
    own: tuple[tuple[str, str], ...]
    lines: tuple[str, ...]

    @property
    def is_timer(self) -> bool:
        """Whether it measures time."""
        return ("elapsed", "TIME") in self.own


_IN_PT = (("IN", "BOOL"), ("PT", "TIME"))
_Q_ET = (("Q", "BOOL"), ("ET", "TIME"))
_Q_CV = (("Q", "BOOL"), ("CV", "INT"))
OTHER_NAMES = {
    "SR": {"SET1": "S1", "RESET": "R"}, "RS": {"SET": "S", "RESET1": "R1"}, "CTU": {"RESET": "R"}, "CTD": {"LOAD": "LD"},
    "CTUD": {"RESET": "R", "LOAD": "LD"},
}
"""How other houses name the inputs of some blocks."""
STANDARD = {
    "R_TRIG": Standard((("CLK", "BOOL"),), (("Q", "BOOL"),), (("M", "BOOL"),), ("{Q} := {CLK} AND NOT {M};", "{M} := {CLK};")),
    "F_TRIG": Standard((("CLK", "BOOL"),), (("Q", "BOOL"),), (("M", "BOOL"),), ("{Q} := NOT {CLK} AND NOT {M};", "{M} := NOT {CLK};")),
    "SR": Standard((("S1", "BOOL"), ("R", "BOOL")), (("Q1", "BOOL"),), (), ("{Q1} := {S1} OR NOT {R} AND {Q1};",)),
    "RS": Standard((("S", "BOOL"), ("R1", "BOOL")), (("Q1", "BOOL"),), (), ("{Q1} := NOT {R1} AND ({S} OR {Q1});",)),
    "CTU": Standard((("CU", "BOOL"), ("R", "BOOL"), ("PV", "INT")), _Q_CV, (("M", "BOOL"),), (
        "IF {R} THEN",
        "  {CV} := 0;",
        "ELSIF {CU} AND NOT {M} AND {CV} < 32767 THEN",
        "  {CV} := {CV} + 1;",
        "END_IF;",
        "{M} := {CU};",
        "{Q} := {CV} >= {PV};")),
    "CTD": Standard((("CD", "BOOL"), ("LD", "BOOL"), ("PV", "INT")), _Q_CV, (("M", "BOOL"),), (
        "IF {LD} THEN",
        "  {CV} := {PV};",
        "ELSIF {CD} AND NOT {M} AND {CV} > -32768 THEN",
        "  {CV} := {CV} - 1;",
        "END_IF;",
        "{M} := {CD};",
        "{Q} := {CV} <= 0;")),
    "CTUD": Standard((("CU", "BOOL"), ("CD", "BOOL"), ("R", "BOOL"), ("LD", "BOOL"), ("PV", "INT")), (("QU", "BOOL"), ("QD", "BOOL"), ("CV", "INT")),
                     (("MU", "BOOL"), ("MD", "BOOL"), ("up", "BOOL"), ("down", "BOOL")), (
        "{up} := {CU} AND NOT {MU};",
        "{down} := {CD} AND NOT {MD};",
        "{MU} := {CU};",
        "{MD} := {CD};",
        "IF {R} THEN",
        "  {CV} := 0;",
        "ELSIF {LD} THEN",
        "  {CV} := {PV};",
        "ELSIF {up} AND NOT {down} AND {CV} < 32767 THEN",
        "  {CV} := {CV} + 1;",
        "ELSIF {down} AND NOT {up} AND {CV} > -32768 THEN",
        "  {CV} := {CV} - 1;",
        "END_IF;",
        "{QU} := {CV} >= {PV};",
        "{QD} := {CV} <= 0;")),
    "TON": Standard(_IN_PT, _Q_ET, (("timing", "BOOL"), ("elapsed", "TIME")), (
        "IF NOT {IN} THEN",
        "  {timing} := FALSE;",
        "  {Q} := FALSE;",
        "  {ET} := 0;",
        "ELSE",
        "  IF NOT {timing} THEN",
        "    {timing} := TRUE;",
        "    {elapsed} := 0;",
        "  END_IF;",
        "  IF NOT {Q} THEN",
        "    {ET} := MIN({elapsed}, {PT});",
        "    {Q} := {ET} >= {PT};",
        "  END_IF;",
        "END_IF;")),
    "TOF": Standard(_IN_PT, _Q_ET, (("M", "BOOL"), ("timing", "BOOL"), ("elapsed", "TIME")), (
        "IF {IN} THEN",
        "  {timing} := FALSE;",
        "  {ET} := 0;",
        "ELSE",
        "  IF {M} THEN",
        "    {timing} := TRUE;",
        "    {elapsed} := 0;",
        "  END_IF;",
        "  IF {timing} THEN",
        "    {ET} := MIN({elapsed}, {PT});",
        "    {timing} := {elapsed} < {PT};",
        "  END_IF;",
        "END_IF;",
        "{M} := {IN};",
        "{Q} := {IN} OR {timing};")),
    "TP": Standard(_IN_PT, _Q_ET, (("M", "BOOL"), ("elapsed", "TIME")), (
        "IF {Q} THEN",
        "  {ET} := MIN({elapsed}, {PT});",
        "  {Q} := {elapsed} < {PT};",
        "END_IF;",
        "IF NOT {Q} THEN",
        "  IF {IN} AND NOT {M} THEN",
        "    {ET} := 0;",
        "    {elapsed} := 0;",
        "    {Q} := {PT} > 0;",
        "  ELSIF NOT {IN} THEN",
        "    {ET} := 0;",
        "  END_IF;",
        "END_IF;",
        "{M} := {IN};")),
}
"""The blocks by their names."""
