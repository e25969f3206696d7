"""`simulate`: the blocks of the standard against timing diagrams that are written out by hand, and the meaning of what the profile lacks."""
from __future__ import annotations

import unittest
from typing import Sequence

from tests.support import InFolder
from vcp_tools.needs import find_module

STEPS: dict[str, tuple[str, str, str]] = {
    "R_TRIG": ("CLK", "1 1 0 1", "Q: 1 0 0 1"),
    "F_TRIG": ("CLK", "0 0 1 0 0", "Q: 1 0 0 1 0"),
    "SR": ("S1 R", "10 00 11 01 00", "Q1: 1 1 1 0 0"),
    "RS": ("S R1", "10 00 11 01 10", "Q1: 1 1 0 0 1"),
    "CTU": ("CU R", "10 10 00 10 01 11 10", "Q: 0 0 0 1 0 0 0; CV: 1 1 1 2 0 0 0"),
    "CTD": ("CD LD", "01 10 10 00 10 00 10", "Q: 0 0 0 0 1 1 1; CV: 2 1 1 1 0 0 -1"),
    "CTUD": ("CU CD R LD", "1000 0000 1100 0001 0100 0010", "QU: 0 0 0 1 0 0; QD: 0 0 0 0 0 1; CV: 1 1 1 2 1 0"),
    "TON": ("IN", "0 1 1 1 1 0 1 1 0", "Q: 0 0 0 0 1 0 0 0 0; ET: 0 0 100 200 300 0 0 100 0"),
    "TOF": ("IN", "0 1 0 0 0 0 0 1 0 1", "Q: 0 1 1 1 1 0 0 1 1 1; ET: 0 0 0 100 200 300 300 0 0 0"),
    "TP": ("IN", "1 0 1 1 1 0 1 1 1 1 1 0", "Q: 1 1 1 0 0 0 1 1 1 0 0 0; ET: 0 100 200 300 300 0 0 100 200 300 300 0"),
}
"""For each block its inputs, what they are in each cycle, a digit each, and what its outputs are then: PT is 300 ms, a cycle 100 ms, and PV 2."""
HEAD = "PROGRAM p\nVAR_INPUT a, b : BOOL; n : INT; END_VAR\nVAR_OUTPUT q : BOOL; y : INT; d : DINT; END_VAR\n"


def block_text(name: str) -> tuple[str, str, list[str]]:
    """A program that calls a block, its rows, and the printed rows that are wanted."""
    inputs, cells, wanted = STEPS[name]
    outputs = {part.split(":")[0].strip(): part.split(":")[1].split() for part in wanted.split(";")}
    types = {"CV": "INT", "ET": "TIME"}
    declared = " ".join(f"o_{it} : {types.get(it, 'BOOL')};" for it in outputs)
    given = ", ".join(f"{it} := i_{it}" for it in inputs.split())
    fixed = {"CTU": ", PV := 2", "CTD": ", PV := 2", "CTUD": ", PV := 2"}.get(name, ", PT := T#300ms" if name.startswith("T") else "")
    text = (f"PROGRAM p\nVAR_INPUT {', '.join('i_' + it for it in inputs.split())} : BOOL; END_VAR\nVAR_OUTPUT {declared} END_VAR\nVAR x : {name}; END_VAR\n"
            f"x({given}{fixed});\n" + "".join(f"o_{it} := x.{it};\n" for it in outputs) + "END_PROGRAM\n")
    rows = ",".join("i_" + it for it in inputs.split()) + "\n" + "".join(",".join(cell) + "\n" for cell in cells.split())
    printed = ["cycle," + ",".join("o_" + it for it in outputs)]
    printed += [",".join((str(cycle), *row)) for cycle, row in enumerate(zip(*outputs.values()))]
    return text, rows, [*printed, f"end {len(cells.split())}"]


@unittest.skipUnless(find_module("lark"), "lark isn't installed")
class Simulated(InFolder):
    """Runs of the plain interpreter."""

    def printed(self, text: str, rows: str, status: int = 0, cycle_time: str = "100ms") -> list[str]:
        """The lines of a run."""
        self.write("p.st", text)
        self.write("in.csv", rows)
        return self.tool("simulate", "p.st", "in.csv", "--cycle-time", cycle_time, status=status).rstrip("\n").split("\n")

    def body(self, declared: str, body: str, rows: Sequence[str], before: str = "", status: int = 0) -> list[str]:
        """The rows of outputs of a body between declarations and END_PROGRAM, without the numbers of cycles; a stop as it is."""
        lines = self.printed(before + HEAD + declared + body + "END_PROGRAM\n", "a,b,n\n" + "\n".join(rows) + "\n", status)
        return [line.partition(",")[2] if line[:1].isdigit() else line for line in lines[1:]]

    def test_each_block_is_as_its_timing_diagram(self) -> None:
        for name in STEPS:
            text, rows, wanted = block_text(name)
            self.assertEqual(self.printed(text, rows), wanted, name)

    def test_counters_stay_at_the_ends_of_INT(self) -> None:
        counters = "VAR up : CTU := (PV := 32767); down : CTD; k : INT; END_VAR\n"
        fast = "FOR k := 1 TO 32766 DO up(CU := TRUE); up(CU := FALSE); down(CD := TRUE); down(CD := FALSE); END_FOR\n"
        body = f"IF b THEN\n{fast}END_IF\nup(CU := a); down(CD := a);\nq := up.Q; y := up.CV; d := down.CV;\n"
        wanted = ["0,32766,-32766", "1,32767,-32767", "1,32767,-32767", "1,32767,-32768", "1,32767,-32768", "1,32767,-32768", "end 6"]
        self.assertEqual(self.body(counters, body, ["0,1,0", "1,0,0", "0,0,0", "1,0,0", "0,0,0", "1,0,0"]), wanted)

    def test_a_timer_measures_time_and_not_calls(self) -> None:
        declared = "VAR t : TON := (PT := T#300ms); END_VAR\n"
        wanted = ["0,0,0", "0,0,0", "0,0,0", "1,0,300", "end 4"]
        seldom = "IF b THEN t(IN := a); END_IF\nq := t.Q; d := TIME_TO_DINT(t.ET);\n"
        self.assertEqual(self.body(declared, seldom, ["1,1,0", "1,0,0", "1,0,0", "1,1,0"]), wanted)
        twice = "t(IN := a); t(IN := a);\nq := t.Q; d := TIME_TO_DINT(t.ET);\n"
        self.assertEqual(self.body(declared, twice, ["1,0,0"] * 3), ["0,0,0", "0,0,100", "0,0,200", "end 3"])
        again = "t(IN := a); IF b THEN t(IN := FALSE); t(IN := a); END_IF\nd := TIME_TO_DINT(t.ET);\n"
        self.assertEqual(self.body(declared, again, ["1,0,0", "1,0,0", "1,1,0", "1,0,0"]), ["0,0,0", "0,0,100", "0,0,0", "0,0,100", "end 4"])

    def test_a_time_that_is_no_whole_number_of_cycles_is_rounded_up(self) -> None:
        found = self.body("VAR t : TON; END_VAR\n", "t(IN := a, PT := T#250ms, Q => q);\nd := TIME_TO_DINT(t.ET);\n", ["1,0,0"] * 5)
        self.assertEqual(found, ["0,0,0", "0,0,100", "0,0,200", "1,0,250", "1,0,250", "end 5"])

    def test_values_outside_their_types_stop(self) -> None:
        for declared, body, stop in (
            ("VAR u : USINT; END_VAR\n", "u := u + 200;\n", "stop 1 RANGE 5:1"),
            ("VAR s : INT (0..3) := 3; END_VAR\n", "s := n;\n", "stop 1 RANGE 5:1"),
            ("VAR v : ARRAY[0..3] OF INT; END_VAR\n", "y := v[n];\n", "stop 1 RANGE 5:6"),
            ("VAR w : UINT; END_VAR\n", "w := INT_TO_UINT(4 - n);\n", "stop 1 RANGE 5:6"),
            ("", "y := 1 / (5 - n);\n", "stop 1 DIVZERO 4:8"),
            ("VAR k : INT; END_VAR\n", "k := 0; WHILE k < n DO (*@ bound 4 *) k := k + 1; END_WHILE\n", "stop 1 RANGE 5:9"),
        ):
            self.assertEqual(self.body(declared, body, ["0,0,2", "0,0,5"], status=9)[-1], stop, body)

    def test_loops_and_ways_out(self) -> None:
        body = ("y := 0;\nFOR i := 1 TO 5 DO\n  IF i = 2 THEN CONTINUE; END_IF\n  IF i = n THEN EXIT; END_IF\n  y := y + i;\nEND_FOR\nd := i;\n"
                "IF a THEN RETURN; END_IF\nREPEAT (*@ bound 9 *) d := d + 1; UNTIL d >= 8 END_REPEAT\n")
        self.assertEqual(self.body("VAR i : INT; END_VAR\n", body, ["0,0,0", "1,0,4", "0,0,3"]), ["0,13,8", "0,4,4", "0,1,8", "end 3"])

    def test_functions_and_blocks_of_the_user(self) -> None:
        before = ("FUNCTION Sum : INT\nVAR_INPUT x, y : INT := 5; END_VAR\nVAR_IN_OUT count : INT; END_VAR\nVAR k : INT; END_VAR\n"
                  "k := k + 1; count := count + k; Sum := x + y;\nEND_FUNCTION\n"
                  "FUNCTION_BLOCK Count\nVAR_INPUT up : BOOL; END_VAR\nVAR_OUTPUT n : INT; END_VAR\nVAR_TEMP t : INT; END_VAR\n"
                  "t := t + 1;\nIF NOT up THEN RETURN; END_IF\nn := n + t;\nEND_FUNCTION_BLOCK\n")
        declared = "VAR c : ARRAY[0..1] OF Count; calls : INT; END_VAR\n"
        body = "y := Sum(n, count := calls);\nc[calls MOD 2](up := a);\nc[1](b, n => calls);\nd := c[0].n + 10 * c[1].n + 100 * calls;\n"
        self.assertEqual(self.body(declared, body, ["1,0,1", "1,1,2"], before), ["0,6,110", "0,7,221", "end 2"])

    def test_bits_and_short_circuits(self) -> None:
        body = "w := 16#A5; q := n <> 0 AND_THEN 6 / n > 1;\ny := WORD_TO_INT(w AND 16#F0); d := WORD_TO_DINT(NOT w XOR 16#1);\n"
        self.assertEqual(self.body("VAR w : WORD; END_VAR\n", body, ["0,0,0", "0,0,3"]), ["0,160,65371", "1,160,65371", "end 2"])

    def test_what_is_not_taken_is_a_refusal_with_its_line(self) -> None:
        for declared, body, said in (
            ("VAR r : REAL; END_VAR\n", "y := 1;\n", "p.st:4:9: `REAL` is no type"),
            ("", "y := SHL(n, 1);\n", "p.st:4:6: `SHL` is no function"),
            ("", "y := z;\n", "p.st:4:6: `z` is declared nowhere"),
            ("", "y := 1.5;\n", "p.st:4:6: there is no REAL"),
            ("", "y = 1;\n", "p.st:4:3: `=` compares"),
            ("VAR k : INT; END_VAR\n", "WHILE k < 3 DO k := 3; END_WHILE\n", "WHILE has no bound"),
        ):
            self.write("p.st", HEAD + declared + body + "END_PROGRAM\n")
            self.write("in.csv", "a,b,n\n0,0,0\n")
            self.assertIn(said, self.tool("simulate", "p.st", "in.csv", status=2))


if __name__ == "__main__":
    unittest.main()
