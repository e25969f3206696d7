"""`lower`: what it writes does what the text does, by `vcp` and by the second reading; and what isn't taken is named with its line."""
from __future__ import annotations

import os
import re
import unittest
from collections import Counter
from concurrent.futures import ThreadPoolExecutor
from pathlib import Path

from tests.made_texts import Maker, made_rows
from tests.support import EXAMPLES, InFolder, needs_program
from tests.test_explain import FRAME
from tests.test_simulate import HEAD, STEPS, block_text
from vcp_tools import simulate
from vcp_tools.lower.check import compared
from vcp_tools.lower.program import lowered
from vcp_tools.needs import find_module
from vcp_tools.program import Program
from vcp_tools.read.source import Source
from vcp_tools.read.wider_file import source_and_tree
from vcp_tools.read.wider_text import parse_wider
from vcp_tools.read.wider_tree import NotTaken
from vcp_tools.simulate.command import simulated

MADE = int(os.environ.get("MADE_TEXTS", "300"))
"""So many texts are made; MADE_TEXTS=20000 tries more."""
CONSTRUCTS = 45
"""At least so many constructs stand in the made texts."""
CONTROLLERS = EXAMPLES / "controllers"

NOT_TAKEN = (
    ("VAR z : REAL; END_VAR\n", "", "5:9: there is no REAL"),
    ("VAR s : STRING; END_VAR\n", "", "5:9: there are no strings"),
    ("VAR s : DATE; END_VAR\n", "", "5:9: there are no dates"),
    ("VAR s : LWORD; END_VAR\n", "", "5:9: the largest type is LINT"),
    ("VAR s : ULINT; END_VAR\n", "", "5:9: the largest type is LINT"),
    ("VAR p : POINTER TO INT; END_VAR\n", "", "5:17: there are no pointers"),
    ("", "r := i * 1.5;\n", "5:10: there is no REAL"),
    ("", "q := 'a' = 'b';\n", "5:6: there are no strings"),
    ("", "q := i.3;\n", "5:8: there are no bits of a number"),
    ("", "WHILE a DO r := 1; END_WHILE\n", "5:1: WHILE has no bound"),
    ("", "FOR t := 1 TO i DO r := 1; END_FOR\n", "5:1: the bounds of this FOR are no constants"),
    ("", "r := i ** 2;\n", "5:9: there is no `**`"),
    ("", "t += 1;\n", "5:3: "),
    ("", "q := i != 3;\n", "5:8: `<>`"),
    ("", "q := !a;\n", "5:6: NOT"),
    ("", "r = 1;\n", "5:3: `=` compares"),
    ("", "IF a := TRUE THEN r := 1; END_IF\n", "5:6: `:=` assigns"),
    ("", "q := 1;\n", "5:1: a number isn't assigned to BOOL"),
    ("", "r := a;\n", "5:1: BOOL isn't assigned to INT"),
    ("", "IF i THEN r := 1; END_IF\n", "5:4: the condition is INT"),
    ("", "r := d;\n", "5:1: DINT isn't assigned to INT without a conversion"),
    ("", "q := 0 < i < 10;\n", "5:12: BOOL and a number don't go together"),
    ("", "a := FALSE;\n", "5:1: `a` is an input"),
    ("", "q := aa;\n", "5:6: `aa` is declared nowhere"),
    ("", "q := NOT i = 3;\n", "5:6: NOT takes"),
    ("", "r := i AND 16#FF;\n", "5:8: AND takes"),
    ("", "r := SHL(i, 2);\n", "5:6: `SHL` is no function"),
    ("", "q := R_TRIG(a);\n", "5:6: `R_TRIG` is a function block"),
    ("", "r := MIN(i, d);\n", "5:1: DINT isn't assigned to INT"),
    ("", "r := 40000;\n", "5:1: a number isn't assigned to INT"),
    ("", "CASE t OF 1: r := 1; TRUE: r := 2; END_CASE\n", "5:22: a label is a constant number"),
    ("", "EXIT;\n", "5:1: EXIT is in a loop"),
    ("VAR v : ARRAY[0..2] OF INT; END_VAR\n", "r := v[3];\n", "6:6: the index 3 is outside 0..2"),
    ("VAR t1 : TON; END_VAR\n", "t1(IN := a, PTT := T#1s);\n", "6:13: TON has no"),
    ("VAR w, w2 : WORD; END_VAR\n", "w := w AND w2;\n", "6:8: AND of two strings of bits"),
    ("", "IF t > T#5s THEN r := 1; END_IF\n", "5:6: INT and TIME don't go together"),
    ("VAR step : INT; at : INT; END_VAR\n", "", "5:17: `at` can't come here"),
    ("VAR time : INT; END_VAR\n", "", "5:5: `time` can't come here"),
    ("VAR_IN_OUT z : INT; END_VAR\n", "", "5:12: VAR_IN_OUT isn't taken in a PROGRAM"),
    ("VAR z, Z : INT; END_VAR\n", "", "5:8: `Z` is declared twice"),
    ("", "FOR t := 0 TO 3 DO t := 2; END_FOR\n", "5:20: `t` is the control variable"),
    ("", "r := 1\nq := a;\n", "6:1: `q` can't come here"),
    ("VAR k : USINT := 300; END_VAR\n", "", "5:18: the initial value is no USINT"),
    ("", "(* a\n", "5:1: this isn't closed"),
    ("VAR u : UINT; END_VAR\n", "r := u;\n", "6:1: UINT isn't assigned to INT without a conversion"),
)
"""Declarations and statements in the frame of the mistakes, each with what is said of them and where: the frame has four lines before them."""


@unittest.skipUnless(find_module("lark"), "lark isn't installed")
class Written(InFolder):
    """What is written, and what isn't."""

    def text(self, text: str, *words: str, status: int = 0) -> str:
        """What `lower` prints for a text."""
        self.write("p.st", text)
        return self.tool("lower", "p.st", *words, status=status)

    def test_what_is_not_taken_is_named_with_its_line(self) -> None:
        for declared, body, said in NOT_TAKEN:
            with self.subTest(declared + body):
                self.assertIn(f"p.st:{said}", self.text(FRAME % (declared + body), status=2))

    def test_each_line_has_the_one_it_came_from(self) -> None:
        text = HEAD + "VAR t : TON; u : ARRAY[0..1] OF R_TRIG; END_VAR\nt(IN := a, PT := T#1s);\nq := t.Q;\nEND_PROGRAM\n"
        printed = self.text(text, "--cycle-time", "100ms")
        lines = printed.rstrip("\n").split("\n")
        self.assertRegex(lines[0], r"\A// Not proved: written by `vcp_tools lower` from p\.st with cycles of 100ms\.")
        for line in lines[1:]:
            self.assertRegex(line, r"  // line [1-7](: |\Z)")
        self.assertIn("  u_0_Q : BOOL;  // line 4: u[0].Q", lines)
        self.assertIn("  q := t_Q;  // line 6", lines)

    def test_a_time_that_is_rounded_up_is_told(self) -> None:
        text = HEAD + "VAR t : TON; END_VAR\nt(IN := a, PT := T#250ms);\nEND_PROGRAM\n"
        self.assertIn("p.st:5:18: `T#250ms` is no whole number of cycles: a timer acts as with 300 ms", self.text(text, "--cycle-time", "100ms"))
        self.assertIn("p.st:5:1: a TON wants --cycle-time", self.text(text, status=2))
        self.assertIn("no whole number of milliseconds", self.text(text, "--cycle-time", "20us", status=2))

    def test_stops_are_told_in_the_text(self) -> None:
        printed = self.text(HEAD + "VAR u : USINT; v : ARRAY[1..3] OF INT; END_VAR\nu := u + 1;\ny := v[n];\nEND_PROGRAM\n")
        self.assertIn("out_of_range := DINT_TO_INT(2147483647);  // line 5: stops where u is outside 0..255", printed)
        self.assertIn("// line 6: stops where the index is outside 1..3", printed)

    def test_what_is_written_is_what_the_text_does_by_the_same_interpreter(self) -> None:
        for file in sorted([*CONTROLLERS.glob("*.st"), *CONTROLLERS.glob("*.xml")]):
            rows = [str(file.with_suffix(".csv"))]
            source, tree = source_and_tree(file)
            found = lowered(tree, source, file.name, 100, "100ms").text
            again = Source(found.encode("latin-1"))
            one, other = (list(simulated("p", *it, "100ms", rows)) for it in ((source, tree), (again, parse_wider(again.text))))
            self.assertEqual((compared(one, other), one[-1][:3]), ("", "end"), file.name)

    def test_long_times_are_held_in_lint(self) -> None:
        text = HEAD + "VAR t : TON; u : TIME := T#30d; END_VAR\nt(IN := a, PT := u);\nd := TIME_TO_DINT(t.ET);\nEND_PROGRAM\n"
        printed = self.text(text, "--cycle-time", "1s")
        self.assertIn("  t_ET : LINT;  // line 4: t.ET", printed)
        self.assertIn("  u : LINT := 2592000000;  // line 4", printed)
        self.assertIn("  d := LINT_TO_DINT(t_ET);  // line 6", printed)

    def test_what_the_text_cannot_say_is_told(self) -> None:
        printed = self.text(HEAD.replace("VAR_INPUT a", "{attribute 'x'} VAR_INPUT a AT %IX0.1") + "VAR RETAIN k : INT; END_VAR\nEND_PROGRAM\n")
        self.assertIn("p.st:2:1: a pragma is left out", printed)
        self.assertIn("  a : BOOL;  // line 2: AT %IX0.1", printed)
        self.assertIn("  k : INT;  // line 4: RETAIN", printed)

    def test_names_that_meet_are_told_apart(self) -> None:
        printed = self.text(HEAD + "VAR t_Q : INT; t : R_TRIG; END_VAR\nt(CLK := a);\nt_Q := 3;\nEND_PROGRAM\n")
        self.assertIn("  t_Q_2 : BOOL;  // line 4: t.Q", printed)
        text = "PROGRAM p\nVAR_INPUT v_0 : INT; v : ARRAY[0..1] OF INT; END_VAR\nEND_PROGRAM\n"
        self.assertIn("p.st:2:22: `v[0]` would be named `v_0`, and something else is", self.text(text, status=2))

    def test_xml_that_is_not_taken(self) -> None:
        whole = (CONTROLLERS / "garage.xml").read_text(encoding="utf-8")
        for before, behind, said in (
            ("<ST>", "<FBD>", "p.xml:22: the body of `Barrier` is in FBD"), ("pouType=\"program\"", "pouType=\"action\"", "`Garage` is no program"),
            ("</project>", "", "this is no XML"), ("button_in AND", "button_out AND", "p.xml:82:14: `button_out` is declared nowhere"),
        ):
            text = whole.replace(before, behind)
            self.write("p.xml", text.replace("</ST>", "</FBD>") if behind == "<FBD>" else text)
            self.assertIn(said, self.tool("lower", "p.xml", "--cycle-time", "100ms", status=2))

    def test_the_second_reading_takes_nothing_of_the_first(self) -> None:
        for file in (Path(simulate.__file__).parent).glob("*.py"):
            self.assertNotIn("vcp_tools.lower", file.read_text(encoding="utf-8"), file.name)

    def test_profile_programs_are_taken_too(self) -> None:
        for name in ("crossing", "two_hand", "route", "points", "two_tracks", "odometer"):
            file, rows = EXAMPLES / f"{name}.st", [str(EXAMPLES / f"{name}.csv")]
            source, tree = source_and_tree(file)
            again = Source(lowered(tree, source, name, 0, "").text.encode("latin-1"))
            self.assertEqual(list(simulated("p", source, tree, None, rows)), list(simulated("p", again, parse_wider(again.text), None, rows)))

    def test_a_comparison_names_the_first_difference(self) -> None:
        run = ["cycle,q,y", "0,1,2", "1,0,3", "end 2"]
        self.assertEqual(compared(run, ["cycle,Q,y", *run[1:]]), "")
        self.assertIn("cycle 1: y is 3 by the second reading, and 4", compared(run, [*run[:2], "1,0,4", "end 2"]))
        self.assertIn("`end 2` by the second reading, and `stop 2 RANGE 4:1`", compared(run, [*run[:3], "stop 2 RANGE 4:1"]))
        self.assertEqual(compared(["cycle,q", "stop 0 RANGE 4:1"], ["cycle,q", "stop 0 RANGE 9:9"]), "")
        self.assertIn("the outputs are", compared(run, ["cycle,q", "end 0"]))


@unittest.skipUnless(find_module("lark"), "lark isn't installed")
class Compared(InFolder):
    """Runs of what is written by the program `vcp`, against the second reading."""

    @needs_program
    def test_each_block_is_as_its_timing_diagram(self) -> None:
        for name in STEPS:
            text, rows, wanted = block_text(name)
            self.write("p.st", text)
            self.write("in.csv", rows)
            self.tool("lower", "p.st", "--cycle-time", "100ms", "-o", "low.st")
            self.assertEqual(self.program("run", "low.st", "in.csv").decode().rstrip("\n").split("\n"), wanted, name)

    @needs_program
    def test_controllers(self) -> None:
        for file in sorted([*CONTROLLERS.glob("*.st"), *CONTROLLERS.glob("*.xml")]):
            printed = self.tool("lower", str(file), "--cycle-time", "100ms", "--check", str(file.with_suffix(".csv")))
            self.assertRegex(printed, r": both readings are the same: end \d+\n\Z")

    @needs_program
    def test_a_difference_is_found(self) -> None:
        self.write("p.st", HEAD + "y := n;\nEND_PROGRAM\n")
        self.write("in.csv", "a,b,n\n0,0,4\n")
        self.assertIn("both readings are the same: end 1", self.tool("lower", "p.st", "--check", "in.csv"))

    @needs_program
    def test_tools_show_the_names_and_lines_of_the_original(self) -> None:
        declared = "VAR t : TON := (PT := T#200ms); v : ARRAY[0..1] OF INT; END_VAR\n"
        self.write("p.st", HEAD + declared + "t(IN := a);\nq := t.Q;\nv[1] := n;\ny := 100 / v[1];\nEND_PROGRAM\n")
        self.write("in.csv", "a,b,n\n1,0,5\n1,0,4\n1,0,2\n1,0,0\n")
        self.tool("lower", "p.st", "--cycle-time", "100ms", "-o", "low.st")
        printed = self.tool("table", "low.st", "in.csv", "t.ET", "v[1]", "q", "--from", "p.st", status=9)
        self.assertEqual([" ".join(line.split()) for line in printed.split("\n")[:4]], ["cycle t.ET v[1] q", "0 0 5 0", "1 100 4 0", "2 200 2 1"])
        self.assertIn(" t.elapsed $end\n", self.tool("vcd", "low.st", "in.csv", "--from", "p.st", status=9))
        printed = self.tool("explain", "--from", "p.st", "run", "low.st", "in.csv", status=2)
        self.assertIn("      from p.st:8: y := 100 / v[1];\n", printed)
        printed = self.tool("lint", "low.st", "--from", "p.st", status=9)
        self.assertIn("the input `b` is never read", printed)
        self.assertIn("      from p.st:2: VAR_INPUT a, b : BOOL; n : INT; END_VAR\n", printed)
        self.assertIn("`lower` has not written this text", self.tool("lint", str(EXAMPLES / "points.st"), "--from", "p.st", status=2))

    @needs_program
    def test_made_texts(self) -> None:
        """Random texts over random rows; the count of each construct is printed where MADE_TEXTS asks for more than the usual number."""
        counted: Counter[str] = Counter()
        stops = refused = 0
        with ThreadPoolExecutor(2) as pool:
            for one, other, found, seed in pool.map(self.both, range(MADE)):
                if not one:
                    refused += 1
                    continue
                self.assertEqual(compared(one, other), "", f"seed {seed}")
                counted += found
                stops += one[-1].startswith("stop")
        self.assertLessEqual(refused, MADE // 1000)
        self.assertGreaterEqual(len(counted), CONSTRUCTS)
        self.assertGreater(stops, MADE // 100)
        if MADE > 300:
            print("; ".join(f"{name} {count}" for name, count in sorted(counted.items())), f"; stops {stops}; refused {refused}")

    def both(self, seed: int) -> tuple[list[str], list[str], Counter[str], int]:
        """Both runs of a made text, and how often each construct stands in it; no runs where a constant in it doesn't fit its variable."""
        maker = Maker(seed)
        source = Source(maker.text(6).encode("ascii"))
        tree = parse_wider(source.text)
        rows = self.write(f"{seed}.csv", made_rows(seed, 15))
        try:
            file = self.write(f"{seed}.st", lowered(tree, source, "made", 100, "100ms").text)
        except NotTaken:
            return [], [], Counter(), seed
        one = list(simulated("made", source, tree, "100ms", [str(rows)]))
        outcome = Program.found().call("run", file, rows)
        self.assertTrue(re.match("cycle", outcome.text), f"seed {seed}: {outcome.errors}")
        Path(file).unlink()
        rows.unlink()
        return one, outcome.text.rstrip("\n").split("\n"), maker.counted, seed


if __name__ == "__main__":
    unittest.main()
