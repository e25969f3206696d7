"""`explain` on texts as they are written elsewhere: what the profile lacks is told as what it is, and nothing that the tool has put there itself."""
from __future__ import annotations

import re
import shutil

from tests.support import EXAMPLES, InFolder, needs_program

BLOCKS = """PROGRAM p
VAR_INPUT a AT %IX0.0, b : BOOL; n : INT; END_VAR
VAR_OUTPUT q : BOOL; m : INT; END_VAR
VAR state : (OPEN, WARN); trig : ARRAY[1..3] OF R_TRIG; v : ARRAY[0..1] OF INT; t : TON := (PT := T#8s); END_VAR
trig[1](CLK := a);
IF trig[1].Q THEN v[0] := n; END_IF;
q S= a AND b;
q R= b;
state := WARN;
IF n THEN m := 3; END_IF;
n := 5;
END_PROGRAM
"""


class Lacking(InFolder):
    """Each thing that the profile lacks is one thing to mend."""

    def told(self, text: str) -> list[tuple[str, str]]:
        """The line and message of each fault that is told."""
        self.write("p.st", text)
        printed = self.tool("explain", "--all", "check", "p.st", status=1)
        return re.findall(r"^p\.st:(\d+):\d+: (.*)$", printed, re.M)

    @needs_program
    def test_each_is_told_as_what_it_is(self) -> None:
        told = self.told(BLOCKS)
        wanted = [("2", "there are no direct addresses"), ("4", "there are no enumerations"), ("4", "`ARRAY[1..3] OF R_TRIG`: there are no arrays"),
                  ("4", "`ARRAY[0..1] OF INT`: there are no arrays"), ("4", "`TON` is no type"), ("5", "`trig[1](..)`: there are no arrays"),
                  ("6", "`trig[1].Q`: there are no arrays"), ("6", "`v[0]`: there are no arrays"), ("7", "write `q := q OR (a AND b);`"),
                  ("8", "write `q := q AND NOT b;`"), ("10", "the condition `n` is an INT"), ("11", "`n` is an input")]
        self.assertEqual([line for line, _ in told], [line for line, _ in wanted])
        for (_, message), (_, said) in zip(told, wanted):
            self.assertIn(said, message)
        self.assertNotIn("REAL", " ".join(message for _, message in told))

    @needs_program
    def test_a_single_call_tells_the_same(self) -> None:
        for body, said in (("q := v[1].Q;\n", "`v[1].Q`: there are no arrays; and there are no function blocks"), ("q S= a;\n", "there is no `S=`")):
            self.write("p.st", "PROGRAM p VAR_INPUT a : BOOL; END_VAR VAR_OUTPUT q : BOOL; END_VAR\n" + body + "END_PROGRAM\n")
            first = self.tool("explain", "check", "p.st", status=1).split("\n")[0]
            self.assertIn("there are no arrays" if "[" in body else said, first)
        self.write("p.st", "PROGRAM p VAR s : (A1, B1); END_VAR END_PROGRAM\n")
        self.assertIn("there are no enumerations", self.tool("explain", "check", "p.st", status=1).split("\n")[0])

    @needs_program
    def test_independent_faults_are_told(self) -> None:
        head = "PROGRAM p\nVAR_INPUT a, b : BOOL; n : INT; END_VAR\nVAR_OUTPUT q : BOOL; m : INT; END_VAR\nVAR c : INT; END_VAR\n"
        told = self.told(head + "c := c + 1.0;\nq := n.3;\nIF n THEN q := TRUE; END_IF;\nm := SHL(n, 1);\nm := MAX(n, c, 5);\n"
                         "FOR c := 0 TO n DO m := m + 1; END_FOR;\nn := 5;\nq := (a AND b;\nEND_PROGRAM\n")
        self.assertEqual([line for line, _ in told], ["5", "6", "7", "8", "9", "10", "11", "12"])
        self.assertNotIn("wasn't looked at", self.tool("explain", "--all", "check", "p.st", status=1))

    @needs_program
    def test_independent_faults_of_two_more_texts_are_told(self) -> None:
        head = "PROGRAM p\nVAR_INPUT a, b : BOOL; n : INT; END_VAR\nVAR_OUTPUT q : BOOL; m : INT; END_VAR\nVAR c : INT; d : DINT; END_VAR\n"
        for bodies in (("q := a = 1;", "IF n THEN q := TRUE; END_IF;", "m := d;", "m := n ** 2;", "m := SHL(n, 1);", "q := a OR_ELSE b;", "m := MAX(n, c, 5);",
                        "m := +n;", "c := c + 1.0;", "q := n.3;", "FOR c := 0 TO n DO m := m + 1; END_FOR;", "CASE n OF 1..m: q := TRUE; END_CASE;",
                        "TON1(IN := a, PT := T#5s);", "q := 1;", "m := TRUE;", "n := 5;", "RETURN;", "m := 16#FFFF;", "q := (a AND b;"),
                       ("m := MIN(n, T#5s);", "q := n AND a;", "m := INT_TO_DINT(n);", "CASE a OF 1: m := 1; END_CASE;", "q S= b;", "m := n MOD TRUE;",
                        "FOR n := 0 TO 3 DO m := c; END_FOR;", "IF a = 3 THEN m := 1; END_IF;", "m := ABS(n, c);", "q := NOT n = 3;")):
            told = self.told(head + "\n".join(bodies) + "\nEND_PROGRAM\n")
            self.assertEqual([line for line, _ in told], [str(line) for line in range(5, 5 + len(bodies))])

    @needs_program
    def test_the_tools_own_text_is_never_quoted(self) -> None:
        for body in ("m := T#5s + 1.5;\n", "IF 1.5 THEN m := 2; END_IF;\n", "m := MIN(1.5, T#1s, 3);\n"):
            told = self.told("PROGRAM p\nVAR_OUTPUT m : INT; END_VAR\n" + body + "END_PROGRAM\n")
            for _, message in told:
                self.assertNotRegex(message, r"`0`|`0 \+")

    @needs_program
    def test_time_is_told_on_the_safe_side(self) -> None:
        for text in ("t := T#5s;\n", "t := 5s;\n"):
            self.write("p.st", "PROGRAM p VAR t : INT; END_VAR\n" + text + "END_PROGRAM\n")
            first = self.tool("explain", "check", "p.st", status=1).split("\n")[0]
            for said in ("and 11 for a TON", "docs/PATTERNS.md", "`vcp_tools lower`"):
                self.assertIn(said, first)

    @needs_program
    def test_a_name_that_stands_twice_is_one_thing_to_mend(self) -> None:
        told = self.told("PROGRAM p\nVAR_OUTPUT q, r : INT; END_VAR\nVAR Q : BOOL; END_VAR\nQ := TRUE;\nIF q THEN r := 1; END_IF;\nEND_PROGRAM\n")
        self.assertEqual([line for line, _ in told], ["3"])
        head = "PROGRAM p\nVAR_INPUT a : BOOL; END_VAR\nVAR A : INT; END_VAR\nVAR_OUTPUT q : BOOL; END_VAR\n"
        told = self.told(head + "q := a;\na := 3;\nq := A AND q;\nEND_PROGRAM\n")
        self.assertEqual([line for line, _ in told], ["3"])
        told = self.told("PROGRAM p\nVAR_OUTPUT q, r, q : INT; END_VAR\nq := 1;\nr := q;\nEND_PROGRAM\n")
        self.assertEqual([line for line, _ in told], ["2"])


class Words(InFolder):
    """Words that were exchanged, and faults that no cycle comes to."""

    def setUp(self) -> None:
        super().setUp()
        for name in ("crossing.st", "crossing.csv", "add.st", "in.csv"):
            shutil.copy(EXAMPLES / name, self.folder)
        self.write("c.img", self.program("compile", "crossing.st") if self.built() else b"")

    def built(self) -> bool:
        """Whether a program is there."""
        from vcp_tools.program import find_program
        return find_program() is not None

    @needs_program
    def test_exchanged_files_are_seen(self) -> None:
        self.assertIn("write `vcp run crossing.st crossing.csv ..`", self.tool("explain", "run", "crossing.csv", "crossing.st", status=1).split("\n")[0])
        self.assertIn("write `vcp plain add.st in.csv ..`", self.tool("explain", "plain", "in.csv", "add.st", status=1).split("\n")[0])
        self.assertIn("write `vcp exec c.img crossing.csv ..`", self.tool("explain", "exec", "crossing.csv", "c.img", status=1).split("\n")[0])
        self.write("f.txt", "skip 5 10\n")
        self.assertIn("as in `vcp inject M ROWS F`", self.tool("explain", "inject", "c.img", "f.txt", "crossing.csv", status=1).split("\n")[0])

    @needs_program
    def test_a_fault_that_is_never_reached_is_told(self) -> None:
        self.write("f.txt", "skip 500 10\nbegin\nskip 8 10\nskip 9 10\nend\nskip 5 10\n")
        printed = self.tool("explain", "inject", "c.img", "crossing.csv", "f.txt")
        self.assertEqual(re.findall(r"^f\.txt:(\d+):1: this fault is never reached: the run has the cycles 0 to 7", printed, re.M), ["1", "3"])
        self.tool("report", "crossing.st", "crossing.csv", "--faults", "f.txt", "-o", "r.html", status=None)
        self.assertEqual((self.folder / "r.html").read_text(encoding="utf-8").count("never reached: the run ends before"), 2)

    @needs_program
    def test_a_fault_behind_a_stop_or_a_single_row_is_told(self) -> None:
        shutil.copy(EXAMPLES / "shares.st", self.folder)
        self.write("s.img", self.program("compile", "shares.st"))
        self.write("a.img", self.program("compile", "add.st"))
        said = r"^f\.txt:(\d+):1: this fault is never reached: the run has the cycles 0 to (\d+)"
        for words, script, wanted in ((("s.img", "--cycles", "5"), "skip 3 0\nskip 4 0\n", ("2", "3")),
                                      (("a.img", "in.csv"), "result 0 2 add 5\n\nresult 1 2 add 5\n", ("3", "0"))):
            self.write("f.txt", script)
            printed = self.tool("explain", "inject", *words, "f.txt", status=None)
            self.assertEqual(re.findall(said, printed, re.M), [wanted])

    @needs_program
    def test_a_refusal_names_no_file_that_is_gone(self) -> None:
        for script in ("skip 5 1000\n", "skip x 1\n", "skip 1 1\noperand 1 2 9 add 5\n", "begin\nskip 1 1\n"):
            self.write("f.txt", script)
            printed = self.tool("report", "crossing.st", "crossing.csv", "--faults", "f.txt", status=2)
            self.assertIn("`vcp_tools explain inject crossing.img crossing.csv f.txt` says more", printed)
            self.assertIn("`vcp compile crossing.st >crossing.img` makes that image", printed)
            self.assertNotIn("/tmp", printed.replace(str(self.folder), ""))
            self.assertEqual(printed.count("\n"), 1)
