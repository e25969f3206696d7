"""`lint`: each kind of finding, and programs without one."""
from __future__ import annotations

import re

from vcp_tools.lint.constants import constant
from vcp_tools.read.source import Source
from vcp_tools.read.structured_text import parse
from vcp_tools.read.syntax import Types, expressions
from tests.support import EXAMPLES, InFolder, needs_program

HEAD = "PROGRAM p\nVAR_INPUT a, b : BOOL; i : INT; END_VAR\nVAR_OUTPUT q : BOOL; r : INT; END_VAR\nVAR t : INT; END_VAR\nVAR CONSTANT C : INT := 3; END_VAR\n"
USES = "q := a OR b;\nr := i + t + C;\n"


class Findings(InFolder):
    """A body, and what is told of it."""

    def told(self, body: str, head: str = HEAD) -> list[tuple[str, str]]:
        """The line, counted from the body's first, and the kind of each finding."""
        self.write("p.st", head + body + "END_PROGRAM\n")
        printed = self.tool("lint", "p.st", status=None)
        return [(str(int(line) - head.count("\n")), kind) for line, kind in re.findall(r"^p\.st:(\d+):\d+: .* \[([a-z-]+)\]$", printed, re.M)]

    @needs_program
    def test_each_kind_at_its_place(self) -> None:
        for body, wanted in (
            (USES + "t := MIN(t + 1, 9);\n", []),
            (USES + "t := t + 1;\n", [("3", "counter-only-grows")]),
            ("q := a OR b;\nr := i + C;\nt := MIN(t + 1, 9);\n", [("-1", "feeds-itself-alone")]),
            ("q := a OR b;\nr := i + C;\nt := SEL(a, t, MAX(t - i, 0));\n", [("-1", "feeds-itself-alone")]),
            ("q := a OR b;\nr := i + C;\nIF t < 9 THEN t := t + i; END_IF;\n", [("-1", "feeds-itself-alone")]),
            ("q := a OR b;\nr := i + C;\nIF t < 9 THEN t := t + i; ELSE q := b; END_IF;\n", []),
            (USES + "IF a THEN t := t - 2; END_IF;\n", [("3", "counter-only-grows")]),
            (USES + "IF t < 9 THEN t := t + 1; END_IF;\n", []),
            (USES + "t := t + 1;\nIF a THEN t := 0; END_IF;\n", []),
            (USES + "IF FALSE THEN t := 1; END_IF;\n", [("3", "branch-never-taken")]),
            (USES + "IF C > 2 THEN t := 1; ELSE t := 2; END_IF;\n", [("3", "branch-never-taken")]),
            (USES + "IF a THEN t := 1; ELSIF b THEN t := 2; ELSIF (A) THEN t := 3; END_IF;\n", [("3", "branch-never-taken")]),
            (USES + "IF i > 32767 THEN t := 1; END_IF;\n", [("3", "branch-never-taken")]),
            (USES + "IF i = 40000 THEN t := 1; END_IF;\n", [("3", "branch-never-taken")]),
            (USES + "IF i >= -32768 THEN t := 1; END_IF;\n", [("3", "condition-always-true")]),
            (USES + "CASE i OF 1..5: t := 1;\n5..9: t := 2;\nELSE t := 3; END_CASE;\n", [("4", "labels-overlap")]),
            (USES + "CASE i OF 1..5: t := 1;\n2, C: t := 2;\nELSE t := 3; END_CASE;\n", [("4", "branch-never-taken")]),
            (USES + "CASE i OF 1, 3: t := 1;\n2: t := 2;\nELSE t := 3; END_CASE;\n", []),
            (USES + "FOR t := 5 TO 1 DO r := r + i; END_FOR;\n", [("3", "branch-never-taken")]),
            (USES + "t := 1;\nt := i;\n", [("3", "value-lost")]),
            (USES + "t := 1;\nIF a THEN t := i; END_IF;\n", []),
            ("q := a OR b;\nr := i + t + C;\nt := (i * 3) / 2;\nq := q AND (t <> (i * 3) / 2);\n", [("4", "same-on-both-sides")]),
            ("q := a XOR b XOR a = a;\nr := i + t + C;\nt := i;\n", [("1", "same-on-both-sides")]),
            ("q := a OR b OR (a AND A);\nr := i - i + t + C;\nt := i;\n", [("1", "same-on-both-sides"), ("2", "same-on-both-sides")]),
            ("IF a THEN IF a AND b THEN q := TRUE; END_IF; END_IF;\nr := i + t + C;\nt := i;\n", []),
        ):
            self.assertEqual(self.told(body), wanted, body)

    @needs_program
    def test_names_that_nothing_sets_or_reads(self) -> None:
        head = "PROGRAM p\nVAR_INPUT a,\nb : BOOL; END_VAR\nVAR_OUTPUT q,\nz : BOOL; END_VAR\n"
        head += "VAR t : INT;\nu : BOOL;\nw : INT; END_VAR\nVAR CONSTANT C : INT := 3; END_VAR\n"
        told = {(int(line) + head.count("\n"), kind) for line, kind in self.told("q := a AND u;\nt := 4;\n", head)}
        self.assertEqual(told, {(3, "input-never-read"), (5, "output-never-set"), (6, "never-read"), (7, "never-set"), (8, "never-read"), (9, "never-read")})

    @needs_program
    def test_kinds_may_be_left_out(self) -> None:
        self.write("p.st", HEAD + USES + "t := t + 1;\nEND_PROGRAM\n")
        self.assertIn("stops in cycle 32767", self.tool("lint", "p.st", status=9))
        self.assertIn("nothing that is likely", self.tool("lint", "p.st", "--allow", "counter-only-grows"))
        self.assertIn("`counters` is no kind", self.tool("lint", "p.st", "--allow", "counters", status=2))
        self.write("bad.st", "PROGRAM p")
        self.assertIn("S4 Syntax", self.tool("lint", "bad.st", status=2))

    @needs_program
    def test_the_examples_of_controls_are_clean(self) -> None:
        for name in ("crossing", "two_hand", "route", "odometer"):
            self.assertIn("nothing that is likely", self.tool("lint", str(EXAMPLES / f"{name}.st"), status=None), name)

    def test_constants_after_the_document(self) -> None:
        for text, value in (("-7 / 2", -3), ("-7 MOD 2", -1), ("7 MOD -2", 1), ("1 / 0", None), ("32767 + 1", None),
                            ("DINT#32767 + 1", 32768), ("SEL(TRUE, 1, 2)", 2),
                            ("LIMIT(0, 9, 5)", 5), ("C * 2 > 5", 1), ("a AND FALSE", 0), ("a OR b", None),
                            ("NOT (C <> 3)", 1), ("i < -32768", 0), ("40000 > i", 1),
                            ("ABS(-C)", 3), ("BOOL_TO_INT(TRUE)", 1)):
            tree = parse(Source((HEAD + f"r := {text};\nEND_PROGRAM\n").encode()))
            self.assertEqual(constant(Types(tree), next(expressions(tree.body[0]))), value, text)
