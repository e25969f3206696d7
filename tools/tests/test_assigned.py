"""Operations are told with the variable that their statement assigns, or with those whose condition they are part of."""
from __future__ import annotations

import re
import shutil
import sqlite3
import unittest

from tests.support import EXAMPLES, InFolder, needs_program
from tests.test_campaign import needs_programs
from vcp_tools.program import Program
from vcp_tools.read.assigned import Assigned
from vcp_tools.read.given import load
from vcp_tools.read.source import Source
from vcp_tools.refusal import FOUND

TEXT = b"""PROGRAM p
VAR_INPUT a, b : BOOL; i : INT; END_VAR
VAR_OUTPUT q, r, s : BOOL; m : INT := 5; END_VAR
VAR t, k : INT; END_VAR
q := a AND b;
IF a OR b THEN t := t + 1; r := a; ELSIF NOT a THEN s := b; ELSE m := -t; END_IF;
CASE i OF
  1, 2..3: m := i;
  -4: FOR k := 0 TO 3 DO m := m + k; END_FOR;
ELSE q := a; r := b; s := a; t := 0;
END_CASE;
IF a THEN ; END_IF; m := SEL(a, m, i);
END_PROGRAM
"""


class Places(unittest.TestCase):
    """What stands at places of a text."""

    def test_each_place_has_its_variables(self) -> None:
        assigned = Assigned(Source(TEXT))
        lines = TEXT.decode().split("\n")
        all_of_if, all_of_case = "in the condition for t, r, s and 1 more", "in the condition for m, k, q and 3 more"
        for line, text, wanted in (
            (5, "AND", "for q"), (6, "IF", all_of_if), (6, "OR b", all_of_if), (6, "+ 1", "for t"), (6, "NOT", "in the condition for s, m"), (6, "-t", "for m"),
            (7, "CASE", all_of_case), (8, "1,", all_of_case), (8, "3:", all_of_case), (8, "i;", "for m"), (9, "-4", "in the condition for k, m, q and 3 more"),
            (9, "k :=", "for k"), (9, "m :=", "for m"), (9, "+ k", "for m"), (10, "s :=", "for s"), (12, "a THEN", ""), (12, "SEL", "for m"), (3, "5", ""),
        ):
            with self.subTest((line, text)):
                self.assertEqual(assigned.at(line, lines[line - 1].index(text) + 1), wanted)
        self.assertEqual(assigned.at(0, 0), "")

    def test_names_in_lines_of_tables(self) -> None:
        assigned = Assigned(Source(TEXT))
        for line, wanted in (("operation 8 AND at 5:8", "operation 8 AND at 5:8 for q"), ("operation 2 INPUT a at 2:11", "operation 2 INPUT a at 2:11"),
                             ("  operand 1 8 0 add 5: operation 8 ADD at 9:28 k=2", "  operand 1 8 0 add 5: operation 8 ADD at 9:28 k=2 for m"),
                             ("operation 3, OR at 6:6", "operation 3, OR at 6:6 in the condition for t, r, s and 1 more"),
                             ("operation 9 CONST at 0:0", "operation 9 CONST at 0:0")):
            self.assertEqual(assigned.named(line), wanted)


class Programs(InFolder):
    """Operations of programs, by the places that are listed."""

    @needs_program
    def test_each_operation_with_a_place_has_a_name(self) -> None:
        for name in ("crossing", "two_hand", "route", "odometer", "two_tracks"):
            given = load(Program.found(), str(EXAMPLES / f"{name}.st"))
            for operation in given.image.operations:
                if operation.line:
                    told = given.told(operation)
                    self.assertTrue(given.image.name_of(operation) or " for " in told, (name, told))

    @needs_program
    def test_verdicts_and_stops_are_told_with_them(self) -> None:
        for name in ("crossing.st", "crossing.csv", "crossing.faults", "shares.st", "add.st"):
            shutil.copy(EXAMPLES / name, self.folder)
        self.write("c.img", self.program("compile", "crossing.st", "--seed", "7"))
        printed = self.tool("explain", "--source", "crossing.st", "inject", "c.img", "crossing.csv", "crossing.faults")
        self.assertIn("crossing.faults:4:1: this fault isn't seen (`wrong`): operation 8, ADD at 12:20 for seen\n", printed)
        self.assertIn("operation 8, ADD at 12:20\n", self.tool("explain", "inject", "c.img", "crossing.csv", "crossing.faults"))
        printed = self.tool("explain", "--source", "add.st", "inject", "c.img", "crossing.csv", "crossing.faults", status=2)
        self.assertIn("isn't the source of this image", printed)
        self.assertIn("stops in cycle 3, for share: this is a division by 0", self.tool("explain", "run", "shares.st", "--cycles", "5", status=2))
        self.tool("report", "crossing.st", "crossing.csv", "--faults", "crossing.faults", "-o", "r.html", status=None)
        report = (self.folder / "r.html").read_text(encoding="utf-8")
        self.assertIn("<th>operation</th>", report)
        self.assertIn("<code>ADD</code> <code>for seen</code>", report)
        self.assertIn("<code>in the condition for state</code>", report)

    @needs_programs
    def test_tables_and_stores_of_campaigns_have_them(self) -> None:
        for name in ("crossing.st", "crossing.csv", "crossing.faults", "add.st"):
            shutil.copy(EXAMPLES / name, self.folder)
        self.write("c.img", self.program("compile", "crossing.st"))
        words = ("campaign", "c.img", "crossing.csv", "crossing.faults", "--quiet")
        plain = self.tool(*words, status=FOUND)
        named = self.tool(*words, "--source", "crossing.st", "--store", "s.db", status=FOUND)
        self.assertIn("  operation 8 ADD at 12:20 for seen\n", named)
        self.assertIn("  operation 29 AND at 19:19 in the condition for state\n", named)
        self.assertIn(": operation 8 ADD at 12:20 for seen\n", named)
        self.assertIn("  operation 2 INPUT gate_down at 6:3\n", named)
        self.assertEqual(re.sub(r" (for|in the condition for) [a-z, ]+$", "", named, flags=re.M), plain)
        database = sqlite3.connect(self.folder / "s.db")
        self.addCleanup(database.close)
        self.assertEqual(database.execute("SELECT DISTINCT name FROM fault WHERE operation = 8").fetchall(), [("for seen",)])
        self.assertIn("isn't the source of this image", self.tool(*words, "--source", "add.st", status=2))


if __name__ == "__main__":
    unittest.main()
