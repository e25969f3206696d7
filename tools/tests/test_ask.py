"""`never`, `witness` and `rows reach`: each form of answer, mistakes that are found by rows that replay, and what is refused."""
from __future__ import annotations

import re
import shutil
import unittest
from pathlib import Path
from unittest import mock

from tests.support import EXAMPLES, InFolder, needs_program
from tests.test_ask_operations import PROGRAMS, needs_study, needs_z3
from vcp_tools.ask.branches import goals_of
from vcp_tools.ask.inputs import inputs_table, read_inputs
from vcp_tools.ask.question import Copy, Subject, named_in
from vcp_tools.needs import INSTALL
from vcp_tools.program import TOP
from vcp_tools.read.image import Slot
from vcp_tools.refusal import Refusal

PROPERTIES = TOP / "docs" / "PROPERTIES.md"
_ROW = re.compile(r"\| `(?P<program>[\w/]+\.st)` \| `(?P<condition>[^`]+)` \| [^|]* \| (?P<answer>[^|]+) \| (?P<seconds>[^|]+) \|")
MISTAKES = (
    ("crossing.st", "lights := state <> 0;", "lights := state > 1;", "motor = 1 AND NOT was(lights)"),
    ("two_hand.st", "IF NOT both THEN", "IF neither THEN", "stroke AND NOT (left AND right)"),
    ("route.st", "IF passed AND points_clear THEN", "IF passed THEN", "was(locked) AND NOT locked AND NOT points_clear"),
    ("points.st", "to_right := (right OR to_right) AND NOT left AND", "to_right := (right OR to_right) AND", "to_left AND to_right"),
    ("two_tracks.st", "    IF needed THEN\n      crossing := LOWERING; waited := 0;", "    IF failed THEN\n      crossing := LOWERING; waited := 0;",
     "raise AND NOT (island_1 AND island_2)"),
    ("patterns/conflicts.st", "c := ask_c AND NOT b;", "c := ask_c;", "b AND c"),
    ("patterns/watchdog.st", "AND (alive OR acknowledge)", "AND (alive OR sign)", "alive AND NOT was(alive) AND NOT acknowledge"),
    ("patterns/states.st", "  state := FAILED_IN;\nEND_IF;", "  state := IDLE;\nEND_IF;", "fault AND NOT failed"),
)
"""Controllers, what is changed in each, and what is never so in the right one."""
SMALL = """PROGRAM small
VAR_INPUT up : BOOL; n : INT; END_VAR
VAR_OUTPUT full : BOOL; left : INT := 5; END_VAR
VAR CONSTANT MOST : INT := 5; END_VAR
VAR t : INT; END_VAR
IF up THEN t := MIN(t + 1, MOST); ELSE t := 0; END_IF;
full := t = MOST;
left := MOST - t;
END_PROGRAM
"""
WIDE = SMALL.replace(":= 5;", ":= 50;")
"""The same with more values than are told apart."""


class Words(InFolder):
    """What is asked, as a copy of the program, and what is refused before anything is asked."""

    def subject(self, text: str = SMALL) -> Subject:
        """A program in the folder."""
        return Subject(str(self.write("small.st", text)))

    def test_a_question_is_an_output_of_a_copy(self) -> None:
        copy = Copy(self.subject())
        name = copy.ask("full AND WAS(left) > was(T)")
        lines = copy.text().decode().split("\n")
        self.assertIn("VAR t : INT; END_VAR VAR_OUTPUT _q0 : BOOL; END_VAR VAR _w0 : INT := 5; _w1 : INT ; END_VAR", lines[4])
        self.assertEqual(lines[8:], ["", "_q0 :=", "full AND _w0       > _w1   ", ";", "_w0 := left;", "_w1 := t;", "END_PROGRAM", ""])
        self.assertEqual((name, copy.asked), ("_q0", {11: "full AND WAS(left) > was(T)"}))

    def test_names_that_the_program_has_are_left_to_it(self) -> None:
        subject = self.subject(SMALL.replace("t : INT", "t, _q0, _W0 : INT"))
        copy = Copy(subject)
        self.assertEqual(copy.ask("was(full)"), "_q1")
        self.assertIn("_w1 : BOOL", copy.text().decode())
        self.assertEqual(named_in(["MOST > 3 AND T < 2", "up"], subject), ["up", "t"])

    def test_what_is_no_expression(self) -> None:
        for text, told in (("full; left := 3", "`;` has no place"), ("left := 3", "`:=` has no place"), ("fall", "did you mean `full`"),
                           ("was(full AND up)", "takes the name"), ("was(MOST) > 1", "no input, output or variable"),
                           ("full (* open", "has no place"), ("IF full", "`IF` has no place"), ("was(nothing)", "no input, output, variable")):
            with self.assertRaisesRegex(Refusal, re.escape(told)):
                Copy(self.subject()).ask(text)

    def test_goals_of_a_program(self) -> None:
        copy = Copy(self.subject(SMALL.replace("full := t", "CASE n + 1 OF 3, 5..7: ; -1: t := 1; END_CASE;\nfull := t")))
        told = [(goal.line, goal.told) for goal in goals_of(copy)]
        self.assertEqual(told, [(6, "IF up"), (6, "ELSE of IF up"), (7, "no branch of CASE n + 1"), (7, "label 3 of CASE n + 1"),
                                (7, "label 5..7 of CASE n + 1"), (7, "label -1 of CASE n + 1"), (3, "full turns TRUE"), (3, "full turns FALSE")])
        text = copy.text().decode()
        self.assertIn("OF 3, 5..7: _q2 := _q2 OR (n + 1) = 3; _q3 := _q3 OR (n + 1) >= 5 AND (n + 1) <= 7; ; -1: _q4 := TRUE;", text)
        self.assertIn("t := 1;  ELSE _q5 := TRUE; END_CASE;", text)
        self.assertIn("_q3 := FALSE;", text)

    def test_the_table_of_inputs(self) -> None:
        inputs = [Slot("up", "BOOL", 0), Slot("n", "INT", 1)]
        file = str(self.write("ends.csv", "input,least,greatest\nN,-5, 7\n"))
        self.assertEqual(read_inputs(file, inputs), {1: (-5, 7)})
        for text, told in (("n,0,1\n", "the first line"), ("input,least,greatest\nm,0,1\n", "no input"), ("input,least,greatest\nn,3,1\n", "above"),
                           ("input,least,greatest\nup,0,2\n", "`2` is no value"), ("input,least,greatest\nn,0\n", "2 fields"),
                           ("input,least,greatest\nn,0,1\nn,0,1\n", "twice")):
            with self.assertRaisesRegex(Refusal, told):
                read_inputs(str(self.write("ends.csv", text)), inputs)
        self.assertEqual(inputs_table({1: (-5, 7), 0: (0, 0)}, inputs), "input,least,greatest\nup,0,0\nn,-5,7\n")

    @needs_program
    def test_without_z3_it_is_said_how_it_is_installed(self) -> None:
        from vcp_tools.ask.cycles import solver_module
        solver_module.cache_clear()
        self.addCleanup(solver_module.cache_clear)
        self.write("small.st", SMALL)
        with mock.patch("importlib.util.find_spec", return_value=None):
            for words in (("never", "small.st", "full"), ("witness", "small.st"), ("rows", "reach", "small.st")):
                self.assertIn(INSTALL, self.tool(*words, status=2))


@needs_z3
@needs_study
@needs_program
class Never(InFolder):
    """Each form of answer."""

    def setUp(self) -> None:
        super().setUp()
        self.write("small.st", SMALL)

    def test_by_ranges(self) -> None:
        self.assertIn("never: proved by ranges, for every run (", self.tool("never", "small.st", "t > 5"))
        self.assertIn("never: proved by ranges, for every run (", self.tool("never", "small.st", "t - was(t) > 1"))
        self.assertIn("also where nothing is assumed", self.tool("never", "small.st", "t > 5", "--assume", "up"))

    def test_by_induction(self) -> None:
        self.write("wide.st", WIDE)
        self.assertRegex(self.tool("never", "wide.st", "full AND left <> 0"), r"^never: by induction of depth \d+ \(trusted: z3 and this tool\) \(")
        self.assertRegex(self.tool("never", "wide.st", "t - was(t) > 1"), r"^never: by induction of depth \d+ ")

    def test_rows_that_replay(self) -> None:
        told = self.tool("never", "small.st", "full AND n = -7", "-o", "found.csv", status=9)
        self.assertIn("comes in cycle 4: rows in found.csv, replayed by `vcp run` (", told)
        self.assertEqual((self.folder / "found.csv").read_text(), "up,n\n1,0\n1,0\n1,0\n1,0\n1,-7\n")
        self.assertIn("    4   1  -7     1     0\nend 5\n", told)
        self.assertIn("cycle  up  n  full  left  t\n", self.tool("never", "small.st", "was(t) = 1 AND full = was(full)", status=9))

    def test_open(self) -> None:
        told = self.tool("never", "small.st", "full", "--cycles", "3", status=10)
        self.assertRegex(told, r"^none found within 3 cycles \(.*\)\nopen: behind t=\d it comes after 2 cycles without it, ")

    def test_under_what_is_assumed(self) -> None:
        told = self.tool("never", "small.st", "full", "--assume", "NOT (up AND was(up))")
        self.assertRegex(told, r"^never: by induction of depth \d+ \(trusted: z3 and this tool\); assumed: NOT \(up AND was\(up\)\) \(")
        self.write("ends.csv", "input,least,greatest\nup,FALSE, 0\n")
        self.assertIn("never: proved by ranges; inputs as in ends.csv (", self.tool("never", "small.st", "full", "--inputs", "ends.csv"))
        self.write("ends.csv", "input,least,greatest\nn,0,5\n")
        self.write("wide.st", WIDE)
        told = self.tool("never", "wide.st", "full AND left <> 0 AND n > 2", "--inputs", "ends.csv")
        self.assertRegex(told, r"^never: by induction .*; inputs as in ends.csv \(")
        self.assertIn("no cycle at all is released", self.tool("never", "small.st", "full", "--assume", "t = 9", status=2))

    def test_what_cannot_be_read(self) -> None:
        self.assertIn("`full AND`: ", self.tool("never", "small.st", "full AND", status=2))
        self.assertIn("`t`: ", self.tool("never", "small.st", "t", status=2))
        self.assertIn("`n + 1 > 3`: the ADD in column 3 may stop", self.tool("never", "small.st", "n + 1 > 3", status=2))
        self.assertIn("INT_TO_DINT", self.tool("never", "small.st", "n + 1 > 3", status=2))
        self.assertRegex(self.tool("never", "small.st", "INT_TO_DINT(n) + 1 > 32768"), "^never: ")
        self.write("bad.st", SMALL.replace("full := t = MOST;", "full := t;"))
        self.assertIn("bad.st:7:1 T3 Mismatch", self.tool("never", "bad.st", "full", status=2))
        self.write("small.img", self.program("compile", "small.st"))
        self.assertIn("this is an image", self.tool("never", "small.img", "full", status=2))
        self.assertIn("at least one cycle", self.tool("never", "small.st", "full", "--cycles", "0", status=2))

    def test_stops_end_a_run(self) -> None:
        self.write("s.st", "PROGRAM s VAR_INPUT n : INT; END_VAR VAR_OUTPUT y : INT; END_VAR y := n + 1; END_PROGRAM")
        self.assertRegex(self.tool("never", "s.st", "n = 32767"), "^never: ")
        shutil.copy(EXAMPLES / "shares.st", self.folder)
        self.write("ends.st", "PROGRAM e VAR_OUTPUT y : INT; END_VAR VAR t : INT; END_VAR t := t + 1; y := 100 / (3 - t); END_PROGRAM")
        self.assertIn("never: no run comes to the end of cycle 2 (", self.tool("never", "ends.st", "y = -1"))
        self.assertIn("comes in cycle 2: 3 cycles, replayed", self.tool("never", "shares.st", "share = 100", status=9))


@needs_z3
@needs_study
@needs_program
class Controllers(InFolder):
    """Properties of the examples: shown of the right ones, and refuted of changed ones."""

    def test_planted_mistakes(self) -> None:
        for name, right, wrong, condition in MISTAKES:
            text = (EXAMPLES / name).read_text(encoding="utf-8")
            self.assertEqual(text.count(right), 1, name)
            self.assertRegex(self.tool("never", str(self.write("right.st", text)), condition), r"^never: ", name)
            self.write("wrong.st", text.replace(right, wrong))
            self.assertRegex(self.tool("never", "wrong.st", condition, status=9), r"^comes in cycle \d+: rows in wrong.never.csv, replayed by `vcp run` ", name)

    def test_the_table_of_the_document(self) -> None:
        rows = [match for match in map(_ROW.match, PROPERTIES.read_text(encoding="utf-8").split("\n")) if match]
        self.assertGreater(len(rows), 30)
        self.assertEqual({row["program"] for row in rows}, {str(it.relative_to(EXAMPLES)) for it in PROGRAMS})
        statuses = {"never": 0, "comes": 9, "open": 10}
        for row in rows:
            words = ["never", str(EXAMPLES / row["program"]), row["condition"].replace("\\", "")]
            told = self.tool(*words, "-o", "found.csv", status=statuses[row["answer"].split(",")[0].split(" ")[0]])
            spelled = row["answer"].replace("never, ranges", "never: proved by ranges").replace("never, depth", "never: by induction of depth")
            self.assertIn(spelled, told, row[0])

    def test_files_of_rows_are_written_where_it_is_said(self) -> None:
        self.tool("never", str(EXAMPLES / "crossing.st"), "motor = 2", "-o", "nowhere/found.csv", status=2)
        self.tool("never", str(EXAMPLES / "crossing.st"), "motor = 2", status=9)
        self.assertTrue(Path(self.folder / "crossing.never.csv").is_file())


@needs_z3
@needs_study
@needs_program
class Witness(InFolder):
    """Operations that may stop."""

    def test_each_form_of_answer(self) -> None:
        for name in ("add_int.st", "shares.st", "two_hand.st"):
            shutil.copy(EXAMPLES / name, self.folder)
        self.assertRegex(self.tool("witness", "add_int.st", status=9),
                         r"^2 ADD RANGE at 8:10: stops in cycle 0: rows in add_int.stop-2-range.csv, replayed by `vcp run` \(")
        self.assertEqual((self.folder / "add_int.stop-2-range.csv").read_text(), "x\n32767\n")
        self.assertIn("DIVZERO at 8:14: stops in cycle 3: 4 cycles, replayed by `vcp run`", self.tool("witness", "shares.st", status=9))
        self.assertIn("no operation may stop, whatever the rows: proved by ranges", self.tool("witness", "two_hand.st"))

    def test_what_may_stop_and_cannot(self) -> None:
        self.write("n.st", "PROGRAM p VAR_INPUT d : INT; END_VAR VAR_OUTPUT y : INT; END_VAR\nIF d * 2 <> 6 THEN y := 100 / (d - 3); END_IF;\nEND_PROGRAM")
        told = self.tool("witness", "n.st", status=9)
        self.assertRegex(told, r"MUL RANGE at 2:6: stops in cycle 0: ")
        self.assertRegex(told, r"DIV DIVZERO at 2:29: never stops: by induction of depth 0 \(trusted: z3 and this tool\)")

    def test_turns_and_places(self) -> None:
        self.write("f.st", "PROGRAM p VAR_INPUT n : INT; END_VAR VAR_OUTPUT y : INT; END_VAR VAR k : INT; END_VAR\n"
                           "FOR k := 1 TO 3 DO IF n > 0 THEN y := y + n; END_IF; END_FOR;\nEND_PROGRAM")
        told = self.tool("witness", "f.st", "-o", ".", status=9)
        self.assertRegex(told, r"ADD RANGE at 2:41 k=2: stops in cycle 0: rows in f.stop-\d+-range.csv")

    def test_counters(self) -> None:
        self.write("t.st", "PROGRAM p VAR_INPUT a, b : BOOL; END_VAR VAR_OUTPUT y : INT; END_VAR\nIF a AND NOT b THEN y := y + 1; END_IF;\nEND_PROGRAM")
        told = self.tool("witness", "t.st", "--cycles", "5", status=9)
        self.assertRegex(told, r"^\d+ ADD RANGE at 2:28: stops in cycle 32767: rows in t.stop-\d+-range.csv, replayed by `vcp run` \(")
        self.write("u.st", "PROGRAM p VAR_OUTPUT y : INT; END_VAR\ny := y + 2;\nEND_PROGRAM")
        self.assertIn("ADD RANGE at 2:8: stops in cycle 16383: 16384 cycles, replayed", self.tool("witness", "u.st", "--cycles", "5", status=9))

    def test_open(self) -> None:
        self.write("t.st", "PROGRAM p VAR_INPUT n : INT; END_VAR VAR_OUTPUT y : INT; END_VAR\nIF n = 7 THEN y := y + 1; END_IF;\nEND_PROGRAM")
        self.assertRegex(self.tool("witness", "t.st", "--cycles", "5", status=10), r"ADD RANGE at 2:22: open: it stops in none of 5 cycles")


@needs_z3
@needs_study
@needs_program
class Reach(InFolder):
    """Rows that reach what can be reached."""

    def test_examples(self) -> None:
        for name in ("crossing", "two_hand", "points"):
            told = self.tool("rows", "reach", str(EXAMPLES / f"{name}.st"), "-o", f"{name}.csv")
            self.assertIn("all branches, labels and turns of BOOL outputs are reached\n", told)
            self.assertIn("end ", self.tool("table", str(EXAMPLES / f"{name}.st"), f"{name}.csv"))

    def test_what_is_never_reached(self) -> None:
        self.write("p.st", SMALL.replace("full := t", "CASE t OF 0..2: ; 2: left := 1; 3..5: ; END_CASE;\nIF t = 3 AND left = 2 THEN t := 0; END_IF;\n"
                                                      "full := t"))
        told = self.tool("rows", "reach", "p.st", status=9)
        self.assertRegex(told, r"(?m)^7:19 label 2 of CASE t: never: ")
        self.assertRegex(told, r"(?m)^7:1 no branch of CASE t: never: ")
        self.assertIn("rows in p.reach.csv: ", told)

    def test_all(self) -> None:
        self.write("small.st", SMALL)
        self.assertIn("3:12 full turns TRUE: cycle ", self.tool("rows", "reach", "small.st", "--all"))
        self.write("none.st", "PROGRAM p VAR_OUTPUT y : INT; END_VAR y := 1; END_PROGRAM")
        self.assertIn("there is no branch", self.tool("rows", "reach", "none.st"))


if __name__ == "__main__":
    unittest.main()
