"""`table`, `vcd` and `expect`: a run with its variables. What is wanted is worked out by hand from the programs' texts."""
from __future__ import annotations

import contextlib
import io
import re
import shutil
import subprocess
import unittest
from unittest import mock

from vcp_tools.pictures.observe import opened
from vcp_tools.pictures.runs import side_by_side
from vcp_tools.program import Program
from vcp_tools.read.run_lines import read_run, read_trace
from vcp_tools.read.source import Source
from vcp_tools.refusal import Refusal
from tests.support import EXAMPLES, InFolder, needs_program

COUNTER = """PROGRAM Counter
VAR_INPUT go : BOOL; END_VAR
VAR_OUTPUT full : BOOL; END_VAR
VAR CONSTANT MOST : INT := 2; END_VAR
VAR RETAIN n : INT := -1; END_VAR
VAR now, far : INT; END_VAR
now := n;
IF go THEN n := n + 1; END_IF;
far := now + 100;
full := n >= MOST;
END_PROGRAM
"""
ROWS = "go\n0\n1\n1\n1\n0\n"


def values_of_dump(text: str) -> dict[str, list[tuple[int, int]]]:
    """A small reader of value change dumps: for each name its values with their times. Integers are signed."""
    head, _, body = text.partition("$enddefinitions $end\n")
    names = {mark: (name, int(bits), kind) for kind, bits, mark, name in re.findall(r"\$var (\w+) (\d+) (\S+) (\S+) \$end", head)}
    found: dict[str, list[tuple[int, int]]] = {name: [] for name, _, _ in names.values()}
    time = -1
    for line in body.split("\n"):
        if line.startswith("#"):
            time = int(line[1:])
        elif line and not line.startswith("$"):
            digits, mark = (line[1:].split(" ") if line[0] == "b" else (line[0], line[1:]))
            name, bits, kind = names[mark]
            value = int(digits, 2)
            found[name].append((time, value - (1 << bits) if kind == "integer" and value >> (bits - 1) else value))
    return found


class Tables(InFolder):
    """`table`."""

    def setUp(self) -> None:
        super().setUp()
        self.write("p.st", COUNTER)
        self.write("in.csv", ROWS)

    @needs_program
    def test_each_variable_is_shown(self) -> None:
        wanted = "cycle,go,n,now,far,full\n0,0,-1,-1,99,0\n1,1,0,-1,99,0\n2,1,1,0,100,0\n3,1,2,1,101,1\n4,0,2,2,102,1\nend 5\n"
        self.assertEqual(self.tool("table", "p.st", "in.csv", "go", "N", "now", "far", "full", "--csv", "--trace"), wanted)

    @needs_program
    def test_inputs_and_outputs_where_no_name_is_given(self) -> None:
        wanted = "cycle  go  full\n    0   0     0\n    1   1     0\n    3   1     1\n    4   0     1\nend 5\n"
        self.assertEqual(self.tool("table", "p.st", "in.csv", "--changes"), wanted)

    @needs_program
    def test_cycles_in_which_named_columns_change(self) -> None:
        wanted = "cycle  go   n  far\n    0   0  -1   99\n    3   1   2  101\nend 5\n"
        self.assertEqual(self.tool("table", "p.st", "in.csv", "go", "n", "far", "--changes-of", "full"), wanted)
        self.assertEqual(self.tool("table", "p.st", "in.csv", "n", "--changes-of", "GO,now", "--csv"), "cycle,n\n0,-1\n1,0\n2,1\n3,2\n4,2\nend 5\n")
        self.assertIn("`ful` is no input", self.tool("table", "p.st", "in.csv", "--changes-of", "ful", status=2))

    @needs_program
    def test_what_cannot_be_shown_is_refused(self) -> None:
        self.assertIn("did you mean `full`?", self.tool("table", "p.st", "in.csv", "ful", status=2))
        self.assertIn("`MOST` is no input, output or variable", self.tool("table", "p.st", "in.csv", "MOST", status=2))
        self.assertIn("ROWS is missing", self.tool("table", "p.st", status=2))
        self.assertIn("R4 Form", self.tool("table", "p.st", "--cycles", "3", status=2))

    @needs_program
    def test_a_run_that_stops(self) -> None:
        shutil.copy(EXAMPLES / "shares.st", self.folder)
        printed = self.tool("table", "shares.st", "--cycles", "5", "--all", "--csv", status=9)
        self.assertEqual(printed.split("\n")[-2], "stop 3 DIVZERO 8:14")

    def test_a_variable_becomes_an_output_and_a_constant_does_not(self) -> None:
        text = opened(Source(COUNTER.encode())).decode()
        self.assertEqual(re.findall(r"^VAR.*?(?= \w+(?:, \w+)* :)", text, re.M), ["VAR_INPUT", "VAR_OUTPUT", "VAR CONSTANT", "VAR_OUTPUT", "VAR_OUTPUT"])

    def test_printed_runs_and_traces_after_the_document(self) -> None:
        run = read_run("cycle,y,z\n0,6,-1\nstop 1 RANGE 2:3\n")
        self.assertEqual((run.names, run.rows, run.ending, run.is_whole), (["y", "z"], [[6, -1]], "stop 1 RANGE 2:3", False))
        words, last = read_trace("0 INPUT 10737418236 5 1 1\n3 OUT 13529146978 6 644245096 644245096\nreleased\n")
        told = [(word.operation, word.kind, word.value, word.expected) for word in words]
        self.assertEqual((told, last), ([(0, "INPUT", 5, 1), (3, "OUT", 6, 644245096)], "released"))
        self.assertEqual((read_run("cycle\n0\n1\nend 2\n").rows, read_run("cycle,y\nend 0\n").rows), ([[], []], []))
        self.assertEqual((read_run("cycle,y\n0,5\n1,6").rows, read_run("cycle,y\n0,5\n1,6").ending), ([[5], [6]], ""))
        for text in ("", "rows\n", "cycle,y\n0,5\n1\nend 2\n", "cycle,y\n0,x\nend 1\n", "cycle,y\n0,9223372036854775808\nend 1\n"):
            with self.assertRaises(Refusal, msg=text):
                read_run(text)


class SideBySide(InFolder):
    """Runs that are made at once."""

    def test_their_progress_is_told(self) -> None:
        script = "#!/bin/sh\necho cycle,y\nfor at in 0 1 2; do sleep 0.2; echo $at,$2; done\necho end 3\necho $2 >&2\nexit $2\n"
        program = self.write("program", script)
        program.chmod(0o755)
        errors = io.StringIO()
        with mock.patch("vcp_tools.pictures.runs.SECONDS", 0.1), contextlib.redirect_stderr(errors):
            found = side_by_side(Program(program), {"one": ("run", "0"), "other": ("run", "2")}, ("--cycles", "3"))
        self.assertEqual([(it.status, it.fault) for it in found.values()], [(0, "0"), (2, "2")])
        self.assertEqual(read_run(found["other"].text).rows, [[2], [2], [2]])
        self.assertRegex(errors.getvalue(), r"cycles of 3 behind \d+ s: one \d, other \d\n")

    def test_a_program_that_cannot_be_run(self) -> None:
        with self.assertRaises(Refusal):
            side_by_side(Program(self.folder / "none"), {"run": ("run", "p")}, ("--cycles", "3"))


class Dumps(InFolder):
    """`vcd`, read back by a reader that knows nothing of the writer."""

    @needs_program
    def test_a_dump_is_read_back(self) -> None:
        self.write("p.st", COUNTER)
        self.write("in.csv", ROWS)
        text = self.tool("vcd", "p.st", "in.csv", "--cycle-time", "20ms")
        self.assertIn("$timescale 1 ms $end", text)
        self.assertEqual(values_of_dump(text), {"go": [(0, 0), (20, 1), (80, 0)], "full": [(0, 0), (60, 1)], "n": [(0, -1), (20, 0), (40, 1), (60, 2)],
                                                "now": [(0, -1), (40, 0), (60, 1), (80, 2)], "far": [(0, 99), (40, 100), (60, 101), (80, 102)]})
        self.assertTrue(text.endswith("#100\n"))
        self.assertIn("`20` is no time", self.tool("vcd", "p.st", "in.csv", "--cycle-time", "20", status=2))

    @unittest.skipUnless(shutil.which("vcd2fst"), "vcd2fst isn't there")
    @needs_program
    def test_the_viewers_own_reader_takes_a_dump(self) -> None:
        self.write("run.vcd", self.tool("vcd", str(EXAMPLES / "route.st"), str(EXAMPLES / "route.csv")))
        subprocess.run(["vcd2fst", "run.vcd", "run.fst"], cwd=self.folder, check=True, capture_output=True)


class Wanted(InFolder):
    """`expect`."""

    def setUp(self) -> None:
        super().setUp()
        self.write("p.st", COUNTER)
        self.write("in.csv", ROWS)

    @needs_program
    def test_rows_as_wanted(self) -> None:
        for text in ("cycle,full\n0,0\n1,0\n2,0\n3,1\n4,1\nend 5\n", "n,FULL\n-1,FALSE\n0,\n1,0\n2,TRUE\n,1\n", "cycle,n\n3,2\n", "cycle,n\nend 5\n"):
            self.write("want.csv", text)
            self.assertIn("as wanted", self.tool("expect", "p.st", "in.csv", "want.csv"), text)

    @needs_program
    def test_the_first_difference_is_named(self) -> None:
        for text, said in (("cycle,full\n0,0\n2,1\n3,0\n", "want.csv:3: cycle 2: full is 0, and 1 is wanted (and 1 more)"),
                           ("n\n-1\n0\n1\n2\n", "want.csv:5: the run has 5 cycles, and 4 rows are wanted"),
                           ("cycle,n\n5,2\n", "want.csv:2: cycle 5 is wanted, and the run ends before it: end 5"),
                           ("cycle,n\nend 6\n", "want.csv:2: the run ends with `end 5`, and `end 6` is wanted")):
            self.write("want.csv", text)
            self.assertIn(said, self.tool("expect", "p.st", "in.csv", "want.csv", status=9))

    @needs_program
    def test_an_early_end_that_is_not_wanted(self) -> None:
        shutil.copy(EXAMPLES / "shares.st", self.folder)
        self.write("want.csv", "share\n33\n50\n100\n")
        self.assertIn("the run ends early", self.tool("expect", "shares.st", "--cycles", "5", "want.csv", status=9))
        self.write("want.csv", "cycle,share\n0,33\n1,50\n2,100\nstop 3 DIVZERO 8:14\n")
        self.tool("expect", "shares.st", "--cycles", "5", "want.csv")

    @needs_program
    def test_wanted_rows_that_are_none(self) -> None:
        for text, said in (("", "there is no record"), ("nn\n1\n", "`nn` is no input"),
                           ("n,full\n1\n", "want.csv:2: 1 fields"), ("full\n2\n", "`2` is no value of `full`")):
            self.write("want.csv", text)
            self.assertIn(said, self.tool("expect", "p.st", "in.csv", "want.csv", status=2))
        self.assertIn("WANTED is missing", self.tool("expect", "p.st", "in.csv", status=2))


if __name__ == "__main__":
    unittest.main()
