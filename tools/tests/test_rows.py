"""`rows`: stimuli, rows files, and input that `vcp` accepts without warning."""
from __future__ import annotations

import unittest
from typing import Iterator
from unittest import mock

from tests.support import EXAMPLES, InFolder
from vcp_tools.explain.hints_rows import Looked, silent_faults
from vcp_tools.read.rows_file import Record, cell_value, line_of, read_rows, stream_rows
from vcp_tools.read.syntax import Declaration
from vcp_tools.refusal import FOUND

PROGRAM = "PROGRAM p\nVAR_INPUT go : BOOL; speed : INT; END_VAR\nVAR_OUTPUT y : BOOL; END_VAR\ny := go AND speed > 3;\nEND_PROGRAM\n"


class Stimuli(InFolder):
    """Both ways."""

    def test_values_hold_until_they_change(self) -> None:
        self.write("in.stim", "# a start\ngo speed\n2\n1 go=1 speed=-5   # off\n3 speed=7\n")
        self.assertEqual(self.tool("rows", "make", "in.stim"), "go,speed\n0,0\n0,0\n1,-5\n1,7\n1,7\n1,7\n")

    def test_a_program_gives_names_order_and_types(self) -> None:
        self.write("p.st", PROGRAM)
        self.write("in.stim", "1 SPEED=4 go=TRUE\n")
        self.assertEqual(self.tool("rows", "make", "in.stim", "p.st"), "go,speed\nTRUE,4\n")
        for text, said in (("1 spead=4\n", "in.stim:1: `spead` is no input: did you mean `speed`?"),
                           ("1 go=2\n", "in.stim:1: `2` isn't a value of `go` : BOOL"),
                           ("1 speed=40000\n", "-32768 to 32767"), ("go\n1 go=1\n", "missing: speed"),
                           ("go=1\n", "is where the number of cycles is wanted"),
                           ("1 go = 1\n", "`go` isn't `NAME=VALUE`"), ("2 go=1 GO=0\n", "in.stim:1: `GO` occurs twice"),
                           ("1 go=1\n2 speed=3 go=0 speed=3\n", "in.stim:2: `speed` occurs twice"), ("go speed\n1 go=1 go=1\n", "in.stim:2: `go` occurs twice"),
                           ("0 go=1\n", "1 to 1000000"), ("# nothing\n", "no line has a number of cycles")):
            self.write("in.stim", text)
            self.assertIn(said, self.tool("rows", "make", "in.stim", "p.st", status=2), text)
        self.assertIn("the names of the inputs are missing", self.tool("rows", "make", "in.stim", status=2))

    def test_times_stand_for_cycles(self) -> None:
        self.write("in.stim", "go speed\n1s\n1.5s go=1\n500ms speed=7\n1 go=0\n")
        wanted = "go,speed\n" + "0,0\n" * 2 + "1,0\n" * 3 + "1,7\n" + "0,7\n"
        self.assertEqual(self.tool("rows", "make", "in.stim", "--cycle-time", "500ms"), wanted)
        self.assertEqual(self.tool("rows", "--cycle-time", "500ms", "make", "in.stim"), wanted)
        self.assertIn("in.stim:2: `1s` is a time: give `--cycle-time TIME` too", self.tool("rows", "make", "in.stim", status=2))
        self.assertIn("in.stim:3: `1.5s` is no whole number of cycles of 1 s", self.tool("rows", "make", "in.stim", "--cycle-time", "1s", status=2))
        for text in ("0s go=1", "1.s go=1", "2000001s go=1"):
            self.write("in.stim", f"go\n{text}\n")
            self.tool("rows", "make", "in.stim", "--cycle-time", "1s", status=2)

    def test_back_tells_what_changes(self) -> None:
        self.write("in.csv", "go,speed\n0,0\n0,0\n1,3\n1,3\n0,3\n")
        self.assertEqual(self.tool("rows", "stimuli", "in.csv"), "go speed\n2\n2 go=1 speed=3\n1 go=0\n")

    def test_rows_of_the_examples_come_back(self) -> None:
        for file in ("crossing.csv", "two_hand.csv", "route.csv", "odometer.csv", "in.csv"):
            rows = read_rows((EXAMPLES / file).read_bytes())
            self.write("back.stim", self.tool("rows", "stimuli", str(EXAMPLES / file)))
            self.assertEqual(self.tool("rows", "make", "back.stim"), "".join(",".join(record.cells) + "\n" for record in rows), file)


class Check(InFolder):
    """Input that `vcp` accepts without warning is named."""

    def test_each_silent_fault_has_its_line(self) -> None:
        self.write("p.st", PROGRAM)
        for text, line, said in (("go,speed\n0,0\n\n1,1\n", 3, "an empty line in the midst"), ("go,speed\n0,0\n\n", 3, "an empty line at the end"),
                                 ("go,speed\n0,0,\n", 2, "a comma too many"), ("go,speed\n0,\n", 2, "the cell is blank"), ("go,speed\n", 1, "no record behind"),
                                 ("go;speed\n0;1\n", 1, "semicolons"), ("go,sped\n0,1\n", 1, "misspelt"), ("0,1\n1,1\n", 1, "the header is missing"),
                                 ("go,go,speed\n0,0,1\n", 1, "twice: go"), ("go,speed\n0,3.5\n", 2, "fractions")):
            self.write("in.csv", text)
            printed = self.tool("rows", "check", "in.csv", "p.st", status=9)
            self.assertRegex(printed, rf"(?m)^in\.csv:{line}:\d+: .*{said}", text)

    def test_a_blank_cell_of_a_single_column(self) -> None:
        self.write("in.csv", "x\n1\n\n2\n")
        self.assertIn("all later rows move up a cycle", self.tool("rows", "check", "in.csv", status=9))

    def test_a_clean_file(self) -> None:
        self.assertIn("8 rows of 3 inputs", self.tool("rows", "check", str(EXAMPLES / "crossing.csv"), str(EXAMPLES / "crossing.st")))

    def test_records_after_the_standard(self) -> None:
        rows = read_rows(b'\xef\xbb\xbfa,"b ""c"""\r\n1,"x\ny"\r\r\n\n 2 ,3')
        self.assertEqual([record.fields for record in rows], [("a", 'b "c"'), ("1", "x\ny"), (" 2 ", "3")])
        self.assertEqual([record.line for record in rows], [1, 2, 6])
        self.assertEqual(rows[2].cells, ["2", "3"])
        for text, fields in (('"a', [("a",)]), ('"a\nb', [("a\nb",)]), ('"a"b,c\n', [("ab", "c")]), ('"a\n\n""b\nc",d\ne', [('a\n\n"b\nc', "d"), ("e",)]),
                             ('a"b,"",\n', [('a"b', "", "")]), ('""\n""""', [("",), ('"',)])):
            self.assertEqual([record.fields for record in read_rows(text.encode())], fields, text)

    def test_faults_are_told_before_a_file_is_read_to_its_end(self) -> None:
        def read_on(_: bytes) -> Iterator[Record | int]:
            yield Record(1, 1, ("go", "speed"))
            yield 2
            yield Record(2, 3, ("1", "x"))
            self.fail("the file was read on")

        inputs = [Declaration("go", 0, "VAR_INPUT", "BOOL", None), Declaration("speed", 0, "VAR_INPUT", "INT", None)]
        with mock.patch("vcp_tools.explain.hints_rows.stream_rows", read_on):
            faults = Looked(b"go,speed\n", inputs).faults()
            self.assertEqual([next(faults).line, next(faults).line], [2, 3])
            self.assertEqual([it.line for it in silent_faults(b"go,speed\n", 1)], [2])

    def test_many_faults_are_counted(self) -> None:
        self.write("p.st", PROGRAM)
        self.write("in.csv", "go,speed\n" + "1,x\n" * 250)
        lines = self.tool("rows", "check", "in.csv", "p.st", status=FOUND).split("\n")
        self.assertEqual((len(lines), lines[200]), (202, "in.csv: and 50 more"))

    def test_rows_that_break_what_is_assumed(self) -> None:
        self.write("p.st", PROGRAM)
        self.write("ends.csv", "input,least,greatest\nSpeed,0, 2\n")
        self.write("in.csv", "speed,go\n2,1\n 3,0\n-1,1\nx,1\n")
        lines = self.tool("rows", "check", "in.csv", "p.st", "--inputs", "ends.csv", status=FOUND).split("\n")
        self.assertEqual([it.partition(" in cycle ")[0] for it in lines[-3:-1]], ["in.csv:3:1: speed is 3", "in.csv:4:1: speed is -1"])
        self.assertIn("cycle 2: 0 to 2 is assumed by ends.csv", lines[-2])
        self.assertIn("in.csv:5:1: ", lines[0])
        self.write("in.csv", "go,speed\n1,2\n")
        self.assertIn("1 rows of 2 inputs, all as in ends.csv, and nothing", self.tool("rows", "check", "in.csv", "p.st", "--inputs", "ends.csv"))
        self.assertIn("`--inputs` wants the program", self.tool("rows", "check", "in.csv", "--inputs", "ends.csv", status=2))

    def test_large_files_are_read_at_once(self) -> None:
        for data in (b"a,b\r\n1,2\r\r\n\n3 ,4\n", b"", b"\n\na\n1", b"\xef\xbb\xbfa\n\n", b"a,\n,\n\r"):
            lines = [it if isinstance(it, int) else (it.line, it.cells) for it in stream_rows(data + b"\nq")]
            self.assertEqual(lines, [it if isinstance(it, int) else (it.line, it.cells) for it in stream_rows(data + b'\n"q"')], data)
            for number, line in enumerate(data.removeprefix(b"\xef\xbb\xbf").replace(b"\r\n", b"\n").replace(b"\r", b"\n").split(b"\n"), 1):
                self.assertEqual(line_of(data, number).removeprefix(b"\xef\xbb\xbf"), line, (data, number))
        self.write("p.st", PROGRAM)
        self.write("in.csv", "go,speed\n" + "1,3\n" * 101)
        with mock.patch("vcp_tools.explain.hints_rows.MOST_RECORDS", 100), mock.patch("vcp_tools.explain.hints_rows.PROGRESS", 50):
            printed = self.tool("rows", "check", "in.csv", "p.st", status=9)
        self.assertIn("in.csv:102:1: there are 101 rows, and 100 are the most", printed)
        self.assertIn("rows: 100 of 102 records", printed)

    def test_cells_after_the_document(self) -> None:
        for cell, type_name, value in (("TRUE", "BOOL", 1), ("2", "BOOL", None), ("-0", "INT", 0), ("+007", "INT", 7), ("32768", "INT", None),
                                       ("-32768", "INT", -32768), ("", "DINT", None), ("9" * 5000, "LINT", None), ("1.0", "DINT", None)):
            self.assertEqual(cell_value(cell, type_name), value, cell)


if __name__ == "__main__":
    unittest.main()
