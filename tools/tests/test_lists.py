"""Instruction lists in the tools: which texts are lists, and what each tool says of one beside the same program in Structured Text."""
from __future__ import annotations

import os
import re
import shutil
import subprocess
import unittest

from tests.made_lists import ListMaker
from tests.support import EXAMPLES, InFolder, needs_program
from vcp_tools.compare.diff import Comparison
from vcp_tools.needs import find_module
from vcp_tools.pictures.report import sections_of
from vcp_tools.program import Program, find_program
from vcp_tools.program_text import tells_list
from vcp_tools.read.assigned import Assigned
from vcp_tools.read.given import load
from vcp_tools.read.instruction_list import parse_list
from vcp_tools.read.list_text import list_text
from vcp_tools.read.source import Source

MADE = int(os.environ.get("MADE", "400")) // 10
"""So many lists are made."""
HEAD = "PROGRAM p\nVAR_INPUT a, b : BOOL; i : INT; END_VAR\nVAR_OUTPUT q : BOOL; r : INT; END_VAR\nVAR t : BOOL; n : INT; END_VAR\n"
GUESSED = HEAD + "LDX a\nST q\nx := a;\nEND_PROGRAM\n"
"""A text that is neither."""


def makes_images() -> bool:
    """Whether the built `vcp_study` makes images of lists: it fails at a file that isn't there, and not at the word."""
    file = find_program("vcp_study")
    return file is not None and subprocess.run([str(file), "image", "/nowhere"], capture_output=True, check=False).returncode == 5


needs_images = unittest.skipUnless(find_program() and makes_images(), "no vcp_study is built that makes images of instruction lists")
needs_z3 = unittest.skipUnless(find_module("z3"), "z3 isn't installed")


class Forms(unittest.TestCase):
    """Which texts are lists."""

    def test_what_follows_the_declarations_tells(self) -> None:
        for body, is_list in (
            ("LD a\nST q\n", True), ("ld a\nst q\n", True), ("LDN a ST q\n", True), ("AND a\n", True), ("NOT\nST q\n", True), ("LD -5\n", True),
            ("LD TRUE;\n", True), ("q := a;\n", False), ("LD := a;\n", False), ("q :=\nAND a;\n", False), ("IF a THEN q := b;\nAND b\nEND_IF;\n", False),
            (";\n", False), ("x = 1;\n", False), ("", False),
            ("LDX a\nLD b\nST q\n", True), ("t(IN := a);\n", False), ("LDX a\n", None), ("LDX a\nST q\nx := a;\n", None), ("LD\n", None),
            ("(* a\nq := a;\n", False), ("LDX a\n?\n", False), ("LD a\n?\n", True),
        ):
            self.assertIs(tells_list(Source((HEAD + body + "END_PROGRAM\n").encode())), is_list, body)
        for text in ("", "PROGRAM", "LD a\nST q\n", "PROGRAM p END_PROGRAM", "a,b\n1,0\n", "VCPANBD\n"):
            self.assertIs(tells_list(Source(text.encode())), False, text)

    def test_the_examples(self) -> None:
        for file in (*EXAMPLES.glob("*.st"), *EXAMPLES.glob("patterns/*.st"), *EXAMPLES.glob("*.il")):
            self.assertIs(tells_list(Source(file.read_bytes())), file.suffix == ".il", file.name)

    def test_each_instruction_is_for_what_its_result_is_stored_in(self) -> None:
        source = Source((HEAD + "LD a\nAND b\nST q\nST t\nOR b\nS t\nLD b\nEND_PROGRAM\n").encode(), True)
        assigned = Assigned(source)
        self.assertEqual([assigned.at(line, 1) for line in range(5, 13)], ["for q, t", "for q, t", "for q, t", "for t", "for t", "for t", "", ""])


class Refusals(InFolder):
    """What is said where a list isn't wanted, or where it can't be told."""

    @needs_program
    def test_a_text_that_cannot_be_told(self) -> None:
        self.write("p", GUESSED)
        self.write("in.csv", "a,b,i\n1,0,5\n")
        for words in (["table", "p", "in.csv"], ["vcd", "p", "in.csv"], ["expect", "p", "in.csv", "in.csv"], ["report", "p", "in.csv"], ["diff", "p", "p"],
                      ["lint", "p"]):
            self.assertRegex(self.tool(*words, status=2), r"(?m)^vcp_tools: p: .* --il says that .*$")
        told = self.tool("table", "--il", "p", "in.csv", status=2)
        self.assertIn("vcp il: p:5:1 Q1 Instruction (`vcp_tools explain il p in.csv` says more)", told)

    @needs_program
    def test_a_command_for_structured_text(self) -> None:
        shutil.copy(EXAMPLES / "points.il", self.folder)
        for word in ("check", "format", "compile"):
            for words in (["explain", word, "points.il"], ["explain", "--all", word, "points.il"]):
                said = self.tool(*words, status=1).split("\n")[0]
                self.assertRegex(said, r"^points\.il:\d+:1: this is an instruction list, and the command takes Structured Text")

    def test_tools_for_structured_text(self) -> None:
        if find_module("lark") is None:
            self.skipTest("lark isn't installed")
        shutil.copy(EXAMPLES / "points.il", self.folder)
        for words in (["lower", "points.il"], ["simulate", "points.il", "in.csv"]):
            self.assertIn("points.il: this is an instruction list, and Structured Text is wanted", self.tool(*words, status=2))

    @needs_program
    def test_a_faulty_list(self) -> None:
        self.write("p.il", HEAD + "LD a\nST nowhere\nEND_PROGRAM\n")
        self.write("in.csv", "a,b,i\n1,0,5\n")
        self.assertIn("vcp il: p.il:6:4 Q2 Operand (`vcp_tools explain il p.il in.csv` says more)", self.tool("table", "p.il", "in.csv", status=2))


@needs_program
class Runs(InFolder):
    """Runs of the points, by both texts."""

    def setUp(self) -> None:
        super().setUp()
        for name in ("points.il", "points.st", "points.csv"):
            shutil.copy(EXAMPLES / name, self.folder)

    def both(self, *words: str, status: int = 0) -> str:
        """What a tool prints of the list, which has to be what it prints of the program; P stands for the file."""
        of_list, of_program = (self.tool(*(it.replace("P", f"points.{form}") for it in words), status=status) for form in ("il", "st"))
        self.assertEqual(of_list.replace(".il", ".st"), of_program)
        return of_list

    def test_tables_and_dumps_are_the_same(self) -> None:
        self.assertIn("for_3", self.both("table", "P", "points.csv", "--all", "--csv"))
        self.both("vcd", "P", "points.csv", "--cycle-time", "500ms")

    def test_runs_are_compared(self) -> None:
        self.write("wanted.csv", self.tool("table", "points.st", "points.csv", "to_left", "failed", "for_2", "--csv"))
        self.assertIn("as wanted", self.both("expect", "P", "points.csv", "wanted.csv"))

    def test_rows_are_made_and_checked(self) -> None:
        self.assertIn("rows of 7 inputs", self.both("rows", "check", "points.csv", "P"))
        self.write("s.txt", "1 clear=1\n2 left=1\n")
        self.both("rows", "make", "s.txt", "P")

    def test_a_stop_names_what_is_stored(self) -> None:
        self.write("p.il", HEAD + "LD i\nADD 32767\nST r\nEND_PROGRAM\n")
        self.write("in.csv", "a,b,i\n0,0,0\n0,0,1\n")
        told = self.tool("explain", "il", "p.il", "in.csv", status=2)
        self.assertIn("p.il:6:1: the run stops in cycle 1, for r: the value is outside its type", told)


@needs_images
class Images(InFolder):
    """What is told of the images of lists."""

    def setUp(self) -> None:
        super().setUp()
        for name in ("points.il", "points.st", "points.csv"):
            shutil.copy(EXAMPLES / name, self.folder)

    def test_both_texts_have_the_same_operations(self) -> None:
        self.assertRegex(self.tool("diff", "points.il", "points.st"), r"\Athe same \d+ operations in the same order\n\Z")
        self.write("points.il", (self.folder / "points.il").read_text(encoding="utf-8").replace("GT 900", "GT 800"))
        told = self.tool("diff", "points.il", "points.st", status=9)
        self.assertIn("kept value failed", told)
        self.assertIn("A: GT 800", told)

    def test_a_trace_shows_the_same_values(self) -> None:
        self.assertIn("for_3", self.tool("table", "points.il", "points.csv", "--all", "--trace"))

    def test_a_report(self) -> None:
        self.write("f.faults", "result 4 3 add 1\nskip 5 4\n")
        words = ("report", "points.il", "points.csv", "--faults", "f.faults")
        self.tool(*words, "-o", "r.html", status=None)
        parts = sections_of((self.folder / "r.html").read_text(encoding="utf-8"))
        for name, said in (("summary", "<td>il and exec</td><td><span class=\"good\">the same, byte for byte"), ("summary", "<td>instructions</td><td>30</td>"),
                           ("files", "<td>instruction list</td><td><code>points.il"), ("listing", "<code>for failed</code>"),
                           ("commands", "vcp_study image points.il &gt;points.img"), ("commands", "vcp il points.il points.csv"), ("source", "GT 900")):
            self.assertIn(said, parts[name][1])
        self.assertNotIn("plain", parts["commands"][1])
        self.assertIn("made again as it is filed", self.tool(*words, "--check", "r.html"))

    def test_a_campaign_names_what_is_stored(self) -> None:
        self.write("points.img", subprocess.run([str(find_program("vcp_study")), "image", str(EXAMPLES / "points.il")], capture_output=True, check=True).stdout)
        words = ("campaign", "points.img", "points.csv", "skip", "--source", "points.il", "--page", "c.html", "--quiet")
        self.assertIn("c.html: ", self.tool(*words, status=None))
        self.assertIn("ANDN failed", (self.folder / "c.html").read_text(encoding="utf-8"))
        self.write("f.faults", "result 4 3 add 1\n")
        self.assertNotIn("vcp_tools:", self.tool("explain", "--source", "points.il", "inject", "points.img", "points.csv", "f.faults"))

    def test_findings(self) -> None:
        self.assertIn("nothing that is likely a mistake", self.tool("lint", "points.il"))
        used = "LD a\nAND b\nOR t\nST q\nLD i\nADD n\nST r\n"
        for body, wanted in (
            ("LD i\nADD 1\nST n\nLD a\nST t\n", []), ("LD n\nADD 1\nST n\nLD a\nST t\n", [(3, "counter-only-grows")]),
            ("LD a\nST t\nLD i\nST n\nLD b\n", [(5, "value-lost")]),
            ("LD a\nST t\nLD i\nADD 1\nLD i\nST n\n", [(3, "value-lost")]), ("LD a\nST t\nLD i\nST n\nADD 1\nLD b\nS t\n", [(5, "value-lost")]),
            ("LD a\nST t\nLDN b\nST t\nLD i\nST n\n", [(2, "value-lost")]), ("LD a\nST t\nLD b\nS t\nLD i\nST n\n", []),
            ("LD a\nAND a\nST t\nLD i\nST n\n", [(2, "same-on-both-sides")]), ("LD i\nST n\n", [(-7, "never-set")]),
            ("LD FALSE\nS t\nLD i\nST n\n", [(2, "branch-never-taken")]),
        ):
            self.write("p.il", HEAD + used + body + "END_PROGRAM\n")
            told = self.tool("lint", "p.il", status=None)
            found = re.findall(r"^p\.il:(\d+):\d+: .* \[([a-z-]+)\]$", told, re.M)
            self.assertEqual([(int(line) - 11, kind) for line, kind in found], wanted, body + told)

    def test_made_lists_do_what_their_texts_do(self) -> None:
        """The text that stands for a list in questions has the same operations."""
        for seed in range(MADE):
            text = ListMaker(seed).text()
            source = Source(text.encode(), True)
            self.write("p.il", text)
            self.write("p.st", list_text(source, parse_list(source)))
            of_list, of_text = (load(Program.found(), str(self.folder / name)) for name in ("p.il", "p.st"))
            self.assertEqual(list(Comparison(of_list, of_text).differences()), [], text)
            places = [it.line for it in of_list.image.operations], [it.line for it in of_text.image.operations]
            self.assertEqual(*places)


@needs_images
@needs_z3
class Questions(InFolder):
    """Questions about a list are answered as those about the same program."""

    def setUp(self) -> None:
        super().setUp()
        for name in ("points.il", "points.st"):
            shutil.copy(EXAMPLES / name, self.folder)

    def test_never(self) -> None:
        for form in ("il", "st"):
            self.assertIn("never: ", self.tool("never", f"points.{form}", "to_left AND to_right"))
            told = self.tool("never", f"points.{form}", "to_left AND NOT was(to_left)", status=9)
            self.assertIn(f"replayed by `vcp {'il' if form == 'il' else 'run'}`", told)
        self.assertIn("`_acc_bool` is no input", self.tool("never", "points.il", "_acc_bool", status=2))

    def test_stops(self) -> None:
        self.write("p.il", HEAD + "LD n\nADD i\nST n\nST r\nLD a\nST q\nEND_PROGRAM\n")
        self.assertRegex(self.tool("witness", "p.il", status=9), r"\d+ ADD RANGE at 6:1: stops in cycle \d+: rows in .*, replayed by `vcp il`")

    def test_what_is_reached(self) -> None:
        self.write("p.il", HEAD + "LD a\nS t\nLD b\nR t\nLD t\nST q\nLD i\nST r\nST n\nEND_PROGRAM\n")
        told = self.tool("rows", "reach", "p.il", "--all")
        self.assertRegex(told, r"(?m)^6:1 S t where the result is TRUE: cycle \d+\n6:1 S t where the result is FALSE: cycle \d+\n8:1 R t where")
        self.assertIn("q turns TRUE", told)
        self.assertIn("replayed by `vcp il`", told)


@needs_program
class AllFaults(InFolder):
    """`explain --all` of a list."""

    def told(self, body: str, head: str = HEAD) -> tuple[list[tuple[int, str]], str]:
        """The line, counted from the body's first, and the message of each fault; and the last line."""
        self.write("p.il", head + body + "END_PROGRAM\n")
        printed = self.tool("explain", "--all", "il", "p.il", "--cycles", "0", status=1)
        found = re.findall(r"^p\.il:(\d+):\d+: (.*)", printed, re.M)
        return [(int(line) - head.count("\n"), said) for line, said in found], printed.rstrip("\n").split("\n")[-1]

    def test_lines_are_stepped_over(self) -> None:
        for body, wanted, left in (
            ("LDD a\nJMP on\nST i\nLD nowhere\nST q\n", [(1, "did you mean LD"), (2, "no jumps"), (3, "`i` is an input"), (4, "`nowhere` isn't declared")], 0),
            ("AND a\nST q\nLD i;\nST q\nLD (a)\nEND_PROGRAM LD\n",
             [(1, "no result yet"), (3, "no `;`"), (4, "ST wants"), (5, "no brackets"), (6, "follows")], 0),
            ("LD nowhere\nADD 1\nST q\nLD a\nADD 1\n", [(1, "isn't declared"), (5, "two numbers")], 1),
            ("LD nowhere\nAND i\nST q\n", [(1, "isn't declared"), (2, "wants BOOL")], 0),
            ("LD i\nADD nowhere\nS q\nGT b\nST q\n", [(2, "isn't declared"), (3, "S wants"), (4, "compares two numbers")], 0),
            ("next: LD a\nAND b c\nST q x\n", [(1, "no labels"), (2, "one operand"), (3, "one operand")], 0),
            ("LD a\nOR( b\nAND t\n)\nST q\n", [(2, "no brackets")], 1), ("LD i\n@\nST q\n", [(2, "`@`")], 0),
            ("LD INT#40000\nST q\n", [(1, "from -32768"), (2, "ST wants")], 0),
        ):
            found, last = self.told(body)
            self.assertEqual([line for line, _ in found], [line for line, _ in wanted], body + str(found))
            for (_, said), (_, part) in zip(found, wanted):
                self.assertIn(part, said)
            self.assertEqual(last, f"p.il: {len(wanted)} to mend" + f"; {left} more may follow from these" * (left > 0), body)

    def test_heads_are_looked_at_first(self) -> None:
        head = HEAD.replace("t : BOOL", "t : TON").replace("n : INT", "n : REAL; _acc_bool : BOOL")
        found, last = self.told("LD t\nST q\nLD n\nST r\nLD a\nST _acc_bool\nST nowhere\n", head)
        said = " ".join(message for _, message in found)
        for part in ("TON", "REAL", "hidden variable", "nowhere"):
            self.assertIn(part, said)
        self.assertEqual(len(found), 4, found)
        self.assertTrue(last.startswith("p.il: 4 to mend"))

    def test_a_list_without_a_fault_is_run(self) -> None:
        self.write("p.il", HEAD.replace("VAR_INPUT a, b : BOOL; i : INT; END_VAR", "") + "LD t\nST q\nEND_PROGRAM\n")
        self.assertIn("end 2", self.tool("explain", "--all", "il", "p.il", "--cycles", "2"))


if __name__ == "__main__":
    unittest.main()
