"""`explain`: each mistake of data/mistakes.txt is understood from the first three lines that are printed."""
from __future__ import annotations

import os
import re
import shutil
import unittest
from dataclasses import dataclass, field
from unittest import mock

from vcp_tools.read.fault_line import meanings, read_ending, read_fault
from vcp_tools.explain.hints_files import OF_STUDY, group_hint, reading_hint, wire_hint, words_hint
from vcp_tools.explain.hints_il import il_hint
from vcp_tools.read.instruction_list import OPERATORS, declarations_of
from vcp_tools.read.source import RESERVED, Source, literal_value
from vcp_tools.read.structured_text import SyntaxFault, parse
from tests.support import DATA, EXAMPLES, InFolder, needs_program

FRAME = "PROGRAM p\nVAR_INPUT a : BOOL; i : INT; d : DINT; END_VAR\nVAR_OUTPUT q : BOOL; r : INT; END_VAR\nVAR t : INT; x : BOOL; END_VAR\n%sEND_PROGRAM\n"
ROWS = "PROGRAM p\nVAR_INPUT approach, island : BOOL; END_VAR\nVAR_OUTPUT y : BOOL; END_VAR\ny := approach OR island;\nEND_PROGRAM\n"
ONE = "PROGRAM p\nVAR_INPUT x : INT; END_VAR\nVAR_OUTPUT y : INT; END_VAR\ny := x;\nEND_PROGRAM\n"


@dataclass
class Mistake:
    """A mistake: its files, the calls before the one that is explained with the files that they make, and what has to be said."""

    title: str
    files: dict[str, tuple[str, str]] = field(default_factory=dict)
    calls: list[list[str]] = field(default_factory=list)
    made: list[str] = field(default_factory=list)
    said: list[str] = field(default_factory=list)
    line: str = ""


def mistakes() -> list[Mistake]:
    """The table of data/mistakes.txt."""
    found: list[Mistake] = []
    name = ""
    for line in (DATA / "mistakes.txt").read_text(encoding="utf-8").split("\n"):
        mark, _, rest = line.partition(" ")
        if mark == "==":
            found.append(Mistake(rest))
        elif mark == "---":
            name, _, form = rest.partition(" ")
            found[-1].files[name] = (form, "")
        elif found and mark in ("$", ">", "?", "!"):
            name = ""
            if mark == "!":
                found[-1].line = rest
            else:
                if mark == "$":
                    found[-1].calls.append(rest.split())
                else:
                    (found[-1].made if mark == ">" else found[-1].said).append(rest)
        elif name:
            form, text = found[-1].files[name]
            found[-1].files[name] = (form, text + line + "\n")
    return found


class Table(InFolder):
    """The table of mistakes."""

    @needs_program
    def test_each_mistake_is_told_in_three_lines(self) -> None:
        table = mistakes()
        self.assertGreater(len(table), 60)
        for mistake in table:
            with self.subTest(mistake.title):
                self.lay_out(mistake)
                for words, made in zip(mistake.calls, mistake.made):
                    self.write(made, self.program(*words))
                printed = self.tool("explain", *mistake.calls[-1], status=None)
                first = "\n".join(printed.split("\n")[:3])
                for text in mistake.said:
                    self.assertIn(text, first)
                if mistake.line:
                    self.assertRegex(first, rf"\A[^:]+:{mistake.line}:\d+: ")

    def lay_out(self, mistake: Mistake) -> None:
        """Writes the files of a mistake into an empty folder."""
        for file in self.folder.iterdir():
            file.unlink()
        for name, (form, text) in mistake.files.items():
            whole = {"frame": FRAME % text, "rows": ROWS, "one": ONE}.get(form, text)
            encoding = form if form in ("utf-16", "cp1252") else "utf-8"
            self.write(name, whole, encoding)


class Calls(InFolder):
    """What `explain` does around a call."""

    @needs_program
    def test_an_accepted_call_prints_what_the_program_prints(self) -> None:
        shutil.copy(EXAMPLES / "add.st", self.folder)
        self.assertEqual(self.tool("explain", "check", "add.st"), "ok 11\n")

    @needs_program
    def test_the_status_is_the_programs(self) -> None:
        self.write("p.st", ONE)
        self.tool("explain", "check", "nowhere.st", status=5)
        self.tool("explain", "check", status=4)
        self.write("in.csv", "x\n5000000\n")
        self.tool("explain", "run", "p.st", "in.csv", status=1)

    @needs_program
    def test_lines_on_standard_input_are_explained(self) -> None:
        self.write("p.st", FRAME % "r = 1;\n")
        printed = self.tool("explain", given="p.st:5:3 S4 Syntax\n", status=9)
        self.assertIn("to set a variable write `:=`", printed.split("\n")[0])
        self.assertEqual(self.tool("explain", given="ok 11\n"), "ok 11\n")
        for line in ("q.st:5:3 S4 Syntax", "q.csv:5:3 R3 Cell", "f.txt:2 F1 Form", "q.img:2132 I6 Table stored 0 expected 2", "q.csv:1 R1 Header"):
            self.assertIn("the file isn't here", self.tool("explain", given=line + "\n", status=9))
        self.assertIn("p.st: no program in Structured Text", self.tool("explain", given="p.st Q7 Text\n", status=9))
        for line in ("p.st:90:3 S1 Byte", "p.st:90:3 S4 Syntax", "p.st:90:3 S3 Number", "p.st:1:3 T3 Mismatch", "p.st:9 R2 Width", "p.st:90 F1 Form"):
            self.tool("explain", given=line + "\n", status=9)

    @needs_program
    def test_all_faults_of_a_ported_text_are_told_at_once(self) -> None:
        self.write("p.st", FRAME % "tm(IN := a);\nIF a THEN r = 1; END_IF\nq := tm.Q;\nr := i * 1.5;\n")
        printed = self.tool("explain", "--all", "check", "p.st", status=1)
        places = re.findall(r"^p\.st:(\d+):\d+: (.*)", printed, re.M)
        self.assertEqual([line for line, _ in places], ["5", "6", "6", "7", "8"])
        self.assertIn("p.st: 5 to mend", printed)

    @needs_program
    def test_faults_that_do_not_follow_are_told(self) -> None:
        """Beside a fault that is told, in its statement or with a variable of its type: those that come whatever type that variable is given."""
        for body, told, left in (("q := SHL(w, 2) > 0;\n", ["WORD", "no function SHL"], 0), ("r := MAX(w, i, 5);\n", ["WORD", "MAX takes 2 arguments"], 0),
                                 ("i := i ** 2;\nr := w;\n", ["WORD", "`i` is an input", "power"], 0), ("IF w THEN q := a; END_IF;\n", ["WORD"], 1),
                                 ("IF a THEN d := w; END_IF;\n", ["WORD", "`d` is an input"], 0), ("q := w;\n", ["WORD"], 1),
                                 ("q := ABS(w, 1) > 2 AND a;\n", ["WORD", "ABS takes 1 argument"], 0)):
            self.write("p.st", (FRAME % body).replace("x : BOOL;", "w : WORD;"))
            printed = self.tool("explain", "--all", "check", "p.st", status=1)
            messages = re.findall(r"^p\.st:\d+:\d+: (.*)", printed, re.M)
            self.assertEqual(len(messages), len(told), printed)
            for message, part in zip(messages, told):
                self.assertIn(part, message)
            self.assertEqual(printed.split("\n")[-2], f"p.st: {len(told)} to mend" + f"; {left} more may follow from these" * (left > 0))

    def test_folders_absence_and_permission_are_told_apart(self) -> None:
        file = self.write("p.st", ONE)
        self.assertIn("this is a folder", reading_hint(str(self.folder)))
        self.assertIn("did you mean `p.st`?", reading_hint(str(self.folder / "q.st")))
        self.assertIn("there is no folder", reading_hint(str(self.folder / "none" / "p.st")))
        with mock.patch("os.access", return_value=False):
            self.assertIn("no permission", reading_hint(str(file)))

    @unittest.skipIf(hasattr(os, "geteuid") and os.geteuid() == 0, "root may read every file")
    @needs_program
    def test_a_file_without_permission(self) -> None:
        self.write("p.st", ONE).chmod(0)
        self.assertIn("no permission", self.tool("explain", "check", "p.st", status=5).split("\n")[0])

    def test_no_program_is_a_refusal_that_says_what_to_do(self) -> None:
        before = os.environ.get("VCP")
        os.environ["VCP"] = str(self.folder / "nowhere")
        self.addCleanup(lambda: os.environ.update(VCP=before) if before else os.environ.pop("VCP"))
        self.assertIn("run ./vcp once", self.tool("explain", "check", "p.st", status=2))


class Readers(unittest.TestCase):
    """The readers of tokens, trees, words and lines."""

    def test_tokens_after_the_document(self) -> None:
        text = b"\xef\xbb\xbfx_1 := 16#FF + int#-5; // remark\n(* two\nlines *) y<=2..3 &"
        self.assertEqual([(token.kind, token.text) for token in Source(text).tokens], [
            ("name", "x_1"), ("symbol", ":="), ("number", "16#FF"), ("symbol", "+"), ("number", "int#-5"), ("symbol", ";"), ("name", "y"),
            ("symbol", "<="), ("number", "2"), ("symbol", ".."), ("number", "3"), ("symbol", "&"), ("end", "")])
        self.assertEqual(Source(b"a\n  b").place(4), (2, 3))

    def test_literals_after_the_document(self) -> None:
        for text, value in (("5", (None, 5)), ("1_000", (None, 1000)), ("16#fF", (None, 255)), ("2#101", (None, 5)), ("INT#-5", ("INT", -5)),
                            ("BOOL#TRUE", ("BOOL", 1)), ("LINT#16#ff", ("LINT", 255)), ("9223372036854775807", (None, 2**63 - 1)),
                            ("9223372036854775808", None), ("1__0", None), ("16#", None), ("5s", None), ("BOOL#-1", None)):
            self.assertEqual(literal_value(text), value, text)

    def test_the_examples_are_programs(self) -> None:
        for file in EXAMPLES.glob("*.st"):
            parse(Source(file.read_bytes()))
        with self.assertRaises(SyntaxFault) as raised:
            parse(Source(b"PROGRAM p x := 1 END_PROGRAM"))
        self.assertEqual(raised.exception.text, "END_PROGRAM")

    def test_the_document_has_the_meaning_of_each_code(self) -> None:
        wanted = ("L1 S1 S2 S3 S4 S5 T1 T2 T3 T4 T5 T6 T7 T8 Q1 Q2 Q3 Q4 Q5 Q6 L2 L3 "
                  "R1 R2 R3 R4 R5 L4 I1 I2 I3 I4 I5 I6 I7 L5 L6 L7 L8 F1 F2 F3 F4 F5 F6 G1 G2 G3").split()
        self.assertLessEqual(set(wanted), set(meanings()))

    def test_reserved_words_are_those_of_the_document(self) -> None:
        text = (EXAMPLES.parent / "docs" / "LANGUAGE.md").read_text()
        part = text[text.index("Reserved words of the grammar") : text.index("`&` is the word AND")]
        self.assertEqual(set(re.findall(r"\b[A-Z][A-Z_]+\b", part)), set(RESERVED))

    def test_groups_of_a_script(self) -> None:
        script = "begin\nskip 1 2\nresult 1 2 add 1\nbegin\nend\nend\nbegin\nend".split("\n")
        for number, code, said in ((3, "F6", "line 2 of this group changes operation 2 in cycle 1"), (4, "F5", "the group of line 1 has no `end` yet"),
                                   (5, "F5", "has no fault"),
                                   (6, "F5", "no `begin` comes before"), (7, "F5", "no `end` follows"), (90, "F5", "changed since")):
            self.assertIn(said, group_hint(script, number, code).message)

    def test_lines_of_a_wire(self) -> None:
        for line, code, said in (("wire 2 0", "G1", "the form is `wire SENDERS LISTEN"), ("delivr 0 0 0", "G1", "did you mean `deliver`"),
                                 ("", "G1", "the lines are"),
                                 ("wire 17 0 0 0 1", "G2", "SENDERS is 1 to 16"), ("cycle 1 2", "G2", "one value for each sender"),
                                 ("deliver 0 0 4611686018427387905", "G2", "what is added"), ("deliver 1 0 0", "G3", "no such telegram was sent")):
            self.assertIn(said, wire_hint(line, code))

    def test_instructions(self) -> None:
        head = "PROGRAM p\nVAR_INPUT x : DINT; b : BOOL; END_VAR\nVAR_OUTPUT y : DINT; q : BOOL; END_VAR\nVAR CONSTANT C : INT := 3; END_VAR\n"
        for line, code, said in (("LDD x", "Q1", "did you mean LD?"), ("LD", "Q1", "the operand of LD is missing"), ("LD x y", "Q1", "has one operand"),
                                 ("LD (x)", "Q1", "there are no brackets"), ("next: LD x", "Q1", "there are no labels"),
                                 ("JMP next", "Q1", "there are no jumps"),
                                 ("NOT q", "Q1", "NOT has no operand"), ("y := x;", "Q1", "this is Structured Text"), ("LD - x", "Q1", "without a type"),
                                 ("x", "Q1", "`x` is a variable"), ("LD x END_PROGRAM", "Q1", "END_PROGRAM is alone"),
                                 ("END_PROGRAM LD", "Q1", "follows END_PROGRAM"), ("", "Q1", "END_PROGRAM is missing"),
                                 ("ADD 1", "Q4", "no result yet for ADD")):
            source = Source((head + line).encode())
            self.assertIn(said, il_hint(source, code, source.offset(5, 1)).message, line)
        for line, code, said in (("LD z", "Q2", "`z` isn't declared"), ("LD C", "Q2", "write its value"), ("LD INT#40000", "Q2", "from -32768 to 32767"),
                                 ("ST x", "Q3", "`x` is an input"), ("ST 5", "Q3", "this is no variable")):
            source = Source((head + line).encode())
            self.assertIn(said, il_hint(source, code, source.offset(5, 4)).message, line)
        for line, said in (("AND b", "a comparison makes"), ("ADD b", "two numbers; `b` is a BOOL"), ("GT b", "compares two numbers;"), ("EQ b", "or two BOOL"),
                           ("ST q", "ST wants"), ("S y", "type BOOL; `y` is a DINT"), ("NOT", "NOT wants BOOL")):
            source = Source((head + "LD x\n" + line).encode())
            self.assertIn(said, il_hint(source, "Q5", source.offset(6, 1)).message, line)
        source = Source(b"PROGRAM p\nVAR _acc_int : INT; END_VAR\nEND_PROGRAM\n")
        self.assertIn("hidden variable", il_hint(source, "Q6", source.offset(2, 5)).message)
        self.assertEqual([it.name for it in declarations_of(source)], ["_acc_int"])
        self.assertEqual(declarations_of(Source(b"")), [])

    def test_operators_are_those_of_the_document(self) -> None:
        text = (EXAMPLES.parent / "docs" / "LANGUAGE.md").read_text()
        part = text[text.index("| operator | operand | what it does |") : text.index("N negates the operand, of STN")]
        first = {word for row in part.split("\n")[2:] for word in re.findall(r"[A-Z]+", row.split("|")[1] if "|" in row else "")}
        self.assertEqual(first | {"&"}, set(OPERATORS))

    def test_lines_of_error(self) -> None:
        fault = read_fault("a b:3.csv:2:7 R3 Cell")
        self.assertEqual((fault.file, fault.first, fault.second, fault.code) if fault else None, ("a b:3.csv", 2, 7, "R3"))
        fault = read_fault("m.img:2132 I6 Table stored 0 expected 2")
        self.assertEqual((fault.file, fault.first, fault.code) if fault else None, ("m.img", 2132, "I6"))
        self.assertIsNone(read_fault("ok 11"))
        for line, wanted in (("differ 0 y first 7 second -6", (0, "y", "7", "-6")),
                             ("parted 4 first refused y found 1 expected 2 second released", (4, "", "refused y found 1 expected 2", "released"))):
            ending = read_ending(line)
            self.assertEqual(tuple(getattr(ending, name) for name in ("cycle", "name", "first", "second")), wanted)
        stop = read_ending("stop 3 DIVZERO 8:14 i=2 j=3")
        self.assertEqual(getattr(stop, "turns", None), "i=2 j=3")

    def test_commands_of_the_other_program(self) -> None:
        text = (EXAMPLES.parent / "docs" / "FORMATS.md").read_text(encoding="utf-8")
        self.assertLessEqual(set(re.findall(r"^\| `vcp_study (\w+) ", text, re.M)), set(OF_STUDY))
        for name in OF_STUDY:
            self.assertIn(f"`{name}` is a command of `vcp_study`", words_hint([name, "P"]))

    def test_which_word_is_not_in_its_place(self) -> None:
        for words, said in (("check", "a word is missing"), ("run p in --seed 0 --seed 1", "occurs twice"),
                            ("trace m in x", "`x` is in the place of CYCLE"),
                            ("run p --cycles 1000001", "`1000001` is behind `--cycles`"), ("check p q", "`q` is left over"),
                            ("compile p --sed 0", "did you mean `--seed`?"), ("run p", "a rows file")):
            self.assertIn(said, words_hint(words.split()), words)


if __name__ == "__main__":
    unittest.main()
