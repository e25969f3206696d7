"""`diff`, and the reader of images."""
from __future__ import annotations

import re
import unittest

from vcp_tools.compare.diff import Comparison
from vcp_tools.read.given import Given
from vcp_tools.read.image import Image, Operation, Slot, read_image
from vcp_tools.read.source import Source
from vcp_tools.refusal import Refusal
from tests.support import EXAMPLES, InFolder, needs_program

IMAGE_OF_A_SUM = bytes.fromhex(
    "564350414e42440a 0001 0001 00000000 00000002 00000001 00000001 00000000 00000000 00000004 00000001 78 00000001 79 00000000 02 00000001 02 00000003"
    "00 02 02 00000000 00000000 00000000 0000000000000000 00000002 0000000b 00000000 00000000"
    "01 02 02 00000000 00000000 00000000 0000000000000001 00000004 0000000a 00000000 0ccccccd"
    "08 02 02 00000000 00000001 00000000 0000000000000000 00000004 00000008 00000000 0ccccccd"
    "04 02 02 00000002 00000000 00000000 0000000000000000 00000003 0000000c 00000000 0ccccccd")
"""The image of `y := x + 1` with the seed 0, as docs/FORMATS.md shows it."""
PROGRAM = """PROGRAM p
VAR_INPUT a, b : INT; END_VAR
VAR_OUTPUT y : INT; z : BOOL; END_VAR
VAR kept : INT; END_VAR
y := a + b;
z := kept > 3;
kept := kept + 1;
END_PROGRAM
"""


class Images(unittest.TestCase):
    """The bytes that the document shows."""

    def test_the_image_of_the_document(self) -> None:
        image = read_image(IMAGE_OF_A_SUM, "sum")
        self.assertEqual((image.version, image.step, image.seed), (1, 1, 0))
        self.assertEqual([(slot.name, slot.type) for slot in image.inputs + image.outputs], [("x", "DINT"), ("y", "DINT")])
        told = [(it.kind, it.operands, it.own, it.place, it.correction) for it in image.operations]
        self.assertEqual(told, [("INPUT", (), 0, "2:11", 0), ("CONST", (), 1, "4:10", 214748365), ("ADD", (0, 1), 0, "4:8", 214748365),
                                ("OUT", (2,), 0, "3:12", 214748365)])
        self.assertEqual([image.name_of(it) for it in image.operations], ["x", "1", "", "y"])

    def test_what_is_no_image(self) -> None:
        for data in (b"PROGRAM p", IMAGE_OF_A_SUM[:100], b"VCPANBD\n"):
            with self.assertRaises(Refusal):
                read_image(data, "file")


class Listings(InFolder):
    """The reader of images says what the program lists."""

    @needs_program
    def test_the_listings_of_the_examples(self) -> None:
        for file in sorted(EXAMPLES.glob("*.st")):
            data = self.program("compile", str(file))
            self.write("p.img", data)
            listed = [line.split(" ") for line in self.program("list", "p.img").decode().split("\n")[:-1]]
            image = read_image(data, "p.img")
            for words, it in zip(listed, image.operations, strict=True):
                self.assertEqual(words[:4], [str(it.number), it.kind, it.operand_type, it.type])
                self.assertEqual(words[4 : 4 + len(it.operands)], [str(operand) for operand in it.operands])
                self.assertEqual(words[words.index("cor") + 1 : words.index("cor") + 4], [str(it.correction), "at", it.place])


class Differences(InFolder):
    """`diff`."""

    def compare(self, old: str, new: str, status: int, text: str = PROGRAM) -> str:
        """What is said of a program and of the same with some text in the place of another."""
        self.assertIn(old, text)
        self.write("a.st", text)
        self.write("b.st", text.replace(old, new))
        return self.tool("diff", "a.st", "b.st", status=status)

    def parted(self, old: str, new: str, text: str) -> list[tuple[str, str, str]]:
        """Each place at which both part: what is said of it, and the line of each side."""
        printed = self.compare(old, new, 9, text)
        self.assertNotIn("may stop at operation", printed)
        return re.findall(r"^([^:\n]*: in A .*)\n    A: (.*)\n    B: (.*)$", printed, re.M)

    @needs_program
    def test_layout_and_names_of_variables_are_left_aside(self) -> None:
        self.assertIn("in the same order", self.compare("y := a + b;", "// a remark\n  Y :=   (a + b) ;", 0))
        printed = self.compare("kept", "count", 0)
        self.assertIn("the cell kept of A is taken for count of B", printed)
        self.assertIn("in the same order", printed)

    @needs_program
    def test_statements_in_another_order(self) -> None:
        self.assertIn("operations in another order", self.compare("y := a + b;\nz := kept > 3;", "z := kept > 3;\ny := a + b;", 0))

    @needs_program
    def test_where_they_part(self) -> None:
        for old, new, said in (("kept > 3", "kept > 4", "output z: in A operation 4, CONST 3 at 6:13; in B operation 4, CONST 4 at 6:13\n"
                                "    A: z := kept > 3;\n    B: z := kept > 4;"),
                               ("a + b", "a - b", "output y: in A operation 2, ADD at 5:8 for y; in B operation 2, SUB at 5:8 for y"),
                               ("kept + 1", "kept + 2", "kept value kept: in A"),
                               ("kept : INT;", "kept : INT := 5;", "kept begins with 0 as an INT in A, and with 5"),
                               ("a, b : INT", "b, a : INT", "the inputs are in another order"),
                               ("z : BOOL", "zz, z : BOOL", "only B has the output zz : BOOL"),
                               ("y := a + b", "IF a <> 0 THEN y := a + b; END_IF", "only B keeps y : INT")):
            self.assertIn(said, self.compare(old, new, 9))

    @needs_program
    def test_a_constant_is_named_and_not_what_rests_on_it(self) -> None:
        printed = self.compare("kept + 1", "kept + 2", 9)
        self.assertIn("CONST 1 at 7:16; in B operation", printed)
        self.assertNotIn("only A may stop", printed)
        self.assertRegex(printed, "ranges, whatever the rows: A .*, B |vcp_study ranges")

    @needs_program
    def test_a_constant_that_stands_elsewhere_is_told_where_it_is_read(self) -> None:
        route, tracks = ((EXAMPLES / name).read_text(encoding="utf-8") for name in ("route.st", "two_tracks.st"))
        for text, old, new, lines in (
            (route, "HOLD : INT := 4;", "HOLD : INT := 5;", ["ELSIF waited >= HOLD THEN"]),
            (route, "TRAVEL : INT := 6;", "TRAVEL : INT := 4;", ["ELSIF waited >= TRAVEL THEN"]),
            (tracks, "WARNING : INT := 3;", "WARNING : INT := 5;", ["IF waited = WARNING THEN crossing := LOWERING; waited := 0; END_IF;"]),
            (tracks, "LONGEST : INT := 12;", "LONGEST : INT := 4;", ["since_1 := MIN(since_1 + 1, LONGEST);", "since_2 := MIN(since_2 + 1, LONGEST);"]),
        ):
            found = self.parted(old, new, text)
            self.assertEqual(sorted({line for _, line, _ in found}), lines)
            for told, line, other in found:
                self.assertEqual(line, other)
                for value in (old, new):
                    self.assertIn(f"CONST {value.rstrip(';').rpartition(' ')[2]}", told)
        found = self.parted("n := b + 3;", "n := b + 4;", "PROGRAM p\nVAR_INPUT a, b : INT; END_VAR\nVAR_OUTPUT m, n : INT; END_VAR\nm := a + 3;\nn := b + 3;\n"
                            "END_PROGRAM\n")
        self.assertEqual([line for _, *line in found], [["n := b + 3;", "n := b + 4;"]])
        told = "{}: in {} operation N, ADD at 5:8 for n, which reads CONST {}"
        self.assertEqual(re.sub(r"operation \d+", "operation N", found[0][0]), f"{told.format('output n', 'A', 3)}; {told.format('', 'B', 4)[2:]}")

    @needs_program
    def test_what_both_sides_have_is_told_where_it_is_read(self) -> None:
        route, tracks = ((EXAMPLES / name).read_text(encoding="utf-8") for name in ("route.st", "two_tracks.st"))
        for text, old, new in ((route, "proceed := state = PROVED AND detected AND clear;", "proceed := state = PROVED AND clear AND detected;"),
                               (route, "passed := passed OR NOT beyond_clear;", "passed := passed OR NOT points_clear;"),
                               (tracks, "failed := failed OR up AND down;", "failed := failed OR up AND free;")):
            found = self.parted(old, new, text)
            self.assertEqual([(line.partition(";")[0], other.partition(";")[0]) for _, line, other in found], [(old[:-1], new[:-1])])

    @needs_program
    def test_exchanged_operands_are_told_at_their_operator(self) -> None:
        tracks = (EXAMPLES / "two_tracks.st").read_text(encoding="utf-8")
        for old, new in (("failed OR up AND down", "failed OR down AND up"),
                         ("OR track_1 <> CLEAR OR track_2 <> CLEAR", "OR track_2 <> CLEAR OR track_1 <> CLEAR")):
            found = self.parted(old, new, tracks)
            self.assertGreater(len(found), 0)
            for _, line, other in found:
                self.assertIn(old, line)
                self.assertIn(new, other)
        printed = self.compare("y := a + b;", "y := b + a;", 9)
        self.assertIn("output y: in A operation 2, ADD at 5:8 for y; in B operation 2, ADD at 5:8 for y, the same operands in another order", printed)

    @needs_program
    def test_an_operation_that_may_stop_and_gives_nothing(self) -> None:
        self.assertIn("only B may stop at operation", self.compare("y := a + b;", "y := a * b;\ny := a + b;", 9))

    @needs_program
    def test_images_and_seeds(self) -> None:
        self.write("a.st", PROGRAM)
        self.write("a.img", self.program("compile", "a.st", "--seed", "7"))
        printed = self.tool("diff", "a.st", "a.img")
        self.assertIn("seed and step are 305419896 and 1 in A, 7 and 1 in B", printed)
        self.write("bad.st", "PROGRAM p r = 1; END_PROGRAM")
        self.assertIn("S4 Syntax", self.tool("diff", "a.st", "bad.st", status=2))


class Readers(unittest.TestCase):
    """What is told where it is read, of graphs that are made by hand."""

    def compared(self, old: str, new: str, first: list[Operation], second: list[Operation]) -> list[str]:
        """What is said of two graphs with two inputs and two outputs, which are the last operations."""
        given = []
        for text, operations in ((old, first), (new, second)):
            kind = operations[0].type
            inputs = [Slot(name, kind, number) for number, name in enumerate("ab")]
            outputs = [Slot(name, operations[-2 + number].type, len(operations) - 2 + number) for number, name in enumerate("mn")]
            given.append(Given("p.st", Image(1, 1, 0, inputs, outputs, [], operations), b"", Source(text.encode())))
        return list(Comparison(*given).differences())

    def test_a_constant_that_stands_elsewhere(self) -> None:
        text = "\n\n\nm := a + 3;\nn := b + 3;\n"
        both = [made(0, "INPUT", 0, "1:1"), made(1, "INPUT", 1, "1:2"), made(2, "CONST", 3, "4:10"), made(3, "ADD", 0, "4:8", 0, 2)]
        first = [*both, made(4, "ADD", 0, "5:8", 1, 2), made(5, "OUT", 0, "2:1", 3), made(6, "OUT", 1, "2:2", 4)]
        second = [*both, made(4, "CONST", 4, "5:10"), made(5, "ADD", 0, "5:8", 1, 4), made(6, "OUT", 0, "2:1", 3), made(7, "OUT", 1, "2:2", 5)]
        self.assertEqual(self.compared(text, text.replace("b + 3", "b + 4"), first, second), [
            "output n: in A operation 4, ADD at 5:8 for n, which reads CONST 3; in B operation 5, ADD at 5:8 for n, which reads CONST 4\n"
            "    A: n := b + 3;\n    B: n := b + 4;"])

    def test_operands_that_both_sides_have(self) -> None:
        text = "\n\n\nm := a + a;\nn := (m - 1) - (b + b);\n"
        both = [made(0, "INPUT", 0, "1:1"), made(1, "INPUT", 1, "1:2"), made(2, "ADD", 0, "4:8", 0, 0), made(3, "CONST", 1, "5:11"),
                made(4, "ADD", 0, "5:19", 1, 1), made(5, "SUB", 0, "5:9", 2, 3)]
        first = [*both, made(6, "SUB", 0, "5:14", 5, 4), made(7, "OUT", 0, "2:1", 2), made(8, "OUT", 1, "2:2", 6)]
        second = [*both, made(6, "SUB", 0, "5:14", 5, 2), made(7, "OUT", 0, "2:1", 2), made(8, "OUT", 1, "2:2", 6)]
        told = self.compared(text, text.replace("(b + b)", "m"), first, second)
        self.assertEqual(told[0], "output n: in A operation 6, SUB at 5:14 for n, which reads operation 4, ADD at 5:19 for n; in B operation 6, SUB at 5:14 "
                                  "for n, which reads operation 2, ADD at 4:8\n    A: n := (m - 1) - (b + b);\n    B: n := (m - 1) - m;")

    def test_an_operand_that_one_side_has_elsewhere(self) -> None:
        text = "\n\n\nm := -a;\nn := b - (-b);\n"
        both = [made(0, "INPUT", 0, "1:1"), made(1, "INPUT", 1, "1:2"), made(2, "NEG", 0, "4:6", 0)]
        first = [*both, made(3, "NEG", 0, "5:11", 1), made(4, "SUB", 0, "5:8", 1, 3), made(5, "OUT", 0, "2:1", 2), made(6, "OUT", 1, "2:2", 4)]
        second = [*both, made(3, "SUB", 0, "5:8", 1, 2), made(4, "OUT", 0, "2:1", 2), made(5, "OUT", 1, "2:2", 3)]
        self.assertEqual(self.compared(text, text.replace("(-b)", "(-a)"), first, second)[0], (
            "output n: in A operation 4, SUB at 5:8 for n, which reads operation 3, NEG at 5:11 for n; in B operation 3, SUB at 5:8 for n, which reads "
            "operation 2, NEG at 4:6\n    A: n := b - (-b);\n    B: n := b - (-a);"))

    def test_exchanged_operands(self) -> None:
        text = "\n\n\nm := a + b;\nn := a;\n"
        both = [made(0, "INPUT", 0, "1:1"), made(1, "INPUT", 1, "1:2")]
        ends = [made(3, "OUT", 0, "2:1", 2), made(4, "OUT", 1, "2:2", 0)]
        first, second = [*both, made(2, "ADD", 0, "4:8", 0, 1), *ends], [*both, made(2, "ADD", 0, "4:8", 1, 0), *ends]
        self.assertEqual(self.compared(text, text.replace("a + b", "b + a"), first, second), [
            "output m: in A operation 2, ADD at 4:8; in B operation 2, ADD at 4:8, the same operands in another order\n    A: m := a + b;\n    B: m := b + a;"])


def made(number: int, kind: str, own: int, place: str, *operands: int) -> Operation:
    """An operation of INT."""
    line, column = map(int, place.split(":"))
    return Operation(number, kind, "INT", "INT", operands, own, line, column, (), 0)


if __name__ == "__main__":
    unittest.main()
