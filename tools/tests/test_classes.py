"""The classes of faults that the tool makes itself, of the words of a run: bits that flip, and words of the cycle before."""
from __future__ import annotations

import shutil
import unittest

from tests.support import EXAMPLES, InFolder
from tests.test_campaign import needs_programs
from tests.test_diff import IMAGE_OF_A_SUM
from vcp_tools.campaign.traced import MOST_ADDED, faults_of, flips, late, words_of
from vcp_tools.program import Program
from vcp_tools.read.image import Cell, Image, Operation, Slot, read_image


def operation(number: int, kind: str, types: str, *operands: int, own: int = 0) -> Operation:
    """An operation without a place; `types` has the type of its operands and its own."""
    given, found = types.split()
    return Operation(number, kind, given, found, operands, own, 0, 0, (), 0)


class Lines(unittest.TestCase):
    """The lines, worked out by hand."""

    def test_a_flip_adds_or_takes_the_bit(self) -> None:
        self.assertEqual(list(flips([[5, 0], [-1]], (0, 2))), [
            b"result 0 0 add -1", b"result 0 0 add 2", b"result 0 0 add -4", b"result 0 1 add 1", b"result 0 1 add 2", b"result 0 1 add 4",
            b"result 1 0 add -1", b"result 1 0 add -2", b"result 1 0 add -4"])
        self.assertEqual(list(flips([[1 << 62]], (62, 62))), [b"result 0 0 add -%d" % (1 << 62)])

    def test_late_words_of_a_sum(self) -> None:
        image = read_image(IMAGE_OF_A_SUM, "sum")
        before, now = [50, 7, 57, 58], [20, 8, 28, 30]
        self.assertEqual(list(late(image, [before, now])), [
            # The sum reads 20 and 8: as they came, it may have the sum of the cycle before, 57, or what was released, 58; and OUT reads 28.
            b"operand 1 2 0 add 37", b"operand 1 2 0 add 38", b"operand 1 2 1 add 49", b"operand 1 2 1 add 50", b"operand 1 3 0 add 30"])
        self.assertEqual(list(late(image, [before])), [])

    def test_late_words_where_types_and_numbers_do_not_go(self) -> None:
        # A cell of INT with its LOAD, a comparison, its OUT, and a STORE of the LOAD.
        image = Image(1, 1, 0, [], [Slot("q", "BOOL", 2)], [Cell("c", "INT", 0, 0, 3)], [
            operation(0, "LOAD", "INT INT"), operation(1, "EQ", "INT BOOL", 0, 0), operation(2, "OUT", "BOOL BOOL", 1), operation(3, "STORE", "INT INT", 0)])
        told = list(late(image, [[10, 20, 30, 40], [41, 21, 31, 43]]))
        self.assertEqual(told, [
            # LOAD has what STORE answered, 40, or else its own word, 10; EQ and STORE read 41, and of INT later ones have 40 alone; OUT reads 21.
            b"operand 1 0 0 add -30", b"operand 1 1 0 add -1", b"operand 1 1 1 add -1", b"operand 1 2 0 add 9", b"operand 1 3 0 add -1"])
        far = list(late(image, [[MOST_ADDED * 2, 20, 30, 40], [40, 30, 31, 43]]))
        self.assertEqual(far, [])


class Programs(InFolder):
    """The same of programs that are built."""

    @needs_programs
    def test_the_bits_0_to_31_and_late_words_are_those_of_the_proved_script(self) -> None:
        programs = Program.found(), Program.found("vcp_study")
        for name, rows in (("add", "in"), ("crossing", "crossing"), ("odometer", "odometer")):
            shutil.copy(EXAMPLES / f"{rows}.csv", self.folder / "r.csv")
            image = self.write("m.img", self.program("compile", str(EXAMPLES / f"{name}.st")))
            over = [str(self.folder / "r.csv")]
            words = words_of(programs[0], image, over)
            for of, told in (("flips", flips(words, (0, 31))), ("late", late(read_image(image.read_bytes(), "m.img"), words))):
                proved = faults_of(of, programs, image, over, 0, (0, 31))
                wanted = [line for start in range(0, proved.count, 10_000) for line in proved.text(start, 10_000).split(b"\n")[1:-1]]
                self.assertEqual(list(told), wanted, (name, of))

    @needs_programs
    def test_upper_bits_and_late_words_are_judged(self) -> None:
        shutil.copy(EXAMPLES / "crossing.csv", self.folder / "r.csv")
        image = self.write("m.img", self.program("compile", str(EXAMPLES / "crossing.st")))
        count = len(read_image(image.read_bytes(), "m.img").operations) * 8 * 31
        printed = self.tool("campaign", "m.img", "r.csv", "flips", "--bits", "32..62", "--quiet", status=None)
        self.assertRegex(printed, rf"\nfaults {count} same \d+ wrong \d+ ran-on \d+ refused \d+ stopped \d+\n\Z")
        printed = self.tool("campaign", "m.img", "r.csv", "late", "--quiet", status=None)
        number = len(list(late(read_image(image.read_bytes(), "m.img"), words_of(Program.found(), image, [str(self.folder / "r.csv")]))))
        self.assertRegex(printed, rf"\nfaults {number} same \d+ wrong \d+ ran-on \d+ refused \d+ stopped \d+\n\Z")
        for name in ("flips", "late"):
            self.assertIn("are made from the words of one run", self.tool("campaign", "m.img", name, "--rows", "r.csv", "--rows", "r.csv", status=2))


if __name__ == "__main__":
    unittest.main()
