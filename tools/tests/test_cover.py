"""What becomes of faults in every run: the lines of `vcp_study cover`, the step that `lint` names, and the part of a report."""
from __future__ import annotations

import os
import re
import shutil
import unittest
from unittest import mock

from vcp_tools.lint.step import MOST_STEP, least_step
from vcp_tools.pictures.report import sections_of
from vcp_tools.program import TOP, find_program
from vcp_tools.read.cover_lines import BY_CLASS, BY_DELAY, Cover, cover_of, read_cover
from vcp_tools.read.image import Image, Operation, read_image
from vcp_tools.refusal import Refusal
from tests.support import EXAMPLES, InFolder, needs_program

needs_study = unittest.skipUnless(find_program() and find_program("vcp_study"), "no program vcp_study is built, and VCP_STUDY=FILE names none")
HEAD = "      faults     refused     nothing       shows     runs-on      beyond  "
TEXT = f"""# cover all 2 of {'0' * 64}
{HEAD}by what the fault does
          10           4           1           1           2           2  add
           3           3           0           0           0           0  late
{HEAD}by how many cycles later it is refused
           5           5           0           0           0           0  after 0
           2           2           0           0           0           0  after 16 or more
shows 0 y: operand N 1 0 add any: operation 1 ADD at 4:9 i=2
runs-on 1 2: faults 2 of operation 0 INPUT x at 4:8
beyond: faults 2 of operation 3 CONST at 0:0
faults 13 refused 7 nothing 1 shows 1 runs-on 2 beyond 2
"""


def adders(count: int, seed: int = 0) -> Image:
    """An image of inputs and additions, each of the two operations before it."""
    made = [Operation(it, "INPUT", "DINT", "DINT", (), it, 1, 1, (), 0) for it in range(2)]
    made += [Operation(it, "ADD", "DINT", "DINT", (it - 2, it - 1), 0, 1, 1, (), 0) for it in range(2, count)]
    return Image(1, 1, seed, [], [], [], made)


class Lines(unittest.TestCase):
    """What a cover prints."""

    def test_tables_and_lines_are_read(self) -> None:
        found = read_cover(TEXT)
        self.assertEqual((found.name, found.horizon, found.digest), ("all", 2, "0" * 64))
        self.assertEqual(found.tables[BY_CLASS]["add"], [10, 4, 1, 1, 2, 2])
        self.assertEqual(list(found.tables[BY_DELAY]), ["after 0", "after 16 or more"])
        self.assertEqual([(it.output, it.borders, it.fault, it.operation) for it in found.shows], [("y", 0, "operand N 1 0 add any", 1)])
        self.assertEqual([(it.what, it.borders, it.stop, it.faults, it.operation) for it in found.left], [("runs-on", 1, 2, 2, 0), ("beyond", -1, -1, 2, 3)])
        self.assertEqual(found.ending, TEXT.rstrip("\n").split("\n")[-1])
        self.assertEqual(found.uncertain, 5)

    def test_what_breaks_off_or_does_not_add_up_is_refused(self) -> None:
        for old, new in (("faults 13", "faults 14"), ("faults 2 of operation 0", "faults 3 of operation 0"), ("shows 0 y", "show 0 y"),
                         ("          10           4", "          10           5"), ("           5           5", "           5           4"),
                         ("# cover", "# sites"), (HEAD + "by how", "by how"), ("beyond 2\n", "beyond 2")):
            self.assertEqual(TEXT.count(old), 1, old)
            with self.assertRaises(Refusal, msg=old):
                read_cover(TEXT.replace(old, new))
        for lines in range(TEXT.count("\n")):
            with self.assertRaises(Refusal, msg=str(lines)):
                read_cover("\n".join(TEXT.split("\n")[:lines]))

    def test_the_example_of_the_document_is_read(self) -> None:
        document = (TOP / "docs" / "COVER.md").read_text(encoding="utf-8")
        printed = re.findall(r"(?ms)^    (# cover .*?^    faults .*?)$", document)
        self.assertTrue(printed)
        self.assertIsInstance(read_cover(re.sub(r"(?m)^    ", "", printed[0]) + "\n"), Cover)


class Steps(InFolder):
    """The least step with which no word passes for another."""

    def test_operations_that_are_too_far_apart(self) -> None:
        self.assertEqual([least_step(adders(count)) for count in (3, 5, 8, 50, 51)], [1, 1, 2, 10, 11])
        self.assertEqual(least_step(adders(5 * MOST_STEP)), MOST_STEP)
        self.assertIsNone(least_step(adders(5 * MOST_STEP + 10)))

    def test_signatures_that_begin_anew(self) -> None:
        """Where the greater signature is behind the end of all of them, the two differ by another number than the step."""
        self.assertEqual([least_step(adders(6, seed)) for seed in (0, (1 << 30) - 1)], [2, 1])

    @needs_study
    def test_with_it_no_fault_of_from_or_late_shows(self) -> None:
        for name in ("crossing", "two_tracks", "two_hand", "route", "points", "odometer"):
            image = read_image(self.program("compile", str(EXAMPLES / f"{name}.st")), name)
            least = least_step(image)
            assert least is not None
            printed = self.tool("lint", str(EXAMPLES / f"{name}.st"), status=None)
            self.assertIn(f"--step {least} is the least", printed)
            found = [cover_of(self.program("compile", str(EXAMPLES / f"{name}.st"), "--step", str(step)), 8, ["from", "late"]) for step in (least, 1)]
            self.assertEqual(found[0].totals[3], 0, name)
            if name == "crossing":
                self.assertEqual((least, found[1].totals[3]), (10, 34))

    @needs_program
    def test_lint_names_it_for_a_seed_and_of_each_program(self) -> None:
        self.write("p.st", "PROGRAM p VAR_INPUT x : INT; END_VAR VAR_OUTPUT y : INT; END_VAR\ny := MIN(x, 7);\nEND_PROGRAM\n")
        self.assertRegex(self.tool("lint", "p.st"), r"^p\.st: nothing that is likely a mistake\np\.st: --step \d is the least")
        self.assertIn("is the least", self.tool("lint", "p.st", "--seed", "7"))
        self.assertIn("--seed", self.tool("lint", "p.st", "--seed", "x", status=2))


class Parts(InFolder):
    """The part of a report."""

    def setUp(self) -> None:
        super().setUp()
        for name in ("crossing.st", "crossing.csv"):
            shutil.copy(EXAMPLES / name, self.folder)

    def report(self, *words: str, status: int | None) -> dict[str, tuple[str, str]]:
        """The sections of a report."""
        self.tool("report", *words, "-o", "r.html", status=status)
        return sections_of((self.folder / "r.html").read_text(encoding="utf-8"))

    @needs_study
    def test_a_report_begins_with_the_faults_in_every_run(self) -> None:
        sections = self.report("crossing.st", "crossing.csv", status=9)
        self.assertEqual(list(sections)[:2], ["summary", "cover"])
        self.assertIn('<span class="bad">faults 2487 refused 2428 nothing 25 shows 34 runs-on 0 beyond 0</span>', sections["summary"][1])
        told = sections["cover"][1]
        self.assertEqual(told.count(" late "), 34)
        self.assertIn("<code>operand N 6 2 late 8</code></td><td><code>lights</code>", told)
        for row in ("<code>add</code></td><td class=\"n\">133</td><td class=\"n\">133", "<code>after 1</code></td><td class=\"n\">52"):
            self.assertIn(row, told)
        self.assertIn("vcp_study cover crossing.img 8 all", sections["commands"][1])

    @needs_study
    def test_with_the_step_that_lint_names_none_shows(self) -> None:
        sections = self.report("crossing.st", "crossing.csv", "--step", "10", status=0)
        self.assertIn('<span class="good">faults 2487 refused 2462 nothing 25 shows 0 runs-on 0 beyond 0</span>', sections["summary"][1])
        self.assertIn("None shows.", sections["cover"][1])
        for command in ("vcp compile crossing.st --step 10 &gt;crossing.img", "vcp run crossing.st crossing.csv --step 10"):
            self.assertIn(command, sections["commands"][1])
        self.assertIn("made again", self.tool("report", "crossing.st", "crossing.csv", "--step", "10", "--check", "r.html"))

    @needs_study
    def test_faults_that_run_on_are_told_with_their_operations(self) -> None:
        declared = "PROGRAM late VAR_INPUT a, b : INT; END_VAR VAR_OUTPUT y : INT; END_VAR VAR c : INT; END_VAR\n"
        self.write("late.st", declared + "y := c;\nc := a / b;\nEND_PROGRAM\n")
        self.write("late.csv", "a,b\n1,2\n3,4\n")
        told = self.report("late.st", "late.csv", status=9)["cover"][1]
        self.assertIn("<code>runs-on</code>", told)
        self.assertRegex(told, r"operation \d+ DIV at 3:8 for c</a><code class=\"line\">c := a / b;</code>")

    @needs_program
    def test_without_the_program_the_summary_says_so(self) -> None:
        with mock.patch.dict(os.environ, {"VCP_STUDY": str(self.folder / "none")}):
            sections = self.report("crossing.st", "crossing.csv", status=0)
        self.assertIn("not looked at: vcp_study isn", sections["summary"][1])
        self.assertNotIn("cover", sections)
