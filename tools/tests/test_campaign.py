"""`campaign`: it loses no fault, whatever happens to its parts, its programs and its files."""
from __future__ import annotations

import os
import re
import shutil
import sqlite3
import subprocess
import unittest
from pathlib import Path
from typing import Callable
from unittest import mock

from tests.support import EXAMPLES, InFolder
from vcp_tools.campaign.folder import Folder
from vcp_tools.campaign.interval import clopper_pearson
from vcp_tools.program import TOP, find_program
from vcp_tools.read.script import cut, digest_of_remark, runs_of
from vcp_tools.read.sum_tables import Sum, add, read_sum, sum_text
from vcp_tools.refusal import Refusal

TOTALS = "faults 14 same 3 wrong 3 ran-on 0 refused 6 stopped 2"
needs_programs = unittest.skipUnless(find_program() and find_program("vcp_study"), "vcp and vcp_study aren't both built")


class Campaigns(InFolder):
    """The script of the crossing in three parts, as a whole and with each thing that may go wrong."""

    def setUp(self) -> None:
        super().setUp()
        for name in ("crossing.st", "crossing.csv", "crossing.faults"):
            shutil.copy(EXAMPLES / name, self.folder)
        self.write("c.img", self.program("compile", "crossing.st"))
        patch = mock.patch("vcp_tools.read.script.MOST", 5)
        patch.start()
        self.addCleanup(patch.stop)
        self.words = ["campaign", "c.img", "crossing.csv", "crossing.faults", "--quiet"]

    def at(self) -> Path:
        """The folder of the one campaign."""
        found = list(self.folder.glob("campaign.*"))
        self.assertEqual(len(found), 1)
        return found[0]

    def whole(self, status: int = 9) -> str:
        """What the campaign prints; some of its faults aren't seen."""
        return self.tool(*self.words, status=status)

    def wrapped(self, name: str, script: str) -> dict[str, str]:
        """The variable that puts a shell script, in which REAL is the program, in the place of a program."""
        real = find_program(name)
        self.write(f"my_{name}", "#!/bin/sh\n" + script.replace("REAL", str(real))).chmod(0o755)
        return {name.upper(): str(self.folder / f"my_{name}")}

    @needs_programs
    def test_a_whole_campaign_and_parts_that_are_half_changed_or_gone(self) -> None:
        first = self.whole()
        self.assertTrue(first.endswith(TOTALS + "\n"), first)
        at = self.at()
        self.assertEqual(len(list(at.glob("parts/*.faults"))), 3)
        verdicts = (at / "verdicts").read_bytes()
        self.assertEqual(verdicts.count(b"\n"), 15)
        sums = at / "parts/000001.sums"
        harms: list[tuple[str, Callable[[], object]]] = [
            ("tables were changed", lambda: sums.write_bytes(sums.read_bytes()[:300])),
            ("were changed", lambda: sums.write_bytes(sums.read_bytes().replace(b" 1 ", b" 2 ", 1))),
            ("000001.sums is gone", lambda: os.remove(sums)),
            ("000000.verdicts is gone", lambda: os.remove(at / "parts/000000.verdicts")),
            ("", lambda: list(map(os.remove, at.glob("parts/000002.*")))),
            ("its script was changed", lambda: (at / "parts/000001.faults").write_bytes(b"# part 2\n")),
            ("changed since", lambda: (at / "image").write_bytes(b"VCPANBD\n")),
        ]
        for said, harm in harms:
            harm()
            again = self.whole()
            self.assertIn(said, again)
            self.assertTrue(again.startswith(first), again)
            self.assertEqual((at / "verdicts").read_bytes(), verdicts)

    @needs_programs
    def test_programs_that_break_off(self) -> None:
        first = self.whole()
        shutil.rmtree(self.at())
        for script in ('[ "$1" != sum ] || { REAL "$@" | head -c 300; exit 0; }\nexec REAL "$@"\n', '[ "$1" != sum ] || kill -9 $$\nexec REAL "$@"\n'):
            with mock.patch.dict(os.environ, self.wrapped("vcp_study", script)):
                printed = self.whole(2)
                self.assertIn("3 of 3 parts aren't judged", printed)
                self.assertIn("parts/000001.faults isn't judged", printed)
                self.assertFalse((self.at() / "tables").exists())
                shutil.rmtree(self.at())
        with mock.patch.dict(os.environ, self.wrapped("vcp", '[ "$1" != exec ] || { REAL "$@" | head -c 40; exit 0; }\nexec REAL "$@"\n')):
            self.assertIn("breaks off", self.tool("campaign", "c.img", "crossing.csv", "skip", status=2))
        self.assertEqual(self.whole(), first)

    @needs_programs
    def test_another_program_is_another_campaign(self) -> None:
        self.whole()
        with mock.patch.dict(os.environ, self.wrapped("vcp", 'exec REAL "$@"\n')):
            self.whole()
        self.assertEqual(len(list(self.folder.glob("campaign.*"))), 2)

    @needs_programs
    def test_a_second_campaign_at_once_is_refused(self) -> None:
        self.whole()
        other = Folder(self.at())
        other.hold()
        self.assertIn("another campaign works in this folder", self.whole(2))
        assert other.lock is not None
        other.lock.close()
        self.whole()

    @needs_programs
    def test_names_ends_of_lines_and_other_images(self) -> None:
        first = self.whole()
        shutil.rmtree(self.at())
        script = (self.folder / "crossing.faults").read_bytes()
        self.write("seed=3.faults", script.replace(b"\n", b"\r\n"))
        self.words[3] = "seed=3.faults"
        self.assertEqual(self.whole(), first)
        self.write("other.faults", b"# sites skip of " + b"0" * 64 + b"\r\nskip 1 1\r\n")
        self.words[3] = "other.faults"
        self.assertIn("another image", self.whole(2))

    @needs_programs
    def test_a_limit_that_is_passed(self) -> None:
        call = f"ulimit -f 1; exec {TOP}/vcp_tools {' '.join(self.words)}"
        done = subprocess.run(["sh", "-c", call], cwd=self.folder, capture_output=True, text=True, check=False)
        self.assertIn(done.returncode, (2, 153))
        self.assertNotIn("Traceback", done.stderr)
        self.assertTrue(self.whole().endswith(TOTALS + "\n"))

    @needs_programs
    def test_without_parallel_and_without_inputs(self) -> None:
        first = self.whole()
        shutil.rmtree(self.at())
        which = shutil.which
        with mock.patch("shutil.which", side_effect=lambda name, *more: None if name == "parallel" else which(name, *more)):
            printed = self.whole()
        self.assertIn("GNU parallel isn't installed", printed)
        self.assertTrue(printed.startswith(first))
        shutil.rmtree(self.at())
        self.write("n.st", "PROGRAM n VAR_OUTPUT y : INT; END_VAR\ny := MIN(y + 1, 9);\nEND_PROGRAM\n")
        self.write("n.img", self.program("compile", "n.st"))
        printed = self.tool("campaign", "n.img", "skip", "--cycles", "3", "--quiet", "--out", "here", status=None)
        self.assertRegex(printed, r"\nfaults \d+ same \d+ wrong \d+ ran-on 0 refused \d+ stopped \d+\n\Z")
        self.assertTrue((self.folder / "here/verdicts").is_file())
        self.assertIn("another campaign is", self.tool("campaign", "n.img", "skip", "--cycles", "4", "--quiet", "--out", "here", status=2))

    @needs_programs
    def test_several_runs_a_store_and_drawn_faults(self) -> None:
        self.write("short.csv", "\n".join((self.folder / "crossing.csv").read_text().split("\n")[:4]) + "\n")
        printed = self.tool("campaign", "c.img", "crossing.faults", "--rows", "short.csv", "--rows", "crossing.csv", "--quiet", "--store", "s.db",
                            status=9)
        self.assertIn("crossing.csv: behind 2 runs, 6 of 14 faults are shown by none, ", printed)
        database = sqlite3.connect(self.folder / "s.db")
        self.addCleanup(database.close)
        self.assertEqual(database.execute("SELECT count(*) FROM fault").fetchone(), (14,))
        told = database.execute("SELECT verdict, count(*) FROM verdict WHERE rows = 'crossing.csv' GROUP BY verdict ORDER BY verdict").fetchall()
        self.assertEqual(told, [("refused", 6), ("same", 3), ("stopped", 2), ("wrong", 3)])
        unshown = [file.read_text() for file in self.folder.glob("campaign.*/unshown")]
        self.assertEqual(len(unshown[0].splitlines()), 6)
        self.assertIn("4 operand 1 8 0 add 2147483647\n", unshown[0])
        printed = self.tool("campaign", "c.img", "crossing.csv", "skip", "--draw", "7", "--seed", "3", "--quiet")
        self.assertIn("drawn: 7 of the 350 faults of `skip`, seed 3; wrong: 0, a share between 0.000000 and 0.409616", printed)
        self.assertIn("no coverage", printed)

    @needs_programs
    def test_dormant_faults_and_a_second_one(self) -> None:
        self.write("d.st", "PROGRAM d VAR_INPUT x : INT; END_VAR VAR_OUTPUT y : INT; END_VAR VAR a, b, c : INT; END_VAR\n"
                           "y := c; c := b; b := a; a := x;\nEND_PROGRAM\n")
        self.write("d.img", self.program("compile", "d.st"))
        self.write("d.csv", "x\n1\n2\n3\n4\n5\n6\n")
        printed = self.tool("campaign", "d.img", "d.csv", "skip", "--then", "skip", "--draw", "9", "--quiet", status=None)
        number = re.search(r"^dormant: (\d+) of the \d+ faults are left in a cell when the rows end$", printed, re.M)
        counted = re.search(r"^ +(\d+) .*  stands in a cell$", printed.partition("dormant:")[0], re.M)
        assert number is not None and counted is not None, printed
        self.assertEqual(number[1], counted[1])
        self.assertRegex(printed, r"\ndrawn: 9 of the \d+ pairs of a dormant fault of `skip` and a later one of `skip`, seed 0; wrong: \d+, a share ")
        pairs = [file.read_text().split("begin\n")[1:] for file in self.folder.glob("campaign.*/pairs")][0]
        self.assertEqual(len(set(pairs)), 9)
        for pair in pairs:
            first, second, end = pair.split("\n")[:3]
            self.assertLess(int(first.split()[1]), int(second.split()[1]))
            self.assertEqual(end, "end")
        self.assertIn("pairs of a dormant fault and a later one of `skip`",
                      self.tool("campaign", "d.img", "d.csv", "skip", "--then", "skip", "--draw", "9999", "--quiet", status=2))

    @needs_programs
    def test_words_that_have_no_form(self) -> None:
        for words, said in (("c.img", "are wanted"), ("c.img crossing.csv", "are wanted"), ("c.img a b --cycles 3", "are wanted"),
                            ("c.img a --rows", "a word is missing"),
                            ("c.img a skip --then all --draw 3", "that goes by cycles"), ("c.img a flips --bits 3..63", "two numbers of 0 to 62"),
                            ("c.img a skip --bits 3..6", "that the class `flips` turns"),
                            ("c.img a skip --then skip", "so many pairs"), ("c.img skip --cycles 3 --then skip --draw 3", "one rows file"),
                            ("c.img a --cycles x", "a number from 1"), ("c.img a --cycles 3 --rows r", "together")):
            self.assertIn(said, self.tool("campaign", *words.split(), status=2), words)


class Readers(unittest.TestCase):
    """Scripts, sums and intervals."""

    def test_no_group_is_cut(self) -> None:
        script = b"# of DIGEST\nskip 1 1\nbegin\r\nskip 2 1\r\nskip 2 2\r\nend\r\n\nskip 3 1\nskip 4 1\n"
        parts = cut(script, "f", 2)
        self.assertEqual([(part.first, part.faults, list(part.groups)) for part in parts], [(-1, 1, [3]), (1, 2, [3]), (6, 2, [2, 3])])
        self.assertEqual(parts[1].text, b"# part 2\nbegin\nskip 2 1\nskip 2 2\nend\n\n")
        for text in (b"begin\nskip 1 1\n", b"begin\nskip 1 1\nskip 1 2\nskip 1 3\nend\n"):
            with self.assertRaises(Refusal):
                cut(text, "f", 2)
        self.assertEqual(cut(b" \nskip 1 1\r\r\n#\r\n\r\nskip 2\r", "f", 5)[0].text, b"# part 1\n \nskip 1 1\r\r\n\n\nskip 2\r\r\n")
        self.assertEqual([runs_of(it) for it in (range(2, 5), [1, 2, 4, 7, 8, 9], [])], [[[2, 3]], [[1, 2], [4, 1], [7, 3]], []])
        self.assertEqual(digest_of_remark(b"# sites bits of " + b"a" * 64 + b"\r\n"), "a" * 64)

    def test_sums_are_read_checked_and_added(self) -> None:
        head = "  faults    same   wrong  ran-on refused stopped  "
        row = "       2       1       1       0       0       0  "
        end = "       1       0       1       0       0       0  "
        text = (f"{head}by what the fault does\n{row}skip\n{head}by where it shows\n{end}output y\n{head}by how many cycles later it shows\n{end}after 0\n"
                f"2 wrong 1 y got 1 want 0\n  skip 1 1: operation 1 ADD at 2:3\nfaults 2 same 1 wrong 1 ran-on 0 refused 0 stopped 0\n")
        total = Sum()
        for first in (0, 10):
            add(total, read_sum(text), first)
        self.assertEqual(total.totals, [4, 2, 2, 0, 0, 0])
        self.assertEqual([line for line, _, _ in total.unseen], [2, 12])
        self.assertIn("       4       2       2       0       0       0  skip\n", sum_text(total, ["y"]))
        self.assertIn(" 12345678 12345678       0       0       0       0  skip\n", sum_text(Sum({"t": {"skip": [12345678, 12345678, 0, 0, 0, 0]}}), []))
        for harm in (text[:-30], text[:200], text.replace("output y", "output y\n" + end + "output z"), text.replace("2 wrong 1 y got 1 want 0\n", ""), ""):
            with self.assertRaises(Refusal):
                read_sum(harm)
        ends = (f"{head}by what the fault does\n{end.replace('1       0       1', '1       1       0')}skip\n"
                f"{head}by how it ends where it shows nowhere\n{end.replace('1       0       1', '1       1       0')}stands in a cell\n"
                "2 stands in a cell\n  skip 1 1: operation 1 ADD at 2:3\nfaults 1 same 1 wrong 0 ran-on 0 refused 0 stopped 0\n")
        total = Sum()
        for first in (0, 10):
            add(total, read_sum(ends), first)
        self.assertEqual([line for line, _ in total.standing], [2, 12])
        self.assertIn("12 stands in a cell\n  skip 1 1: operation 1 ADD at 2:3\nfaults 2 same 2 ", sum_text(total, ["y"]))
        for harm in (ends.replace("2 stands in a cell\n", ""), ends.replace("2 stands in a cell\n", "2 stands in a cell\n3 stands in a cell\n")):
            with self.assertRaises(Refusal):
                read_sum(harm)

    def test_intervals_of_the_literature(self) -> None:
        for found, tried, low, high in ((0, 10, 0, 0.308497), (3, 10, 0.066740, 0.652453), (10, 10, 0.691503, 1), (1, 100, 0.000253, 0.054459)):
            for told, wanted in zip(clopper_pearson(found, tried), (low, high)):
                self.assertAlmostEqual(told, wanted, 5)


if __name__ == "__main__":
    unittest.main()
