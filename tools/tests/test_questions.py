"""What a campaign is asked beyond its tables: the queries of docs/CAMPAIGNS.md to its store, and the share of drawn faults. The programs are made up."""
from __future__ import annotations

import re
import sqlite3
import unittest
from collections import Counter
from math import comb

from tests.made_up import OPERATIONS, end_of, groups, verdict, verdict_over
from tests.test_failures import CYCLES, MadeUp
from tests.test_properties import Listed
from vcp_tools.campaign.interval import clopper_pearson
from vcp_tools.program import TOP

PLACES = {0: ("INPUT", "2:11"), 1: ("CONST", "4:10"), 2: ("ADD", "4:8"), 3: ("OUT", "3:12")}
"""The operations of the image."""
SHORT = 5
"""The cycles of a second run."""


class Stores(MadeUp):
    """Two runs, and single faults and groups, in a store."""

    def setUp(self) -> None:
        super().setUp()
        self.write("short.csv", "x\n" + "1\n" * SHORT)
        alone = "".join(f"skip {cycle} {operation}\n" for cycle in range(1, CYCLES) for operation in PLACES)
        grouped = "".join(f"begin\nskip {cycle} 1\nresult {cycle + 1} 2 add 5\nend\n" for cycle in range(1, CYCLES - 1))
        self.script = f"# faults\n{alone}{grouped}"
        self.write("own.faults", self.script)
        self.words = ["campaign", "m.img", "own.faults", "--rows", "r.csv", "--rows", "short.csv", "--store", "s.db", "--quiet"]
        self.run_to(9)
        self.database = sqlite3.connect(self.folder / "s.db")
        self.addCleanup(self.database.close)

    def test_the_queries_of_the_document(self) -> None:
        text = (TOP / "docs/CAMPAIGNS.md").read_text(encoding="utf-8")
        queries = re.findall(r"^    (SELECT .*?;)$", text, re.M | re.S)
        self.assertEqual(len(queries), 3)
        found = [self.database.execute(" ".join(query.split())).fetchall() for query in queries]
        told = list(groups(self.script))
        unseen: Counter[int] = Counter()
        for _, faults in told:
            if any(verdict_over(faults, cycles) in ("wrong", "ran-on") for cycles in (CYCLES, SHORT)):
                unseen.update(int(words[2]) for words in faults)
        self.assertEqual(found[0], [(number, *PLACES[number], unseen[number]) for number in sorted(unseen)])
        self.assertEqual([len(rows) for rows in found[1]], [3] * 10)
        self.assertEqual({rows[2] for rows in found[1]}, {0})
        same = [line for line, faults in told if {verdict_over(faults, cycles) for cycles in (CYCLES, SHORT)} == {"same"}]
        self.assertEqual(found[2], [(line,) for line in same])
        self.assertTrue(unseen and same)

    def test_each_fault_and_each_verdict_stands_once(self) -> None:
        told = list(groups(self.script))
        lines = self.script.split("\n")
        kept = self.database.execute("SELECT line, of_group, act, cycle, operation, operand, change FROM fault ORDER BY line").fetchall()
        wanted = [(number, line.split()) for number, line in enumerate(lines, 1) if line[:1] in ("s", "r")]
        self.assertEqual([(number, act, cycle, operation) for number, _, act, cycle, operation, _, _ in kept],
                         [(number, words[0], int(words[1]), int(words[2])) for number, words in wanted])
        first = {line for line, _ in told}
        self.assertEqual({of_group for _, of_group, *_ in kept}, first)
        self.assertEqual(sum(number == of_group for number, of_group, *_ in kept), len(told))
        for rows, cycles in (("r.csv", CYCLES), ("short.csv", SHORT)):
            found = self.database.execute("SELECT line, verdict FROM verdict WHERE rows = ? ORDER BY line", (rows,)).fetchall()
            self.assertEqual(found, [(line, verdict_over(faults, cycles)) for line, faults in told])


class Draws(MadeUp):
    """`--draw`."""

    def test_the_share_is_that_of_what_was_drawn(self) -> None:
        of = OPERATIONS * (CYCLES - 1)
        scripts = set()
        for number, seed in ((120, 1), (120, 2), (7, 3)):
            told = self.run_to(9 if number > 7 else self.status_of(number, seed), "--draw", str(number), "--seed", str(seed))
            folder = max(self.folder.glob("campaign.*"), key=lambda it: (it / "tables").stat().st_mtime_ns)
            script = (folder / "faults").read_text(encoding="ascii")
            scripts.add(script)
            drawn = [faults[0] for _, faults in groups(script)]
            self.assertEqual(len({tuple(words) for words in drawn}), number)
            self.assertTrue(all(0 < int(words[1]) < CYCLES and int(words[2]) < OPERATIONS for words in drawn))
            wrong = sum(verdict([words]) == "wrong" for words in drawn)
            match = re.search(rf"drawn: {number} of the {of} faults of `skip`, seed {seed}; wrong: (\d+), a share between (\S+) and (\S+) of the class", told)
            assert match is not None, told
            self.assertEqual(int(match[1]), wrong)
            for share, wanted in zip(match.groups()[1:], exact(wrong, number)):
                self.assertAlmostEqual(float(share), wanted, 5)
        self.assertEqual(len(scripts), 3)

    def status_of(self, number: int, seed: int) -> int:
        """The status of a campaign of so few faults that all of them may be seen."""
        lines = [f"skip {cycle} {operation}" for cycle in range(1, CYCLES) for operation in range(OPERATIONS)]
        drawn = Listed([line.encode() for line in lines]).drawn(number, seed)[0].decode()
        return 9 if any(verdict(faults) in ("wrong", "ran-on") for _, faults in groups(drawn)) else 0

    def test_more_than_there_are(self) -> None:
        for number in ("481", "9999"):
            self.assertIn(f"--draw {number}: the class has 480 faults", self.run_to(2, "--draw", number))
        self.assertIn("drawn: 480 of the 480 faults", self.run_to(9, "--draw", "480"))


class Pairs(MadeUp):
    """`--then`."""

    def test_pairs_of_a_dormant_fault_and_a_later_one(self) -> None:
        lines = [f"skip {cycle} {operation}" for cycle in (1, 6, 11) for operation in range(8)]
        self.write("own.faults", "".join(f"{line}\n" for line in lines))
        self.words[3] = "own.faults"
        every = [[line.split()] for line in lines]
        dormant = [faults[0] for faults in every if verdict(faults) == "same" and end_of(faults, CYCLES) == "stands in a cell"]
        number = sum(OPERATIONS * (CYCLES - 1 - int(words[1])) for words in dormant)
        self.assertGreater(len(dormant), 2)
        for folders, seed in ((2, "1"), (3, "2")):
            told = self.run_to(9, "--then", "skip", "--draw", "60", "--seed", seed)
            self.assertIn(f"dormant: {len(dormant)} of the {len(every)} faults are left in a cell when the rows end\n", told)
            # The faults are judged once, whatever is drawn of the pairs.
            self.assertEqual(len(list(self.folder.glob("campaign.*"))), folders)
            script = next(self.folder.glob("campaign.*/pairs")).read_text(encoding="ascii")
            pairs = [faults for _, faults in groups(script)]
            self.assertEqual((len(pairs), len({str(pair) for pair in pairs})), (60, 60))
            for first, second in pairs:
                self.assertIn(first, dormant)
                self.assertEqual((second[0], len(second)), ("skip", 3))
                self.assertTrue(int(first[1]) < int(second[1]) < CYCLES and int(second[2]) < OPERATIONS)
            wrong = sum(verdict(pair) == "wrong" for pair in pairs)
            self.assertIn(f"drawn: 60 of the {number} pairs of a dormant fault of `own.faults` and a later one of `skip`, seed {seed}; wrong: {wrong}, ", told)


class Shares(unittest.TestCase):
    """Draws and intervals by themselves."""

    def test_each_fault_is_as_likely_as_each_other(self) -> None:
        faults = Listed([b"skip 1 %d" % number for number in range(15)])
        alone: Counter[int] = Counter()
        pairs: Counter[tuple[int, int]] = Counter()
        for seed in range(2100):
            drawn = [int(line.split()[2]) for line in faults.drawn(2, seed)[0].split(b"\n")[1:-1]]
            alone.update(drawn)
            pairs[drawn[0], drawn[1]] += 1
        self.assertEqual(len(pairs), 105)
        # Chi squared of 14 and of 104 degrees of freedom: more than these has a chance of 1 in 1,000.
        self.assertLess(sum((count - 280) ** 2 / 280 for count in alone.values()), 36.1)
        self.assertLess(sum((count - 20) ** 2 / 20 for count in pairs.values()), 154)

    def test_published_intervals(self) -> None:
        """Those of Newcombe (Statistics in Medicine, 1998) by the method of Clopper and Pearson."""
        for found, tried, low, high in ((81, 263, 0.2527, 0.3676), (15, 148, 0.0578, 0.1617), (0, 20, 0.0, 0.1684), (1, 29, 0.0009, 0.1776)):
            for told, wanted in zip(clopper_pearson(found, tried), (low, high)):
                self.assertAlmostEqual(told, wanted, 4, (found, tried))

    def test_ends_that_have_a_formula(self) -> None:
        for tried in (1, 2, 10, 1000, 100_000, 10_000_000):
            self.assertAlmostEqual(clopper_pearson(0, tried)[1], 1 - 0.025 ** (1 / tried), 12)
            self.assertAlmostEqual(clopper_pearson(tried, tried)[0], 0.025 ** (1 / tried), 12)
            self.assertEqual((clopper_pearson(0, tried)[0], clopper_pearson(tried, tried)[1]), (0, 1))

    def test_intervals_beside_sums_of_chances(self) -> None:
        for found, tried in ((1, 3), (7, 120), (60, 120), (119, 120), (3, 300)):
            for told, wanted in zip(clopper_pearson(found, tried), exact(found, tried)):
                self.assertAlmostEqual(told, wanted, 9, (found, tried))


def exact(found: int, tried: int) -> tuple[float, float]:
    """The same interval by its definition: the shares at which as many or more, or as few or fewer, have a chance of 2.5 %."""

    def chance(share: float, numbers: range) -> float:
        return sum(comb(tried, it) * share**it * (1 - share) ** (tried - it) for it in numbers)

    def found_at(rises: bool, numbers: range) -> float:
        low, high = 0.0, 1.0
        for _ in range(60):
            middle = (low + high) / 2
            low, high = (middle, high) if (chance(middle, numbers) < 0.025) == rises else (low, middle)
        return (low + high) / 2

    return (found_at(True, range(found, tried + 1)) if found else 0.0, found_at(False, range(found + 1)) if found < tried else 1.0)


if __name__ == "__main__":
    unittest.main()
