"""Properties of what reads and writes, on values that `hypothesis` makes, where it is installed."""
from __future__ import annotations

import unittest
from math import comb
from typing import Any, Callable

from tests.made_up import end_of, groups, sums, totals_of, verdict, verdict_line
from vcp_tools.campaign.folder import PartOf
from vcp_tools.campaign.interval import clopper_pearson
from vcp_tools.campaign.sites import Faults
from vcp_tools.campaign.traced import flips
from vcp_tools.needs import find_module
from vcp_tools.read.script import cut, groups_of, runs_of
from vcp_tools.read.sum_tables import Sum, add, read_sum, sum_text
from vcp_tools.rows.stimuli import read_stimuli, rows_of, stimuli_lines

hypothesis: Any = find_module("hypothesis")
made: Any = hypothesis.strategies if hypothesis else None


class Listed(Faults):
    """Faults that are listed."""

    def __init__(self, lines: list[bytes]) -> None:
        super().__init__("listed", len(lines))
        self.lines = lines

    def text(self, start: int, count: int) -> bytes:
        """The script of some of them."""
        return b"".join(line + b"\n" for line in [b"# listed", *self.lines[start : start + count]])


@unittest.skipUnless(hypothesis, "hypothesis isn't installed")
class Properties(unittest.TestCase):
    """Each holds of all values that are made."""

    def holds(self, check: Callable[..., None], **values: Any) -> None:
        """Whether a check holds of all values; the same ones are made each time."""
        settings = hypothesis.settings(derandomize=True, deadline=None, max_examples=100, database=None)
        settings(hypothesis.given(**values)(check))()

    def scripts(self) -> Any:
        """Scripts, line by line: faults, groups, remarks, empty lines, ends with CR."""
        fault = made.tuples(made.integers(0, 30), made.integers(0, 9)).map(lambda it: f"skip {it[0]} {it[1]}")
        blank = made.sampled_from(["", "# of nothing", "#"])
        group = made.lists(made.one_of(fault, blank), min_size=1, max_size=4).filter(lambda it: any(line.startswith("s") for line in it))
        entry = made.one_of(fault.map(lambda it: [it]), blank.map(lambda it: [it]), group.map(lambda it: ["begin", *it, " end"]))
        whole = made.lists(entry, max_size=30).map(lambda it: [line for lines in it for line in lines])
        return made.tuples(whole, made.sampled_from(["\n", "\r\n"])).map(lambda it: "".join(line + it[1] for line in it[0]))

    def test_parts_are_the_whole(self) -> None:
        def check(script: str, most: int) -> None:
            parts = cut(script.encode(), "f", most)
            told = [(line + part.first, faults) for part in parts for line, faults in groups(part.text.decode())]
            self.assertEqual(told, list(groups(script)))
            self.assertEqual([line + part.first for part in parts for line in part.groups], [line for line, _ in told])
            for part in parts:
                self.assertLessEqual(part.faults, most)
                self.assertEqual(part.faults, sum(len(faults) for _, faults in groups(part.text.decode())))
                self.assertEqual(list(PartOf(part.first, runs_of(part.groups), part.faults, "").lines()), list(part.groups))
        self.holds(check, script=self.scripts(), most=made.integers(4, 20))

    def test_sums_of_parts_are_the_sum(self) -> None:
        def summed(script: str) -> str:
            found = list(groups(script))
            told = [verdict_line(line, faults) for line, faults in found]
            return "".join(line + "\n" for line in [*sums(found, told, 20), totals_of([verdict(faults) for _, faults in found])])

        def check(script: str, most: int) -> None:
            whole = summed(script)
            total = Sum()
            for part in cut(script.encode(), "f", most):
                add(total, read_sum(summed(part.text.decode())), part.first)
            self.assertEqual(sum_text(total, ["y"]), sum_text(read_sum(whole), ["y"]))
            self.assertEqual(sorted(sum_text(total, ["y"])), sorted(whole))
            for end in range(0, len(whole), 1 + len(whole) // 20):
                with self.assertRaises(Exception, msg=whole[:end]):
                    read_sum(whole[:end])
        self.holds(check, script=self.scripts(), most=made.integers(4, 20))

    def test_groups_of_scripts(self) -> None:
        def check(script: str) -> None:
            found = [group for group in groups_of(script.encode(), "f") if group.fault]
            self.assertEqual([(it.fault, it.faults) for it in found], [(line, len(faults)) for line, faults in groups(script)])
            self.assertTrue({end_of(faults, 20) for _, faults in groups(script)} <= {"never reached", "died out", "stands in a cell"})
        self.holds(check, script=self.scripts())

    def test_exact_intervals(self) -> None:
        def tail(found: int, tried: int, share: float) -> float:
            return sum(comb(tried, it) * share**it * (1 - share) ** (tried - it) for it in range(found, tried + 1))

        def check(numbers: tuple[int, int]) -> None:
            found, tried = min(numbers), max(numbers)
            low, high = clopper_pearson(found, tried)
            self.assertTrue(0 <= low <= found / tried <= high <= 1)
            if found:
                self.assertAlmostEqual(tail(found, tried, low), 0.025, 6)
            if found < tried:
                self.assertAlmostEqual(1 - tail(found + 1, tried, high), 0.025, 6)
        self.holds(check, numbers=made.tuples(made.integers(0, 60), made.integers(1, 60)))

    def test_a_flip_turns_one_bit(self) -> None:
        def check(word: int, bits: tuple[int, int]) -> None:
            low, high = min(bits), max(bits)
            lines = list(flips([[word]], (low, high)))
            self.assertEqual([(int(line.split()[-1]) + word) ^ word for line in lines], [1 << bit for bit in range(low, high + 1)])
        self.holds(check, word=made.integers(-(1 << 125), 1 << 125), bits=made.tuples(made.integers(0, 62), made.integers(0, 62)))

    def test_faults_at_places(self) -> None:
        def check(cycles: list[int], number: int, seed: int) -> None:
            lines = [b"skip %d %d" % (cycle, place) for place, cycle in enumerate(sorted(cycles))]
            faults = Listed(lines)
            for cycle in range(12):
                self.assertEqual(faults.behind(cycle), sum(it <= cycle for it in cycles))
            whole, parts = faults.drawn(min(number, len(lines)), seed)
            told = whole.split(b"\n")[1:-1]
            self.assertEqual(len(told), min(number, len(lines)))
            self.assertEqual(told, sorted(set(told), key=lines.index))
            self.assertEqual(b"".join(part.text.partition(b"\n")[2] for part in parts), whole.partition(b"\n")[2])
            self.assertEqual(faults.parts()[0], faults.text(0, len(lines)))
        self.holds(check, cycles=made.lists(made.integers(0, 10), min_size=1, max_size=40), number=made.integers(1, 40), seed=made.integers(0, 99))

    def test_stimuli_and_back(self) -> None:
        def check(rows: list[list[int]]) -> None:
            told = [list(map(str, row)) for row in rows]
            text = "\n".join(stimuli_lines(["a", "b"], told))
            names, steps = rows_of(read_stimuli(text, "f"), None, "f")
            self.assertEqual((names, [row for row, cycles in steps for _ in range(cycles)]), (["a", "b"], told))
        self.holds(check, rows=made.lists(made.lists(made.integers(-9, 9), min_size=2, max_size=2), min_size=1, max_size=20))


if __name__ == "__main__":
    unittest.main()
