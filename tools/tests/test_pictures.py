"""The timing diagram of a report, and times of cycles. What is wanted is worked out by hand."""
from __future__ import annotations

import re
import unittest

from tests.support import EXAMPLES, InFolder, needs_program
from vcp_tools.cycle_time import cycle_told, read_cycle_time
from vcp_tools.pictures.observe import Column, Observation
from vcp_tools.pictures.waves import STYLE, Ramp, Segment, shapes, waves
from vcp_tools.read.syntax import Declaration
from vcp_tools.refusal import FOUND, Refusal


def drawn(columns: dict[str, list[int]], period: str = "") -> tuple[str, str]:
    """The names and the lanes of a picture; what begins with `b` is a BOOL."""
    found = [Column(Declaration(name, 0, "VAR", "BOOL" if name[0] == "b" else "INT", None), values) for name, values in columns.items()]
    cycles = len(found[0].values)
    picture = waves(Observation("p", found, cycles, f"end {cycles}", True), read_cycle_time(period) if period else None)
    names, lanes = re.findall(r"<svg [^>]*>.*?</svg>", picture, re.S)
    return names, lanes


class Lanes(unittest.TestCase):
    """What stands in the lanes."""

    def test_a_level_of_1_is_filled_over_its_base_line_and_one_of_0_is_not(self) -> None:
        _, one = drawn({"b": [1] * 9})
        _, zero = drawn({"b": [0] * 9})
        _, both = drawn({"b": [0, 1, 1, 0, 1]})
        self.assertEqual([lanes.count('class="h"') for lanes in (one, zero, both)], [1, 0, 2])
        for lanes in (one, zero, both):
            self.assertEqual(lanes.count('class="b"'), 1)
        base = re.search(r'class="b" x1="0" y1="(\d+)"', zero)
        self.assertIsNotNone(base)
        self.assertIn(f'points="0.0,{base[1] if base else ""} ', zero)
        self.assertNotIn(f'points="0.0,{base[1] if base else ""} ', one)

    def test_a_counter_that_is_too_fast_for_boxes_is_a_ramp(self) -> None:
        values = [0] * 40 + list(range(1, 300)) + [300] * 40
        self.assertEqual(list(shapes(values, 3.0)), [Segment(0, 40, 0), Ramp(40, 339, 1, 299), Segment(339, 379, 300)])
        self.assertEqual(list(shapes(values, 40.0))[:3], [Segment(0, 40, 0), Segment(40, 41, 1), Segment(41, 42, 2)])
        _, lanes = drawn({"t": values})
        self.assertEqual(re.findall(r"<text[^>]*>(\d+)</text>", lanes)[-4:], ["0", "1", "299", "300"])
        self.assertEqual(re.findall("<title>(.*?)</title>", lanes), ["1 to 299, cycles 40 to 338"])

    def test_ramps_fall_and_have_steps(self) -> None:
        slow = [100 + 7 * (at // 2) for at in range(40)]
        self.assertEqual(list(shapes(slow, 3.0)), [Ramp(0, 40, 100, 233)])
        self.assertEqual(list(shapes(list(range(50, 0, -1)), 3.0)), [Ramp(0, 50, 50, 1)])
        saw = [at % 25 for at in range(75)]
        self.assertEqual(list(shapes(saw, 3.0)), [Ramp(0, 25, 0, 24), Ramp(25, 50, 0, 24), Ramp(50, 75, 0, 24)])
        self.assertEqual(list(shapes([5, 5, 9, 1, 4], 3.0)), [Segment(0, 2, 5), Segment(2, 3, 9), Segment(3, 4, 1), Segment(4, 5, 4)])
        _, lanes = drawn({"t": [100, 200, 300, 400, 0] * 100})
        self.assertEqual(re.findall("<title>(.*?)</title>", lanes)[:2], ["100 to 400, cycles 0 to 3", "0 to 400, cycles 4 to 8"])

    def test_names_stand_beside_the_lanes_and_stay_in_view(self) -> None:
        long = "n" * 45
        names, lanes = drawn({"b": [1] * 2000, long: [3] * 2000})
        self.assertIn(">b<", names)
        self.assertIn(f"<title>{long}</title>{long[:40]}</text>", names)
        self.assertNotIn(">b<", lanes)
        self.assertRegex(STYLE, r"\.names \{ position: sticky; left: 0;")


class Times(InFolder):
    """A cycle's time, in seconds or milliseconds."""

    def test_times_are_exact(self) -> None:
        for given, cycles, unit, at, told in (("500ms", 8, "s", ["0.0", "0.5", "1.0"], "4.0 s"), ("20us", 100, "ms", ["0.00", "0.02", "0.04"], "2.00 ms"),
                                              ("1s", 3, "s", ["0", "1", "2"], "3 s"), ("10ms", 99, "ms", ["0", "10", "20"], "990 ms"),
                                              ("10ms", 100, "s", ["0.00", "0.01", "0.02"], "1.00 s"), ("3ps", 2, "ms", ["0.000000000", "0.000000003"], "")):
            period = read_cycle_time(given)
            self.assertEqual(period.unit_for(cycles), unit, given)
            self.assertEqual([period.at(cycle, unit) for cycle in range(len(at))], at, given)
            if told:
                self.assertEqual(period.told(cycles), told)
        self.assertEqual((cycle_told(6, read_cycle_time("500ms")), cycle_told(6, None)), ("cycle 6 (3.0 s)", "cycle 6"))
        for text in ("0ms", "20", "1.5s", "1h", ""):
            with self.assertRaises(Refusal):
                read_cycle_time(text)

    def test_the_axis_has_times(self) -> None:
        names, lanes = drawn({"b": [0, 1] * 4}, "500ms")
        self.assertIn(">cycle</text>", names)
        self.assertIn(">s</text>", names)
        self.assertIn(">2.0</text>", lanes)
        self.assertNotIn(">s</text>", drawn({"b": [0, 1] * 4})[0])

    @needs_program
    def test_tables_comparisons_and_reports_have_them(self) -> None:
        words = (str(EXAMPLES / "crossing.st"), str(EXAMPLES / "crossing.csv"))
        printed = self.tool("table", *words, "lights", "--cycle-time", "500ms")
        self.assertEqual([line.split() for line in printed.split("\n")[:3]], [["cycle", "time/s", "lights"], ["0", "0.0", "0"], ["1", "0.5", "0"]])
        self.write("wanted.csv", self.tool("table", *words, "lights", "motor", "--csv", "--cycle-time", "500ms"))
        self.assertIn("as wanted: 8 rows of 2 columns", self.tool("expect", *words, "wanted.csv"))
        self.write("wanted.csv", "cycle,motor\n6,0\n")
        self.assertIn("cycle 6 (3.0 s): motor is 2", self.tool("expect", *words, "wanted.csv", "--cycle-time", "500ms", status=FOUND))
        self.tool("report", *words, "-o", "r.html", "--cycle-time", "500ms", status=None)
        report = (self.folder / "r.html").read_text(encoding="utf-8")
        for text in ("<td>cycle time</td><td>500 ms</td>", "<td>time of the run</td><td>4.0 s</td>", ">time/s</th>", ">s</text>"):
            self.assertIn(text, report)


if __name__ == "__main__":
    unittest.main()
