"""`explain --all` on whole texts as they are written elsewhere (data/elsewhere): each line with something to mend is told, and nothing else."""
from __future__ import annotations

import re
import shutil
import unittest

from tests.support import DATA, InFolder, needs_program
from vcp_tools.needs import find_module

TOLD = {
    "crossing": [3, 4, 6, 13, 14, 15, 16, 17, 18, 22, 25, 26, 26, 26, 27, 27, 27, 29, 31, 31, 31, 32, 32],
    "crossing_in_part": [3, 4, 6, 13, 14, 15, 16, 18, 22, 25, 26, 26, 27, 27, 29, 31, 31, 31, 31, 32, 32],
    "press": [3, 4, 15, 15, 15, 16, 16, 17, 19, 20, 22, 23, 24, 25, 26, 27, 28, 29, 33, 35, 36, 36, 37, 37, 38],
    "types": [3, 4, 4, 4, 4, 4, 5, 6, 8, 9, 10, 12, 12, 15, 16, 17],
    "blocks": [4, 4, 4, 5, 6],
    "many": [*range(5, 27), 28, 29],
    "many_of_types": [*range(5, 12)],
}
"""The lines in which something is told, once for each thing."""
COUNTED = {"crossing_in_part": 2, "types": 1, "many": 1}
"""How many faults are counted and not told: names that were told where they stood first, and what stands in a statement or with a variable that is told."""


@unittest.skipUnless(find_module("lark"), "lark isn't installed")
class Elsewhere(InFolder):
    """Each text, told once and then mended so far as it can be stepped over."""

    @needs_program
    def test_each_line_is_told(self) -> None:
        self.assertEqual({file.stem for file in (DATA / "elsewhere").glob("*.st")}, set(TOLD))
        for name, lines in TOLD.items():
            with self.subTest(name):
                shutil.copy(DATA / f"elsewhere/{name}.st", self.folder / "p.st")
                printed = self.tool("explain", "--all", "check", "p.st", status=1)
                self.assertEqual([int(line) for line in re.findall(r"^p\.st:(\d+):\d+: ", printed, re.M)], lines, printed)
                counted = f"; {COUNTED[name]} more may follow from these" if name in COUNTED else ""
                self.assertRegex(printed.split("\n")[-2], rf"^p\.st: {len(lines)} to mend{counted}$")


if __name__ == "__main__":
    unittest.main()
