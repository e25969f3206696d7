"""The package: it needs `lark` for grammars alone, and each format has its reader."""
from __future__ import annotations

import shutil
from unittest import mock

from tests.support import EXAMPLES, InFolder, needs_program
from vcp_tools.needs import INSTALL
from vcp_tools.program import TOP


class WithoutLark(InFolder):
    """What goes on where `lark` is missing, and what says how it is installed."""

    def setUp(self) -> None:
        super().setUp()
        for name in ("crossing.st", "crossing.csv"):
            shutil.copy(EXAMPLES / name, self.folder)
        patch = mock.patch("importlib.util.find_spec", return_value=None)
        patch.start()
        self.addCleanup(patch.stop)
        from vcp_tools.read.grammar import reader
        reader.cache_clear()

    @needs_program
    def test_tables_rows_pictures_and_reports_need_none(self) -> None:
        self.tool("table", "crossing.st", "crossing.csv")
        self.tool("vcd", "crossing.st", "crossing.csv")
        self.tool("rows", "check", "crossing.csv", "crossing.st")
        self.tool("report", "crossing.st", "crossing.csv", "--step", "10", "-o", "r.html")
        self.assertIn("isn't installed", (self.folder / "r.html").read_text(encoding="utf-8"))

    @needs_program
    def test_a_grammar_needs_it(self) -> None:
        self.assertIn(INSTALL, self.tool("lint", "crossing.st", status=2))

    def test_the_documents_have_the_line(self) -> None:
        for name in ("README.md", "docs/TOOLS.md"):
            self.assertIn(f"`{INSTALL}`", (TOP / name).read_text(encoding="utf-8"))
