"""The files for editors: they name the words of the language, and their pattern reads what the tools print."""
from __future__ import annotations

import json
import re
import unittest

from vcp_tools.program import TOP
from vcp_tools.read.source import RESERVED
from vcp_tools.read.syntax import ARGUMENTS

FOLDER = TOP / "tools" / "editors" / "vscode"


class Editors(unittest.TestCase):
    """VS Code."""

    def test_the_syntax_has_each_word(self) -> None:
        text = (FOLDER / "syntaxes" / "vcp-st.tmLanguage.json").read_text()
        patterns = json.loads(text)["patterns"]
        words = {word for pattern in patterns for word in re.findall(r"[A-Z][A-Z_]+", pattern.get("match", "").replace("\\b", " "))}
        self.assertLessEqual(set(RESERVED) | set(ARGUMENTS), words)

    def test_the_problem_matcher_reads_a_printed_line(self) -> None:
        pattern = json.loads((FOLDER / "package.json").read_text())["contributes"]["problemMatchers"][0]["pattern"]["regexp"]
        match = re.match(pattern, "examples/p.st:7:3: `;` is missing behind `1`")
        self.assertEqual(match.groups() if match else None, ("examples/p.st", "7", "3", "`;` is missing behind `1`"))
        self.assertIsNone(re.match(pattern, "    7 | r := 1"))


if __name__ == "__main__":
    unittest.main()
