"""What the tests share: the built program or the reason to skip, folders of their own, and calls of the tools as a user makes them."""
from __future__ import annotations

import contextlib
import io
import os
import subprocess
import sys
import tempfile
import unittest
from pathlib import Path

from vcp_tools.main import main
from vcp_tools.program import TOP, find_program

DATA = Path(__file__).resolve().parent / "data"
EXAMPLES = TOP / "examples"
needs_program = unittest.skipUnless(find_program(), "no program is built, and VCP=FILE names none")


class InFolder(unittest.TestCase):
    """A test that works in an empty folder of its own."""

    def setUp(self) -> None:
        folder = tempfile.TemporaryDirectory()
        self.addCleanup(folder.cleanup)
        self.folder = Path(folder.name)

    def write(self, name: str, content: str | bytes, encoding: str = "utf-8") -> Path:
        """Writes a file into the folder."""
        file = self.folder / name
        file.write_bytes(content if isinstance(content, bytes) else content.encode(encoding))
        return file

    def tool(self, *words: str, given: str = "", status: int | None = 0) -> str:
        """What a tool prints in the folder, errors behind the rest; the status is compared where one is wanted."""
        printed, errors = io.TextIOWrapper(io.BytesIO(), "utf-8", write_through=True), io.StringIO()
        before, stdin = os.getcwd(), sys.stdin
        os.chdir(self.folder)
        sys.stdin = io.StringIO(given)
        try:
            with contextlib.redirect_stdout(printed), contextlib.redirect_stderr(errors):
                ended = main(list(words))
        except SystemExit as ending:
            ended = int(ending.code or 0)
        finally:
            sys.stdin = stdin
            os.chdir(before)
        printed.seek(0)
        told = printed.read() + errors.getvalue()
        if status is not None:
            self.assertEqual(ended, status, told)
        return told

    def program(self, *words: str) -> bytes:
        """What the program `vcp` prints in the folder on standard output."""
        file = find_program()
        assert file is not None
        return subprocess.run([str(file), *words], cwd=self.folder, capture_output=True, check=False).stdout
