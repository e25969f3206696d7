"""`./try --tests`: what a made-up `rt` prints in place of the player of sessions is added up."""
from __future__ import annotations

import os
import subprocess
import unittest

from tests.support import InFolder
from vcp_tools.program import TOP

PLAYED = "one.session: 12 calls\nsome.session: 7 calls\ntwo.session: 30 calls\n"
OTHERWISE = "".join(f"{name}.session, line {number}: wanted `0`, came `1` of `call word 2`\n" for name, number in (("one", 7), ("one", 12), ("some", 3)))


class Tests(InFolder):
    """The sessions, played before any proof."""

    def play(self, printed: str, *names: str, status: int = 0, said: str = "") -> subprocess.CompletedProcess[str]:
        """What `try` does where `rt` prints this, says this on standard error and ends so; the words that it got are in the file `words`."""
        top = self.folder / "top"
        (top / "crates/vcp_study/data").mkdir(parents=True, exist_ok=True)
        for name in ("one.session", "some.session", "two.session", "failing_calls.session"):
            (top / f"crates/vcp_study/data/{name}").touch()
        (top / "try").write_bytes((TOP / "try").read_bytes())
        (top / "try").chmod(0o755)
        self.write("printed", printed)
        self.write("said", said)
        script = f'#!/bin/sh\ncd "{self.folder}"\necho "$@" >words\ncat printed\ncat said >&2\nexit {status}\n'
        self.write("rt", script).chmod(0o755)
        return subprocess.run([top / "try", "--tests", *names], cwd=self.folder, capture_output=True, text=True, check=False,
                              env={**os.environ, "PATH": f"{self.folder}:{os.environ['PATH']}"})

    def test_all_pass(self) -> None:
        done = self.play(PLAYED, said="call=main steps=1 proved=no\nchecked: ended status=0\nrun=ended status=0 proved=no\n")
        self.assertEqual((done.returncode, done.stdout), (0, PLAYED + "49 passed, 0 failed\n"))
        self.assertNotIn("proved=no", done.stderr)
        self.assertIn("without failing_calls.session", done.stderr)
        words = (self.folder / "words").read_text(encoding="utf-8")
        self.assertTrue(words.endswith("--data one.session=data/one.session --data some.session=data/some.session --data two.session=data/two.session"
                                       " -- play one.session some.session two.session\n"), words)

    def test_calls_that_give_something_else(self) -> None:
        done = self.play(PLAYED, status=1, said=OTHERWISE)
        self.assertEqual((done.returncode, done.stdout), (1, PLAYED + "46 passed, 3 failed\n"))
        self.assertIn("one.session, line 7: wanted `0`, came `1`", done.stderr)

    def test_a_run_that_breaks_off(self) -> None:
        for printed, passed, left in (("", 0, 3), ("one.session: 12 calls\n", 12, 2)):
            done = self.play(printed, status=6)
            self.assertEqual((done.returncode, done.stdout), (1, f"{printed}{left} sessions were not played (status 6)\n{passed} passed, {left} failed\n"))

    def test_sessions_that_are_named(self) -> None:
        done = self.play("failing_calls.session: 5 calls\n", "failing_calls.session")
        self.assertEqual((done.returncode, done.stdout), (0, "failing_calls.session: 5 calls\n5 passed, 0 failed\n"))
        done = self.play("", "lacking.session")
        self.assertEqual((done.returncode, done.stdout), (2, ""))
        self.assertIn("no session of this name: lacking.session", done.stderr)


if __name__ == "__main__":
    unittest.main()
