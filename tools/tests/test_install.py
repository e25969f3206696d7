"""`install.sh` and `dist.sh`: what they put elsewhere runs there, is looked at there, and goes away again."""
from __future__ import annotations

import os
import shutil
import subprocess
import tarfile
import unittest
from pathlib import Path

from tests.made_repository import Repository
from tests.support import InFolder
from tests.test_evidence import needs_git


@needs_git
class Installed(InFolder):
    """Installations of a repository whose gate has passed."""

    def setUp(self) -> None:
        super().setUp()
        self.made = Repository(self.folder, with_tools=True)
        self.made.commit()
        self.made.gate()
        self.there = self.folder / "there"

    def ran(self, *words: str | Path, status: int = 0, top: Path | None = None, path: str | None = None) -> str:
        """What a command prints, with its errors and its status, without the made-up toolchain."""
        done = self.made.run(*words, top=top, path=path or os.environ["PATH"])
        self.assertEqual(done.returncode, status, done.stdout + done.stderr)
        return done.stdout + done.stderr

    def install(self, *words: str | Path, status: int = 0) -> str:
        """What `install.sh` prints, with the toolchain on the PATH."""
        done = self.made.run("./install.sh", *words)
        self.assertEqual(done.returncode, status, done.stdout + done.stderr)
        return done.stdout + done.stderr

    def without_the_sources(self) -> None:
        """Takes the repository and the toolchain away."""
        shutil.rmtree(self.made.top)
        shutil.rmtree(self.made.kit)

    def test_an_installation_needs_no_sources(self) -> None:
        printed = self.install(self.there)
        self.assertRegex(printed, rf"\A{self.there}: \d+ files; {self.there}/share/vcp/check.sh compares them with their list, whose digest is [0-9a-f]+\n\Z")
        self.without_the_sources()
        moved = self.folder / "moved"
        self.there.rename(moved)
        (self.folder / "vcp_tools").symlink_to("moved/bin/vcp_tools")
        self.assertRegex(self.ran(moved / "bin/vcp", "check", "p", top=self.folder), r"\Avcp of [0-9a-f]{8} check p\n\Z")
        self.assertRegex(self.ran(self.folder / "vcp_tools", "version", top=self.folder),
                         r"\nvcp [0-9a-f]{64}, proved, as the evidence of this installation says\nvcp_study [0-9a-f]{64}, proved, ")
        self.assertIn(f"they are in {moved}/share/vcp\n", self.ran(moved / "bin/vcp_tools", "help", top=self.folder))
        self.assertIn("its files and the programs are as filed", self.ran(moved / "bin/vcp_tools", "evidence", "--check", "share/vcp/evidence", top=moved))
        self.assertRegex(self.ran(moved / "share/vcp/check.sh", top=self.folder), r"\Aall \d+ files are as the list says, whose digest is ")
        self.assertIn("Python 3.10 or later isn't here", self.ran(moved / "bin/vcp_tools", "help", status=2, top=self.folder, path=self._path_without_python()))
        (moved / "bin/vcp").unlink()
        self.assertIn("moved/bin/vcp isn't there, or can't be run: install it anew", self.ran(moved / "bin/vcp_tools", "lint", "p", status=2, top=self.folder))

    def _path_without_python(self) -> str:
        (self.folder / "few").mkdir()
        for name in ("sh", "dirname", "readlink"):
            (self.folder / "few" / name).symlink_to(shutil.which(name) or "")
        return str(self.folder / "few")

    def test_one_byte_is_named_where_it_is_installed(self) -> None:
        self.install(self.there)
        self.made.top = self.there
        for name in ("bin/vcp", "share/vcp/docs/PROMISES.md", "share/vcp/tools/vcp_tools/lint/command.py", "share/vcp/evidence/summary.txt"):
            self.made.change(name)
            self.assertIn(f"{name}: FAILED", self.ran("share/vcp/check.sh", status=9))
            self.made.change(name)
        (self.there / "share/vcp/more").touch()
        self.assertIn("share/vcp/more: not in the list", self.ran("share/vcp/check.sh", status=9))
        self.made.change("bin/vcp_study")
        self.assertIn("bin/vcp_study: its digest is ", self.ran("bin/vcp_tools", "evidence", "--check", "share/vcp/evidence", status=9))

    def test_it_goes_away_again(self) -> None:
        (self.there / "bin").mkdir(parents=True)
        self.write("there/bin/other", "")
        self.install(self.there)
        self.assertIn("an installation is there: ", self.install(self.there, status=2))
        (self.there / "share/vcp/README.md").write_text("mine\n", encoding="utf-8")
        self.assertIn("share/vcp/README.md has changed since, and stays", self.install("--remove", self.there, status=9))
        left = sorted(str(file.relative_to(self.there)) for file in self.there.glob("**/*") if file.is_file())
        self.assertEqual(left, ["bin/other", "share/vcp/README.md"])
        self.assertIn("nothing was put there", self.install("--remove", self.there, status=2))

    def test_what_is_not_proved_is_not_installed(self) -> None:
        self.made.change("crates/vcp/out/vcp")
        self.assertIn("crates/vcp/out/vcp isn't the program that was proved: remove it, and run ./vcp once", self.install(self.there, status=2))
        self.made.change("crates/vcp/out/vcp")
        self.made.change("crates/other/src/lib.rt")
        self.assertIn("vcp_study isn't proved from these sources (changed): run ./vcp_study once", self.install(self.there, status=2))
        calls: tuple[tuple[str | Path, ...], ...] = ((), ("--force", self.there), (self.there, "e", "more"), ("--remove",))
        for words in calls:
            self.assertIn("install.sh: write: install.sh", self.install(*words, status=2))
        self.assertFalse(self.there.exists())

    def test_what_is_in_the_way(self) -> None:
        (self.there / "bin").mkdir(parents=True)
        self.write("there/bin/vcp", "")
        self.assertIn("there/bin/vcp is there, and nothing was put there by install.sh", self.install(self.there, status=2))
        self.assertIn("this is a file", self.install(self.there / "bin/vcp", status=2))

    def test_evidence_of_something_else_is_refused(self) -> None:
        evidence = self.folder / "e"
        self.made.run("./vcp_tools", "evidence", "-o", evidence)
        self.made.change("crates/base/must-fail/one.edit")
        self.assertIn("e: this evidence is of something else", self.install(self.there, evidence, status=2))
        self.assertFalse(self.there.exists())

    def test_a_tar_file(self) -> None:
        evidence = self.folder / "e"
        self.assertEqual(self.made.run("./vcp_tools", "evidence", "-o", evidence).returncode, 0)
        for name in ("one.tar.gz", "two.tar.gz"):
            self.assertEqual(self.made.run("./dist.sh", self.folder / name, evidence).returncode, 0)
        self.assertEqual((self.folder / "one.tar.gz").read_bytes(), (self.folder / "two.tar.gz").read_bytes())
        self.without_the_sources()
        subprocess.run(["tar", "-xzf", "one.tar.gz"], cwd=self.folder, check=True)
        top = next(self.folder.glob("vcp-*"))
        self.assertRegex(self.ran("sh", "share/vcp/check.sh", top=top), r"\Aall \d+ files are as the list says, whose digest is ")
        self.assertRegex(self.ran("bin/vcp", top=top), r"\Avcp of [0-9a-f]{8}\n\Z")
        readme = (top / "README").read_text(encoding="utf-8")
        self.assertRegex(readme, r"(?s)    vcp        [0-9a-f]{64}\n.*    gate       4 passed, 0 failed; gate: status 0\n")
        self.assertNotIn("LACKS", readme)
        self.assertTrue((top / "share/vcp/evidence/toolchain.txt").is_file())

    def test_a_tar_file_of_what_lacks_something(self) -> None:
        (self.made.top / "out/gate.log").unlink()
        made = self.folder / "one.tar.gz"
        done = self.made.run("./dist.sh", made)
        self.assertEqual((done.returncode, made.exists()), (2, False))
        evidence = self.folder / "e"
        self.made.run("./vcp_tools", "evidence", "-o", evidence, "--no-toolchain")
        done = self.made.run("./dist.sh", made, evidence)
        self.assertEqual((done.returncode, made.exists()), (2, False))
        self.assertIn("dist.sh: evidence: no log of the gate is given\ndist.sh: the evidence lacks something", done.stderr)
        self.assertEqual(self.made.run("./dist.sh", "--incomplete", made).returncode, 0)
        with tarfile.open(made) as opened:
            readme = next(member for member in opened.getmembers() if member.name.endswith("/README"))
            extracted = opened.extractfile(readme)
            assert extracted is not None
            self.assertIn("THE EVIDENCE LACKS:\n    no log of the gate is given\n", extracted.read().decode())


if __name__ == "__main__":
    unittest.main()
