"""`evidence` and `version`: what is filed, and each thing that changes since is named."""
from __future__ import annotations

import shutil
import subprocess
import unittest
from pathlib import Path

from tests.made_repository import Repository
from tests.support import InFolder
from vcp_tools.evidence.gate import GateLog, axioms
from vcp_tools.proved import summary_lines

needs_git = unittest.skipUnless(shutil.which("git"), "git isn't installed")


@needs_git
class Filed(InFolder):
    """Evidence of a repository whose gate has passed, and whose program vcp was proved once more by itself."""

    def setUp(self) -> None:
        super().setUp()
        self.made = Repository(self.folder)
        self.made.commit()
        self.made.gate()

    def tools(self, *words: str | Path, status: int = 0, path: str | None = None) -> str:
        """What the tools of the repository print, with their status."""
        with self.made.taken_for_ours(path):
            return self.tool(*(str(word) for word in words), status=status)

    def file(self, *words: str, status: int = 0) -> str:
        """Writes the evidence into a folder `e`."""
        return self.tools("evidence", "-o", self.folder / "e", *words, status=status)

    def check(self, *words: str, status: int = 9) -> str:
        """Compares, and gives what is printed without the folder's name."""
        return self.tools("evidence", "--check", self.folder / "e", *words, status=status).replace(f"{self.folder / 'e'}: ", "")

    def summary(self) -> dict[str, str]:
        """The summary that is filed."""
        return summary_lines((self.folder / "e/summary.txt").read_text(encoding="utf-8"))

    def test_all_that_belongs_together(self) -> None:
        self.assertRegex(self.file(), r"\A\S*/e: 11 files; SHA256SUMS [0-9a-f]{64}\n\Z")
        self.assertEqual(subprocess.run(["sha256sum", "--quiet", "-c", "SHA256SUMS"], cwd=self.folder / "e", check=False).returncode, 0)
        self.assertEqual(subprocess.run(["sha256sum", "--quiet", "-c", self.folder / "e/sources.txt"], cwd=self.made.top, check=False).returncode, 0)
        said = self.summary()
        commit = self.made.run("git", "rev-parse", "HEAD").stdout.strip()
        for key, value in (("commit", commit), ("clean", "yes"), ("vcp proved by", "rt ci, of all crates"), ("vcp axioms", "39"), ("claims", "2"),
                           ("toolchain present", "rattle-kit-1 logic a"), ("gate", "4 passed, 0 failed; gate: status 0"), ("gate sources", "the present ones")):
            self.assertEqual(said[key], value)
        self.assertTrue(said["vcp"].endswith(", proved from the sources that are here"))
        self.assertIn("1. It ends\n    `base::ends.ok`, `base::ends.err`.\n", (self.folder / "e/claims.txt").read_text(encoding="utf-8"))
        outside = (self.folder / "e/outside.txt").read_text(encoding="utf-8")
        for line in ("Scripts that the gate doesn't run: checks/by_hand.sh, checks/installed.sh\n", "by the gate: 1, of 1 crates", "OK (skipped=1)", "quick"):
            self.assertIn(line, outside)
        kit = (self.folder / "e/toolchain.txt").read_text(encoding="utf-8")
        self.assertEqual([line.split("  ")[1] for line in kit.splitlines()], ["KIT-ID", "bin/rattle", "bin/rt", "logic_built/", "rlibs/std.rlib/"])
        self.assertRegex(self.check(status=0), r"\ASHA256SUMS [0-9a-f]{64}: the evidence is made again as it is filed\n\Z")
        self.file()

    def test_one_byte_of_each_thing(self) -> None:
        (self.made.top / "crates/vcp/out/vcp.proved").unlink()
        shutil.rmtree(self.made.top / "out/proved")
        self.assertEqual(self.made.run("./vcp").returncode, 0)
        self.file()
        for name, said in (
            ("crates/base/src/lib.rt", "sources.txt: crates/base/src/lib.rt: filed `"), ("docs/vcp.1", "sources.txt: docs/vcp.1: filed `"),
            ("crates/vcp_study/out/vcp_study", "vcp_study: ANOTHER PROGRAM than the one that was proved"), ("crates/vcp/out/build.log", "vcp.log: filed with"),
            ("crates/vcp/out/vcp.proved", "vcp.proved: filed with the digest"), ("out/gate.log", "gate.log: filed with the digest "),
            ("../kit/bin/rattle", "toolchain.txt: bin/rattle: filed `"), ("../kit/rlibs/std.rlib/lang", "toolchain.txt: rlibs/std.rlib/: filed `"),
            *((f"../e/{name}", f"DAMAGED {name}: its digest is ") for name in ("gate.log", "vcp.log", "claims.txt", "sources.txt", "summary.txt")),
        ):
            with self.subTest(name):
                self.made.change(name)
                self.assertIn(said, self.check())
                self.made.change(name)
                self.check(status=0)

    def test_files_that_come_and_go(self) -> None:
        self.file()
        for name, said in (("crates/base/proofs/More.antt", "sources.txt: crates/base/proofs/More.antt: filed `none`"), ("../e/more", "DAMAGED more: "),
                           ("docs/more.md", "summary.txt: clean: filed `yes`, now `NO: 1 files differ from the commit or are beside it, as docs/more.md`")):
            (self.made.top / name).parent.mkdir(exist_ok=True)
            (self.made.top / name).touch()
            self.assertIn(said, self.check())
            (self.made.top / name).unlink()
        for name, said in (("crates/base/src/lib.rt", "crates/base/src/lib.rt: filed `"), ("crates/vcp/out/vcp", "vcp: not built here"),
                           ("../e/outside.txt", "DAMAGED outside.txt: SHA256SUMS names it, and it isn't there")):
            shutil.move(self.made.top / name, self.folder / "kept")
            self.assertIn(said, self.check())
            shutil.move(self.folder / "kept", self.made.top / name)
        self.check(status=0)

    def test_without_the_toolchain(self) -> None:
        self.file("--no-toolchain")
        self.assertFalse((self.folder / "e/toolchain.txt").exists())
        self.made.change("../kit/bin/rattle")
        self.assertIn("the files of the toolchain weren't compared", self.check(status=0))
        self.file()
        self.made.change("../kit/bin/rattle")
        self.assertIn("weren't compared", self.check("--no-toolchain", status=0))
        self.check()
        (self.folder / "bin").mkdir()
        (self.folder / "bin/git").symlink_to(shutil.which("git") or "")
        printed = self.tools("evidence", "--check", self.folder / "e", status=9, path=str(self.folder / "bin"))
        self.assertIn("toolchain present: filed `rattle-kit-1 logic a`, now `none`", printed)

    def test_what_does_not_belong_together(self) -> None:
        log = (self.made.top / "out/gate.log").read_text(encoding="utf-8")
        for changed, said in ((log.replace("4 passed, 0", "3 passed, 1"), "the gate didn't pass: 3 passed, 1 failed; gate: status 0"),
                              (log.replace("status 0", "status 1"), "the gate didn't pass: 4 passed, 0 failed; gate: status 1"),
                              (log.replace("sources vcp ", "sources vcp 0"), "the gate's log is of other sources: OTHERS"),
                              (log.replace("sources ", "from "), "the gate's log is of other sources: not known")):
            self.write("other.log", changed)
            self.assertIn(said, self.file("--gate", str(self.folder / "other.log"), status=9))
        (self.made.top / "out/gate.log").unlink()
        self.assertIn("no log of the gate is given", self.file(status=9))
        self.assertIn("made again as it is filed", self.check())
        self.made.change("crates/vcp/src/main.rt")
        said = self.file(status=9)
        self.assertIn("no clean commit: NO: 1 files differ from the commit or are beside it, as crates/vcp/src/main.rt", said)
        self.assertIn("vcp: proved from other sources than those that are here", said)
        (self.made.top / "docs/PROMISES.md").write_text("    rattle-kit-2 logic b\n", encoding="utf-8")
        self.assertIn("rt version says `rattle-kit-1 logic a`, and docs/PROMISES.md names `rattle-kit-2 logic b`", self.file(status=9))

    def test_sources_without_a_commit(self) -> None:
        before = self.tools("evidence", "-o", self.folder / "e")
        shutil.rmtree(self.made.top / ".git")
        self.assertIn("the sources are no clean commit: none: this folder is no repository of git", self.file(status=9))
        self.assertNotEqual(before, "")
        listed = (self.folder / "e/sources.txt").read_text(encoding="utf-8")
        self.assertEqual((".ci/run" in listed, "/out/" in listed), (True, False))

    def test_folders_and_words_that_are_refused(self) -> None:
        self.write("file", "")
        calls: tuple[tuple[list[str | Path], str], ...] = (
            ([], "one of -o FOLDER"), (["-o", "a", "--check", "b"], "one of -o FOLDER"),
            (["-o", self.made.top / "docs/e"], "docs/e: this folder is among the sources"), (["-o", self.made.top], "among the sources"),
            (["-o", self.folder], "this folder has other files, and no evidence"),
            (["-o", self.folder / "file"], "this is a file"), (["-o", self.folder / "file/e"], "where a folder is wanted"),
            (["--check", self.folder], "this is no folder of evidence"), (["--check", "nowhere"], "there is no such file"),
            (["-o", self.folder / "e", "--gate", "nowhere"], "nowhere: there is no such file"))
        for words, said in calls:
            printed = self.tools("evidence", *words, status=2)
            self.assertEqual((said in printed, printed.count("\n")), (True, 1), printed)
        self.tools("evidence", "-o", self.made.top / "out/e")
        self.assertFalse((self.folder / "e").exists())

    def test_version(self) -> None:
        self.assertRegex(self.tools("version"), r"\Avcp_tools \S+\ncommit [0-9a-f]{40}\nvcp [0-9a-f]{64}, proved from the sources that are here\n"
                         r"vcp_study [0-9a-f]{64}, proved .*\ntoolchain of the proofs: rattle-kit-1 logic a\ntoolchain here: the same\n\Z")
        (self.made.top / "docs/more.md").touch()
        self.made.change("crates/vcp_study/out/vcp_study")
        printed = self.tools("version", status=9)
        self.assertIn(", and 1 files that differ from it", printed)
        self.assertIn("ANOTHER PROGRAM", printed)


class Logs(unittest.TestCase):
    """What is read of a log."""

    def test_axioms(self) -> None:
        log = b"== base\nlogic=proved functions=1 axioms=2 sum=a\n== vcp\nlogic=proved functions=2 axioms=39 main=none\nrt: vcp proved\n== vcp: its tests\n"
        self.assertEqual((axioms(log, "vcp"), axioms(log, "base"), axioms(log, "other")), ("39", "2", ""))

    def test_endings(self) -> None:
        end = "gate: status 0\n"
        for text, passed in (("81 passed, 0 failed\n" + end, True), ("81 passed, 0 failed (a and the crates below alone: not the gate)\n" + end, False),
                             ("81 passed, 0 failed\n", False), ("80 passed, 1 failed\n" + end, False), ("", False),
                             ("81 passed, 0 failed\ngate: status 1\n", False)):
            self.assertEqual(GateLog.read(text.encode()).has_passed, passed, text)


if __name__ == "__main__":
    unittest.main()
