"""The words of the tools and the launchers: files that can't be used, help, links, and missing programs."""
from __future__ import annotations

import os
import shutil
import subprocess
import sys
import unittest
from pathlib import Path
from unittest import mock

from tests.support import EXAMPLES, InFolder, needs_program
from tests.test_campaign import needs_programs
from vcp_tools.main import TOOLS
from vcp_tools.program import TOP
from vcp_tools.proved import digest_of, sources_digest

CALLS = (
    ("rows", "make", "@"), ("rows", "make", "a.stim", "@"), ("rows", "stimuli", "@"), ("rows", "check", "@"), ("rows", "check", "a.csv", "@"),
    ("table", "@", "a.csv"), ("table", "a.st", "@"), ("vcd", "@", "a.csv"), ("vcd", "a.st", "@"), ("expect", "@", "a.csv", "a.csv"),
    ("expect", "a.st", "@", "a.csv"), ("expect", "a.st", "a.csv", "@"), ("diff", "@", "a.st"), ("diff", "a.st", "@"), ("lint", "@"),
    ("report", "@", "a.csv"), ("report", "a.st", "@"), ("report", "a.st", "a.csv", "--faults", "@"), ("report", "a.st", "a.csv", "--check", "@"),
    ("lower", "@", "--cycle-time", "100ms"), ("lower", "a.st", "--cycle-time", "100ms", "--check", "@"),
    ("simulate", "@", "a.csv", "--cycle-time", "100ms"), ("simulate", "a.st", "@", "--cycle-time", "100ms"),
    ("never", "@", "y = 1"), ("never", "a.st", "y = 1", "--inputs", "@"), ("witness", "@"), ("witness", "a.st", "--inputs", "@"), ("rows", "reach", "@"),
    ("evidence", "--check", "@"), ("evidence", "-o", "made", "--gate", "@"), ("evidence", "--check", "made", "--gate", "@"),
)
"""Calls of all tools, with `@` in the place of a file that can't be read."""
WRITES = (("report", "a.st", "a.csv", "-o", "@"), ("lower", "a.st", "--cycle-time", "100ms", "-o", "@"))
"""Calls with `@` in the place of a file that can't be written."""
CAMPAIGN_CALLS = (
    ("campaign", "@", "a.csv", "skip"), ("campaign", "a.img", "@", "skip"), ("campaign", "a.img", "a.csv", "@"), ("campaign", "a.img", "@", "flips"),
    ("campaign", "a.img", "skip", "--rows", "a.csv", "--rows", "@"), ("campaign", "a.img", "a.csv", "skip", "--hosts", "@"),
    ("campaign", "a.img", "a.csv", "skip", "--source", "@"), ("explain", "--source", "@", "inject", "a.img", "a.csv", "f.txt"),
)
CAMPAIGN_WRITES = (("campaign", "a.img", "a.csv", "f.txt", "--quiet", "--store", "@"), ("campaign", "a.img", "a.csv", "f.txt", "--quiet", "--out", "@"))
"""The same of campaigns, and of an image's verdicts."""
EXPLAINED = (
    ("check", "@"), ("run", "@", "a.csv"), ("run", "a.st", "@"), ("il", "@", "a.csv"), ("il", "a.st", "@"), ("compile", "@"), ("list", "@"),
    ("exec", "a.img", "@"), ("inject", "@", "a.csv", "f.txt"), ("inject", "a.img", "@", "f.txt"), ("inject", "a.img", "a.csv", "@"), ("wire", "@"),
)
"""Words of vcp with `@` in the place of a file, which `explain` runs."""
PRINTING = (
    ("rows", "make", "a.stim"), ("rows", "stimuli", "a.csv"), ("rows", "check", "a.csv"), ("table", "a.st", "a.csv"), ("vcd", "a.st", "a.csv"),
    ("expect", "a.st", "a.csv", "a.csv"), ("diff", "a.st", "a.st"), ("lint", "a.st"), ("report", "a.st", "a.csv"), ("help",), ("explain", "check", "a.st"),
    ("explain", "--all", "check", "a.stim"), ("campaign", "a.img", "a.csv", "f.txt", "--quiet"), ("lower", "a.st", "--cycle-time", "100ms"),
    ("simulate", "a.st", "a.csv", "--cycle-time", "100ms"), ("never", "a.st", "y = 1"), ("witness", "a.st"), ("version",),
    ("evidence", "-o", "made", "--no-toolchain"),
)
"""A call of each tool that prints something."""
UNREADABLE = ("nowhere", "folder", "nowhere/x", "a.st/x", os.fsdecode(b"no\xff"), "new\nline", "")
UNWRITABLE = ("nodir/x.html", "folder", "a.st/x.html", "/dev/full", "/proc/x.html", "/sys/x.html")
GARBAGE = (
    b"", b"\0" * 99, bytes(range(256)), b'"', b"\xff\xfex\0\n\0001\0\n\0", b"VCPANBD\n", b"VCPANBD\n" + b"\xff" * 200, b"x\n" + b"9" * 5000, b"x=1\n" * 3,
    b"begin\n" * 3, b"skip 99999999999 1\n", b"PROGRAM p " + b"(" * 3000, b"<section", b"\r\r\n", "x\n\u0663\n".encode(), b"1e5 x=\xc3\n",
)
"""Contents that no tool wants."""


class Files(InFolder):
    """Each file that can't be read or written is one line and status 2."""

    def setUp(self) -> None:
        super().setUp()
        shutil.copy(EXAMPLES / "add.st", self.folder / "a.st")
        shutil.copy(EXAMPLES / "in.csv", self.folder / "a.csv")
        self.write("a.stim", "x\n1 x=5\n")
        (self.folder / "folder").mkdir()

    def refused(self, words: tuple[str, ...], file: str) -> None:
        """A call with this file ends with one line and status 2."""
        printed = self.tool(*(file if word == "@" else word for word in words), status=2)
        self.assertEqual(printed.count("\n"), 1, printed)
        self.assertTrue(printed.startswith("vcp_tools: "), printed)

    @needs_program
    def test_files_that_cannot_be_read(self) -> None:
        for words in CALLS:
            for file in UNREADABLE:
                with self.subTest((words, file)):
                    self.refused(words, file)
        self.assertEqual({words[0] for words in (*CALLS, *CAMPAIGN_CALLS)}, set(TOOLS) - {"help", "version"})

    @needs_program
    def test_files_with_contents_that_no_tool_wants(self) -> None:
        self.write("a.img", self.program("compile", "a.st"))
        self.write("f.txt", "result 0 2 add 1\n")
        calls = [words for words in CALLS if words[0] != "evidence"]
        calls += [("explain", *more, *words) for words in EXPLAINED for more in ((), ("--all",)) if not more or words[0] == "check"]
        for content in GARBAGE:
            self.write("garbage", content)
            for words in (*calls, ("explain", "--source", "garbage", "inject", "a.img", "a.csv", "f.txt")):
                with self.subTest((words, content[:20])):
                    self.tool(*("garbage" if word == "@" else word for word in words), status=None)

    @unittest.skipIf(hasattr(os, "geteuid") and os.geteuid() == 0, "root may read and write every file")
    @needs_program
    def test_files_without_permission(self) -> None:
        self.write("shut", "x\n1\n").chmod(0)
        (self.folder / "shut_folder").mkdir(0o555)
        for words in CALLS:
            with self.subTest(words):
                self.refused(words, "shut")
        for words in WRITES:
            for file in ("shut", "shut_folder/x"):
                with self.subTest((words, file)):
                    self.refused(words, file)

    @needs_program
    def test_files_that_cannot_be_written(self) -> None:
        for words in WRITES:
            for file in UNWRITABLE:
                with self.subTest((words, file)):
                    self.refused(words, file)

    @needs_programs
    def test_files_of_campaigns(self) -> None:
        self.write("a.img", self.program("compile", "a.st"))
        self.write("f.txt", "result 0 2 add 1\n")
        for words in CAMPAIGN_CALLS:
            for file in UNREADABLE:
                with self.subTest((words, file)):
                    self.refused(words, file)
        for words in CAMPAIGN_WRITES:
            for file in ("a.st", "a.st/x", "nodir/x"):
                with self.subTest((words, file)):
                    self.refused(words, file)
        for file in ("folder", "/dev/full"):
            self.refused(CAMPAIGN_WRITES[0], file)

    def call(self, words: tuple[str, ...], more: str) -> subprocess.CompletedProcess[str]:
        """A tool as a user calls it from a shell, with some redirection, and with a buffer whatever the caller's environment says."""
        called = ["sh", "-c", f'exec "$@" {more}', "sh", str(TOP / "vcp_tools"), *words]
        given = {name: value for name, value in os.environ.items() if name != "PYTHONUNBUFFERED"}
        return subprocess.run(called, cwd=self.folder, env=given, capture_output=True, text=True, stdin=subprocess.DEVNULL, check=False)

    def unwritten(self, words: tuple[str, ...]) -> None:
        """A tool whose output can't be written ends with one line and status 2, on a full disk and where the caller has closed it."""
        for more, said in ((">/dev/full", "standard output: No space left on device"), (">&-", "standard output is closed")):
            with self.subTest((words, more)):
                done = self.call(words, more)
                # GNU parallel may warn before, as of a missing HOME.
                lines = [line for line in done.stderr.split("\n") if not line.startswith("parallel: Warning: ")]
                self.assertEqual((done.returncode, lines), (2, [f"vcp_tools: {said}", ""]))

    def test_output_that_cannot_be_written(self) -> None:
        for words in (*PRINTING[:3], ("help",), ("--version",), ("rows", "--help"), ("--help",)):
            self.unwritten(words)
        self.assertEqual(self.call(("rows", "check", "nowhere"), ">/dev/full").stderr, "vcp_tools: nowhere: there is no such file\n")
        done = self.call(("explain",), "<&-")
        self.assertEqual((done.returncode, done.stderr.count("\n")), (2, 1), done.stderr)
        self.assertEqual(self.call(("rows", "stimuli", "a.csv"), "| true").stderr, "")

    @needs_programs
    def test_output_of_each_tool_that_cannot_be_written(self) -> None:
        self.write("a.img", self.program("compile", "a.st"))
        self.write("f.txt", "result 0 2 add 1\n")
        self.assertEqual({words[0] for words in PRINTING}, set(TOOLS))
        for words in PRINTING[3:]:
            self.unwritten(words)

    def test_empty_words(self) -> None:
        for words in (("report", "a.st", "a.csv", "--faults", ""), ("report", "a.st", "a.csv", "--check", ""), ("report", "a.st", "a.csv", "-o", ""),
                      ("table", "a.st", "a.csv", "--cycle-time", ""), ("table", "a.st", "a.csv", "--changes-of", ""), ("lint", ""), ("diff", "", "a.st"),
                      ("explain", "--source", "", "inject", "a", "b", "c"), ("rows", "make", "a.stim", ""), ("rows", "--cycle-time", "", "make", "a.stim"),
                      *(("campaign", "m", "r", "skip", option, "") for option in ("--source", "--store", "--out", "--rows", "--hosts"))):
            self.assertRegex(self.tool(*words, status=2), "^vcp_tools: [a-z]+: an empty word [^\n]*\n$", words)

    def test_a_tool_that_is_interrupted(self) -> None:
        with mock.patch("vcp_tools.rows.command.run", side_effect=KeyboardInterrupt):
            self.assertEqual(self.tool("rows", "check", "a.csv", status=130), "")
        with mock.patch("vcp_tools.rows.command.run", side_effect=MemoryError):
            self.assertEqual(self.tool("rows", "check", "a.csv", status=2), "vcp_tools: there is no memory left\n")

    def test_texts_that_the_locale_cannot_spell(self) -> None:
        self.write("p\u00e4.csv", "x\n1\n\n2\n")
        with mock.patch.dict(os.environ, {"PYTHONIOENCODING": "ascii"}):
            done = self.call(("rows", "check", "p\u00e4.csv"), "")
            self.assertEqual((done.returncode, done.stderr), (9, ""))
            self.assertIn("p\\xe4.csv:3:1: ", done.stdout)
            done = self.call(("explain",), "<bytes")
            self.write("bytes", b"no\xff.st:1:2 S4 Syntax\n")
            done = self.call(("explain",), "<bytes")
            self.assertEqual((done.returncode, done.stderr), (9, ""))


class Launchers(InFolder):
    """The launchers of the repository."""

    def linked(self, file: Path) -> Path:
        """A link to a link to a launcher."""
        folder = self.folder / "bin"
        folder.mkdir(exist_ok=True)
        one, two = (folder / f"{name}_{file.name}" for name in ("one", "two"))
        one.symlink_to(os.path.relpath(file, folder))
        two.symlink_to(one.name)
        return two

    def test_links_are_followed(self) -> None:
        top = self.folder / "top"
        for name in ("vcp", "vcp_study"):
            (top / f"crates/{name}/out").mkdir(parents=True)
            (top / f"crates/{name}/out/{name}").write_text(f'#!/bin/sh\necho {name} ran "$@"\n', encoding="ascii")
            (top / f"crates/{name}/out/{name}").chmod(0o755)
        for name in ("launch.sh", "vcp", "vcp_study"):
            shutil.copy(TOP / name, top / name)
        self.write("top/crates.txt", "vcp:\nvcp_study:\n")
        for name in ("vcp", "vcp_study"):
            program = digest_of(top / f"crates/{name}/out/{name}")
            self.write(f"top/crates/{name}/out/{name}.proved", f"program {program}\nsources {sources_digest(top, name)}\n")
        self.write("rt", "#!/bin/sh\necho tried\n").chmod(0o755)
        for file, words, said in ((top / "vcp", ("check", "p"), "vcp ran check p\n"), (top / "vcp_study", ("ranges", "m"), "vcp_study ran ranges m\n"),
                                  (TOP / "vcp_tools", ("--version",), "vcp_tools "), (TOP / "campaign.sh", ("--help",), "usage: vcp_tools campaign "),
                                  (TOP / "try", ("check", "p"), "tried\n")):
            with self.subTest(file.name):
                done = subprocess.run([self.linked(file), *words], capture_output=True, text=True, check=False, cwd=self.folder,
                                      env={**os.environ, "PATH": f"{self.folder}:{os.environ['PATH']}"})
                self.assertTrue(done.stdout.startswith(said), done.stdout + done.stderr)
                self.assertEqual(done.returncode, 0)

    def test_an_unproved_run_that_ends_at_its_limit(self) -> None:
        (self.folder / "bin").mkdir()
        for said, status in (("checked: no-answer: it did not end within the time limit", 11), ("checked: ended status=3", 3)):
            self.write("bin/rt", f"#!/bin/sh\necho printed\necho '{said}' >&2\nexit {status if status != 11 else 6}\n").chmod(0o755)
            done = subprocess.run([TOP / "try", "vcp_study", "ranges", "m"], cwd=self.folder, capture_output=True, text=True, check=False,
                                  env={**os.environ, "PATH": f"{self.folder}/bin:{os.environ['PATH']}"})
            self.assertEqual((done.returncode, done.stdout), (status, "printed\n"), done.stderr)
            self.assertEqual("was ended at its limit" in done.stderr, status == 11)

    def test_help_and_version(self) -> None:
        self.assertRegex(self.tool("--version"), r"\Avcp_tools \d+\.\d+\n\Z")
        self.assertIn("docs/START.md", self.tool("help"))
        for name in TOOLS:
            self.assertIn("statuses: ", " ".join(self.tool(name, "--help").split()), name)

    def test_a_missing_program_says_what_makes_it(self) -> None:
        with mock.patch.dict(os.environ, {"VCP": "/nowhere", "VCP_STUDY": "/nowhere"}):
            for words in (("lint", "p.st"), ("table", "p.st", "r.csv"), ("explain", "check", "p.st"), ("campaign", "m", "r", "skip")):
                printed = self.tool(*words, status=2)
                self.assertIn("run ./vcp once", printed)
                self.assertIn("docs/MEASURES.md", printed)
        with mock.patch.dict(os.environ, {"VCP": sys.executable, "VCP_STUDY": "/nowhere"}):
            done = subprocess.run([TOP / "campaign.sh", "m", "r", "skip"], capture_output=True, text=True, check=False)
            self.assertEqual((done.returncode, done.stderr.count("\n")), (2, 1), done.stderr)
            for said in ("run ./vcp_study once", "which proves and builds it (20 minutes or more on 4 processors", "or set VCP_STUDY=FILE"):
                self.assertIn(said, done.stderr)

    def test_the_documents_say_where_programs_come_from(self) -> None:
        told = " ".join((TOP / "docs/CAMPAIGNS.md").read_text(encoding="utf-8").split())
        self.assertIn("or those of `VCP=FILE` and `VCP_STUDY=FILE`, and says which command makes a missing one, and how long that takes", told)
        told = " ".join((TOP / "docs/START.md").read_text(encoding="utf-8").split())
        self.assertIn("`./vcp` and `./vcp_study` prove and build their programs when first called, which takes 20 minutes or more each", told)
