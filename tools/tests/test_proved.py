"""The record beside a program: `launch.sh` goes by digests, and never runs another program than the one that was proved."""
from __future__ import annotations

import os
import shutil
import unittest

from tests.made_repository import Repository
from tests.support import InFolder
from vcp_tools.proved import TOLD, lines_of, sources_digest, standing, told_of

RAN = r"\Avcp of [0-9a-f]{8} check p\n\Z"


class Records(InFolder):
    """Programs that are proved, changed, copied and taken away."""

    def setUp(self) -> None:
        super().setUp()
        self.made = Repository(self.folder)

    def ran(self, proofs: int, said: str = "", name: str = "vcp") -> str:
        """What a program prints that is run now, after so many proofs in all."""
        done = self.made.run(f"./{name}", "check", "p")
        self.assertEqual((done.returncode, self.made.proofs), (0, proofs), done.stderr)
        self.assertIn(said, done.stderr)
        self.assertRegex(done.stdout, RAN.replace("vcp", name))
        return done.stdout

    def state(self) -> str:
        """What is said of the program, by the launcher and by the tools."""
        done = self.made.run("./launch.sh", "--state", "vcp")
        found = standing("vcp", self.made.top)
        self.assertEqual(done.stdout, f"{found.state} {found.sources}\n")
        self.assertEqual(done.returncode, 0 if found.state == "proved" else 1)
        return found.state

    def test_a_program_is_proved_once(self) -> None:
        self.assertEqual(self.state(), "missing")
        first = self.ran(1, "proving and building 2 crates")
        self.assertEqual(self.state(), "proved")
        for file in self.made.top.glob("**/*"):
            os.utime(file)
        self.assertEqual(self.ran(1), first)
        shutil.copytree(self.made.top, self.folder / "copy", symlinks=True)
        self.made.top = self.folder / "copy"
        self.assertEqual(self.ran(1), first)

    def test_what_a_build_is_at(self) -> None:
        self.write("slow", "")
        done = self.made.run("env", "VCP_TELLS=0.5", "./vcp", "check", "p")
        self.assertEqual(done.returncode, 0, done.stderr)
        self.assertRegex(done.stderr, r"vcp: 0 of 2 crates proved, 100 % of the work left, after 0 min; at base\n")

    def test_the_record(self) -> None:
        self.ran(1)
        found = standing("vcp", self.made.top)
        self.assertEqual(sorted(found.record), ["by", "log", "program", "sources", "toolchain"])
        self.assertEqual((found.record["program"], found.record["sources"]), (found.digest, sources_digest(self.made.top, "vcp")))
        self.assertEqual((found.record["toolchain"], found.record["by"]), ("rattle-kit-1 logic a", "./vcp, of these crates alone"))

    def test_sources_that_come_back(self) -> None:
        first = self.ran(1)
        for proofs, name in ((2, "crates/base/src/lib.rt"), (3, "crates/base/specs/A.antt"), (4, "HANDLES"), (5, "crates.txt")):
            before = (self.made.top / name).read_bytes()
            (self.made.top / name).write_bytes(before.replace(b"vcp: base", b"vcp: base other") if name == "crates.txt" else before + b"-- more\n")
            self.assertEqual(self.state(), "changed", name)
            self.ran(proofs, "the sources aren't those that crates/vcp/out/vcp was proved from")
            (self.made.top / name).write_bytes(before)
            self.assertEqual(self.ran(proofs), first)
            self.assertEqual(self.state(), "proved")

    def test_files_that_are_no_sources_of_it(self) -> None:
        self.ran(1)
        for name in ("crates/base/must-fail/one.edit", "crates/vcp/data/in.csv", "docs/PROMISES.md", "crates/other/src/lib.rt", "crates/vcp_study/src/main.rt"):
            self.made.change(name)
        self.write("top/crates/base/src/.lib.rt.swp", "an editor's\n")
        (self.made.top / "crates.txt").write_text("# all\nvcp_study: base other\nvcp: base\nother:\nbase:\n", encoding="utf-8")
        self.ran(1)

    def test_another_program_is_not_run(self) -> None:
        first = self.ran(1)
        self.made.change("crates/vcp/out/vcp")
        self.assertEqual(self.state(), "altered")
        done = self.made.run("./vcp", "check", "p")
        self.assertEqual((done.returncode, done.stdout, self.made.proofs), (1, "", 1))
        self.assertIn("crates/vcp/out/vcp isn't the program that was proved", done.stderr)
        (self.made.top / "crates/vcp/out/vcp").unlink()
        self.assertEqual(self.ran(1), first)

    def test_a_program_without_a_record(self) -> None:
        self.made.run(self.made.kit / "bin/rt", "ci")
        self.assertEqual(self.state(), "unrecorded")
        self.ran(2, "has no record of what it was proved from")
        (self.made.top / "crates/vcp/out/vcp.proved").unlink()
        (self.made.top / "crates/vcp/out/vcp").write_text("#!/bin/sh\necho another\n", encoding="ascii")
        self.ran(2)
        self.ran(3, name="vcp_study")

    def test_the_gate_records_what_it_proved(self) -> None:
        done = self.made.run(".ci/run")
        self.assertEqual(done.returncode, 0, done.stderr)
        self.assertIn(f"sources vcp {sources_digest(self.made.top, 'vcp')}\n", done.stdout)
        self.assertIn("recorded that vcp_study was proved from these sources", done.stdout)
        self.assertEqual(standing("vcp", self.made.top).record["by"], "rt ci, of all crates")
        self.ran(1)
        self.ran(1, name="vcp_study")

    def test_sources_that_change_while_the_gate_runs(self) -> None:
        (self.folder / "meanwhile").touch()
        self.assertIn("nothing is recorded of vcp: ", self.made.run(".ci/run").stdout)
        self.assertEqual(self.state(), "unrecorded")

    def test_a_gate_that_fails(self) -> None:
        self.ran(1)
        (self.folder / "fails").touch()
        self.assertEqual(self.made.run(".ci/run").returncode, 1)
        self.made.change("crates/base/src/lib.rt")
        done = self.made.run("./vcp", "check", "p")
        self.assertEqual((done.returncode, done.stdout), (1, ""))
        self.assertIn("error: it isn't proved", done.stderr)
        self.assertNotEqual(self.state(), "proved")

    def test_what_is_told_of_a_program(self) -> None:
        file = self.made.top / "crates/vcp/out/vcp"
        self.ran(1)
        with self.made.taken_for_ours():
            self.assertEqual(told_of(file), TOLD["proved"])
            for name, word in (("crates/vcp/out/vcp", "altered"), ("crates/vcp/src/main.rt", "changed")):
                self.made.change(name)
                self.assertEqual(told_of(file), TOLD[word])
            file.with_name("vcp.proved").unlink()
            self.assertEqual(told_of(file), TOLD["unrecorded"])
            shutil.copy(file, self.folder / "vcp")
            self.assertEqual(told_of(self.folder / "vcp"), TOLD["unknown"])

    def test_lines_of_crates(self) -> None:
        text = "# all\na may_abort=2: b kit # c\n\nb: \nc: a b\nd: c\n"
        self.assertEqual(lines_of(text, "a"), {"a": "a may_abort=2: b kit # c", "b": "b: "})
        self.assertEqual(sorted(lines_of(text, "c")), ["a", "b", "c"])


if __name__ == "__main__":
    unittest.main()
