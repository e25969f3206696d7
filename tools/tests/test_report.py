"""`report`: what a filed report holds, its check, and the readers of audits and verdicts."""
from __future__ import annotations

import hashlib
import html
import os
import re
import shutil
from html.parser import HTMLParser
from unittest import mock

from vcp_tools.read.audit_lines import reached_from, read_audit
from vcp_tools.read.image import read_image
from vcp_tools.pictures.report import sections_of
from vcp_tools.pictures.report_parts import toolchain_told
from vcp_tools.program import find_program, present_toolchain, promised_toolchain
from vcp_tools.proved import digest_of, told_of
from tests.support import EXAMPLES, InFolder, needs_program
from vcp_tools.read.verdict_lines import read_verdicts
from vcp_tools.pictures.waves import segments

VOID = ("meta", "line", "polyline", "rect", "input", "br")


class Balanced(HTMLParser):
    """Whether each element is closed, and which names are linked and defined."""

    def __init__(self) -> None:
        super().__init__()
        self.open: list[str] = []
        self.ids: set[str] = set()
        self.links: set[str] = set()
        self.outside: list[str] = []

    def handle_starttag(self, tag: str, attrs: list[tuple[str, str | None]]) -> None:
        given = dict(attrs)
        if tag not in VOID:
            self.open.append(tag)
        self.ids.add(given.get("id") or "")
        self.links.add((given.get("href") or "#")[1:])
        self.outside += [value for key, value in given.items() if key in ("src", "href") and value and not value.startswith("#")]

    def handle_endtag(self, tag: str) -> None:
        if tag not in VOID:
            assert self.open.pop() == tag, tag


class Reports(InFolder):
    """A report of the level crossing."""

    made: str | None = None

    def setUp(self) -> None:
        super().setUp()
        for name in ("crossing.st", "crossing.csv", "crossing.faults", "difference.st", "in.csv", "shares.st"):
            shutil.copy(EXAMPLES / name, self.folder)
        self.words = ["crossing.st", "crossing.csv", "--faults", "crossing.faults"]

    def report(self) -> str:
        """The report of the crossing, made once for all tests."""
        if Reports.made is None:
            self.tool("report", *self.words, "-o", "r.html", status=9)
            Reports.made = (self.folder / "r.html").read_text(encoding="utf-8")
        return Reports.made

    @needs_program
    def test_a_report_stands_alone_and_is_well_formed(self) -> None:
        document = self.report()
        parser = Balanced()
        parser.feed(document)
        self.assertEqual(parser.open, [])
        self.assertEqual(parser.outside, [])
        self.assertLessEqual(parser.links - {""}, parser.ids)
        self.assertEqual(document.count("<script"), 1)
        study = "cover graph " if find_program("vcp_study") else ""
        wanted = f"summary {study}files tool run audit campaign lint listing values source commands"
        self.assertEqual(" ".join(sections_of(document)), wanted)

    @needs_program
    def test_it_has_digests_verdicts_and_commands(self) -> None:
        parts = sections_of(self.report())
        for name in ("crossing.st", "crossing.csv", "crossing.faults"):
            self.assertIn(hashlib.sha256((self.folder / name).read_bytes()).hexdigest(), parts["files"][1])
        self.assertIn(hashlib.sha256(self.program("compile", "crossing.st")).hexdigest(), parts["files"][1])
        self.assertIn("the same, byte for byte", parts["summary"][1])
        self.assertIn("faults 14 same 3 wrong 3 ran-on 0 refused 6 stopped 2", parts["campaign"][1])
        commands = parts["commands"][1]
        for command in ("vcp check crossing.st", "vcp compile crossing.st &gt;crossing.img", "vcp audit crossing.img 2",
                        "vcp inject crossing.img crossing.csv crossing.faults"):
            self.assertIn(command, commands)
        self.assertEqual(parts["run"][1].count("<polyline"), 4)
        self.assertEqual(len(re.findall(r'id="O\d+"', parts["listing"][1])), 50)

    @needs_program
    def test_it_is_made_again_and_compared(self) -> None:
        self.write("r.html", self.report())
        self.assertIn("made again as it is filed", self.tool("report", *self.words, "--check", "r.html"))
        with open(self.folder / "crossing.csv", "a", encoding="ascii") as rows:
            rows.write("0,0,0\n")
        printed = self.tool("report", *self.words, "--check", "r.html", status=9)
        for title in ("Summary: filed `cycles 8`, made now `cycles 9`", "Files: ", "The run: ", "Values, cycle by cycle: "):
            self.assertIn(title, printed)
        self.assertNotIn("Source: ", printed)
        self.write("no.html", "<p>")
        self.assertIn("this is no report", self.tool("report", *self.words, "--check", "no.html", status=2))

    @needs_program
    def test_the_summary_tells_what_was_found(self) -> None:
        summary = sections_of(self.report())["summary"][1]
        self.assertIn('<span class="bad">faults 14 same 3 wrong 3 ran-on 0 refused 6 stopped 2</span>', summary)
        file = find_program()
        assert file is not None
        self.assertIn(f"{digest_of(file)}, {html.escape(told_of(file))}", summary)
        for told in ("blind operations", "likely mistakes", "may stop with any rows", "end of the run"):
            self.assertIn(f"<td>{told}</td>", summary)
        self.tool("report", "crossing.st", "crossing.csv", "--step", "10", "-o", "r.html")
        self.write("n.st", "PROGRAM n VAR_OUTPUT y : INT; END_VAR\ny := y + 1;\nEND_PROGRAM\n")
        self.tool("report", "n.st", "--cycles", "3", "-o", "r.html", status=9)
        self.assertIn("counter-only-grows", (self.folder / "r.html").read_text(encoding="utf-8"))

    @needs_program
    def test_blind_and_unreached_operations_have_names_and_lines(self) -> None:
        self.tool("report", "difference.st", "in.csv", "--horizon", "1", "-o", "r.html", status=9)
        audit = sections_of((self.folder / "r.html").read_text(encoding="utf-8"))["audit"][1]
        self.assertRegex(audit, r"(?s)Blind: .*<code>INPUT</code></td><td><code>x</code>")
        self.assertIn("y across 0", audit)

    def test_the_toolchain_is_compared_with_the_one_that_is_promised(self) -> None:
        self.assertRegex(promised_toolchain() or "", r"^rattle-kit-\S+ logic [0-9a-f]{16}$")
        self.assertIn("say the same", toolchain_told("rattle-kit-1 logic a", "rattle-kit-1 logic a"))
        other = toolchain_told("rattle-kit-1 logic a", "rattle-kit-2 logic b")
        self.assertRegex(other, r'rattle-kit-1 logic a</code>, by docs/PROMISES\.md; <span class="bad">another one</span>.*rattle-kit-2 logic b')
        self.assertIn("isn't here, to say its own", toolchain_told("rattle-kit-1 logic a", None))
        self.assertRegex(toolchain_told(None, "rattle-kit-1 logic a"), "^not named: .*the one that is here, .*rattle-kit-1 logic a")

    def test_the_line_of_rt_is_read(self) -> None:
        rt = self.write("rt", "#!/bin/sh\necho rattle-kit-1 logic a\n")
        rt.chmod(0o755)
        with mock.patch.dict("os.environ", {"PATH": f"{self.folder}:{os.environ['PATH']}"}):
            self.assertEqual(present_toolchain(), "rattle-kit-1 logic a")
        with mock.patch.dict("os.environ", {"PATH": str(self.folder / "none")}):
            self.assertIsNone(present_toolchain())

    @needs_program
    def test_a_run_that_stops_is_told(self) -> None:
        self.tool("report", "shares.st", "--cycles", "5", "-o", "r.html", status=9)
        self.assertIn('<span class="bad">stop 3 DIVZERO 8:14</span>', (self.folder / "r.html").read_text(encoding="utf-8"))

    @needs_program
    def test_what_is_reached_is_as_many_as_the_audit_counts(self) -> None:
        for name in ("crossing", "route", "two_hand", "odometer", "difference"):
            data = self.program("compile", str(EXAMPLES / f"{name}.st"))
            self.write("p.img", data)
            image = read_image(data, "p.img")
            counts = {(it.output, it.borders): it.reached for it in read_audit(self.program("audit", "p.img", "3").decode())}
            for number, slot in enumerate(image.outputs):
                for borders, reached in enumerate(reached_from(image, number, 3)):
                    self.assertEqual(len(reached), counts[slot.name, borders], (name, slot.name, borders))

    def test_lines_after_the_document(self) -> None:
        audit = read_audit("y 0 reached 3 blind 1\nblind 0 INPUT\ny 1 reached 0 blind 0\n")
        self.assertEqual([(it.output, it.borders, it.reached, it.blind) for it in audit], [("y", 0, 3, [0]), ("y", 1, 0, [])])
        verdicts, totals = read_verdicts("1 same\n3 wrong 0 y got 1 want 0\nfaults 2 same 1 wrong 1 ran-on 0 refused 0 stopped 0\n")
        self.assertEqual([(it.line, it.verdict, it.rest) for it in verdicts], [(1, "same", ""), (3, "wrong", "0 y got 1 want 0")])
        self.assertTrue(totals.startswith("faults 2"))
        self.assertEqual(list(segments([5, 5, 7, 5])), [(0, 2, 5), (2, 3, 7), (3, 4, 5)])
        self.assertEqual(list(segments([])), [])
