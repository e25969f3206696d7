"""What people look at: kinds and their looks, bars, the graph in their colours, marks beside the source, cycles of faults, and pages that hold them."""
from __future__ import annotations

import hashlib
import re
import shutil
import unittest
from unittest import mock
from xml.etree import ElementTree

from tests.support import EXAMPLES, InFolder
from tests.test_cover import TEXT, needs_study
from tests.test_pictures import drawn
from tests.test_report import Balanced
from vcp_tools.campaign.page import campaign_page
from vcp_tools.pictures import filtered, graph, kinds, lines
from vcp_tools.pictures.looks import looked_at
from vcp_tools.pictures.markup import STYLE, section, table
from vcp_tools.pictures.report import sections_of
from vcp_tools.pictures.waves import Fault, waves
from vcp_tools.program import TOP, Outcome, Program
from vcp_tools.read.cover_lines import read_cover
from vcp_tools.read.image import Image, Operation
from vcp_tools.read.source import Source

CROSSING = (TOP / "docs" / "crossing_graph.svg").read_text(encoding="utf-8")
SVG = "{http://www.w3.org/2000/svg}"
SUM = """  faults    same   wrong  ran-on refused stopped  by what the fault does
       4       1       1       0       1       1  result add
  faults    same   wrong  ran-on refused stopped  by where it stands
       3       1       1       0       1       0  operation 8 ADD at 12:20
       1       0       0       0       0       1  operation 9 CONST at 12:11
  faults    same   wrong  ran-on refused stopped  by where it shows
       2       0       1       0       1       0  output lights
  faults    same   wrong  ran-on refused stopped  by how many cycles later it shows
       3       0       1       0       1       1  after 0
3 wrong 2 lights got 1 want 0
  result 2 8 add 1: operation 8 ADD at 12:20
faults 4 same 1 wrong 1 ran-on 0 refused 1 stopped 1
"""


def image_of(places: list[int]) -> Image:
    """An image of operations at these lines."""
    return Image(1, 1, 0, [], [], [], [Operation(number, "ADD", "INT", "INT", (), 0, line, 1, (), 0) for number, line in enumerate(places)])


class Kinds(unittest.TestCase):
    """What becomes of the faults of an operation."""

    def test_each_operation_has_the_numbers_that_cover_names(self) -> None:
        found = kinds.by_operation(read_cover(TEXT))
        self.assertEqual(found, {1: {"shows": 1}, 0: {"runs-on": 2}, 3: {"beyond": 2}})
        self.assertEqual(kinds.worst({"beyond": 1, "shows": 0, "runs-on": 2}, kinds.COVER_KINDS), "runs-on")
        self.assertEqual(kinds.worst({}, kinds.COVER_KINDS, kinds.SEEN), kinds.SEEN)
        self.assertEqual(kinds.counted({"beyond": 1, "shows": 3}, kinds.COVER_KINDS), "shows 3, beyond 1")

    def test_kinds_are_told_apart_without_colours(self) -> None:
        for order in (kinds.COVER_KINDS, kinds.VERDICT_KINDS):
            self.assertEqual(len({kinds.look(kind) for kind in order}), len(order))
        for name in ("hatch", "dots", "rules"):
            self.assertIn(f'id="{name}"', kinds.PATTERNS)
            self.assertIn(f"url(#{name})", kinds.STYLE)
        self.assertIn("prefers-color-scheme: dark", kinds.STYLE)
        self.assertIn("@media print", kinds.STYLE)

    def test_what_there_is_little_of_is_seen_in_a_bar(self) -> None:
        bars = kinds.bars({"late": {"shows": 1, "refused": 9999}, "rest": {}}, kinds.COVER_KINDS, "class")
        parts = re.findall(r'<rect class="([\w-]+)" x="([\d.]+)%" y="1" width="([\d.]+)%"', bars)
        self.assertEqual([it[0] for it in parts], ["k-worst", "k-fine"])
        self.assertGreaterEqual(float(parts[0][2]), 1)
        self.assertAlmostEqual(sum(float(it[2]) for it in parts), 100, places=1)
        self.assertIn("<td>shows 1, refused 9999</td>", bars)
        self.assertIn("<td>none</td>", bars)
        ElementTree.fromstring(bars)


class Graphs(unittest.TestCase):
    """The graph as the proved program drew it, in other colours."""

    def test_each_operation_has_the_look_of_its_worst_faults(self) -> None:
        told = {6: {"shows": 1, "runs-on": 2}, 12: {"beyond": 3}, 9: {"runs-on": 4}}
        picture = ElementTree.fromstring(graph.coloured(CROSSING, told, kinds.COVER_KINDS, "the graph", kinds.SEEN))
        boxes = {int(it.attrib["data-operation"]): it.attrib["class"] for it in picture.iter(SVG + "rect") if "data-operation" in it.attrib}
        before = re.findall(r'<rect data-operation="(\d+)"', CROSSING)
        self.assertEqual(sorted(boxes), sorted(map(int, before)))
        self.assertEqual((boxes[6], boxes[12], boxes[0]), ("k-worst", "k-open", "k-fine"))
        words = [it.text for it in picture.iter(SVG + "text")]
        self.assertIn("shows 1 +", words)
        self.assertIn("beyond 3", words)
        self.assertNotIn("reaches an output", words)
        constants = [it for it in picture.iter(SVG + "rect") if it.attrib.get("data-operand") == "9"]
        self.assertTrue(constants)
        self.assertEqual({it.attrib["class"] for it in constants}, {"k-bad"})
        self.assertEqual([it for it in picture.iter(SVG + "style")], [])

    def test_no_edge_and_no_word_is_lost(self) -> None:
        picture = ElementTree.fromstring(graph.coloured(CROSSING, {}, kinds.VERDICT_KINDS, "the graph"))
        self.assertEqual(sum("data-reader" in it.attrib for it in picture.iter(SVG + "line")), CROSSING.count("data-reader="))
        words = re.findall(r"<text[^>]*>(\d+ [A-Z]+)</text>", CROSSING)
        self.assertEqual([it.text for it in picture.iter(SVG + "text") if re.fullmatch(r"\d+ [A-Z]+", it.text or "")], words)
        self.assertEqual({it.attrib["class"] for it in picture.iter(SVG + "rect") if "data-operation" in it.attrib}, {"plain"})


class Lines(unittest.TestCase):
    """The source with a mark a line."""

    def test_each_line_has_the_worst_mark_of_its_operations(self) -> None:
        source = Source(b"a\nb\nc\nd <\n")
        told = lines.marked(source, image_of([1, 1, 2, 4, 0]), {1: {"runs-on": 2}, 0: {"shows": 1}}, {2}, kinds.COVER_KINDS, kinds.SEEN)
        root = ElementTree.fromstring(told)
        marks = [("".join(it.itertext()).split()[0], it[0].attrib.get("title", "")) for it in root]
        self.assertEqual(marks, [("shows", "2 operations; shows 1, runs-on 2"), ("blind", "1 operation; blind: 2"), ("3", ""), ("seen", "1 operation")])
        self.assertEqual([it.attrib["id"] for it in root], ["L1", "L2", "L3", "L4"])
        self.assertIn("d &lt;", told)
        self.assertNotIn("mark", lines.marked(source, image_of([1]), None, (), kinds.COVER_KINDS))


class Faults(unittest.TestCase):
    """The cycles of faults in a run."""

    def test_each_cycle_with_a_fault_has_a_line(self) -> None:
        from vcp_tools.pictures.observe import Column, Observation
        from vcp_tools.read.syntax import Declaration
        found = Observation("p", [Column(Declaration("b", 0, "VAR", "BOOL", None), [0] * 8)], 8, "end 8", True)
        picture = waves(found, None, [Fault(2, 4, "wrong"), Fault(2, 9, "refused"), Fault(5, 3, "same"), Fault(99, 7, "same")])
        root = ElementTree.fromstring(picture)
        struck = [it for it in root.iter(SVG + "line") if it.attrib["class"].split()[0] == "f"]
        self.assertEqual([it.attrib["class"] for it in struck], ["f unseen", "f"])
        self.assertEqual([it[0].text for it in struck], ["cycle 2: line 4 wrong, line 9 refused", "cycle 5: line 3 same"])
        self.assertEqual([it.text for it in root.iter(SVG + "text") if it.attrib.get("class", "").startswith("f")], ["4,9", "3"])
        self.assertNotIn("fault", "".join(drawn({"b": [0] * 8})))


class Pages(InFolder):
    """Pages that hold all of it."""

    def look_at(self, document: str) -> None:
        """A page is well formed, stands alone, and can be read without its script."""
        parser = Balanced()
        parser.feed(document)
        self.assertEqual((parser.open, parser.outside), ([], []))
        self.assertLessEqual(parser.links - {""}, parser.ids)
        for picture in re.findall(r"<svg.*?</svg>", document, re.S):
            ElementTree.fromstring(picture)
        self.assertEqual(document.count("<script"), 1)
        self.assertEqual(re.findall("<p class=\"filter\"[^>]*>", document), ['<p class="filter" hidden>'] * document.count('class="filter"'))
        for words in ("@media print", "prefers-color-scheme: dark", 'name="viewport"', "<nav "):
            self.assertIn(words, document)

    def test_a_table_is_whole_without_the_script(self) -> None:
        page = looked_at("t", [section("listing", "Operations", filtered.filtered("listing", table(("a", "b"), [("1", "2"), ("3", "4")])))])
        self.look_at(page)
        self.assertIn('<a href="#listing">Operations</a>', page)
        self.assertEqual(page.count("<td>"), 4)

    def test_the_page_of_a_campaign_tells_its_verdicts(self) -> None:
        study = Program(self.folder, "vcp_study")
        with mock.patch.object(Program, "must", return_value=Outcome(0, CROSSING.encode(), "")), \
             mock.patch("vcp_tools.campaign.page.read_image", return_value=image_of([0] * 8 + [12, 12])):
            source = Source((EXAMPLES / "crossing.st").read_bytes())
            page = campaign_page("Campaign", SUM, b"", source, study)
        self.look_at(page)
        parts = sections_of(page)
        self.assertEqual(list(parts), ["summary", "graph", "unseen", "operations", "source"])
        self.assertIn("faults 4 same 1 wrong 1 ran-on 0 refused 1 stopped 1", parts["summary"][1])
        self.assertIn("wrong 1, same 1, refused 1</td>", re.sub("stopped 1, ", "", parts["summary"][1]))
        self.assertRegex(parts["graph"][1], r'class="k-worst"[^>]*data-operation="8"|data-operation="8" class="k-worst"')
        self.assertIn("result 2 8 add 1: operation 8 ADD at 12:20", parts["unseen"][1])
        self.assertRegex(parts["source"][1], r'id="L12"><span class="mark k-worst" title="2 operations; wrong 1, same 1, stopped 1, refused 1">wrong</span>')

    @needs_study
    def test_a_report_and_a_campaign_have_these_parts(self) -> None:
        for name in ("crossing.st", "crossing.csv", "crossing.faults"):
            shutil.copy(EXAMPLES / name, self.folder)
        self.tool("report", "crossing.st", "crossing.csv", "--faults", "crossing.faults", "-o", "r.html", status=9)
        document = (self.folder / "r.html").read_text(encoding="utf-8")
        self.look_at(document)
        parts = sections_of(document)
        self.assertEqual(len(re.findall('class="bar"', parts["cover"][1])), 7)
        self.assertIn('class="graph"', parts["graph"][1])
        self.assertIn('class="f unseen"', parts["run"][1])
        self.assertRegex(parts["source"][1], '>(shows|seen)</span>')
        self.write("crossing.img", self.program("compile", "crossing.st"))
        words = ("crossing.img", "crossing.csv", "crossing.faults", "--source", "crossing.st", "--page", "c.html", "--quiet")
        self.assertIn("the page of the campaign", self.tool("campaign", *words, status=9))
        page = (self.folder / "c.html").read_text(encoding="utf-8")
        self.look_at(page)
        for name in ("crossing.img", "crossing.csv", "crossing.faults"):
            digest = hashlib.sha256((self.folder / name).read_bytes()).hexdigest()
            self.assertIn(f'<code class="line">{name}</code></td><td><code>{digest}</code>', sections_of(page)["files"][1])

    def test_lines_of_the_source_break_where_there_is_no_room(self) -> None:
        for style in (".scroll td code.line, .scroll td code.wrap { white-space: pre-wrap; }", "pre { margin: 0; white-space: pre-wrap; }"):
            self.assertIn(style, STYLE)
        self.assertNotIn("nowrap", lines.STYLE)
        marked = lines.marked(Source(b"a := 1;\nb := 2;\n"), image_of([2]), {0: {"shows": 1}}, (), kinds.COVER_KINDS)
        self.assertEqual(re.sub("<[^>]*>", "", marked), "   1  a := 1;\nshows   2  b := 2;\n")


if __name__ == "__main__":
    unittest.main()
