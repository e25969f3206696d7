"""The operations of which something is asked: they are those of the image, and carry out what `vcp trace` shows, value by value."""
from __future__ import annotations

import os
import unittest
from pathlib import Path

from tests.made_programs import Maker
from tests.support import EXAMPLES, InFolder, needs_program
from vcp_tools.ask.cycles import Relation, bits_of
from vcp_tools.ask.operations import Graph, graph_of, read_listing
from vcp_tools.needs import find_module
from vcp_tools.program import Program, find_program
from vcp_tools.program_text import ProgramText
from vcp_tools.read.fault_line import StopLine, read_ending
from vcp_tools.read.image import Operation, read_image
from vcp_tools.read.range_lines import MayStop, read_ranges, read_ranges_of_all
from vcp_tools.read.rows_file import cell_value, read_rows
from vcp_tools.read.run_lines import read_trace
from vcp_tools.read.source import GREATEST, LEAST
from vcp_tools.refusal import Refusal

MADE = int(os.environ.get("MADE", "400")) // 10
"""So many programs are made."""
PROGRAMS = sorted([*EXAMPLES.glob("*.st"), *EXAMPLES.glob("patterns/*.st")])
"""The examples that are programs of the language as they stand."""
needs_study = unittest.skipUnless(find_program("vcp_study"), "no vcp_study is built, and VCP_STUDY=FILE names none")
needs_z3 = unittest.skipUnless(find_module("z3"), "z3 isn't installed")


def without_ranges(graph: Graph) -> Graph:
    """The same graph with the ranges of types alone, in which each operation that stops by its kind may stop."""
    ranges = {it.number: (LEAST[it.type], GREATEST[it.type]) for it in graph.operations}
    stops = [MayStop(it.number, it.kind, cause, it.line, it.column, "") for it in graph.operations for cause in _causes(it)]
    return Graph(graph.operations, graph.inputs, graph.outputs, graph.cells, ranges, stops)


def _causes(operation: Operation) -> list[str]:
    if operation.kind in ("DIV", "MOD"):
        return ["DIVZERO", "RANGE"]
    return ["RANGE"] if operation.kind in ("NEG", "ADD", "SUB", "MUL", "CONV") else []


class Operations(InFolder):
    """What `list` and `ranges --all` tell."""

    def graph(self, file: Path) -> Graph:
        """The graph of a source."""
        return graph_of(Program.found(), Program.found("vcp_study"), ProgramText.read(file), str(file))

    @needs_program
    def test_a_listing_has_the_operations_of_the_image(self) -> None:
        for file in PROGRAMS:
            image = self.write("m.img", self.program("compile", str(file)))
            self.assertEqual(read_listing(self.program("list", "m.img").decode()), read_image(image.read_bytes(), "m.img").operations, file.name)

    def test_lines_of_ranges(self) -> None:
        stop = "operation 1 ADD at 3:1 k=-1 RANGE of 0 INPUT x 1..2 and 0 INPUT x none\n"
        told = read_ranges_of_all("y INT none\nx1 INT -3..4\noperation 0 INPUT x at 2:1 -5..7\noperation 1 ADD at 3:1 k=-1 none\n"
                                  f"{stop}no search: more than 8192 operations\nmay stop 1 of 1\n")
        self.assertEqual(told.ranges, {0: (-5, 7), 1: None})
        self.assertEqual(told.may_stop, [MayStop(1, "ADD", "RANGE", 3, 1, "k=-1")])
        self.assertEqual(told.may_stop[0].reads, "0 INPUT x 1..2 and 0 INPUT x none")
        self.assertEqual(told.variables, [("y", "INT", None), ("x1", "INT", (-3, 4))])

    def test_a_search_that_was_not_made_is_told(self) -> None:
        line = "operation 2 NEG at 4:8 RANGE of 0 INPUT x -32768..32767\n"
        none, last = "no search: more than 8192 operations\n", "may stop 1 of 1\n"
        self.assertEqual([read_ranges(line + last).searched, read_ranges(line + none + last).searched], [True, False])
        for text in ("2 NEG RANGE of -32768..32767 at 4:8\n" + last, line, none):
            with self.assertRaises(Refusal):
                read_ranges(text)

    def test_bits(self) -> None:
        for ends, bits in (((0, 0), 1), ((-1, 0), 1), ((0, 1), 2), ((-2, 1), 2), ((-32768, 32767), 16), ((0, 32768), 17)):
            self.assertEqual(bits_of(ends), bits, ends)

    @needs_z3
    @needs_study
    @needs_program
    def test_random_programs_carry_out_what_trace_shows(self) -> None:
        stopped = values = 0
        for seed in range(MADE):
            maker = Maker(seed, seed % 4 == 3)
            source, rows = self.write("p.st", maker.text()), self.write("rows.csv", maker.rows(4))
            self.write("p.img", self.program("compile", "p.st"))
            graph = self.graph(source)
            for it in (graph, without_ranges(graph)):
                ended, compared = self.compared(it, rows)
                stopped += ended
                values += compared
        self.assertGreater(stopped, MADE // 4)
        self.assertLess(stopped, 2 * MADE)
        self.assertGreater(values, 20 * MADE)

    def compared(self, graph: Graph, rows: Path) -> tuple[bool, int]:
        """Compares each value of each cycle, and where the run stops; gives whether it does, and how many values there were."""
        relation = Relation(graph)
        head, *records = read_rows(rows.read_bytes())
        kept = [cell.initial for cell in graph.cells]
        compared = 0
        for cycle, record in enumerate(records):
            cells = dict(zip(head.cells, record.cells))
            inputs = [cell_value(cells[slot.name], slot.type) or 0 for slot in graph.inputs]
            words, ending = read_trace(self.program("trace", "p.img", "rows.csv", str(cycle)).decode())
            values, stop = relation.carried(inputs, kept)
            self.assertEqual(values, [word.value for word in words])
            compared += len(values)
            end = read_ending(ending)
            self.assertEqual(None if stop is None else stop[1], end.kind if isinstance(end, StopLine) else None)
            if stop is not None:
                at = graph.operations[stop[0]]
                assert isinstance(end, StopLine)
                self.assertEqual((at.line, at.column), (end.line, end.column))
                return True, compared
            kept = [values[cell.store] for cell in graph.cells]
        return False, compared


if __name__ == "__main__":
    unittest.main()
