"""`witness`: for each operation that may stop, by `ranges`, rows by which it does."""
from __future__ import annotations

import argparse
import tempfile
import time
from functools import cached_property
from pathlib import Path
from typing import Any, Mapping, Sequence

from vcp_tools.ask.cycles import Instant, Interval, Relation
from vcp_tools.ask.inputs import read_inputs
from vcp_tools.ask.never import add_search_words, begin
from vcp_tools.ask.operations import Graph, graph_of
from vcp_tools.ask.question import Subject
from vcp_tools.ask.replay import Replay
from vcp_tools.ask.search import Answer, Comes, Never, Search
from vcp_tools.ask.unrolled import Deadline
from vcp_tools.program import Program
from vcp_tools.read.fault_line import StopLine, read_ending
from vcp_tools.read.range_lines import MayStop
from vcp_tools.refusal import FINE, FOUND, OPEN


STEADY = 40_000
"""So many equal rows are tried where no others are found: a counter of 16 bits that grows in each cycle stops in them."""


def add_words(parser: argparse.ArgumentParser) -> None:
    """The words of `witness`."""
    parser.add_argument("program", metavar="P", help="the source, or an instruction list")
    parser.add_argument("-o", dest="output", metavar="FOLDER", default=".", help="where rows are written, here where it isn't given")
    add_search_words(parser)


def run(given: argparse.Namespace) -> int:
    """Prints a line for each way in which an operation may stop: the status is 9 where one does, 10 where one stays open, else 0."""
    begin(given)
    return _run(given)


def _run(given: argparse.Namespace) -> int:
    """The same, where z3 is loaded."""
    vcp = Program.found()
    subject = Subject(given.program, given.as_list)
    graph = graph_of(vcp, Program.found("vcp_study"), subject.text, given.program)
    bounds = read_inputs(given.inputs, graph.inputs) if given.inputs else {}
    if not graph.may_stop:
        print(f"{given.program}: no operation may stop, whatever the rows: proved by ranges")
        return FINE
    witness = Witness(given, vcp, subject, graph, bounds)
    found = [witness.told(it) for it in graph.may_stop]
    return FOUND if FOUND in found else OPEN if OPEN in found else FINE


class Witness:
    """What looks for rows by which operations of a program stop."""

    def __init__(self, given: argparse.Namespace, vcp: Program, subject: Subject, graph: Graph, bounds: Mapping[int, Interval]) -> None:
        self.given = given
        self.vcp = vcp
        self.subject = subject
        self.graph = graph
        self.bounds = bounds
        self.relation = Relation(graph, [(it.operation, it.cause) for it in graph.may_stop])

    def told(self, stop: MayStop) -> int:
        """Looks for rows by which an operation stops, and prints what came of it."""
        begun = time.monotonic()

        def target(instant: Instant) -> Sequence[Any]:
            return [instant.stops[stop.operation, stop.cause]]

        answer = Search(self.relation, target, lambda _: [], self.bounds, Deadline(self.given.seconds)).run(self.given.cycles)
        status, what = self._answered(answer, stop)
        turns = f" {stop.turns}" if stop.turns else ""
        print(f"{stop.operation} {stop.kind} {stop.cause} at {stop.line}:{stop.column}{turns}: {what} ({time.monotonic() - begun:.1f} s)")
        return status

    def _answered(self, answer: Answer, stop: MayStop) -> tuple[int, str]:
        """The status of an answer, and what is said of it."""
        if isinstance(answer, Comes):
            return FOUND, self._replayed(answer.rows, answer.outputs, stop)
        if isinstance(answer, Never):
            return FINE, f"never stops: {answer.how}" + (f"; inputs as in {self.given.inputs}" if self.given.inputs else "")
        steady = next(((row, end) for row, end in self._steady if _is_at(end, stop)), None)
        if steady is None:
            return OPEN, f"open: it stops in none of {answer.cycles} cycles"
        return FOUND, self._replayed([steady[0]] * (steady[1].cycle + 1), None, stop)

    @cached_property
    def _steady(self) -> list[tuple[list[int], StopLine]]:
        """Rows that are equal in all cycles, and at which the run over each stops: all inputs 0, all 1, one of them 1, all but one."""
        inputs = self.graph.inputs
        drawn = [[int((at == one) != is_other) for at in range(len(inputs))] for is_other in (False, True) for one in range(-1, len(inputs))]
        found = []
        for row in drawn if inputs else [[]]:
            kept = [max(least, min(greatest, value)) for value, (least, greatest) in zip(row, (self.bounds.get(at, (0, 1)) for at in range(len(row))))]
            with tempfile.TemporaryDirectory() as folder:
                replay = Replay(self.vcp, self.subject, [kept] * STEADY, str(Path(folder) / "rows.csv"))
                end = read_ending(replay.run().ending)
            if isinstance(end, StopLine):
                found.append((kept, end))
        return found

    def _replayed(self, rows: list[list[int]], outputs: list[list[int]] | None, stop: MayStop) -> str:
        """Writes rows, and runs them: withdraws an answer where the proved program doesn't stop there, or releases other values before."""
        file = Path(self.given.output) / f"{Path(self.given.program).stem}.stop-{stop.operation}-{stop.cause.lower()}.csv"
        replay = Replay(self.vcp, self.subject, rows, str(file))
        run = replay.run()
        end = read_ending(run.ending)
        if not _is_at(end, stop) or run.cycles != len(rows) - 1 or outputs is not None and run.rows != outputs[:-1]:
            raise replay.fault(f"{replay.by} ends with `{run.ending}`, or releases other values")
        return f"stops in cycle {run.cycles}: {replay.told}, replayed by {replay.by}"


def _is_at(end: object, stop: MayStop) -> bool:
    """Whether a run ends with a stop of this cause, at this place and in these turns."""
    return isinstance(end, StopLine) and (end.kind, end.line, end.column, end.turns) == (stop.cause, stop.line, stop.column, stop.turns)
