"""`rows reach`: rows that take every branch and every label, and turn every BOOL output; and what no row reaches."""
from __future__ import annotations

import argparse
import time
from contextlib import suppress
from dataclasses import dataclass, field
from pathlib import Path
from typing import Any, Mapping, Sequence

from vcp_tools.ask.branches import Goal, goals_of
from vcp_tools.ask.cycles import Instant, Interval, Relation, solver_module
from vcp_tools.ask.inputs import read_inputs
from vcp_tools.ask.never import add_search_words, begin
from vcp_tools.ask.operations import Graph, graph_of
from vcp_tools.ask.question import Compiled, Copy, Subject
from vcp_tools.ask.replay import Replay
from vcp_tools.ask.search import Comes, Never, Search
from vcp_tools.ask.unrolled import Deadline, OutOfTime, Unrolled
from vcp_tools.program import Program
from vcp_tools.program_text import ProgramText
from vcp_tools.refusal import FINE, FOUND, OPEN

TRY = 2.0
"""It is tried for so many seconds to reach one goal more in the same cycles."""


@dataclass
class Run:
    """Rows, the outputs of the copy that are wanted of them, and the goals that they reach, each with its first cycle."""

    rows: list[list[int]] = field(default_factory=list)
    outputs: list[list[int]] = field(default_factory=list)
    reached: dict[str, int] = field(default_factory=dict)


def add_words(parser: argparse.ArgumentParser) -> None:
    """The words of `rows reach`."""
    parser.add_argument("program", metavar="P", help="the source, or an instruction list")
    parser.add_argument("-o", dest="output", metavar="FILE", help="where rows are written, STEM.reach.csv where it isn't given")
    parser.add_argument("--all", action="store_true", help="name what is reached, too, each with its first cycle")
    add_search_words(parser)


def run(given: argparse.Namespace) -> int:
    """Writes the rows, and prints what they reach: the status is 9 where something is never reached, 10 where that stays open, else 0."""
    begin(given)
    return _run(given)


def _run(given: argparse.Namespace) -> int:
    """The same, where z3 is loaded."""
    vcp, study = Program.found(), Program.found("vcp_study")
    ProgramText.read(given.program, given.as_list).must_be_accepted(vcp)
    copy = Copy(Subject(given.program, given.as_list))
    goals = goals_of(copy)
    if not goals:
        print(f"{given.program}: there is no branch, and no BOOL output")
        return FINE
    with Compiled(vcp, copy) as compiled:
        graph = graph_of(vcp, study, compiled.text, given.program)
        bounds = read_inputs(given.inputs, graph.inputs) if given.inputs else {}
        search = Reaching(graph, bounds, given.cycles, given.seconds)
        runs = search.runs([it.output for it in goals])
        files = [_replayed(given, vcp, copy, compiled, graph, it, number) for number, it in enumerate(runs)]
        return _told(given, goals, runs, files, search)


class Reaching:
    """A search for rows that reach goals, each told by an output of a copy: the nearest first, and from where the rows end then on."""

    def __init__(self, graph: Graph, bounds: Mapping[int, Interval], cycles: int, seconds: float) -> None:
        self.graph = graph
        self.relation = Relation(graph)
        self.bounds = bounds
        self.cycles = cycles
        self.seconds = seconds
        self.deadline = Deadline(seconds)
        self.numbers = {slot.name: at for at, slot in enumerate(graph.outputs)}
        self.first = [cell.initial for cell in graph.cells]

    def runs(self, wanted: Sequence[str]) -> list[Run]:
        """Rows that reach what can be reached. Where they take several runs, it is tried to reach first what the first one can't reach any more."""
        left = [it for it in wanted if self.graph.ranges[self.graph.output(it).operation] not in ((0, 0), None)]
        found = self._greedy([left])
        late = [name for it in found[1:] for name in it.reached]
        if late:
            other = self._greedy([late, [it for it in left if it not in late]])
            found = other if self._worth(other) > self._worth(found) else found
        return found

    @staticmethod
    def _worth(runs: Sequence[Run]) -> tuple[int, int]:
        """By how much runs are worth more than others: they reach more, or are fewer."""
        return sum(len(it.reached) for it in runs), -len(runs)

    def _greedy(self, stages: Sequence[Sequence[str]]) -> list[Run]:
        """Rows that reach the goals of one stage after another: a new run begins where nothing more is found behind the one before."""
        runs: list[Run] = []
        now, kept = Run(), self.first
        left = [list(it) for it in stages]
        with suppress(OutOfTime):
            while any(left):
                ended = self._nearest(now, kept, next(it for it in left if it), [name for it in left for name in it])
                if ended is not None:
                    kept = ended
                    left = [[name for name in it if name not in now.reached] for it in left]
                elif now.rows:
                    runs.append(now)
                    now, kept = Run(), self.first
                else:
                    left = [it for it in left if it][1:]
        return [*runs, now] if now.rows else runs

    def _nearest(self, now: Run, kept: Sequence[int], wanted: Sequence[str], left: Sequence[str]) -> list[int] | None:
        """Adds the fewest rows to a run that reach a wanted goal, and as many others in the same cycles as are found; gives the kept values behind them.
        None where no wanted goal is reached. Of those that are left each that is reached is noted."""
        z3 = solver_module()
        row = Unrolled(self.relation, kept, self.bounds, lambda _: [], self.deadline)
        for _ in range(self.cycles):
            row.extend()
            if row.holds(row.last.released, z3.Or(*(self._is_reached(row.last, it) for it in wanted))):
                self._widen(row, wanted)
                return self._added(now, row, left)
            if not row.holds(row.last.released):
                return None
        return None

    def _is_reached(self, instant: Instant, goal: str) -> Any:
        return instant.outputs[self.numbers[goal]]

    def _widen(self, row: Unrolled, left: Sequence[str]) -> None:
        """Reaches more goals in the same cycles, as long as they are found fast, with inputs that change seldom."""
        z3 = solver_module()
        held = [row.last.released]
        for goal in left:
            more = z3.Or(*(self._is_reached(it, goal) for it in row.instants))
            try:
                if row.holds(*held, more, most=TRY):
                    held.append(more)
            except OutOfTime:
                self.deadline.milliseconds()
        with suppress(OutOfTime):
            row.settle(*held)

    def _added(self, now: Run, row: Unrolled, left: Sequence[str]) -> list[int]:
        """Adds the rows that were found to a run."""
        begin = len(now.rows)
        now.rows += row.rows()
        now.outputs += row.outputs()
        for cycle in range(begin, len(now.rows)):
            for goal in left:
                if now.outputs[cycle][self.numbers[goal]]:
                    now.reached.setdefault(goal, cycle)
        return row.ending()

    def unreached(self, goal: str) -> str:
        """What is known of a goal that no row was found for."""
        if self.graph.ranges[self.graph.output(goal).operation] in ((0, 0), None):
            return "never: proved by ranges"

        def target(instant: Instant) -> Sequence[Any]:
            return [instant.released, self._is_reached(instant, goal)]

        answer = Search(self.relation, target, lambda _: [], self.bounds, Deadline(self.seconds)).run(self.cycles)
        if isinstance(answer, Never):
            return f"never: {answer.how}"
        return "found, but there was no time to add it" if isinstance(answer, Comes) else f"open: not found within {answer.cycles} cycles"


def _replayed(given: argparse.Namespace, vcp: Program, copy: Copy, compiled: Compiled, graph: Graph, found: Run, number: int) -> str:
    """Writes the rows of a run, and replays them in the program and in its copy; gives where they are."""
    stem = Path(given.output or f"{Path(given.program).stem}.reach.csv")
    replay = Replay(vcp, copy.subject, found.rows, str(stem if not number else stem.with_suffix(f".{number + 1}{stem.suffix}")))
    replay.released(found.outputs)
    told = replay.of_copy(compiled.file)
    if not told.is_whole or told.rows != found.outputs:
        raise replay.fault("the copy that has what is reached as outputs releases other values")
    return replay.told


def _told(given: argparse.Namespace, goals: Sequence[Goal], runs: Sequence[Run], files: Sequence[str], search: Reaching) -> int:
    """Prints what is reached, and what isn't."""
    reached = {name: (number, cycle) for number, it in enumerate(runs) for name, cycle in it.reached.items()}
    by = ProgramText.read(given.program, given.as_list).run_words([])[0]
    for file, it in zip(files, runs):
        print(f"{file}: {len(it.rows)} cycles, {len(it.reached)} of {len(goals)} reached, replayed by `vcp {by}`")
    status = FINE
    for goal in goals:
        begun = time.monotonic()
        if goal.output in reached:
            number, cycle = reached[goal.output]
            if given.all:
                print(f"{goal.line}:{goal.column} {goal.told}: cycle {cycle}{f' of run {number + 1}' if len(runs) > 1 else ''}")
            continue
        what = search.unreached(goal.output)
        print(f"{goal.line}:{goal.column} {goal.told}: {what} ({time.monotonic() - begun:.1f} s)")
        status = FOUND if what.startswith("never") or status == FOUND else OPEN
    if not given.all and status == FINE:
        print("all branches, labels and turns of BOOL outputs are reached")
    return status
