"""`never`: whether a condition comes in any released cycle of any run, shown or refuted by rows that replay."""
from __future__ import annotations

import argparse
import time
from pathlib import Path
from typing import Any, Mapping, Sequence

from vcp_tools.ask.cycles import Instant, Interval, Relation, solver_module
from vcp_tools.ask.inputs import inputs_table, read_inputs
from vcp_tools.ask.operations import Graph, graph_of
from vcp_tools.ask.question import Compiled, Copy, Subject, named_in
from vcp_tools.ask.replay import Replay
from vcp_tools.ask.search import Answer, Comes, Never, Search
from vcp_tools.ask.unrolled import Deadline
from vcp_tools.pictures.observe import chosen, observe
from vcp_tools.pictures.table import table_lines
from vcp_tools.program import Program
from vcp_tools.program_text import ProgramText, add_form_word
from vcp_tools.refusal import FINE, FOUND, OPEN, Refusal
from vcp_tools.wording import listed

CYCLES = 40
"""So many cycles are looked through where no number is given."""
SECONDS = 120.0
"""So long it is looked where no time is given."""


def add_search_words(parser: argparse.ArgumentParser) -> None:
    """The words that say how far it is looked, and under what."""
    parser.add_argument("--cycles", type=int, default=CYCLES, metavar="K", help=f"look through K cycles, {CYCLES} where it isn't given")
    parser.add_argument("--seconds", type=float, default=SECONDS, metavar="S", help=f"look no longer than S seconds, {SECONDS:.0f} where it isn't given")
    parser.add_argument("--inputs", metavar="FILE", help="a table `input,least,greatest`: of these runs alone, where it isn't proved for all")
    add_form_word(parser)


def begin(given: argparse.Namespace) -> None:
    """Loads z3; refuses words that ask for nothing. A frame that loads z3 may outlive it, and so holds no terms."""
    if given.cycles < 1:
        raise Refusal("--cycles: at least one cycle is looked through")
    solver_module()


def add_words(parser: argparse.ArgumentParser) -> None:
    """The words of `never`."""
    parser.add_argument("program", metavar="P", help="the source, or an instruction list")
    parser.add_argument("condition", metavar="EXPR", help="a Boolean expression of the language over inputs, outputs and variables; was(x) is x a cycle before")
    parser.add_argument("--assume", metavar="EXPR", help="of runs alone in each of whose cycles this holds, where it isn't proved for all")
    parser.add_argument("-o", dest="output", metavar="FILE", help="where rows are written, STEM.never.csv where it isn't given")
    add_search_words(parser)


def run(given: argparse.Namespace) -> int:
    """Prints the answer: the status is 0 where it never comes, 9 where it comes, 10 where that stays open."""
    begin(given)
    begun = time.monotonic()
    question = Question(given.program, given.condition, given.assume, given.as_list)
    with Compiled(question.vcp, question.copy) as compiled:
        graph = question.operations(compiled.text)
        if question.is_never(graph):
            question.must_not_stop(graph)
            print(f"never: proved by ranges, for every run{_beyond(given)} ({time.monotonic() - begun:.1f} s)")
            return FINE
        bounds = read_inputs(given.inputs, graph.inputs) if given.inputs else {}
        if bounds:
            graph = question.operations(compiled.text, inputs_table(bounds, graph.inputs))
        question.must_not_stop(graph)
        if question.is_never(graph):
            print(f"never: proved by ranges; inputs as in {given.inputs} ({time.monotonic() - begun:.1f} s)")
            return FINE
        answer = question.search(graph, bounds, Deadline(given.seconds)).run(given.cycles)
        return _told(given, question, compiled, answer, begun)


def _beyond(given: argparse.Namespace) -> str:
    """What is said where a proof doesn't need what was assumed."""
    return ", also where nothing is assumed" if given.assume or given.inputs else ""


class Question:
    """A condition of a program, and what is assumed of its runs."""

    def __init__(self, file: str, condition: str, assumed: str | None, as_list: bool = False) -> None:
        self.vcp = Program.found()
        self.study = Program.found("vcp_study")
        self.subject = Subject(file, as_list)
        self.copy = Copy(self.subject)
        self.condition = condition
        self.asked = self.copy.ask(condition)
        self.assumed = None if assumed is None else self.copy.ask(assumed)

    def operations(self, copy: ProgramText, inputs: str | None = None) -> Graph:
        """The operations of the copy, of runs within a table of inputs where one is given."""
        return graph_of(self.vcp, self.study, copy, self.subject.file, inputs)

    def is_never(self, graph: Graph) -> bool:
        """What was asked is false in each cycle, by the ranges."""
        return graph.ranges[graph.output(self.asked).operation] in ((0, 0), None)

    def must_not_stop(self, graph: Graph) -> None:
        """A refusal where the operations of a question may stop, for then the runs of the copy aren't those of the program."""
        for stop in graph.may_stop:
            if stop.line in self.copy.asked:
                text = self.copy.asked[stop.line]
                why = "its divisor may be 0" if stop.cause == "DIVZERO" else "its value may leave the type: compute it in a wider one, as by INT_TO_DINT(x)"
                raise Refusal(f"`{text}`: the {stop.kind} in column {stop.column} may stop: {why}")

    def search(self, graph: Graph, bounds: Mapping[int, Interval], deadline: Deadline) -> Search:
        """What looks for the condition."""
        names = [slot.name for slot in graph.outputs]
        asked = names.index(self.asked)
        assumed = None if self.assumed is None else names.index(self.assumed)

        def target(instant: Instant) -> Sequence[Any]:
            return [instant.released, instant.outputs[asked]]

        def always(instant: Instant) -> Sequence[Any]:
            return [] if assumed is None else [instant.outputs[assumed]]

        return Search(Relation(graph), target, always, bounds, deadline)


def _told(given: argparse.Namespace, question: Question, compiled: Compiled, answer: Answer, begun: float) -> int:
    """Prints an answer of the search."""
    under = "".join([f"; assumed: {given.assume}" if given.assume else "",
                     f"; inputs as in {given.inputs}" if given.inputs else ""])
    if isinstance(answer, Comes):
        return _comes(given, question, compiled, answer, begun)
    took = f"{time.monotonic() - begun:.1f} s"
    if isinstance(answer, Never):
        return _never(given, answer, under, took)
    print(f"none found within {answer.cycles} cycles{under} ({took})")
    if answer.begins:
        state = listed((f"{name}={value}" for name, value in answer.begins.items() if not name.startswith("_")), 40)
        print(f"open: behind {state} it comes after {answer.depth} cycles without it, and induction doesn't show that no run has these values")
        print("a lemma that excludes them may help: never 'NOT (LEMMA) OR EXPR' (docs/PROPERTIES.md)")
    else:
        print("open: there was no time for an induction")
    return OPEN


def _never(given: argparse.Namespace, answer: Never, under: str, took: str) -> int:
    """Prints that it never comes, and by what that is shown."""
    if answer.ended == 0:
        raise Refusal(f"no cycle at all is released where this holds: {given.assume or given.inputs or 'the program stops in its first cycle'}")
    print(f"never: {answer.how}{under} ({took})")
    return FINE


def _comes(given: argparse.Namespace, question: Question, compiled: Compiled, answer: Comes, begun: float) -> int:
    """Writes the rows, replays them in the program as it is and in the copy, and shows the run."""
    file = given.output or f"{Path(given.program).stem}.never.csv"
    replay = Replay(question.vcp, question.subject, answer.rows, file)
    replay.released(answer.outputs)
    copy = replay.of_copy(compiled.file)
    if not copy.is_whole or copy.rows != answer.outputs or not copy.columns[copy.names.index(question.asked)][-1]:
        raise replay.fault("what was asked isn't so in the last cycle of the copy that has it as an output")
    print(f"comes in cycle {answer.cycle}: {replay.told}, replayed by {replay.by} ({time.monotonic() - begun:.1f} s)")
    found = observe(question.vcp, question.subject.text, replay.words)
    shown = {it.name for it in chosen(found, [])} | set(named_in([given.condition, given.assume or ""], question.subject))
    for line in table_lines(found, [it for it in found.columns if it.name in shown], False, None, None):
        print(line)
    return FOUND
