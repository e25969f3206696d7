"""Whether something comes in a run: looked for cycle by cycle, and excluded by induction."""
from __future__ import annotations

from contextlib import suppress
from dataclasses import dataclass
from typing import Any, Callable, Mapping, Sequence

from vcp_tools.ask.cycles import Instant, Interval, Relation
from vcp_tools.ask.unrolled import Deadline, Kept, OutOfTime, Unrolled

TRUSTED = "trusted: z3 and this tool"
Target = Callable[[Instant], Sequence[Any]]
"""What is looked for in a cycle: terms that hold together."""
SHARE = 0.25
"""One question of an induction takes at most this part of the time; else the search goes on without it."""


@dataclass(frozen=True)
class Comes:
    """It comes in this cycle, for these rows of inputs; the outputs are those that are wanted of their run, a row a cycle."""

    cycle: int
    rows: list[list[int]]
    outputs: list[list[int]]


@dataclass(frozen=True)
class Never:
    """It never comes: by an induction of this depth, or since no run that keeps to what is assumed comes to the end of this cycle."""

    depth: int | None
    ended: int | None = None

    @property
    def how(self) -> str:
        """By what it is shown, and what is trusted in that."""
        return (f"by induction of depth {self.depth}" if self.ended is None else f"no run comes to the end of cycle {self.ended}") + f" ({TRUSTED})"


@dataclass(frozen=True)
class Open:
    """It comes in none of so many cycles. `begins` has the kept values from which the last induction couldn't exclude it; none where there was no time."""

    cycles: int
    depth: int
    begins: dict[str, int]


Answer = Comes | Never | Open


class Search:
    """A search for what `target` tells of a cycle, over runs whose cycles all keep to `always` and whose inputs lie between `bounds`."""

    def __init__(self, relation: Relation, target: Target, always: Kept, bounds: Mapping[int, Interval], deadline: Deadline) -> None:
        self.relation = relation
        self.target = target
        self.deadline = deadline
        first = [cell.initial for cell in relation.graph.cells]
        self.base = Unrolled(relation, first, bounds, always, deadline)
        self.step: Unrolled | None = Unrolled(relation, None, bounds, always, deadline)
        self.depth = -1
        self.begins: dict[str, int] = {}

    def run(self, cycles: int) -> Answer:
        """Looks through so many cycles."""
        for cycle in range(cycles):
            try:
                answer = self._cycle(cycle)
            except OutOfTime:
                return Open(cycle, self.depth, self.begins)
            if answer is not None:
                return answer
        return Open(cycles, self.depth, self.begins)

    def _cycle(self, cycle: int) -> Answer | None:
        """Looks at one cycle more, and asks whether what doesn't come in so many cycles comes in no later one."""
        self.base.extend()
        wanted = self.target(self.base.last)
        if self.base.holds(*wanted):
            with suppress(OutOfTime):
                self.base.settle(*wanted)
            return Comes(cycle, self.base.rows(), self.base.outputs())
        self.base.exclude(*wanted)
        if not self.base.holds(self.base.last.released):
            return Never(None, cycle)
        return Never(cycle) if self._is_inductive() else None

    def _is_inductive(self) -> bool:
        """Whether it can't come behind as many cycles as there are, in which it doesn't come."""
        if self.step is None:
            return False
        self.step.extend()
        self.step.part()
        wanted = self.target(self.step.last)
        try:
            if not self.step.holds(*wanted, most=SHARE * self.deadline.seconds):
                return True
        except OutOfTime:
            self.step = None
            self.deadline.milliseconds()
            return False
        self.depth = len(self.step.instants) - 1
        self.begins = {cell.name: self.step.value(term) for cell, term in zip(self.relation.graph.cells, self.step.instants[0].kept)}
        self.step.exclude(*wanted)
        return False
