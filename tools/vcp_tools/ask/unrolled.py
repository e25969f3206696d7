"""Rows of cycles of a program, one behind another, of which z3 is asked."""
from __future__ import annotations

import time
from typing import Any, Callable, Mapping, Sequence

from vcp_tools.ask.cycles import Instant, Interval, Relation, between, equals, solver_module

Kept = Callable[[Instant], Sequence[Any]]
"""What holds in each cycle, in terms of it."""


class OutOfTime(Exception):
    """The time for an answer is over, or z3 gave none."""


class Deadline:
    """So many seconds from now on."""

    def __init__(self, seconds: float) -> None:
        self.seconds = seconds
        self.end = time.monotonic() + seconds

    def milliseconds(self) -> int:
        """What is left; at the end OutOfTime."""
        left = int((self.end - time.monotonic()) * 1000)
        if left <= 0:
            raise OutOfTime
        return left


class Unrolled:
    """Cycles of a program. All but the last are released. They begin with given kept values, or with any."""

    def __init__(self, relation: Relation, kept: Sequence[int] | None, bounds: Mapping[int, Interval], always: Kept, deadline: Deadline) -> None:
        self.relation = relation
        self.first = kept
        self.bounds = bounds
        self.always = always
        self.deadline = deadline
        self.instants: list[Instant] = []
        self.solver = solver_module().SolverFor("QF_BV")
        self.model: Any = None
        self._literals: dict[Any, Any] = {}

    @property
    def last(self) -> Instant:
        """The last cycle."""
        return self.instants[-1]

    def extend(self) -> None:
        """Releases the last cycle, and adds one behind it."""
        instant, formula = self.relation.at(len(self.instants))
        if self.instants:
            self.solver.add(self.last.released)
        elif self.first is not None:
            self.solver.add(*(equals(term, value) for term, value in zip(instant.kept, self.first)))
        self.solver.add(formula, *(between(instant.inputs[at], *ends) for at, ends in self.bounds.items()), *self.always(instant))
        self.instants.append(instant)

    def part(self) -> None:
        """No two cycles begin with the same kept values: what comes at all comes in such a row of cycles."""
        z3 = solver_module()
        for before in self.instants[:-1]:
            self.solver.add(z3.Or(z3.BoolVal(False), *(left != right for left, right in zip(before.kept, self.last.kept))))

    def holds(self, *terms: Any, most: float | None = None) -> bool:
        """Whether these terms may hold; the values are kept. OutOfTime where z3 doesn't tell, or takes more than `most` seconds."""
        left = self.deadline.milliseconds()
        self.solver.set("timeout", left if most is None else min(left, int(most * 1000) + 1))
        answer = str(self.solver.check(*map(self._literal, terms)))
        if answer == "unknown":
            raise OutOfTime
        if answer == "sat":
            self.model = self.solver.model()
        return answer == "sat"

    def _literal(self, term: Any) -> Any:
        """A name for a term: z3 takes names alone as what is to hold for one question."""
        z3 = solver_module()
        if z3.is_const(term):
            return term
        if term not in self._literals:
            self._literals[term] = z3.FreshBool()
            self.solver.add(z3.Implies(self._literals[term], term))
        return self._literals[term]

    def exclude(self, *terms: Any) -> None:
        """These terms don't hold together."""
        z3 = solver_module()
        self.solver.add(z3.Not(z3.And(*terms)))

    def value(self, term: Any) -> int:
        """The value of a term, as it was found last."""
        z3 = solver_module()
        found = self.model.eval(term, model_completion=True)
        return int(z3.is_true(found)) if z3.is_bool(found) else int(found.as_signed_long())

    def rows(self) -> list[list[int]]:
        """The values of the inputs in each cycle."""
        return [[self.value(term) for term in instant.inputs] for instant in self.instants]

    def outputs(self) -> list[list[int]]:
        """The values of the outputs in each cycle."""
        return [[self.value(term) for term in instant.outputs] for instant in self.instants]

    def ending(self) -> list[int]:
        """The kept values behind the last cycle."""
        return [self.value(term) for term in self.last.behind]

    def settle(self, *terms: Any) -> list[Any]:
        """Inputs keep their values from cycle to cycle, and begin with 0, as far as these terms can hold so. The values are those that are found last; the
        terms are given back, with those by which inputs keep their values."""
        held = list(terms)
        before: Instant | None = None
        for instant in self.instants:
            same = [equals(term, 0) if before is None else term == before.inputs[at] for at, term in enumerate(instant.inputs)]
            held += same if self.holds(*held, *same) else self._each(held, same)
            before = instant
        self.holds(*held)
        return held

    def _each(self, held: Sequence[Any], more: Sequence[Any]) -> list[Any]:
        """Those of more terms that may hold with those that are held, and with each other."""
        kept: list[Any] = []
        for term in more:
            if self.holds(*held, *kept, term):
                kept.append(term)
        return kept
