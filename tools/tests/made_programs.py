"""Programs of the language that are drawn at random, with rows: each is accepted, and many of their runs stop."""
from __future__ import annotations

import random

HEAD = """PROGRAM made
VAR_INPUT a, b : BOOL; i, j : INT; d : DINT;{wide} END_VAR
VAR_OUTPUT q, z : BOOL := TRUE; r : INT := -3; s : DINT; END_VAR
VAR CONSTANT C : INT := 7; END_VAR
VAR t, k : INT := 2; u : BOOL; v : DINT := -70000;{kept} END_VAR
"""
WIDE, KEPT = " l : LINT;", " w : LINT := 5000000000;"
NAMES = {"BOOL": ["a", "b", "q", "z", "u"], "INT": ["i", "j", "r", "C", "t", "k"], "DINT": ["d", "s", "v"], "LINT": ["l", "w"]}
SET = {"BOOL": ["q", "z", "u"], "INT": ["r", "t"], "DINT": ["s", "v"], "LINT": ["w"]}
LITERALS = {"BOOL": ["TRUE", "FALSE"], "INT": ["0", "1", "-1", "3", "100", "-32768", "32767"], "DINT": ["DINT#2", "-40000", "2147483647"],
            "LINT": ["LINT#3", "3000000000", "9223372036854775807"]}
CELLS = {"BOOL": ["0", "1"], "INT": ["0", "1", "-1", "2", "7", "-5", "100", "32767", "-32768"], "DINT": ["0", "1", "-2", "70000", "2147483647", "-2147483648"],
         "LINT": ["0", "-1", "5000000000", "9223372036854775807", "-9223372036854775808"]}
NARROWER = {"INT": ("INT",), "DINT": ("INT", "DINT"), "LINT": ("INT", "DINT", "LINT")}


class Maker:
    """Draws a program: one without LINT, or one with it."""

    def __init__(self, seed: int, is_wide: bool) -> None:
        self.draw = random.Random(seed)
        self.numbers = ["INT", "INT", "DINT"] + ["LINT"] * is_wide
        self.is_wide = is_wide

    def text(self) -> str:
        """The program's text."""
        head = HEAD.format(wide=WIDE if self.is_wide else "", kept=KEPT if self.is_wide else "")
        return head + "".join(self.statement(2) + "\n" for _ in range(self.draw.randint(3, 8))) + "END_PROGRAM\n"

    def rows(self, cycles: int) -> str:
        """A rows file."""
        names = [("a", "BOOL"), ("b", "BOOL"), ("i", "INT"), ("j", "INT"), ("d", "DINT")] + [("l", "LINT")] * self.is_wide
        body = [[self.draw.choice(CELLS[kind][: self.draw.choice((3, 9))]) for _, kind in names] for _ in range(cycles)]
        return "\n".join(",".join(row) for row in [[name for name, _ in names], *body]) + "\n"

    def statement(self, depth: int) -> str:
        """A statement; in a deep one stand assignments alone."""
        how = self.draw.randrange(7) if depth else 0
        if how < 4:
            kind = self.draw.choice(["BOOL", *self.numbers])
            return f"{self.draw.choice(SET[kind])} := {self.value(kind, 2)};"
        if how == 4:
            other = f" ELSE {self.statement(depth - 1)}" if self.draw.randrange(2) else ""
            return f"IF {self.value('BOOL', 2)} THEN {self.statement(depth - 1)} ELSIF {self.value('BOOL', 1)} THEN {self.statement(depth - 1)}{other} END_IF;"
        if how == 5:
            body = f"0, C: {self.statement(depth - 1)} -5..3: {self.statement(depth - 1)} ELSE {self.statement(depth - 1)}"
            return f"CASE {self.value('INT', 1)} OF {body} END_CASE;"
        return f"FOR k := 0 TO 2 DO {self.statement(0)} END_FOR;"

    def value(self, kind: str, depth: int) -> str:
        """An expression of a type."""
        if not depth or not self.draw.randrange(4):
            return self.draw.choice(NAMES[kind] * 3 + LITERALS[kind])
        return self._bool(depth - 1) if kind == "BOOL" else self._number(kind, depth - 1)

    def _bool(self, depth: int) -> str:
        how = self.draw.randrange(5)
        if how == 0:
            return f"NOT ({self.value('BOOL', depth)})"
        if how == 1:
            return f"SEL({self.value('BOOL', depth)}, {self.value('BOOL', depth)}, {self.value('BOOL', depth)})"
        if how == 2:
            left, right = self.draw.choice(self.numbers), self.draw.choice(self.numbers)
            return f"(({self.value(left, depth)}) {self.draw.choice(('=', '<>', '<', '<=', '>', '>='))} ({self.value(right, depth)}))"
        return f"(({self.value('BOOL', depth)}) {self.draw.choice(('AND', 'OR', 'XOR', '=', '<>'))} ({self.value('BOOL', depth)}))"

    def _number(self, kind: str, depth: int) -> str:
        how = self.draw.randrange(8)
        one, two, three = (self.value(self.draw.choice(NARROWER[kind]), depth) for _ in range(3))
        whole = self.value(kind, depth)
        if how == 0:
            return self.draw.choice((f"-({whole})", f"ABS({whole})"))
        if how == 1:
            return self.draw.choice((f"MIN({whole}, {one})", f"MAX({one}, {whole})", f"LIMIT({one}, {whole}, {two})"))
        if how == 2:
            return f"SEL({self.value('BOOL', depth)}, {whole}, {three})"
        if how == 3:
            return self._converted(kind, depth)
        return f"(({whole}) {self.draw.choice(('+', '-', '*', '/', 'MOD'))} ({one}))"

    def _converted(self, kind: str, depth: int) -> str:
        """A conversion to a number; of a program without LINT to INT or DINT."""
        if kind == "INT":
            return self.draw.choice((f"BOOL_TO_INT({self.value('BOOL', depth)})", f"DINT_TO_INT({self.value('DINT', depth)})"))
        if kind == "DINT":
            return f"LINT_TO_DINT({self.value('LINT', depth)})" if self.is_wide else f"INT_TO_DINT({self.value('INT', depth)})"
        return self.draw.choice((f"INT_TO_LINT({self.value('INT', depth)})", f"DINT_TO_LINT({self.value('DINT', depth)})"))
