"""Instruction lists that are drawn at random: each is accepted, and some of their runs stop."""
from __future__ import annotations

import random

HEAD = """PROGRAM made
VAR_INPUT a, b : BOOL; i, j : INT; d : DINT; END_VAR
VAR_OUTPUT q, z : BOOL := TRUE; r : INT := -3; s : DINT; END_VAR
VAR t : INT := 2; u : BOOL; v : DINT := -70000; w : LINT := 5000000000; END_VAR
"""
NAMES = {"BOOL": ("a", "b", "q", "z", "u", "TRUE", "FALSE"), "INT": ("i", "j", "r", "t", "7", "-3", "-32768"), "DINT": ("d", "s", "v", "DINT#2", "-40000"),
         "LINT": ("w", "LINT#3", "3000000000")}
SET = {"BOOL": ("q", "z", "u"), "INT": ("r", "t"), "DINT": ("s", "v"), "LINT": ("w",)}
NUMBERS = ("INT", "DINT", "LINT")


class ListMaker:
    """Draws a list."""

    def __init__(self, seed: int) -> None:
        self.draw = random.Random(seed)
        self.type = "BOOL"

    def text(self) -> str:
        """The text."""
        lines = [line for _ in range(self.draw.randint(2, 8)) for line in self.chain()]
        return HEAD + "".join(f"{line}{self.draw.choice(('', '  // remark', ' (* so *)'))}\n" for line in lines) + "END_PROGRAM\n"

    def chain(self) -> list[str]:
        """A load, some operators, and stores."""
        self.type = self.draw.choice(("BOOL", *NUMBERS))
        negated = "N" if self.type == "BOOL" and self.draw.randrange(2) else ""
        lines = [f"LD{negated} {self.operand(self.type)}"]
        for _ in range(self.draw.randrange(5)):
            lines.append(self.operation())
        return [*lines, *self.stores()]

    def operation(self) -> str:
        """An operator on the result."""
        if self.type == "BOOL":
            how = self.draw.choice(("AND", "ANDN", "OR", "ORN", "XOR", "XORN", "&", "NOT", "EQ", "NE"))
            return how if how == "NOT" else f"{how} {self.operand('BOOL')}"
        how, other = self.draw.choice(("ADD", "SUB", "MUL", "DIV", "MOD", "GT", "GE", "EQ", "NE", "LE", "LT")), self.draw.choice(NUMBERS)
        is_number = how in ("ADD", "SUB", "MUL", "DIV", "MOD")
        self.type = max(self.type, other, key=NUMBERS.index) if is_number else "BOOL"
        return f"{how} {self.operand(other)}"

    def stores(self) -> list[str]:
        """What takes the result, in one variable or in two."""
        wider = [it for it in NUMBERS if self.type != "BOOL" and NUMBERS.index(it) >= NUMBERS.index(self.type)]
        if self.type == "BOOL":
            return [f"{self.draw.choice(('ST', 'STN', 'S', 'R'))} {self.draw.choice(SET['BOOL'])}" for _ in range(self.draw.randint(1, 2))]
        return [f"ST {self.draw.choice(SET[self.draw.choice(wider)])}"]

    def operand(self, type_name: str) -> str:
        """An operand of a type."""
        return self.draw.choice(NAMES[type_name])
