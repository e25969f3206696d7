"""The tree of an instruction list: each store as the assignment of what was computed for it, each S and R as an assignment under a condition.

As any tree it serves messages and the search for likely mistakes: a result that was stored in a variable stands in what follows as that variable.
"""
from __future__ import annotations

from vcp_tools.read.instruction_list import STORES, Instruction, InstructionList
from vcp_tools.read.syntax import Assign, Branch, Choice, Expr, Statement, Tree

FORMS = {"AND": "AND", "&": "AND", "OR": "OR", "XOR": "XOR", "ADD": "+", "SUB": "-", "MUL": "*", "DIV": "/", "MOD": "MOD",
         "GT": ">", "GE": ">=", "EQ": "=", "NE": "<>", "LE": "<=", "LT": "<"}
"""The operators on a result and an operand, without N, each with the one of Structured Text."""
NEGATED = ("LDN", "ANDN", "ORN", "XORN", "STN")
"""The operators that negate their operand, or what they store."""


def list_tree(read: InstructionList) -> Tree:
    """The tree of a list."""
    body: list[Statement] = []
    result: Expr | None = None
    for it in read.instructions:
        if it.operator in STORES:
            result = _stored(body, it, result or _literal(it, "FALSE"))
        else:
            result = _computed(it, result)
    return Tree(read.name, read.declarations, body)


def plain_operator(operator: str) -> str:
    """An operator without its N."""
    return operator[:-1] if operator in NEGATED else operator


def _computed(it: Instruction, result: Expr | None) -> Expr:
    """The result behind an instruction that isn't a store."""
    if it.operator == "NOT":
        return _negated(it, result or _literal(it, "FALSE"))
    operand = _negated(it, operand_of(it)) if it.operator in NEGATED else operand_of(it)
    operator = plain_operator(it.operator)
    if operator == "LD" or result is None:
        return operand
    return Expr(FORMS[operator], it.at, it.at, operand.end, it.operator, [result, operand])


def _stored(body: list[Statement], it: Instruction, result: Expr) -> Expr:
    """Adds what a store does, and gives the result behind it."""
    if it.operator in ("ST", "STN"):
        body.append(Assign(it.operand, it.at, _negated(it, result) if it.operator == "STN" else result))
        return _negated(it, operand_of(it)) if it.operator == "STN" else operand_of(it)
    value = _literal(it, "TRUE" if it.operator == "S" else "FALSE")
    body.append(Choice(it.at, None, [Branch(it.at, result, [], [Assign(it.operand, it.at, value)])]))
    return result


def operand_of(it: Instruction) -> Expr:
    """The operand of an instruction: a name, or a literal with a sign or without."""
    if it.operand.startswith("-"):
        return Expr("neg", it.at, it.at, it.at, "-", [_literal(it, it.operand[1:])])
    is_name = not it.operand[0].isdigit() and "#" not in it.operand and it.operand.upper() not in ("TRUE", "FALSE")
    return Expr("name", it.at, it.at, it.at, it.operand) if is_name else _literal(it, it.operand)


def _literal(it: Instruction, text: str) -> Expr:
    return Expr("literal", it.at, it.at, it.at, text)


def _negated(it: Instruction, inner: Expr) -> Expr:
    return Expr("NOT", it.at, it.at, inner.end, "NOT", [inner])
