"""An instruction list as a text in Structured Text that does the same: its lines keep their numbers, and each statement stands where its instruction did. The
result is kept in variables of its own, one for each type that it takes. It serves questions about a list, where the images of both are compared first."""
from __future__ import annotations

from vcp_tools.read.instruction_list import COMPARISONS, LOGIC, STORES, Instruction, InstructionList, head_end
from vcp_tools.read.list_tree import FORMS, NEGATED, operand_of, plain_operator
from vcp_tools.read.source import TYPES, Source, literal_value, type_of_number
from vcp_tools.read.syntax import Tree, Types, wider


def list_text(source: Source, read: InstructionList) -> bytes:
    """The text of an accepted list."""
    types = Types(Tree(read.name, read.declarations, []))
    pieces: list[tuple[int, int, str]] = []
    result = "BOOL"
    used: set[str] = set()
    for it in read.instructions:
        statement, result = _statement(types, it, result)
        used.add(result)
        pieces.append((it.at, _end(source, it), statement))
    head = head_end(source)
    declared = "".join(f" {kept(name)} : {name};" for name in TYPES if name in used)
    found, at = source.text[:head] + (f" VAR{declared} END_VAR" if used else ""), head
    for start, end, statement in pieces:
        found, at = found + source.text[at:start] + statement, end
    return (found + source.text[at:]).encode("latin-1")


def kept(type_name: str) -> str:
    """The variable in which a result of a type is kept."""
    return f"_acc_{type_name.lower()}"


def _end(source: Source, it: Instruction) -> int:
    """The byte behind an instruction."""
    at = source.index_at(it.at)
    count = 0 if not it.operand else 2 if it.operand.startswith("-") else 1
    return source.tokens[at + count].end


def _type_of(types: Types, it: Instruction) -> str:
    """The type of an operand; `-` and a literal are one literal."""
    value = literal_value(it.operand[1:]) if it.operand.startswith("-") else None
    return types.of(operand_of(it)) or "BOOL" if value is None else type_of_number(-value[1])


def _statement(types: Types, it: Instruction, result: str) -> tuple[str, str]:
    """What an instruction does to a result of a type, as a statement, and the type of the result behind it."""
    if it.operator in ("S", "R"):
        return f"IF {kept(result)} THEN {it.operand} := {'TRUE' if it.operator == 'S' else 'FALSE'}; END_IF;", result
    if it.operator in STORES:
        return f"{it.operand} := {'NOT ' * (it.operator == 'STN')}{kept(result)};", result
    if it.operator == "NOT":
        return f"{kept(result)} := NOT {kept(result)};", result
    operand = f"NOT {it.operand}" if it.operator in NEGATED else f"({it.operand})" if it.operand.startswith("-") else it.operand
    type_name = _type_of(types, it)
    operator = plain_operator(it.operator)
    if operator == "LD":
        return f"{kept(type_name)} := {operand};", type_name
    behind = "BOOL" if it.operator in (*LOGIC, *COMPARISONS) else wider([result, type_name]) or "BOOL"
    return f"{kept(behind)} := {kept(result)} {FORMS[operator]} {operand};", behind
