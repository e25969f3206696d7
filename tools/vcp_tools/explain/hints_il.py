"""What is said of a fault of an instruction list: Q1 to Q6, and where its head is, after docs/LANGUAGE.md, 'Instruction List'."""
from __future__ import annotations

from vcp_tools.explain.hint import Hint
from vcp_tools.read.instruction_list import ARITHMETIC, COMPARISONS, OPERATORS, declarations_of, head_end
from vcp_tools.read.source import GREATEST, LEAST, Source, Token, literal_value
from vcp_tools.read.syntax import Declaration
from vcp_tools.wording import article, nearest


LEFT_OUT = {
    **dict.fromkeys(("JMP", "JMPC", "JMPCN"), "there are no jumps: write the condition into the result, by AND and ANDN, or use S and R"),
    **dict.fromkeys(("CAL", "CALC", "CALCN"), "nothing is called: write out what the block does"),
    **dict.fromkeys(("RET", "RETC", "RETCN"), "there is no return: the list runs to its end"),
    "ANDNOT": "the operator is ANDN", "LDNOT": "the operator is LDN", "STNOT": "the operator is STN", "ORNOT": "the operator is ORN",
}
"""Operators that other lists have, each with what is said of it."""


def il_hint(source: Source, code: str, at: int) -> Hint:
    """What is said of the fault `code` at the byte `at` of an instruction list."""
    token = source.tokens[source.index_at(at)]
    declared = {it.name.upper(): it for it in declarations_of(source)}
    line = line_at(source, token)
    if code == "Q1":
        return _instruction(source, token, line, declared)
    if code == "Q2":
        return _on(token, _operand(token, declared))
    if code == "Q3":
        what = f"`{token.text}` is an input" if token.upper in declared else "this is no variable"
        return _on(token, f"{what}, and {line[0].upper} sets its operand: take an output or a variable of VAR")
    if code == "Q4":
        return _on(token, f"there is no result yet for {token.upper}: the first instruction is LD or LDN")
    if code == "Q5":
        return _on(token, _mismatch(token, line, declared))
    return _on(token, f"`{token.text}` is the name of a hidden variable, in which the result is kept: take another name")


def _on(token: Token, message: str) -> Hint:
    return Hint(message, token.start, token.end)


def line_at(source: Source, token: Token) -> list[Token]:
    """The tokens behind the head that begin in the line of a token, or this one alone."""
    number, _ = source.place(token.start)
    head = head_end(source)
    found = [it for it in source.tokens if it.kind != "end" and it.start >= head and source.place(it.start)[0] == number]
    return found or [token]


def has_label(line: list[Token]) -> bool:
    """Whether a line begins with a label."""
    return len(line) > 1 and line[1].is_symbol(":")


def _instruction(source: Source, token: Token, line: list[Token], declared: dict[str, Declaration]) -> Hint:
    """Q1: why a line is no instruction."""
    last = line[-1]
    if token.kind == "end":
        return Hint("END_PROGRAM is missing: it is the last line, alone", token.start, token.end)
    if token.is_word("END_PROGRAM"):
        behind = next((it for it in source.tokens if it.start >= token.end), token)
        return _on(token, f"something follows END_PROGRAM, at {source.told(behind.start)}: it is the last line, alone")
    if last.is_word("END_PROGRAM"):
        return _on(last, "END_PROGRAM is alone in its line")
    if token.is_word("VAR", "VAR_INPUT", "VAR_OUTPUT"):
        return _on(token, "END_VAR is missing behind these declarations")
    if has_label(line):
        return _on(token, "there are no labels, since there are no jumps")
    if len(line) > 1 and line[1].is_symbol(":="):
        return _on(token, "this is Structured Text: an instruction is an operator and its operand, as `ST y`")
    if any(it.is_symbol("(", ")") for it in line):
        return _on(next(it for it in line if it.is_symbol("(", ")")), "there are no brackets: keep what is in them in a variable, by ST, and take that")
    if token.upper in LEFT_OUT:
        return _on(token, LEFT_OUT[token.upper])
    if token.upper not in OPERATORS:
        near = nearest(token.text, OPERATORS)
        known = f"`{token.text}` is a variable, and an operator is wanted, as LD" if token.upper in declared else f"`{token.text}` is no operator"
        return _on(token, known + (f": did you mean {near}?" if near and token.upper not in declared else ""))
    if token.upper == "NOT" and len(line) > 1:
        return _on(line[1], "NOT has no operand: it negates the result")
    if len(line) == 1:
        return _on(token, f"the operand of {token.upper} is missing: it is in the same line")
    if last.is_symbol(";"):
        return _on(last, "a line of instructions has no `;` at its end")
    if line[1].is_symbol("-"):
        return _on(line[1], "`-` comes before a literal without a type alone: take SUB, or the sign behind the `#`")
    return _on(line[min(2, len(line) - 1)], f"{token.upper} has one operand, and nothing follows it in its line")


def _operand(token: Token, declared: dict[str, Declaration]) -> str:
    """Q2: why an operand is none."""
    declaration = declared.get(token.upper)
    if declaration is not None:
        return f"`{token.text}` is a constant, and no operand: write its value"
    value = literal_value(token.text)
    if value is not None and value[0] is not None:
        return f"the literal is outside {value[0]}, which goes from {LEAST[value[0]]} to {GREATEST[value[0]]}"
    near = nearest(token.text, [it.name for it in declared.values() if it.section != "VAR CONSTANT"])
    return f"`{token.text}` isn't declared" + (f": did you mean `{near}`?" if near else "")


def _mismatch(token: Token, line: list[Token], declared: dict[str, Declaration]) -> str:
    """Q5: which types an operator takes, and which its operand has."""
    name = token.upper
    declaration = declared.get(line[1].upper) if len(line) > 1 else None
    has = f"; `{declaration.name}` is {article(declaration.type)}" if declaration else ""
    if name in ("ST", "STN"):
        wanted = "BOOL on both sides" if name == "STN" else "a result of the variable's type or of a narrower one"
        return f"{name} wants {wanted}{has}"
    if name in ("S", "R"):
        return f"{name} wants a result and a variable of type BOOL{has}"
    if name in ARITHMETIC:
        return f"{name} wants two numbers{has}"
    if name in COMPARISONS:
        return f"{name} compares two numbers" + (", or two BOOL" if name in ("EQ", "NE") else "") + has
    return f"{name} wants BOOL, which a comparison makes of a number, as NE 0{has}"
