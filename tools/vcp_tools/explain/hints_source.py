"""What is said of a fault of a source, by its code and place."""
from __future__ import annotations

from vcp_tools.explain.foreign import hint_at
from vcp_tools.explain.hint import Hint, Repair
from vcp_tools.explain.hints_bytes import byte_hint, comment_hint, number_hint
from vcp_tools.explain.hints_syntax import depth_hint, syntax_hint
from vcp_tools.explain.hints_types import size_hint, type_hint
from vcp_tools.read.source import Source
from vcp_tools.explain.stuck import Stuck
from vcp_tools.read.structured_text import SyntaxFault, parse


def source_hint(source: Source, code: str, at: int) -> Hint:
    """What is said of the fault `code` at the byte `at` of a source, with a way to step over it where there is one."""
    if code in ("L2", "L3"):
        return size_hint(code)
    if code in ("S1", "S4"):
        whole = hint_at(source, at)
        if whole is not None:
            return whole
    if code == "S1":
        return byte_hint(source, at)
    if code == "S2":
        return comment_hint(source, at)
    if code == "S3":
        return number_hint(source.tokens[source.index_at(at)])
    if code == "S5":
        return depth_hint(source, at)
    if code == "S4":
        hint = syntax_hint(source, at)
        return hint if hint.repair else Hint(hint.message, hint.start, hint.end, hint.more, skipped(source, at))
    try:
        return type_hint(source, parse(source), code, at)
    except SyntaxFault:
        token = source.tokens[source.index_at(at)]
        return Hint("the file has changed since", token.start, token.end)


def skipped(source: Source, at: int) -> Repair | None:
    """Leaves out what stands round a place: the condition, or the statement or declaration up to its `;`."""
    stuck = Stuck(source, source.index_at(at))
    tokens = source.tokens
    word = stuck.in_condition()
    if word in ("IF", "ELSIF", "CASE"):
        first = next(i for i in range(stuck.index - 1, -1, -1) if tokens[i].is_word("IF", "ELSIF", "CASE"))
        last = next((i for i in range(stuck.index, len(tokens)) if tokens[i].is_word("THEN", "OF")), None)
        return None if last is None else Repair(tokens[first].end, tokens[last].start, " 0 " if word == "CASE" else " TRUE ")
    end = next((i for i in range(stuck.index, len(tokens)) if tokens[i].is_symbol(";")), None)
    start = stuck.statement_start
    if end is None or any(token.is_word("IF", "CASE", "FOR") for token in tokens[start:end]):
        return None
    return Repair(tokens[start].start, tokens[end].start, "")
