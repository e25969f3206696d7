"""What is said where no mistake is known: what may stand at a place, by what stands before it."""
from __future__ import annotations

from vcp_tools.explain.hint import Hint
from vcp_tools.wording import listed
from vcp_tools.read.source import TYPES
from vcp_tools.explain.stuck import Stuck, ends_operand

_WANT_VALUE = ("+", "-", "*", "/", "=", "<>", "<", ">", "<=", ">=", ":=", "(", ",", "&")
_WANT_VALUE_WORDS = ("AND", "OR", "XOR", "NOT", "MOD", "IF", "ELSIF", "CASE", "TO", "BY")


def wanted_hint(stuck: Stuck) -> Hint:
    """What stands there, what is wanted in its place, and what is open round it."""
    here = stuck.here
    what = "the text ends" if here.kind == "end" else f"`{here.text}` can't come here"
    within = [f"{opener.token.upper} from {stuck.source.told(opener.token.start)}" for opener in stuck.openers[-3:]]
    more = (f"Open here: {listed(within)}.",) if within else ()
    anchor = stuck.before if here.kind == "end" else here
    return Hint(f"{what}: {_wanted(stuck)}", anchor.start, anchor.end, more)


def _wanted(stuck: Stuck) -> str:
    """What may stand behind the token before."""
    before = stuck.before
    if before.is_word("PROGRAM", "FOR"):
        return "a name is wanted behind " + before.upper
    if stuck.in_declaration:
        return _wanted_in_declaration(stuck)
    if before.is_symbol(*_WANT_VALUE) or before.is_word(*_WANT_VALUE_WORDS):
        return f"a value is missing behind `{before.text}`: a name, a literal, a function, or brackets"
    if ends_operand(before) and stuck.index - 1 > stuck.statement_start:
        return _wanted_behind_operand(stuck)
    if before.kind == "name":
        return f"`:=` is wanted behind `{before.text}`"
    ends = [f"END_{opener.token.upper}" for opener in stuck.openers[-1:] if opener.token.is_word("IF", "CASE", "FOR", "PROGRAM")]
    return f"a statement is wanted (`name := value;`, IF, CASE or FOR), or {listed(ends)}" if ends else "a statement is wanted"


def _wanted_in_declaration(stuck: Stuck) -> str:
    """What may stand in a block of declarations."""
    before = stuck.before
    if before.is_symbol(":"):
        return f"a type is wanted: {listed(TYPES)}"
    if before.is_symbol(","):
        return "a name is wanted behind `,`"
    if before.is_word(*TYPES):
        return f"`;` is wanted behind {before.upper}, or `:=` and an initial value"
    if before.is_symbol(";") or before.is_word("VAR", "VAR_INPUT", "VAR_OUTPUT", "CONSTANT", "RETAIN"):
        return "a name that is declared is wanted, or END_VAR"
    initial = any(token.is_symbol(":=") for token in stuck.tokens[stuck.statement_start : stuck.index])
    if initial:
        return "`;` is wanted behind the initial value" if ends_operand(before) else f"a value is missing behind `{before.text}`"
    return f"`:` and a type are wanted behind the name `{before.text}`, as `{before.text} : INT;`"


def _wanted_behind_operand(stuck: Stuck) -> str:
    """What may stand behind a whole value."""
    before = stuck.before.text
    if stuck.openers and stuck.openers[-1].token.is_symbol("("):
        return f"`)`, `,` or an operator is wanted behind `{before}`: the bracket from {stuck.source.told(stuck.openers[-1].token.start)} is open"
    word = stuck.in_condition()
    if word == "FOR":
        bounds = stuck.tokens[stuck.statement_start : stuck.index]
        following = "DO" if any(token.is_word("TO") for token in bounds) else "TO"
        return f"{following} is wanted behind `{before}`"
    if word is not None:
        following = "OF" if word == "CASE" else "THEN"
        return f"{following} or an operator is wanted behind `{before}`"
    return f"`;` or an operator is wanted behind `{before}`"
