"""What is said where no program goes on with a token (S4), or a place is too deep (S5).

Each rule looks at the token at which the grammar gave up and at those before it, and says something where it knows the mistake. The first rule
that says something is taken; so those that look at the narrowest cases stand first.
"""
from __future__ import annotations

from typing import Callable

from vcp_tools.explain.hint import Hint, Repair
from vcp_tools.wording import nearest
from vcp_tools.explain.lacking import TYPE_WAYS, is_block, no_block
from vcp_tools.explain.hints_wanted import wanted_hint
from vcp_tools.read.source import GRAMMAR_WORDS, RESERVED, TYPES, UNUSED_WORDS, Source, Token
from vcp_tools.explain.stuck import Stuck, ends_operand

CLOSERS = {
    "END_PROGRAM": "PROGRAM", "END_IF": "IF", "END_CASE": "CASE", "END_FOR": "FOR", "END_VAR": "VAR", "ELSE": "IF", "ELSIF": "IF",
}
STATEMENT_WORDS = frozenset("IF CASE FOR ELSIF ELSE END_IF END_CASE END_FOR END_PROGRAM END_VAR".split())
_ELSIF_MISSPELT = frozenset("ELSEIF ELSE_IF ELIF ELSIFF ELSEF".split())
_STATEMENT_WAYS = {
    "WHILE": "there is no WHILE: write FOR with constant bounds, and an IF in its body (docs/PATTERNS.md)",
    "REPEAT": "there is no REPEAT: write FOR with constant bounds, and an IF in its body (docs/PATTERNS.md)",
    "UNTIL": "there is no REPEAT .. UNTIL: write FOR with constant bounds, and an IF in its body (docs/PATTERNS.md)",
    "EXIT": "there is no EXIT: a FOR does all its turns; put what is left out into an IF in its body (docs/PATTERNS.md)",
    "CONTINUE": "there is no CONTINUE: put what is left out into an IF (docs/PATTERNS.md)",
    "RETURN": "there is no RETURN: put what is left out into an IF (docs/PATTERNS.md)",
    "FUNCTION": "a file is one PROGRAM: there are no functions of one's own",
    "FUNCTION_BLOCK": "a file is one PROGRAM: there are no function blocks",
}
_UNIT_WORDS = frozenset("TYPE FUNCTION FUNCTION_BLOCK CONFIGURATION RESOURCE CLASS INTERFACE METHOD NAMESPACE VAR_GLOBAL VAR".split())


def begins_statement(token: Token, behind: Token) -> bool:
    """Whether this token can only stand behind a whole statement."""
    return token.is_word(*STATEMENT_WORDS) or (token.kind == "name" and behind.is_symbol(":=", "=", "(", ":", ","))


def syntax_hint(source: Source, at: int) -> Hint:
    """What is said of the token at the byte `at`, with which no program goes on."""
    stuck = Stuck(source, source.index_at(at))
    for rule in RULES:
        hint = rule(stuck)
        if hint is not None:
            return hint
    return wanted_hint(stuck)


def depth_hint(source: Source, at: int) -> Hint:
    """What is said of the first token that is too deep."""
    token = source.tokens[source.index_at(at)]
    message = "this is in more than 64 statements, brackets, signs and operators of a chain: split the expression by a variable of its own"
    return Hint(message, token.start, token.end)


def _on(token: Token, message: str, repair: str | None = None, more: tuple[str, ...] = ()) -> Hint:
    """A hint on one token, with what may be put in its place."""
    return Hint(message, token.start, token.end, more, None if repair is None else Repair(token.start, token.end, repair))


def _insert(token: Token, message: str, text: str, more: tuple[str, ...] = ()) -> Hint:
    """A hint on a token behind which something is missing."""
    return Hint(message, token.start, token.end, more, Repair(token.end, token.end, text))


def _empty(stuck: Stuck) -> Hint | None:
    if stuck.here.kind == "end" and stuck.index == 0:
        return Hint("the file has no program: it is empty, or blanks and comments alone", 0, 0)
    return None


def _not_first(stuck: Stuck) -> Hint | None:
    if stuck.index == 0:
        word = stuck.here.upper
        begins = f"`{stuck.here.text}`: " if word in _UNIT_WORDS else ""
        near = nearest(stuck.here.text, ["PROGRAM"])
        tail = f" (`{stuck.here.text}` is misspelt?)" if near and not begins else ""
        found = next((token for token in stuck.tokens if token.is_word("PROGRAM")), None)
        repair = Repair(0, found.start, "") if found else None
        message = f"{begins}a file is one PROGRAM, and begins with PROGRAM and its name: no types, functions, blocks or globals before it{tail}"
        return Hint(message, stuck.here.start, stuck.here.end, repair=repair)
    return None


def _behind_the_end(stuck: Stuck) -> Hint | None:
    if stuck.before.is_word("END_PROGRAM"):
        message = "nothing follows END_PROGRAM: a file is one PROGRAM"
        return Hint(message, stuck.here.start, stuck.here.end, repair=Repair(stuck.here.start, len(stuck.source.text), ""))
    return None


def _elsif(stuck: Stuck) -> Hint | None:
    for token in (stuck.before, stuck.here):
        if token.kind == "name" and token.upper in _ELSIF_MISSPELT:
            return _on(token, f"`{token.text}` is no word of the language: write ELSIF", "ELSIF")
    return None


def _missing_behind_end(stuck: Stuck) -> Hint | None:
    if stuck.before.is_word("END_IF", "END_CASE", "END_FOR"):
        return _insert(stuck.before, f"`;` is missing behind {stuck.before.upper}", ";")
    return None


def _sum_and_set(stuck: Stuck) -> Hint | None:
    """`t += 1;`."""
    here, behind, name = stuck.here, stuck.behind, stuck.before.text
    if not here.is_symbol("+", "-", "*", "/") or not behind.is_symbol("=") or stuck.before.kind != "name":
        return None
    repair = Repair(here.start, behind.end, f":= {name} {here.text}")
    return Hint(f"`{here.text}=` is no operator here: write `{name} := {name} {here.text} ..;`", here.start, behind.end, repair=repair)


def _comment_end(stuck: Stuck) -> Hint | None:
    """The end of a comment that isn't open: most likely one comment stood in another."""
    for token, behind in ((stuck.here, stuck.behind), (stuck.before, stuck.here)):
        if token.is_symbol("*") and behind.is_symbol(")", "/") and token.end == behind.start:
            line = stuck.source.starts[stuck.source.place(token.start)[0] - 1]
            start = max(stuck.source.text.rfind("*)", line, token.start) + 2, line)
            message = f"`*{behind.text}` ends a comment and none is open: comments don't nest, and each ends at its first end mark"
            return Hint(message, token.start, behind.end, repair=Repair(start, behind.end, ""))
    return None


def _else_if(stuck: Stuck) -> Hint | None:
    """`ELSE IF` whose second IF took the one END_IF that there is."""
    if stuck.here.kind != "end" and not stuck.here.is_word("END_PROGRAM", "END_CASE", "END_FOR") or not stuck.openers:
        return None
    opener = stuck.openers[-1]
    if not opener.token.is_word("IF"):
        return None
    for index in range(stuck.index - 1, opener.index, -1):
        first, second = stuck.tokens[index - 1], stuck.tokens[index]
        if first.is_word("ELSE") and second.is_word("IF") and stuck.source.place(first.start)[0] == stuck.source.place(second.start)[0]:
            more = (f"So END_IF is missing for the IF from {stuck.source.told(opener.token.start)}.",)
            message = "`ELSE IF` opens a second IF, which wants an END_IF of its own: write ELSIF"
            return Hint(message, first.start, second.end, more, Repair(first.start, second.end, "ELSIF"))
    return None


def _equals_for_assignment(stuck: Stuck) -> Hint | None:
    """`r = 1;`, `FOR i = 1`, `x : INT = 5`, `a == b`."""
    if not stuck.here.is_symbol("="):
        return None
    if stuck.before.is_symbol("="):
        return Hint("`==` is no operator here: a comparison is `=`", stuck.before.start, stuck.here.end, repair=Repair(stuck.here.start, stuck.here.end, " "))
    if stuck.before.is_symbol(":", ">", "<", ":="):
        return _on(stuck.here, f"`{stuck.before.text}` and `=` are apart or in the wrong order: the symbols are `:=`, `<=` and `>=`", " ")
    return _on(stuck.here, "`=` compares: to set a variable write `:=`", ":=")


def _assignment_in_condition(stuck: Stuck) -> Hint | None:
    if not stuck.here.is_symbol(":="):
        return None
    word = stuck.in_condition()
    if word in ("IF", "ELSIF", "CASE"):
        return _on(stuck.here, f"`:=` sets a variable: in the condition of {word} a comparison is `=`", "=")
    if any(opener.token.is_symbol("(") for opener in stuck.openers):
        return _on(stuck.here, "`:=` can't be in brackets: arguments have no names here, and a comparison is `=`", "=")
    return _on(stuck.here, "`:=` sets one variable a statement: a comparison is `=`, and a second value to be set is a statement of its own", "=")


def _power(stuck: Stuck) -> Hint | None:
    if stuck.here.is_symbol("*") and stuck.before.is_symbol("*"):
        return Hint("there is no power `**`: multiply, as x * x", stuck.before.start, stuck.here.end, repair=Repair(stuck.here.start, stuck.here.end, " "))
    if stuck.here.is_symbol("&") and stuck.before.is_symbol("&"):
        return Hint("`&&` is no operator here: write AND", stuck.before.start, stuck.here.end, repair=Repair(stuck.here.start, stuck.here.end, " "))
    if stuck.here.is_symbol(">") and stuck.before.is_symbol("="):
        return Hint("`=>` is no symbol here: a comparison is `>=`, and functions give one value", stuck.before.start, stuck.here.end,
                    repair=Repair(stuck.before.start, stuck.here.end, ">="))
    return None


def _plus_sign(stuck: Stuck) -> Hint | None:
    """`m := +n`."""
    if stuck.here.is_symbol("+") and not ends_operand(stuck.before) and stuck.index > stuck.statement_start:
        return _on(stuck.here, "there is no sign `+`: leave it out", " ")
    return None


def _type(stuck: Stuck) -> Hint | None:
    """A word where the type of a declaration is wanted."""
    here = stuck.here
    if not stuck.in_declaration or not stuck.before.is_symbol(":") or here.kind not in ("name", "word"):
        return None
    way = TYPE_WAYS.get(here.upper)
    if is_block(here.text):
        way = no_block(here.text)
    near = nearest(here.text, TYPES) if way is None else None
    if near:
        way = f"did you mean {near}?"
    way = way or "an enumeration is an INT with constants, and a function block is variables of your own"
    message = f"`{here.text}` is no type of the language, which has BOOL, INT, DINT and LINT: {way}"
    end = _declaration_end(stuck)
    return Hint(message, here.start, here.end, repair=Repair(here.start, end, near or "INT"))


def _declaration_end(stuck: Stuck) -> int:
    """The byte at which the declaration that the token stands in ends: its `;`, or END_VAR."""
    depth = 0
    for token in stuck.tokens[stuck.index :]:
        depth += token.is_symbol("(") - token.is_symbol(")")
        if (token.is_symbol(";") and depth <= 0) or token.is_word("END_VAR") or token.kind == "end":
            return token.start
    return stuck.here.end


def _reserved_name(stuck: Stuck) -> Hint | None:
    """A reserved word where a name is wanted."""
    here = stuck.here
    if here.kind != "word":
        return None
    begins = stuck.in_declaration and (stuck.before.is_symbol(";", ",") or stuck.before.is_word("CONSTANT", "RETAIN", "VAR", "VAR_INPUT", "VAR_OUTPUT"))
    if here.is_word("CONSTANT", "RETAIN") and stuck.in_declaration:
        return _on(here, f"{here.upper} follows VAR: begin a block `VAR {here.upper} .. END_VAR` of its own", "")
    named = begins and stuck.behind.is_symbol(":", ",")
    if named or (here.upper in UNUSED_WORDS and stuck.behind.is_symbol(":=", "=", "+", "-", "*", "/", "<", ">", "<=", ">=", "<>", ")")):
        kept = "" if here.upper in GRAMMAR_WORDS else ", though no form uses it"
        return _on(here, f"`{here.text}` is a reserved word{kept}: it can't be a name; take another, as `{here.text}_`", here.text + "_")
    if here.upper in _STATEMENT_WAYS:
        return Hint(_STATEMENT_WAYS[here.upper], here.start, here.end, repair=_leave_out(stuck))
    if here.upper in UNUSED_WORDS:
        return _on(here, f"`{here.text}` is a reserved word which no form uses: {TYPE_WAYS.get(here.upper, 'it occurs nowhere')}", here.text + "_")
    return None


def _leave_out(stuck: Stuck) -> Repair | None:
    """Leaves the statement that begins with the token out: up to its `;`, or up to END_WHILE and END_REPEAT."""
    closing = {"WHILE": "END_WHILE", "REPEAT": "END_REPEAT"}.get(stuck.here.upper)
    for index in range(stuck.index, len(stuck.tokens)):
        token = stuck.tokens[index]
        if token.kind == "end" or (token.is_symbol(";") if closing is None else token.upper == closing):
            return Repair(stuck.here.start, token.start if closing is None else token.end, "")
    return None


def _late_declarations(stuck: Stuck) -> Hint | None:
    if not stuck.here.is_word("VAR", "VAR_INPUT", "VAR_OUTPUT"):
        return None
    if stuck.before.is_symbol(";") and (stuck.two_before.is_word("END_VAR") or stuck.two_before.kind == "name" and stuck.index < 4):
        return _on(stuck.before, "this `;` is a statement, and declarations can't follow one: no `;` follows END_VAR or the program's name", " ")
    if stuck.in_declaration:
        opened = stuck.source.told(stuck.openers[-1].token.start)
        message = f"{stuck.here.upper} is in a block that isn't closed: END_VAR is missing, for the block from {opened}"
        return Hint(message, stuck.here.start, stuck.here.end, repair=Repair(stuck.here.start, stuck.here.start, "END_VAR "))
    closing = next((token for token in stuck.tokens[stuck.index :] if token.is_word("END_VAR")), None)
    message = "declarations come before the first statement: move this block up"
    return Hint(message, stuck.here.start, stuck.here.end, repair=Repair(stuck.here.start, closing.end, "") if closing else None)


def _unknown_block(stuck: Stuck) -> Hint | None:
    """`VAR_GLOBAL x : ..` and other blocks that there aren't."""
    for token in (stuck.before, stuck.here):
        if token.kind == "name" and token.upper.startswith("VAR_"):
            near = nearest(token.text, ["VAR_INPUT", "VAR_OUTPUT"])
            guess = f"; did you mean {near}?" if near else ""
            return _on(token, f"there is no {token.text}: the blocks are VAR_INPUT, VAR_OUTPUT, VAR, VAR CONSTANT and VAR RETAIN{guess}", near or "VAR")
    return None


def _call_statement(stuck: Stuck) -> Hint | None:
    if stuck.here.is_symbol("(") and stuck.before.kind == "name" and stuck.index - 1 == stuck.statement_start:
        message = f"`{stuck.before.text}(..)` is no statement: {no_block('')}"
        end = _declaration_end(stuck)
        return Hint(message, stuck.before.start, stuck.here.end, repair=Repair(stuck.before.start, end, ""))
    return None


def _second_else(stuck: Stuck) -> Hint | None:
    if not stuck.here.is_word("ELSE", "ELSIF") or not stuck.openers or not stuck.openers[-1].has_else:
        return None
    opener = stuck.openers[-1].token
    place = stuck.source.told(opener.start)
    return _on(stuck.here, f"{stuck.here.upper} behind an ELSE: the {opener.upper} from {place} has its ELSE already, which comes last", ";")


def _wrong_end(stuck: Stuck) -> Hint | None:
    """An end, an ELSE or the text's end, while something else is open."""
    here = stuck.here
    is_end = here.kind == "end" or (here.kind == "word" and here.upper in CLOSERS)
    if not is_end or not stuck.openers:
        return _stray_end(stuck) if is_end else None
    opener = stuck.openers[-1]
    word = "VAR" if opener.token.upper.startswith("VAR") else opener.token.upper
    wanted = ")" if word == "(" else f"END_{word}"
    if here.kind != "end" and (CLOSERS[here.upper] == word or here.is_word("ELSE") and word == "CASE"):
        return None
    if here.kind != "end" and not stuck.before.is_symbol(";") and word != "(" and ends_operand(stuck.before):
        return None
    place = stuck.source.told(opener.token.start)
    what = "the text ends" if here.kind == "end" else here.upper + " is here"
    more: tuple[str, ...] = ()
    message = f"{wanted} is missing: {what}, and the {word} from {place} isn't closed"
    if word in ("IF", "CASE", "FOR"):
        more = (f"{word} opens in line {stuck.source.place(opener.token.start)[0]}: "
                f"{stuck.source.line(stuck.source.place(opener.token.start)[0]).decode('utf-8', 'replace').strip()}",)
    text = wanted if word == "(" else f" {wanted}" + (";" if word in ("IF", "CASE", "FOR") else "") + " "
    anchor = opener.token if here.kind == "end" else here
    early = stuck.closed_too_early(opener.token) if word in ("IF", "CASE", "FOR") else None
    if early is not None:
        inner, closing = early
        anchor = inner
        message = (f"END_{inner.upper} is missing for this {inner.upper}: the {closing.upper} at {stuck.source.told(closing.start)} closes it, "
                   f"and comes below the {word} from {place}")
        more = (f"So {what}, and the {word} from {place} isn't closed.",)
    return Hint(message, anchor.start, anchor.end, more, Repair(here.start, here.start, text))


def _stray_end(stuck: Stuck) -> Hint | None:
    if stuck.here.kind == "end" or stuck.here.is_word("END_PROGRAM"):
        return None
    return _on(stuck.here, f"{stuck.here.upper} closes nothing: no {CLOSERS[stuck.here.upper]} is open here", " ")


def _missing_word(stuck: Stuck) -> Hint | None:
    """THEN, OF or DO that is missing behind a condition, a selector or bounds."""
    word = stuck.in_condition()
    if word is None or not ends_operand(stuck.before) or stuck.here.is_symbol(":=", "=", "(", ")"):
        return None
    wanted = {"IF": "THEN", "ELSIF": "THEN", "CASE": "OF", "FOR": "DO"}[word]
    if word == "FOR" and not any(token.is_word("TO") for token in stuck.tokens[stuck.statement_start : stuck.index]):
        wanted = "TO"
    if stuck.here.kind == "name" and not stuck.behind.is_symbol(":="):
        return None
    if stuck.here.kind in ("name", "number") or stuck.here.is_word(*STATEMENT_WORDS) or stuck.here.is_symbol(";"):
        return _insert(stuck.before, f"{wanted} is missing behind the {'bounds' if word == 'FOR' else 'condition'} of {word}", f" {wanted}")
    return None


def _missing_semicolon(stuck: Stuck) -> Hint | None:
    before, here = stuck.before, stuck.here
    declared = stuck.in_declaration and before.is_word(*TYPES)
    if not ends_operand(before) and not declared:
        return None
    new_line = stuck.source.place(before.start)[0] < stuck.source.place(here.start)[0]
    label = here.kind == "number" and stuck.behind.is_symbol(":", "..", ",")
    follows = label or begins_statement(here, stuck.behind) or (new_line and here.kind in ("name", "number", "end"))
    if not follows or stuck.index - 1 == stuck.statement_start and not declared:
        return None
    return _insert(before, f"`;` is missing behind `{before.text}`", ";")


def _operator_word(stuck: Stuck) -> Hint | None:
    """A name behind a whole operand: an operator that there isn't."""
    here = stuck.here
    if here.kind != "name" or not ends_operand(stuck.before):
        return None
    if here.upper in ("AND_THEN", "OR_ELSE"):
        word = here.upper.split("_")[0]
        return _on(here, f"there is no {here.upper}: {word} evaluates both sides, and a side that may stop goes into an IF of its own", word)
    if stuck.index - 1 == stuck.statement_start:
        return None
    near = nearest(here.text, ("AND", "OR", "XOR", "MOD", "THEN", "TO", "BY", "DO", "OF"))
    guess = f"did you mean {near}?" if near else "operators are + - * / MOD = <> < > <= >= AND OR XOR NOT"
    return _on(here, f"`{here.text}` is where an operator is wanted: {guess}", near or ";")


def _statement_word(stuck: Stuck) -> Hint | None:
    """A name that begins a statement and isn't followed by `:=`."""
    if stuck.before.kind != "name" or stuck.index - 1 != stuck.statement_start or stuck.in_declaration:
        return None
    near = nearest(stuck.before.text, RESERVED)
    if near and near != "AT":
        return _on(stuck.before, f"`{stuck.before.text}` is no reserved word: did you mean {near}?", near)
    return Hint(
        f"a statement is `name := value;`, IF, CASE or FOR: after `{stuck.before.text}` comes `{stuck.here.text}` and no `:=`",
        stuck.before.start, stuck.here.end, repair=Repair(stuck.before.start, _declaration_end(stuck), ""),
    )


def _outside_a_block(stuck: Stuck) -> Hint | None:
    """`a, b : INT;` where no block of declarations is open."""
    inside_case = bool(stuck.openers) and stuck.openers[-1].token.is_word("CASE")
    if not stuck.here.is_symbol(":", ",") or stuck.before.kind != "name" or stuck.index - 1 != stuck.statement_start or stuck.in_declaration or inside_case:
        return None
    message = f"a declaration of `{stuck.before.text}` outside a block: VAR, VAR_INPUT or VAR_OUTPUT is missing before it, or its block ended too early"
    return Hint(message, stuck.before.start, stuck.here.end, repair=Repair(stuck.before.start, _declaration_end(stuck), ""))


def _too_many_brackets(stuck: Stuck) -> Hint | None:
    if stuck.here.is_symbol(")") and not any(opener.token.is_symbol("(") for opener in stuck.openers):
        return _on(stuck.here, "a `)` too many: no `(` is open here", " ")
    return None


RULES: tuple[Callable[[Stuck], Hint | None], ...] = (
    _empty, _not_first, _behind_the_end, _elsif, _comment_end, _missing_behind_end, _too_many_brackets, _outside_a_block, _sum_and_set,
    _equals_for_assignment, _assignment_in_condition, _power, _plus_sign, _type, _unknown_block, _reserved_name, _late_declarations, _call_statement,
    _second_else, _else_if, _wrong_end, _missing_word, _missing_semicolon, _operator_word, _statement_word,
)
