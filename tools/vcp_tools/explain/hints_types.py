"""What is said where a rule of types is broken (T1 to T8), or a program is too large (L2, L3). The text is one that the grammar takes."""
from __future__ import annotations

from vcp_tools.explain.hint import Hint, Repair
from vcp_tools.wording import article, listed, nearest
from vcp_tools.explain.lacking import is_block, no_block
from vcp_tools.read.source import GREATEST, LEAST, TYPES, Source, literal_value
from vcp_tools.read.syntax import ARGUMENTS, ARITHMETIC, BOOLEAN, COMPARISONS, Assign, Choice, Declaration, Expr, Loop, Statement, Tree, Types, expressions

_SHIFTS = frozenset("SHL SHR ROL ROR".split())
_MORE_ARGUMENTS = {"MIN", "MAX"}


class Typed:
    """A tree with its source: where a fault's place lies in it."""

    def __init__(self, source: Source, tree: Tree) -> None:
        self.source = source
        self.tree = tree
        self.types = Types(tree)

    def statement_at(self, at: int) -> tuple[Statement, Expr | None] | None:
        """The innermost statement that has this place, and its expression that holds it, if one does."""
        best: tuple[Statement, Expr | None] | None = None
        for statement in self.tree.statements():
            if statement.at == at or isinstance(statement, Loop) and statement.name_at == at:
                best = statement, None
            if isinstance(statement, Choice) and any(branch.at == at for branch in statement.branches):
                best = best or (statement, None)
            for expr in expressions(statement):
                if expr.start <= at < expr.end:
                    return statement, expr
        return best

    def expr_at(self, at: int) -> Expr | None:
        """The expression with this place, of statements or initial values."""
        roots = [expr for statement in self.tree.statements() for expr in expressions(statement)]
        roots += [declaration.initial for declaration in self.tree.declarations if declaration.initial is not None]
        found = [expr for root in roots for expr in root.inside() if expr.at == at]
        return found[0] if found else None

    def text(self, expr: Expr) -> str:
        """The text of an expression, on one line."""
        return " ".join(self.source.text[expr.start : expr.end].split())

    def typed_text(self, expr: Expr) -> str:
        """An expression with its type, as `i + 1` is an INT."""
        name = self.types.of(expr)
        return f"`{self.text(expr)}`" + (f" is {article(name)}" if name else "")


def type_hint(source: Source, tree: Tree, code: str, at: int) -> Hint:
    """What is said of the fault `code` at the byte `at`."""
    typed = Typed(source, tree)
    say = {"T1": _duplicate, "T2": _unknown, "T3": _mismatch, "T4": _set, "T5": _bound, "T6": _label, "T7": _call, "T8": _literal}[code]
    hint = say(typed, at)
    return hint if hint.repair else Hint(hint.message, hint.start, hint.end, hint.more, step_over(typed, at))


def step_over(typed: Typed, at: int) -> Repair | None:
    """Puts a constant in the place of the expression with the fault, or leaves the assignment out."""
    found = typed.statement_at(at)
    if found is None:
        declaration = next((it for it in typed.tree.declarations if it.initial and (it.at == at or it.initial.start <= at < it.initial.end)), None)
        value = "FALSE" if declaration and declaration.type == "BOOL" else "0"
        return Repair(declaration.initial.start, declaration.initial.end, value) if declaration and declaration.initial else None
    statement, expr = found
    if isinstance(statement, Assign):
        return Repair(statement.at, statement.value.end, "")
    if isinstance(statement, Loop):
        return Repair(expr.start, expr.end, "1") if expr else _without_loop(typed.source, statement)
    if expr is None:
        branch = next((branch for branch in statement.branches if branch.at == at), None)
        expr = statement.selector if statement.at == at and statement.selector else branch.condition if branch else None
    if expr is None:
        return None
    if any(expr is part for branch in statement.branches for pair in branch.labels for part in pair):
        return Repair(expr.start, expr.end, "9999")
    return Repair(expr.start, expr.end, "0" if expr is statement.selector else "TRUE")


def _without_loop(source: Source, loop: Loop) -> Repair | None:
    """Makes a FOR an IF, which keeps its body."""
    first = source.index_at(loop.at)
    depth = 0
    for index in range(first, len(source.tokens)):
        depth += source.tokens[index].is_word("FOR") - source.tokens[index].is_word("END_FOR")
        if depth == 0:
            head = next(token for token in source.tokens[first:] if token.is_word("DO"))
            end = source.tokens[index]
            return Repair(loop.at, head.end, "IF TRUE THEN", Repair(end.start, end.end, "END_IF"))
    return None


def _name_at(typed: Typed, at: int) -> str:
    return typed.source.tokens[typed.source.index_at(at)].text


def _told(typed: Typed, declaration: Declaration) -> str:
    return f"{declaration.section} {declaration.name} : {declaration.type}, declared at {typed.source.told(declaration.at)}"


def _duplicate(typed: Typed, at: int) -> Hint:
    name = _name_at(typed, at)
    first = typed.types.declared[name.upper()]
    same = "" if first.name == name else f", since case makes no difference to `{first.name}`"
    message = f"`{name}` is declared before, at {typed.source.told(first.at)}{same}: take another name"
    return Hint(message, at, at + len(name), repair=Repair(at, at + len(name), name + "_2"))


def _begins_alike(one: str, other: str) -> bool:
    """Whether one name is the other with a letter or two behind it."""
    return abs(len(one) - len(other)) <= 2 and (one.startswith(other) or other.startswith(one))


def _unknown(typed: Typed, at: int) -> Hint:
    name = _name_at(typed, at)
    known = [declaration.name for declaration in typed.tree.declarations]
    near = nearest(name, known) or next((it for it in known if _begins_alike(it.upper(), name.upper())), None)
    if near:
        declaration = typed.types.declared[near.upper()]
        return Hint(f"no variable `{name}` is declared: did you mean `{near}`?", at, at + len(name), (f"`{near}`: {_told(typed, declaration)}.",),
                    Repair(at, at + len(name), near))
    return Hint(f"no variable `{name}` is declared: declare it in a VAR block", at, at + len(name), (f"Declared are {listed(known)}.",))


def _mismatch(typed: Typed, at: int) -> Hint:
    """T3: an operator or function, a condition, or a value that doesn't fit where it goes."""
    declaration = next((it for it in typed.tree.declarations if it.at == at), None)
    if declaration is not None and declaration.initial is not None:
        return _misfit(typed, declaration, declaration.initial, at, "begins with")
    found = typed.statement_at(at)
    expr = typed.expr_at(at)
    if expr is not None and expr.form not in ("name", "literal"):
        return _operands(typed, expr)
    if found is None:
        return Hint("the types don't go together here", at, at + 1)
    statement = found[0]
    if isinstance(statement, Assign):
        return _misfit(typed, typed.types.declared[statement.name.upper()], statement.value, at, "is set to")
    if isinstance(statement, Loop):
        return Hint(f"the control variable `{statement.name}` is a BOOL: a FOR counts in an INT, DINT or LINT", at, at + len(statement.name))
    return _condition(typed, statement, at)


def _misfit(typed: Typed, target: Declaration, value: Expr, at: int, how: str) -> Hint:
    """A value that doesn't fit the variable that it goes to."""
    has = typed.types.of(value)
    text = typed.text(value)
    message = f"`{target.name}` is {article(target.type)} and {how} `{text}`" + (f", which is {article(has)}" if has else "")
    return Hint(f"{message}: {_conversion(text, has, target.type)}", at, at + len(target.name), (f"`{target.name}`: {_told(typed, target)}.",))


def _conversion(text: str, has: str | None, wanted: str) -> str:
    """The way from a type to another one, for a value of this text."""
    number = literal_value(text.lstrip("-"))
    if has == "BOOL" and wanted == "INT":
        return f"write BOOL_TO_INT({text})"
    if has == "BOOL":
        return f"write BOOL_TO_INT({text}), which widens to {wanted}"
    if wanted == "BOOL" and text in ("0", "1"):
        return f"write {'TRUE' if text == '1' else 'FALSE'}"
    if wanted == "BOOL":
        return f"write a comparison, as {text} <> 0"
    if number is not None:
        return f"{wanted} goes from {LEAST[wanted]} to {GREATEST[wanted]}"
    return f"write {has}_TO_{wanted}({text}), which stops the run where the value doesn't fit" if has else f"{wanted} is wanted"


def _condition(typed: Typed, statement: Choice, at: int) -> Hint:
    """A condition that isn't BOOL, or a selector that is."""
    if statement.selector is not None and statement.at == at:
        return Hint(f"the selector {typed.typed_text(statement.selector)}: a CASE chooses by a number; for a BOOL write IF", at, at + 4)
    branch = next(branch for branch in statement.branches if branch.at == at)
    word = typed.source.tokens[typed.source.index_at(at)].text
    if branch.condition is None:
        return Hint("the types don't go together here", at, at + len(word))
    text = typed.text(branch.condition)
    message = f"the condition {typed.typed_text(branch.condition)}, and a BOOL is wanted: write a comparison, as {text} <> 0"
    return Hint(message, at, at + len(word))


def _operands(typed: Typed, expr: Expr) -> Hint:
    """An operator or function whose operands don't go with it."""
    sides = [typed.typed_text(part) for part in expr.parts]
    bools = [part for part in expr.parts if typed.types.of(part) == "BOOL"]
    end = expr.at + len(expr.text)
    if expr.form == "call":
        return Hint(f"{_argument_message(typed, expr)}", expr.at, end, (f"Given: {listed(sides)}.",))
    if expr.form in ("<", ">", "<=", ">=", "=", "<>") and expr.parts[0].form in COMPARISONS and bools:
        inner = typed.text(expr.parts[0])
        last = typed.text(expr.parts[0].parts[-1])
        message = f"comparisons can't be chained: `{inner}` is a BOOL; write `{inner} AND {last} {expr.text} {typed.text(expr.parts[1])}`"
        return Hint(message, expr.at, end)
    if expr.form in BOOLEAN or expr.form == "NOT":
        return Hint(_boolean_message(typed, expr), expr.at, end)
    if expr.form in ("=", "<>") and _negated(expr.parts[0]):
        inner = typed.text(expr.parts[0].parts[0])
        message = f"NOT binds stronger than `{expr.text}`: write NOT ({inner} {expr.text} {typed.text(expr.parts[1])})"
        return Hint(message, expr.at, end)
    if expr.form in ARITHMETIC or expr.form == "neg":
        return Hint(f"`{expr.text}` takes numbers: {', and '.join(sides)}; a BOOL becomes one by BOOL_TO_INT", expr.at, end)
    if bools and len(bools) == len(expr.parts):
        return Hint(f"`{expr.text}` compares numbers alone: {', and '.join(sides)}", expr.at, end)
    return Hint(f"`{expr.text}` compares two numbers or two BOOL: {', and '.join(sides)}", expr.at, end)


def _negated(expr: Expr) -> bool:
    return expr.form == "NOT"


def _boolean_message(typed: Typed, expr: Expr) -> str:
    """AND, OR, XOR or NOT of numbers."""
    operator = expr.text.upper()
    number = next((part for part in expr.parts if typed.types.of(part) not in ("BOOL", None)), expr.parts[0])
    text = typed.text(number)
    if expr.form == "NOT":
        found = typed.statement_at(expr.at)
        whole = found[1] if found else None
        outer = next((it for it in whole.inside() if it.form in COMPARISONS and it.parts[0] is expr), None) if whole else None
        if outer is not None:
            compared = f"{typed.text(expr.parts[0])} {outer.text} {typed.text(outer.parts[1])}"
            return f"NOT binds stronger than `{outer.text}`: NOT takes a BOOL, and {typed.typed_text(number)}: write NOT ({compared})"
        return f"NOT takes a BOOL, and {typed.typed_text(number)}: write a comparison, as {text} = 0"
    return f"{operator} takes two BOOL, and {typed.typed_text(number)}: there are no operators on bits; write a comparison, as {text} <> 0, or use MOD and `/`"


def _argument_message(typed: Typed, expr: Expr) -> str:
    """A function whose arguments have the wrong types."""
    name = expr.text.upper()
    if "_TO_" in name:
        wanted, result = name.split("_TO_")
        part = expr.parts[0]
        has = typed.types.of(part)
        way = f"{has}_TO_{result}"
        better = f": write {way}({typed.text(part)})" if way in ARGUMENTS else f": it is {article(has)} already" if has == result else ""
        return f"{name} takes {article(wanted)}, and {typed.typed_text(part)}{better}"
    if name == "SEL":
        if typed.types.of(expr.parts[0]) not in ("BOOL", None):
            return f"SEL takes a BOOL first, and {typed.typed_text(expr.parts[0])}: SEL(condition, value if FALSE, value if TRUE)"
        return "SEL chooses between two BOOL or two numbers, and not one of each"
    return f"{name} takes numbers, and one of these is a BOOL"


def _set(typed: Typed, at: int) -> Hint:
    name = _name_at(typed, at)
    declaration = typed.types.declared.get(name.upper())
    if declaration is not None and declaration.section == "VAR_INPUT":
        why = "is an input, and inputs come from the rows: copy it into a VAR and set that"
    elif declaration is not None and declaration.section == "VAR CONSTANT":
        why = "is a constant: declare it in a plain VAR block to set it"
    else:
        why = "is the control variable of a FOR round this place, which alone sets it"
    more = (f"`{name}`: {_told(typed, declaration)}.",) if declaration else ()
    return Hint(f"`{name}` {why}", at, at + len(name), more)


def _bound(typed: Typed, at: int) -> Hint:
    declaration = next((it for it in typed.tree.declarations if it.initial and it.initial.start <= at < it.initial.end), None)
    if declaration is not None and declaration.initial is not None:
        initial = declaration.initial
        message = f"the initial value `{typed.text(initial)}` is no constant: a literal, or the name of a constant declared before, without operators"
        return Hint(message, initial.start, initial.end)
    found = typed.statement_at(at)
    if found is None or not isinstance(found[0], Loop) or found[1] is None:
        return Hint("a bound, a step or an initial value is a literal or a constant", at, at + 1)
    loop, expr = found[0], found[1]
    target = typed.types.declared.get(loop.name.upper())
    value = typed.types.value(expr)
    what = "the step" if len(loop.bounds) > 2 and expr is loop.bounds[2] else "the bound"
    if value is None:
        message = f"{what} `{typed.text(expr)}` is no constant: take the greatest one that is needed, and put an IF into the body"
    elif typed.types.of(expr) == "BOOL":
        message = f"{what} `{typed.text(expr)}` is a BOOL: a FOR counts in numbers"
    elif value == 0 and what == "the step":
        message = "the step is 0, so that the FOR would never end"
    else:
        message = f"{what} {value} is outside the type of `{loop.name}`" + (f", {_range(target.type)}" if target else "")
    return Hint(message, expr.start, expr.end)


def _range(type_name: str) -> str:
    return f"which is {article(type_name)}, {LEAST[type_name]} to {GREATEST[type_name]}"


def _label(typed: Typed, at: int) -> Hint:
    choice, pair = next(
        ((it, pair) for it in typed.tree.statements() if isinstance(it, Choice) for branch in it.branches for pair in branch.labels
         if pair[0].start <= at < pair[1].end), (None, None))
    if choice is None or pair is None or choice.selector is None:
        return Hint("a label is a literal or a constant", at, at + 1)
    values = [typed.types.value(part) for part in pair]
    selector = typed.types.of(choice.selector)
    wrong = next((part for part, value in zip(pair, values) if value is None), None)
    end = pair[1].end
    if wrong is not None:
        message = f"the label `{typed.text(wrong)}` is no constant: a literal, or a name that is declared in VAR CONSTANT"
    elif any(typed.types.of(part) == "BOOL" for part in pair):
        message = f"the label `{typed.text(pair[0])}` is a BOOL: labels are numbers; for a BOOL write IF"
    elif values[0] is not None and values[1] is not None and values[0] > values[1]:
        message = f"the range {values[0]}..{values[1]} is empty: the lesser value comes first"
    else:
        message = "the label is outside the selector's type" + (f", {_range(selector)}" if selector in TYPES else "")
    return Hint(message, pair[0].start, end, repair=Repair(pair[0].start, end, "30000"))


def _call(typed: Typed, at: int) -> Hint:
    name = _name_at(typed, at)
    capitals = name.upper()
    expr = typed.expr_at(at)
    end = at + len(name)
    if capitals in ARGUMENTS:
        given = len(expr.parts) if expr else 0
        nested = ""
        if capitals in _MORE_ARGUMENTS and expr and given > 2:
            texts = [typed.text(part) for part in expr.parts]
            inner = f"{capitals}({texts[0]}, {texts[1]})"
            nested = f": write {capitals}({inner}, {', '.join(texts[2:])})"
        plural = "argument" if ARGUMENTS[capitals] == 1 else "arguments"
        return Hint(f"{capitals} takes {ARGUMENTS[capitals]} {plural}, and here are {given}{nested}", at, end)
    if is_block(name):
        return Hint(f"there is no function {name}: {no_block(name)}", at, end)
    if capitals in _SHIFTS:
        return Hint(f"there is no function {name}, nor any on bits: multiply or divide by a power of 2", at, end)
    if capitals in typed.types.declared:
        return Hint(f"`{name}` is a variable and no function: there are no arrays, and a product is `{name} * (..)`", at, end)
    near = nearest(name, ARGUMENTS)
    guess = f": did you mean {near}?" if near else ""
    return Hint(f"there is no function {name}{guess}", at, end, (f"The functions are {listed(ARGUMENTS)}.",))


def _literal(typed: Typed, at: int) -> Hint:
    text = _name_at(typed, at)
    type_name = text.split("#")[0].upper()
    return Hint(f"`{text}` is outside its own type, {_range(type_name)}", at, at + len(text), repair=Repair(at, at + len(text), f"{type_name}#0"))


def size_hint(code: str) -> Hint:
    """What is said of a program that is too large."""
    if code == "L3":
        return Hint("more than 1,024 names are declared: join BOOLs that go together into one INT, or split the program", 0, 0)
    return Hint("the program is too large, since a FOR counts its body once for each turn: fewer turns, or a smaller body", 0, 0)
