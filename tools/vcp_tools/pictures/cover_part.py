"""The part of a report that tells what becomes of each fault in every run."""
from __future__ import annotations

from vcp_tools.pictures.case import MOST_PAIRED, PAIRED, Case
from vcp_tools.pictures.kinds import cover_bars
from vcp_tools.pictures.markup import code, element, line, section, table, text
from vcp_tools.read.cover_lines import BY_CLASS, BY_DELAY, TOLD, Cover

MOST_SHOWN = 500
"""So many faults that show are told at most."""
_MEANINGS = {
    "refused": "no wrong output is ever released because of the fault, and no stop is passed",
    "nothing": "no output ever differs",
    "shows": "the first output that the fault reaches may be released with a wrong value",
    "runs-on": "an operation that may stop is reached first: a run may go on that would have stopped",
    "beyond": "something is reached, but across more cycle borders",
}


def cover_told(case: Case) -> str:
    """The totals, in red where a fault isn't certain, which is something that was found."""
    if case.cover is None:
        return text("not looked at: vcp_study isn't built")
    case.found_something = case.found_something or case.cover.uncertain > 0
    return element("span", text(case.cover.ending), class_="bad" if case.cover.uncertain else "good")


def cover_section(case: Case) -> str:
    """The counts by class and by delay, the faults that show, and the operations whose faults run on or are beyond; no section where it isn't known."""
    found = case.cover
    if found is None:
        return ""
    about = "Over all rows whose values are in the types of their inputs, in every cycle, and whatever number is added; docs/COVER.md says what is proved."
    if found.name != "all":
        about += f" {' and '.join(PAIRED)} are left out: the image has more than {MOST_PAIRED} operations."
    meanings = "; ".join(f"<b>{name}</b>: {said}" for name, said in _MEANINGS.items())
    parts = [
        element("p", about, class_="dim"), cover_bars(found), _counts(found, BY_CLASS, "class"), _counts(found, BY_DELAY, "refused so many cycles later"),
        element("p", meanings + ".", class_="dim"), _shows(case, found), _left(case, found),
    ]
    return section("cover", f"Faults in every run, across at most {found.horizon} cycle borders", "".join(parts))


def _counts(found: Cover, title: str, head: str) -> str:
    """One of the two tables."""
    columns = ("faults", *TOLD) if title == BY_CLASS else ("faults",)
    rows = [(code(name), *(_number(column, number) for column, number in zip(columns, numbers))) for name, numbers in found.tables[title].items()]
    return table((head, *columns), rows, range(1, len(columns) + 1))


def _number(column: str, number: int) -> str:
    return element("span", str(number), class_="bad") if number and column in TOLD[2:] else str(number)


def _shows(case: Case, found: Cover) -> str:
    """The faults that show."""
    if not found.shows:
        return element("p", "None shows.", class_="good")
    rows = [(code(it.fault), code(it.output), str(it.borders), _operation(case, it.operation, it.told)) for it in found.shows[:MOST_SHOWN]]
    more = element("p", f"{len(found.shows) - MOST_SHOWN} more show.", class_="dim") if len(found.shows) > MOST_SHOWN else ""
    told = table(("fault, in cycle N", "output", "cycles later", "operation"), rows, (2,))
    return "<h3>Shows: the output may be released with a wrong value</h3>" + told + more


def _left(case: Case, found: Cover) -> str:
    """The operations whose faults run on or are beyond."""
    if not found.left:
        return ""
    rows = [
        (_operation(case, it.operation, it.told), str(it.faults), code(it.what), _operation(case, it.stop, "") if it.stop >= 0 else "",
         str(it.borders) if it.stop >= 0 else "")
        for it in found.left
    ]
    return "<h3>Not certain: faults that run on, or are beyond</h3>" + table(("operation", "faults", "what", "may stop", "cycles later"), rows, (1, 4))


def _operation(case: Case, number: int, told: str) -> str:
    """An operation as it is told, with the variable that is assigned there and a link to it, and the line of the source."""
    operation = case.image.operations[number]
    words = told or f"operation {number} {operation.kind} {case.image.name_of(operation)}".rstrip() + f" at {operation.place}"
    said = case.source.line(operation.line).decode("utf-8", "replace").strip() if operation.line else ""
    return element("a", text(case.assigned.named(words)), href=f"#O{number}", class_="m") + (line(said) if said else "")
