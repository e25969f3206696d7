"""The sections of a report, each made of a case."""
from __future__ import annotations

import re
from pathlib import Path
from typing import Callable

from vcp_tools.read.audit_lines import Audited, reached_from
from vcp_tools.pictures.case import Case
from vcp_tools.read.image import Operation
from vcp_tools.read.instruction_list import lines_of
from vcp_tools.cycle_time import CycleTime
from vcp_tools.pictures.markup import code, element, line, section, table, text
from vcp_tools.files import read_bytes
from vcp_tools.needs import find_module
from vcp_tools.pictures.cover_part import cover_section, cover_told
from vcp_tools.pictures.filtered import filtered
from vcp_tools.pictures.looks import faults_in, graph_section, kinds_in, marked_source, told_of_kinds, verdict_bars
from vcp_tools.program import find_program, present_toolchain, promised_toolchain
from vcp_tools.proved import PROGRAMS, digest, told_of
from vcp_tools.read.verdict_lines import Verdict, faults_of_group, never_reached
from vcp_tools.pictures.waves import waves

MOST_ROWS = 500
"""So many rows of the run are told at most."""
_MEANINGS = {
    "same": "the run is the same", "wrong": "a wrong value is released", "ran-on": "the run goes on where it should stop",
    "refused": "an output is refused", "stopped": "the run stops",
}


def tools_digest() -> str:
    """The SHA-256 of all files of the tools, their names with them."""
    here = Path(__file__).resolve().parent.parent
    files = sorted([*here.glob("**/*.py"), *here.glob("**/*.lark")])
    return digest(b"".join(file.name.encode() + b"\0" + digest(file.read_bytes()).encode() for file in files))


def toolchain_told(promised: str | None, present: str | None) -> str:
    """The toolchain that docs/PROMISES.md names, and whether the one that is here says the same of itself."""
    if promised and promised == present:
        return code(promised) + ": docs/PROMISES.md and " + code("rt version") + " say the same"
    named = code(promised) + ", by docs/PROMISES.md" if promised else "not named: docs/PROMISES.md isn't here"
    if present is None:
        return named + "; " + code("rt") + " isn't here, to say its own"
    other = element("span", "another one", class_="bad") if promised else "the one that is here"
    return named + "; " + other + ", by " + code("rt version") + ": " + code(present)


def _verdict_on(case: Case) -> str:
    """What is told first: whether all agrees, and the counts of what follows."""
    calls = {"plain": case.text.plain_words(case.rows), "run": case.text.run_words(case.rows, case.code), "exec": ("exec", case.image_name, *case.rows)}
    printed = {words[0]: case.made(call, words, (0, 2) if call == "plain" else (0, 2, 3)) for call, words in calls.items() if words}
    agree = len(set(printed.values())) == 1
    same = element("span", "the same, byte for byte", class_="good") if agree else element("span", "DIFFERENT", class_="bad")
    rows = [
        _size(case),
        ("operations", text(len(case.image.operations))),
        ("code", text(f"{'narrow' if case.image.version == 1 else 'wide'}, seed {case.image.seed}, step {case.image.step}")),
        ("cycles", text(case.run.cycles)),
        *_times(case.period, case.run.cycles),
        ("end of the run", element("span", text(case.run.ending), class_="good" if case.run.is_whole else "bad")),
        (" and ".join([", ".join(list(printed)[:-1]), list(printed)[-1]]), same),
        *_found(case),
        *((name, text(program_told(file))) for name in PROGRAMS if (file := find_program(name)) is not None),
    ]
    case.found_something = case.found_something or not agree or not case.run.is_whole
    return section("summary", "Summary", table(("what", "found"), rows))


def _size(case: Case) -> tuple[str, str]:
    """How large the program is: its Size, or how many instructions it has."""
    if case.text.is_list:
        return "instructions", text(len(lines_of(case.source)) - 1)
    return "Size", text(case.program.must("check", case.file).text.strip().removeprefix("ok "))


def _times(period: CycleTime | None, cycles: int) -> list[tuple[str, str]]:
    """How long a cycle and the run take, where that is given."""
    return [("cycle time", text(f"{period.number} {period.unit}")), ("time of the run", text(period.told(cycles)))] if period else []


def program_told(file: Path) -> str:
    """Which program made a report, by its digest, and whether it is proved, by its record."""
    return f"{digest(read_bytes(file))}, {told_of(file)}"


def _found(case: Case) -> list[tuple[str, str]]:
    """What the parts below found: faults in every run, verdicts, blind places, likely mistakes, and what may stop."""
    blind = sorted({operation for it in case.audit for operation in it.blind})
    told = [("faults in every run", cover_told(case)), ("blind operations", _counted(case, len(blind), "none"))]
    if case.faults:
        verdicts, totals = case.verdicts
        unseen = sum(it.verdict in ("wrong", "ran-on") for it in verdicts)
        case.found_something = case.found_something or unseen > 0
        told.append(("verdicts on the faults", element("span", text(totals), class_="bad" if unseen else "good")))
    told.append(("likely mistakes", _counted(case, len(case.findings), "none is named")))
    ranges = case.ranges
    if ranges is None:
        told.append(("may stop with any rows", text("not looked at: vcp_study isn't built")))
    else:
        told.append(("may stop with any rows", _counted(case, ranges.named, f"none of {ranges.all} operations")))
    return told


def _counted(case: Case, number: int, none: str) -> str:
    """A number in red, which is something that was found, or in green that there is none."""
    case.found_something = case.found_something or number > 0
    return element("span", text(number), class_="bad") if number else element("span", text(none), class_="good")


def _files(case: Case) -> str:
    """The files with their digests."""
    given = [(case.text.what, case.file, case.source.data)]
    if case.original is not None:
        given.append(("text from which the source was written", case.original, read_bytes(case.original)))
    if case.rows[0] != "--cycles":
        given.append(("rows", case.rows[0], read_bytes(case.rows[0])))
    if case.faults:
        given.append(("script of faults", case.faults, read_bytes(case.faults)))
    given.append((f"image, made of the {case.text.what}", case.image_name, case.image_bytes))
    rows = [(text(what), code(Path(name).name), text(len(data)), code(digest(data))) for what, name, data in given]
    return section("files", "Files", table(("what", "file", "bytes", "SHA-256"), rows, (2,)))


def _tool(case: Case) -> str:
    """The program and the tools."""
    study = find_program("vcp_study")
    rows = [
        ("program vcp", code(digest(read_bytes(case.program.file)))),
        *([("program vcp_study", code(digest(read_bytes(study))))] if study is not None else []),
        ("vcp_tools, all files", code(tools_digest())),
        ("toolchain of the proof", toolchain_told(promised_toolchain(), present_toolchain())),
    ]
    built = f"Whether a program is proved, its record says, which {code('./vcp')}, {code('./vcp_study')} and the gate write; these tools are tested."
    note = element("p", built, class_="dim")
    return section("tool", "Tool", table(("what", "SHA-256, or version"), rows) + note)


def _picture(case: Case) -> str:
    return section("run", "The run", waves(case.run, case.period, faults_in(case)))


def _rows(case: Case) -> str:
    """The cycles in which something changes."""
    columns = case.run.columns
    told: list[list[str]] = []
    before: tuple[int, ...] = ()
    left = 0
    period = case.period
    unit = period.unit_for(case.run.cycles) if period else ""
    for cycle, row in enumerate(zip(*(column.values for column in columns))):
        if row != before:
            left += len(told) >= MOST_ROWS
            if len(told) < MOST_ROWS:
                told.append([str(cycle), *([period.at(cycle, unit)] if period else []), *map(str, row)])
        before = row
    note = element("p", f"Cycles in which nothing changes are left out{f', and {left} more at the end' if left else ''}.", class_="dim")
    head = ["cycle", *([f"time/{unit}"] if period else []), *(text(column.name) for column in columns)]
    inside = table(head, told, range(len(head)))
    return section("values", "Values, cycle by cycle", note + inside + element("p", code(case.run.ending)))


def _place(operation: Operation) -> str:
    """A place with a link to the line of the source."""
    if not operation.line:
        return ""
    turns = "".join(f" {name}={value}" for name, value in operation.turns)
    return element("a", operation.place + text(turns), href=f"#L{operation.line}", class_="m")


def _line(case: Case, operation: Operation) -> str:
    return line(case.source.line(operation.line).decode("utf-8", "replace").strip()) if operation.line else ""


def _reference(case: Case, operation: Operation) -> str:
    """A link to an operation, with its name or value where it has one."""
    name = case.image.name_of(operation)
    return element("a", f"{operation.number} {text(name)}".rstrip(), href=f"#O{operation.number}")


def _listing(case: Case) -> str:
    """The operations, with names and places."""
    listed = case.call("list", case.image_name).text.split("\n")
    rows = []
    counts = kinds_in(case)
    for operation, told in zip(case.image.operations, listed):
        signature = re.search(r" sig (\d+) ", told)
        reads = ", ".join(_reference(case, case.image.operations[it]) for it in operation.operands)
        number = element("span", str(operation.number), id=f"O{operation.number}")
        types = operation.type if operation.type == operation.operand_type else f"{operation.operand_type} to {operation.type}"
        rows.append((number, code(operation.kind), types, element("span", reads, class_="m"), code(_name_of(case, operation)), _place(operation),
                     code(signature[1] if signature else ""), code(operation.correction), told_of_kinds(counts, operation.number)))
    head = ("no.", "kind", "type", "reads", "name or value", "place", "signature", "correction", "faults in every run")
    return section("listing", "Operations", filtered("listing", table(head, rows, (0, 6, 7))))


def _audit(case: Case) -> str:
    """The counts, the blind operations, and those from which no output is reached."""
    by_output: dict[str, list[str]] = {}
    for it in case.audit:
        blind = element("span", f" {len(it.blind)} blind", class_="bad") if it.blind else ""
        by_output.setdefault(it.output, []).append(f"{it.reached}{blind}")
    head = ["output", *(f"reached across {borders}" for borders in range(case.horizon + 1))]
    counts = table(head, [(code(output), *cells) for output, cells in by_output.items()], range(1, case.horizon + 2))
    return section("audit", f"Audit, across at most {case.horizon} cycle borders", counts + _blind(case, case.audit) + _unreached(case))


def _blind(case: Case, audit: list[Audited]) -> str:
    """Each blind operation once, with the outputs and borders for which it is blind."""
    where: dict[int, list[str]] = {}
    for it in audit:
        for operation in it.blind:
            where.setdefault(operation, []).append(f"{it.output} across {it.borders}")
    if not where:
        return element("p", "No operation is blind: each that is reached has a weight other than 0.", class_="good")
    rows = [(*_operation_cells(case, case.image.operations[number]), text(", ".join(places))) for number, places in sorted(where.items())]
    return "<h3>Blind: every difference that is made there cancels</h3>" + table(("no.", "kind", "name", "place", "line", "at the outputs"), rows, (0,))


def _unreached(case: Case) -> str:
    reached: set[int] = set()
    for output in range(len(case.image.outputs)):
        reached |= set().union(*reached_from(case.image, output, case.horizon))
    left = [operation for operation in case.image.operations if operation.number not in reached]
    if not left:
        return element("p", "Each operation reaches an output.", class_="good")
    rows = [_operation_cells(case, operation) for operation in left]
    return "<h3>Unreached: no path leads to an output</h3>" + table(("no.", "kind", "name", "place", "line"), rows, (0,))


def _name_of(case: Case, operation: Operation) -> str:
    """An operation's name or value, or the variables that its statement is for."""
    return case.image.name_of(operation) or case.assigned.of(operation)


def _operation_cells(case: Case, operation: Operation) -> tuple[str, str, str, str, str]:
    link = element("a", str(operation.number), href=f"#O{operation.number}")
    return link, code(operation.kind), code(_name_of(case, operation)), _place(operation), _line(case, operation)


def _campaign(case: Case) -> str:
    """The verdicts on the groups of faults of a script."""
    if not case.faults:
        return ""
    verdicts, totals = case.verdicts
    script = read_bytes(case.faults).decode("utf-8", "replace").split("\n")
    rows = []
    for it in verdicts:
        mark = "good" if it.verdict in ("refused", "stopped", "same") else "bad"
        group = faults_of_group(script, it.line)
        faults = line("; ".join(group))
        details = _details(case, it) or code(_unreached_note(case, script, it.line))
        where = "; ".join(_where(case, fault) for fault in group)
        rows.append((str(it.line), faults, where, element("span", it.verdict, class_=mark), details,
                     element("span", text(_remark(script, it.line)), class_="remark")))
    meanings = "; ".join(f"<b>{name}</b>: {said}" for name, said in _MEANINGS.items())
    told = filtered("campaign", table(("line", "fault", "operation", "verdict", "details", "remark above it"), rows, (0,)))
    return section("campaign", "Faults and their verdicts", verdict_bars(case) + told + element("p", code(totals)) + element("p", meanings + ".", class_="dim"))


def _details(case: Case, verdict: Verdict) -> str:
    """The rest of a verdict's line; of a stop with what stands at its place, and where it is known how long a cycle takes with the time."""
    words = verdict.rest.split()
    place = re.fullmatch(r"(\d+):(\d+)", words[3]) if verdict.verdict == "stopped" and len(words) > 3 else None
    assigned = case.assigned.at(int(place[1]), int(place[2])) if place else ""
    time = case.period.told(int(words[0])) if case.period and words else ""
    return element("code", text(verdict.rest), class_="wrap") * bool(words) + "".join(f", {text(it)}" for it in (assigned, time) if it)


def _where(case: Case, fault: str) -> str:
    """The operation of a fault, as a line of a script: its kind, its name or the variables that its statement is for, and its place."""
    words = fault.split()
    if len(words) < 3 or not words[2].isdigit() or int(words[2]) >= len(case.image.operations):
        return ""
    operation = case.image.operations[int(words[2])]
    name = _name_of(case, operation)
    return " ".join(it for it in (code(operation.kind), code(name) if name else "", _place(operation)) if it)


def _unreached_note(case: Case, script: list[str], number: int) -> str:
    """Said of a group that no cycle of the run comes to; else empty."""
    return "never reached: the run ends before" if never_reached(faults_of_group(script, number), case.run.cycles + (not case.run.is_whole)) else ""


def _may_stop(case: Case) -> str:
    """The operations that may stop with any rows, each with the ranges of what it reads; no section where there is none, or where they weren't looked for."""
    if case.ranges is None or not case.ranges.may_stop:
        return ""
    rows = [(*_operation_cells(case, case.image.operations[it.operation]), code(it.cause), line(it.reads)) for it in case.ranges.may_stop]
    searched = "" if case.ranges.searched else " The image has too many operations to be searched closer."
    note = element("p", f"As far as the ranges of all values show: that an operation is named doesn't say that it can stop.{searched}", class_="dim")
    return section("ranges", "What may stop, whatever the rows", note + table(("no.", "kind", "name", "place", "line", "stop", "reads"), rows, (0,)))


def _remark(script: list[str], number: int) -> str:
    """The remark that stands directly above a fault of a script, or above the `begin` before it."""
    words: list[str] = []
    for above in reversed(script[: number - 1]):
        if above.strip() == "begin" and not words:
            continue
        if not above.startswith("#"):
            break
        words.insert(0, above.lstrip("# ").rstrip())
    return " ".join(words)


def _lint(case: Case) -> str:
    without = find_module("lark") is None
    found = case.findings
    note = element("p", "`lark` isn't installed: only what the operations show was looked for.", class_="dim") if without else ""
    if not found:
        return section("lint", "Likely mistakes", note + element("p", "None is named.", class_="good"))
    rows = [(element("a", case.source.told(it.at), href=f"#L{case.source.place(it.at)[0]}", class_="m"), code(it.kind), text(it.message)) for it in found]
    return section("lint", "Likely mistakes", note + table(("place", "kind", "what is named"), rows))


def _source(case: Case) -> str:
    """The source with numbers of lines, to which places lead, and a mark a line."""
    return section("source", "Source", marked_source(case))


def _commands(case: Case) -> str:
    """Every command by which the report was made."""
    note = f"In this order, with the files named above. Variables come from one more run, of the {case.text.what} with each VAR as a VAR_OUTPUT."
    return section("commands", "Commands", element("p", note, class_="dim") + element("pre", text("\n".join(case.commands))))


SECTIONS: tuple[Callable[[Case], str], ...] = (
    _verdict_on, cover_section, graph_section, _files, _tool, _picture, _audit, _may_stop, _campaign, _lint, _listing, _rows, _source, _commands,
)
"""What makes the sections, in order; the commands stand last, since the others note theirs."""
