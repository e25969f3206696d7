"""`explain`: what a refusal of the program means, with the line, a caret, and the mistake that people make there."""
from __future__ import annotations

import argparse
import re
import sys
import textwrap
from dataclasses import dataclass
from pathlib import Path
from typing import Sequence

from vcp_tools.explain.all_faults import all_hints
from vcp_tools.explain.all_list_faults import all_list_hints
from vcp_tools.read.fault_line import Disagreement, FaultLine, RefusedOutput, StopLine, meanings, read_ending, read_fault
from vcp_tools.explain.hint import Hint
from vcp_tools.explain.hints_files import FORMS, group_hint, image_hint, reading_hint, script_hint, wire_hint, words_hint
from vcp_tools.explain.hints_il import il_hint
from vcp_tools.read.assigned import Assigned
from vcp_tools.read.declarations import inputs_of
from vcp_tools.read.instruction_list import declarations_of, head_of, lines_of
from vcp_tools.explain.hints_rows import RowsHint, cell_hint, encoding_of, form_hint, header_hint, silent_faults, width_hint
from vcp_tools.explain.hints_source import source_hint
from vcp_tools.read.given import Given, source_of
from vcp_tools.read.image import MAGIC, Image, read_image
from vcp_tools.program import Program
from vcp_tools.program_text import add_form_word, tells_list
from vcp_tools.read.verdict_lines import faults_of_group, never_reached, read_verdicts
from vcp_tools.refusal import FINE, FOUND, REFUSED, Refusal
from vcp_tools.read.rows_file import line_of, record_of
from vcp_tools.read.origin import WORDS, Origin
from vcp_tools.read.source import Source
from vcp_tools.read.syntax import Declaration

WIDTH = 110
"""The most characters of a source line that are shown; a longer one is cut round the caret."""
MOST_UNSEEN = 20
"""So many faults that aren't seen are named at most."""
MOST_SILENT = 3
"""So many things that `vcp` accepts without warning are reported at most of a rows file."""
OF_THE_WHOLE = {
    "Q7": "no program in Structured Text of at most 1,048,576 bytes was found that is shown to have this list's run; it has a run and an image all the same",
}
"""What is said of a file as a whole."""
STATUS_LINES = {
    "memory": "the machine had no memory left for this run: end other programs, or take fewer rows",
    "write": "standard output couldn't be written: the disk is full, or the reader of the pipe has ended",
}


@dataclass(frozen=True)
class Explanation:
    """What is printed of one fault: its place as `FILE:LINE:COL`, the message, the line and the bytes of it that are meant."""

    place: str
    message: str
    number: int = 0
    line: bytes = b""
    start: int = 0
    end: int = 0
    more: tuple[str, ...] = ()

    def lines(self) -> list[str]:
        """The lines that are printed: the place with the message, the line, and the caret below it."""
        printed = [f"{self.place}: {self.message}"]
        if self.number:
            shown, caret, width = _window(self.line, self.start, self.end)
            gutter = f"{self.number:>5} | "
            printed += [gutter + shown, " " * (len(gutter) - 2) + "| " + " " * caret + "^" * max(1, width)]
        return printed + [f"      {line}" for line in self.more]


def _window(line: bytes, start: int, end: int) -> tuple[str, int, int]:
    """A line as text, cut round the meant bytes, with the place and width of the caret."""
    shown = _shown(line)
    caret = len(_shown(line[:start]))
    width = min(len(_shown(line[:end])), len(shown)) - caret
    if len(shown) > WIDTH:
        left = max(0, min(caret - WIDTH // 3, len(shown) - WIDTH))
        shown = shown[left : left + WIDTH]
        caret -= left
    return shown, caret, max(1, min(width, WIDTH - caret))


def _shown(line: bytes) -> str:
    """Bytes as text of the same width on a terminal: tabs as blanks, and no control characters."""
    text = line.decode("utf-8", "replace").replace("\t", " ").replace("\r", "").replace("\ufeff", "")
    return "".join(letter if letter.isprintable() else "\u00b7" for letter in text)


def of_source(file: str, source: Source, hint: Hint) -> Explanation:
    """A hint on a source text."""
    number, column = source.place(hint.start)
    last = source.starts[number] - 1 if number < len(source.starts) else len(source.data)
    end = column - 1 + max(1, min(hint.end, last) - hint.start)
    return Explanation(f"{file}:{number}:{column}", hint.message, number, source.line(number), column - 1, end, hint.more)


def _of_rows(file: str, data: bytes, hint: RowsHint) -> Explanation:
    line = line_of(data, hint.line)
    end = hint.end or len(line)
    return Explanation(f"{file}:{hint.line}:{hint.start + 1}", hint.message, hint.line, line[:400], hint.start, end)


class Explainer:
    """Explains the faults of one call of the program, whose words say which file is the program and which the image."""

    def __init__(self, words: Sequence[str]) -> None:
        self.words = list(words)

    def fault(self, fault: FaultLine) -> Explanation:
        """What is printed of a line of error."""
        if fault.code == "usage":
            return Explanation("vcp " + " ".join(self.words), words_hint(self.words))
        if fault.code == "read":
            return Explanation(fault.file, reading_hint(fault.file))
        if fault.code in STATUS_LINES:
            return Explanation(fault.file or "vcp", STATUS_LINES[fault.code])
        exchanged = self._exchanged(fault)
        if exchanged:
            return Explanation(fault.file, exchanged)
        if not Path(fault.file).is_file() and fault.file not in ("--cycles", "demo"):
            return Explanation(fault.text.rpartition(f" {fault.code}")[0], "the file isn't here, so that its line can't be shown")
        if fault.code in OF_THE_WHOLE:
            return Explanation(fault.file, OF_THE_WHOLE[fault.code])
        if fault.code[0] in "STQ" or fault.code in ("L2", "L3"):
            return self._source(fault)
        if fault.code[0] == "R" or fault.code == "L4":
            return self._rows(fault)
        if fault.code[0] == "F" or fault.code == "L5":
            return self._script(fault)
        if fault.code[0] == "G":
            return self._wire(fault)
        if fault.code[0] == "I":
            place = fault.file if fault.first is None else f"{fault.file}:{fault.first}"
            return Explanation(place, image_hint(fault, _bytes(fault.file)))
        return Explanation(fault.file, _limit(fault))

    def _exchanged(self, fault: FaultLine) -> str:
        """Said where the first file of the words is refused, and the one behind it is what is wanted there; else empty."""
        if len(self.words) < 3 or fault.file != self.words[1] or self.words[0] not in FORMS or FORMS[self.words[0]][1:2] != ("ROWS",):
            return ""
        first, second = _bytes(self.words[1]), _bytes(self.words[2])
        wants_image = FORMS[self.words[0]][0] == "M"
        what = "an image" if wants_image else "a program"
        is_it = second.startswith(MAGIC) if wants_image else _begins_program(second) and not _begins_program(first)
        return f"the rows are in the place of {what}, and {what} in theirs: write `vcp {self.words[0]} {self.words[2]} {self.words[1]} ..`" if is_it else ""

    def _source(self, fault: FaultLine) -> Explanation:
        """S1 to S5, T1 to T8, L2 and L3, of a program or of the head of an instruction list; Q1 to Q6."""
        source = Source(_bytes(fault.file))
        is_list = bool(tells_list(source))
        listed = fault.code[0] == "Q" or self.words[:1] == ["il"] or is_list and not self.words
        if is_list and not listed:
            return of_source(fault.file, source, _is_list(source, fault.file))
        if listed and (fault.code in ("S4", "S5") or fault.code[0] == "T"):
            source = head_of(source)
        at = source.offset(fault.first or 1, fault.second or 1)
        hint = il_hint(source, fault.code, at) if fault.code[0] == "Q" else source_hint(source, fault.code, at)
        return of_source(fault.file, source, hint)

    def _inputs(self) -> list[Declaration]:
        """The inputs of the program or image of the words; none where they aren't known."""
        if len(self.words) < 2 or self.words[0] == "check":
            return []
        if self.words[0] == "il":
            return [it for it in declarations_of(Source(_bytes(self.words[1]))) if it.section == "VAR_INPUT"]
        try:
            data = _bytes(self.words[1])
            if data.startswith(b"VCPANBD\n"):
                return [Declaration(it.name, 0, "VAR_INPUT", it.type, None) for it in read_image(data, self.words[1]).inputs]
            return inputs_of(self.words[1])
        except Refusal:
            return []

    def _rows(self, fault: FaultLine) -> Explanation:
        """R1 to R5 and L4."""
        inputs = self._inputs()
        if fault.code == "R4":
            return Explanation(fault.file, form_hint(fault.file != "--cycles", inputs))
        if fault.code == "R5":
            return Explanation(fault.file, "the rows end before the cycle that `trace` is to show: cycles count from 0")
        if fault.code == "L4":
            return Explanation(fault.file, "there are more than 1,000,000 records: run them in parts")
        data = _bytes(fault.file)
        if fault.code == "R1" or encoding_of(data):
            script = re.match(rb"(#.*\n)*(operand|result|operator|skip|begin)\b", data)
            if script and self.words[0] in ("inject", "pairs"):
                return Explanation(fault.file, "a script of faults is in the place of the rows: they come before it, as in `vcp inject M ROWS F`")
            return _of_rows(fault.file, data, header_hint(data, inputs))
        header, record = record_of(data, 1), record_of(data, fault.first or 1)
        if header is None or record is None or fault.code == "R3" and (fault.second or 1) > len(record.fields):
            return Explanation(f"{fault.file}:{fault.first or 1}", "the file has changed since: it has no such record")
        if fault.code == "R2":
            return _of_rows(fault.file, data, width_hint(header, record))
        return _of_rows(fault.file, data, cell_hint(header, record, fault.second or 1, inputs))

    def silent_rows(self) -> list[Explanation]:
        """Input in the rows file of an accepted call that `vcp` accepts without warning."""
        takes_rows = len(self.words) > 2 and self.words[0] in ("plain", "run", "il", "exec", "trace", "inject", "pair", "pairs") and self.words[2] != "--cycles"
        data = _bytes(self.words[2]) if takes_rows else b""
        return [_of_rows(self.words[2], data, hint) for hint in silent_faults(data, MOST_SILENT)] if data else []

    def unreached(self, printed: str) -> list[Explanation]:
        """The groups of an accepted campaign whose verdict is `same` since no cycle of the run comes to them."""
        if self.words[:1] != ["inject"] or len(self.words) < 4:
            return []
        script = _bytes(self.words[-1]).decode("utf-8", "replace").split("\n")
        run = Program.found().call("exec", *self.words[1:-1])
        lines = run.text.rstrip("\n").split("\n")
        begun = len(lines) - 2 + (not lines[-1].startswith("end "))
        found = []
        for verdict in read_verdicts(printed)[0]:
            if verdict.verdict == "same" and never_reached(faults_of_group(script, verdict.line), begun):
                line = script[verdict.line - 1].encode()
                message = f"this fault is never reached: the run has the cycles 0 to {begun - 1}, and so its verdict is `same`"
                found.append(Explanation(f"{self.words[-1]}:{verdict.line}:1", message, verdict.line, line, 0, len(line)))
        return found

    def unseen(self, printed: str, source: str | None, as_list: bool) -> list[Explanation]:
        """The groups of an accepted campaign that aren't seen, each with its operations in words; where the source is known, with their variables."""
        if self.words[:1] != ["inject"] or len(self.words) < 4:
            return []
        image = _image(self.words[1])
        given = Given(self.words[1], image, b"", None if source is None else source_of(Program.found(), source, image, as_list))
        script = _bytes(self.words[-1]).decode("utf-8", "replace").split("\n")
        unseen = [it for it in read_verdicts(printed)[0] if it.verdict in ("wrong", "ran-on")]
        found = []
        for verdict in unseen[:MOST_UNSEEN]:
            operations = [image.operations[int(fault.split()[2])] for fault in faults_of_group(script, verdict.line)]
            message = f"this fault isn't seen (`{verdict.verdict}`): " + "; ".join(given.told(it) for it in operations)
            line = script[verdict.line - 1].encode()
            found.append(Explanation(f"{self.words[-1]}:{verdict.line}:1", message, verdict.line, line, 0, len(line)))
        if len(unseen) > MOST_UNSEEN:
            found.append(Explanation(self.words[-1], f"{len(unseen) - MOST_UNSEEN} more faults aren't seen"))
        return found

    def _script(self, fault: FaultLine) -> Explanation:
        """F1 to F6 and L5."""
        data = _bytes(fault.file)
        number = fault.first or 1
        line = Source(data).line(number)
        if fault.code == "L5":
            return Explanation(f"{fault.file}:{number}", "the script has more than 10,000 faults: split it")
        operations = None
        if fault.code in ("F5", "F6"):
            hint = group_hint(data.decode("latin-1").split("\n"), number, fault.code)
            return Explanation(f"{fault.file}:{number}:{hint.start + 1}", hint.message, number, line, hint.start, hint.end)
        if len(self.words) > 1 and self.words[0] in ("inject", "pairs"):
            operations = [it.kind for it in _image(self.words[1]).operations]
        hint = script_hint(line.decode("latin-1"), fault.code, operations)
        return Explanation(f"{fault.file}:{number}:{hint.start + 1}", hint.message, number, line, hint.start, hint.end)

    def _wire(self, fault: FaultLine) -> Explanation:
        """G1 to G3."""
        number = fault.first or 1
        line = Source(_bytes(fault.file)).line(number)
        return Explanation(f"{fault.file}:{number}:1", wire_hint(line.decode("latin-1"), fault.code), number, line, 0, len(line))

    def ending(self, ending: StopLine | RefusedOutput | Disagreement) -> Explanation:
        """What is printed of a run that stopped, whose output was refused, or whose channels disagreed."""
        if isinstance(ending, Disagreement):
            if ending.name:
                values = f"the first with {ending.first} and the second with {ending.second}"
                how = f"both channels released `{ending.name}`, {values}, and no residue shows the difference"
            else:
                how = f"the first channel ended by `{ending.first}`, the second by `{ending.second}`"
            return Explanation(ending.name or "channels", f"cycle {ending.cycle}: {how}: the first channel's unit answered wrongly, and nothing is released")
        if isinstance(ending, RefusedOutput):
            message = (f"cycle {ending.cycle}: the word of `{ending.name}` has the residue {ending.found} and not {ending.expected}: a word on its way "
                       "was changed, or is that of another operation or cycle")
            return Explanation(ending.name, message)
        file = self.words[1] if len(self.words) > 1 else "source"
        data = b"" if len(self.words) < 2 else _bytes(file)
        source = Source(data, self.words[0] == "il") if data and not data.startswith(MAGIC) else None
        assigned = Assigned(source).at(ending.line, ending.column) if source is not None else ""
        where = (f" (in the turn {ending.turns})" if ending.turns else "") + (f", {assigned}" if assigned else "")
        what = {
            "RANGE": "the value is outside its type, and nothing wraps round",
            "DIVZERO": "this is a division by 0",
            "OPERAND": "the unit answered that an operand was outside its type, as an honest one never does",
        }[ending.kind]
        message = f"the run stops in cycle {ending.cycle}{where}: {what}"
        if source is None:
            return Explanation(f"{file}:{ending.line}:{ending.column}", message)
        token = source.tokens[source.index_at(source.offset(ending.line, ending.column))]
        guard = {"RANGE": "Limit the operands before, as by MIN, MAX or LIMIT, or take a wider type.",
                 "DIVZERO": "Put the division into `IF divisor <> 0 THEN .. END_IF`."}.get(ending.kind, "")
        if source.is_list:
            guard = {"RANGE": "Load a value of a wider type first: the result is as wide as the wider side."}.get(ending.kind, "")
        return of_source(file, source, Hint(message, token.start, token.end, (guard,) if guard else ()))


def _begins_program(data: bytes) -> bool:
    """Whether a text begins with PROGRAM, behind blanks and comments."""
    return Source(data[:4000]).tokens[0].is_word("PROGRAM")


def _is_list(source: Source, file: str) -> Hint:
    """Said where a list is given to a command that takes Structured Text."""
    token = lines_of(source)[0][0]
    message = ("this is an instruction list, and the command takes Structured Text: `il` runs a list, `vcp_study image` makes an image of it, and "
               f"`vcp_study text` writes it in Structured Text (`vcp_tools explain --all il {file} --cycles 0` names its faults)")
    return Hint(message, token.start, token.end)


def _limit(fault: FaultLine) -> str:
    return {
        "L1": "the file is longer than its limit",
        "L6": "the image's operations, outputs and cycle borders are too many for one audit: take a smaller horizon",
        "L7": "the cycles and the image's operations are too many for a campaign: take fewer rows, as those round the faults",
        "L8": "the second channel is to have another seed than the image: take another number for SEED",
    }.get(fault.code, "this code is unknown to the tools")


def _bytes(file: str) -> bytes:
    """The bytes of a file, or none where it can't be read any more."""
    try:
        return Path(file).read_bytes()
    except OSError:
        return b""


def _image(file: str) -> Image:
    return read_image(_bytes(file), file)


def said_by_program(line: str, code: str) -> list[str]:
    """The program's own line, and below it what the documents say of its code."""
    meaning = meanings().get(code, "").replace("`", "")
    wrapped = textwrap.wrap(meaning, WIDTH, initial_indent="      ", subsequent_indent="      ")
    return [f"vcp:  {line}", *wrapped]


def explain_call(words: Sequence[str], of: str | None = None, origin: Origin | None = None, as_list: bool = False) -> int:
    """Runs the program with these words, and explains what it says; `of` is the source of the image, and `origin` the text from which the program was
    written, where they are given; `as_list` says that a source that can't be told is a list. The status is the program's own."""
    outcome = Program.found().call(*words)
    explainer = Explainer(words)
    fault = read_fault(outcome.fault) if outcome.fault else None
    lines = outcome.text.rstrip("\n").split("\n")
    ending = read_ending(lines[-1])
    if fault is not None:
        told = fault.text if fault.code != "usage" else outcome.errors.split("\n")[0]
        _print(_with_origin(explainer.fault(fault).lines(), origin) + said_by_program(told, fault.code))
    elif ending is not None and outcome.status in (2, 3):
        _print(_with_origin(explainer.ending(ending).lines(), origin) + [f"vcp:  {ending.text}"])
    else:
        accepted = [*explainer.unreached(outcome.text), *explainer.unseen(outcome.text, of, as_list)] if outcome.status == 0 else []
        for warning in [*explainer.silent_rows(), *accepted]:
            _print(warning.lines())
        sys.stdout.flush()
        sys.stdout.buffer.write(outcome.output)
        sys.stdout.buffer.flush()
        if outcome.errors:
            print(outcome.errors, end="", file=sys.stderr)
        if outcome.status < 0 or outcome.status > 8:
            raise Refusal(f"vcp {' '.join(words)}: it was killed (status {outcome.status}): the machine's stack or memory is too small, or the host ended it")
    return outcome.status


def explain_lines() -> int:
    """Explains each line of error that stands on standard input; other lines are printed as they are. The status is 9 where there is one."""
    status = FINE
    if sys.stdin is None:
        raise Refusal("explain: words are missing, and standard input, from which lines of error are read without them, is closed")
    for line in sys.stdin:
        line = line.rstrip("\n")
        fault, ending = read_fault(line), read_ending(line)
        if fault is not None and fault.code != "usage":
            _print(Explainer(()).fault(fault).lines() + said_by_program(line, fault.code))
            status = FOUND
        elif ending is not None:
            _print(Explainer(()).ending(ending).lines() + [f"vcp:  {line}"])
            status = FOUND
        else:
            print(line)
    return status


def explain_all(words: Sequence[str]) -> int:
    """Explains each fault of the source that the words name, stepping over those that it can. The status is the program's own."""
    if len(words) < 2:
        raise Refusal("explain --all: it looks at a source: give words as `check P`")
    file = words[1]
    if words[0] != "il" and tells_list(Source(_bytes(file))):
        return explain_call(words)
    found = all_list_hints(Program.found(), file) if words[0] == "il" else all_hints(Program.found(), file)
    told: set[str] = set()
    for line, source, hint in sorted(found.hints, key=lambda it: it[2].start):
        lines = of_source(file, source, hint).lines()
        kind = re.sub(r"`[^`]*`|[0-9]+:[0-9]+", "", hint.message)
        _print(lines[:1] if kind in told else lines + [f"vcp:  {line}"] * bool(line))
        told.add(kind)
    if not found.hints:
        return explain_call(words)
    if words[0] != "il" and any(not line and "REAL" not in hint.message for line, _, hint in found.hints):
        print(f"{file}: `vcp_tools lower` writes a program for much of what the profile lacks, as timers, blocks and arrays (docs/TOOLS.md, 'lower')")
    tail = f"; {found.left_out}" if found.left_out else ""
    left = f"; {found.suspected} more may follow from these" if found.suspected else ""
    print(f"{file}: {len(found.hints)} to mend{left}{tail}")
    return REFUSED


def _with_origin(lines: list[str], origin: Origin | None) -> list[str]:
    """What is printed of a fault, with the line of the text from which the program was written, where that is given."""
    place = re.match(r"[^\n]*?:(\d+):\d+: ", lines[0])
    return lines if origin is None or place is None else [origin.renamed(lines[0]), *lines[1:], *origin.told(int(place[1]))]


def _print(lines: Sequence[str]) -> None:
    print("\n".join(lines))


def add_words(parser: argparse.ArgumentParser) -> None:
    """The words of `explain`."""
    parser.add_argument("--all", action="store_true", help="go on behind each fault of a source or an instruction list that can be stepped over")
    parser.add_argument("--source", metavar="P", help="the source of the image, by which faults that are missed are named with their variables")
    parser.add_argument("--from", dest="original", metavar="ORIGINAL", help=WORDS)
    add_form_word(parser)
    parser.add_argument("words", nargs=argparse.REMAINDER, help="words of vcp, as `check P`; without any, lines of error are read from standard input")


def run(given: argparse.Namespace) -> int:
    """Does what the words of `explain` ask for."""
    words = given.words[1:] if given.words[:1] == ["--"] else given.words
    if not words:
        return explain_lines()
    if given.all:
        return explain_all(words)
    return explain_call(words, given.source, None if given.original is None or len(words) < 2 else Origin(words[1], given.original), given.as_list)
