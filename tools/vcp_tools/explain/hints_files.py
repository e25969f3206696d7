"""What is said of words of no form, of files that can't be read, of scripts (F1 to F6) and of images (I1 to I7)."""
from __future__ import annotations

import os
import re
from dataclasses import dataclass
from pathlib import Path
from typing import Sequence

from vcp_tools.read.fault_line import FaultLine
from vcp_tools.wording import listed, nearest

FORMS: dict[str, tuple[str, ...]] = {
    "check": ("P",), "format": ("P",), "plain": ("P", "ROWS"), "run": ("P", "ROWS", "CODE"), "compile": ("P", "CODE"), "list": ("M",),
    "exec": ("M", "ROWS"), "trace": ("M", "ROWS", "CYCLE"), "widen": ("M",), "audit": ("M", "HORIZON"), "inject": ("M", "ROWS", "F"),
    "il": ("P", "ROWS", "CODE"), "pair": ("M", "ROWS", "SEED"), "pairs": ("M", "ROWS", "SEED", "F"),
    "wire": ("F",), "demo": ("N",),
}
"""The words behind each command; ROWS is a file or `--cycles N`, CODE `--seed N` and `--step N`, each at most once."""
OF_STUDY = ("graph", "dot", "waves", "ranges", "cover", "sites", "script", "sum", "faults", "image", "text")
"""The commands of `vcp_study`."""
KINDS: dict[str, int] = {
    "INPUT": 0, "CONST": 0, "LOAD": 1, "STORE": 1, "OUT": 1, "CONV": 1, "NEG": 1, "NOT": 1, "ADD": 2, "SUB": 2, "MUL": 2, "DIV": 2, "MOD": 2,
    "EQ": 2, "LT": 2, "AND": 2, "OR": 2, "XOR": 2, "SEL": 3,
}
"""The kinds of operations, each with its number of operands."""
ACTS = ("operand", "result", "operator", "skip")
GROUP_WORDS = ("begin", "end")
_MEANT = {"P": "a source file", "M": "an image", "ROWS": "a rows file, or `--cycles N`", "F": "a script", "CYCLE": "the number of a cycle",
          "HORIZON": "a number of cycle borders", "SEED": "the seed of the second channel", "N": "a number"}
_LIMITS = {"--seed": (0, 1073741823), "--step": (1, 1000), "--cycles": (0, 1000000), "CYCLE": (0, 999999), "HORIZON": (0, 1000),
           "SEED": (0, 1073741823), "N": (0, 4294967295)}


def form_of(command: str) -> str:
    """The form of a command, as it is written."""
    return " ".join(("vcp", command, *FORMS[command])).replace("CODE", "[--seed N] [--step N]")


def words_hint(words: Sequence[str]) -> str:
    """Which word of a call isn't in its place, and why."""
    if not words:
        return f"there is no word: the commands are {listed(FORMS)}"
    command = words[0]
    if command not in FORMS:
        if command.startswith("-"):
            return f"`{command}` is the first word: the command comes first, and options come at the end"
        if command in OF_STUDY:
            return f"`{command}` is a command of `vcp_study`: run that, and give its line of error to `vcp_tools explain` on standard input"
        near = nearest(command, FORMS)
        capitals = ", in small letters" if near and near.upper() == command.upper() else ""
        return f"`{command}` is no command" + (f": did you mean `{near}`{capitals}?" if near else f": there are {listed(FORMS)}")
    return _rest_hint(command, list(words[1:]))


def _rest_hint(command: str, rest: list[str]) -> str:
    """Which word behind a command isn't in its place."""
    form = f"the form is `{form_of(command)}`"
    for place in FORMS[command]:
        if place == "CODE":
            break
        if not rest:
            return f"a word is missing: {_MEANT[place]} in the place of {place}; {form}"
        said = _word_in_place(rest, place)
        if said:
            return f"{said}; {form}"
        del rest[: 2 if rest[0] == "--cycles" else 1]
    return _options_hint(rest, "CODE" in FORMS[command], form)


def _word_in_place(rest: list[str], place: str) -> str | None:
    """What is wrong with the next word in a place of the form; None where it goes there."""
    word = rest[0]
    if place == "ROWS" and word == "--cycles":
        if len(rest) < 2:
            return "a number is missing behind `--cycles`"
        return _number_said(rest[1], "--cycles")
    if "=" in word and word.startswith("--"):
        name, _, value = word.partition("=")
        return f"`{word}` has a `=`: write `{name} {value}`, two words"
    if place in ("P", "M", "F", "ROWS"):
        if word == "":
            return f"an empty word is in the place of {place}"
        if word.startswith("-"):
            return f"`{word}` is in the place of {place}: options follow the files, and no file's name begins with `-`"
        return None
    return _number_said(word, place)


def _number_said(word: str, place: str) -> str | None:
    """What is wrong with a number; None where it is one of the form."""
    least, greatest = _LIMITS[place]
    if re.fullmatch(r"[0-9]{1,10}", word) and least <= int(word) <= greatest:
        return None
    where = f"behind `{place}`" if place.startswith("--") else f"in the place of {place}"
    return f"`{word}` is {where}: a number from {least} to {greatest} is wanted, in one to ten digits"


def _options_hint(rest: list[str], has_code: bool, form: str) -> str:
    """Which of the last words is no option, or stands twice."""
    seen: list[str] = []
    while rest:
        word = rest[0]
        if not has_code or word not in ("--seed", "--step"):
            if word.startswith("--") and "=" in word:
                name, _, value = word.partition("=")
                return f"`{word}` has a `=`: write `{name} {value}`, two words; {form}"
            near = nearest(word, ("--seed", "--step")) if has_code and word.startswith("-") else None
            return f"`{word}` is left over" + (f": did you mean `{near}`?" if near else "") + f"; {form}"
        if word in seen:
            return f"`{word}` occurs twice; {form}"
        if len(rest) < 2:
            return f"a number is missing behind `{word}`; {form}"
        said = _number_said(rest[1], word)
        if said:
            return f"{said}; {form}"
        seen.append(word)
        del rest[:2]
    return form


def reading_hint(name: str) -> str:
    """Why a file can't be read: it is a folder, isn't there, or there is no permission."""
    file = Path(name)
    if file.is_dir():
        return "this is a folder, and a file is wanted"
    if file.exists():
        if not os.access(file, os.R_OK):
            return "the file is there, but there is no permission to read it"
        return "the file is there, but reading it failed"
    folder = file.parent
    if not folder.is_dir():
        return f"there is no folder `{folder}`"
    try:
        near = nearest(file.name, [it.name for it in folder.iterdir()])
    except OSError:
        near = None
    where = "here" if str(folder) == "." else f"in `{folder}`"
    return f"there is no such file {where}" + (f": did you mean `{near}`?" if near else "")


@dataclass(frozen=True)
class ScriptHint:
    """A message about a line of a script, and the characters `start` to `end` of it."""

    message: str
    start: int
    end: int


def script_hint(line: str, code: str, operations: list[str] | None) -> ScriptHint:
    """What is said of a refused line of a script; `operations` are the kinds of the image's operations, where they are known."""
    words = [(match[0], match.start(), match.end()) for match in re.finditer(r"[^ \t]+", line.rstrip("\r"))]
    if code == "F1":
        return _form_hint(words, line)
    if code == "F3":
        return ScriptHint("`stale` and `skip` take a word of the cycle before, and cycle 0 has none: take cycle 1 or later", 0, len(line))
    if code == "F4":
        return _kind_hint(words, operations)
    return _site_hint(words, operations)


def group_hint(lines: Sequence[str], number: int, code: str) -> ScriptHint:
    """What is said of a `begin` or an `end` that stands wrongly (F5), and of a second fault at a place in a group (F6): by the lines before it."""
    changed = ScriptHint("the file has changed since: no fault of a group is in this line", 0, 1)
    if number > len(lines):
        return changed
    begun = 0
    places: dict[tuple[str, str], int] = {}
    for at, text in enumerate(lines[: number - 1], 1):
        words = _words(text)
        if words in (["begin"], ["end"]):
            begun, places = (at if words == ["begin"] else 0), {}
        elif len(words) > 2 and not text.startswith("#"):
            places[words[1], words[2]] = at
    line = lines[number - 1]
    end = max(1, len(line.rstrip()))
    if code == "F6":
        words = _words(line)
        if len(words) < 3:
            return changed
        cycle, operation = words[1], words[2]
        before = places.get((cycle, operation), begun)
        return ScriptHint(f"line {before} of this group changes operation {operation} in cycle {cycle}, too: only one fault of a group is at an "
                          "operation in a cycle", 0, end)
    if _words(line) == ["begin"]:
        said = f"the group of line {begun} has no `end` yet, and a group has none inside it" if begun else "no `end` follows this `begin`"
        return ScriptHint(said, 0, end)
    said = f"the group of line {begun} has no fault" if begun else "no `begin` comes before this `end`"
    return ScriptHint(said, 0, end)


def _words(line: str) -> list[str]:
    return re.findall(r"[^ \t]+", line.rstrip("\r\n"))


def _form_hint(words: list[tuple[str, int, int]], line: str) -> ScriptHint:
    """F1: which word of a fault isn't of its form."""
    whole = ScriptHint("a fault is `operand n k j add e`, `operand n k j from r`, `operand n k j stale`, `result n k add e`, `operator n k KIND` "
                       "or `skip n k`, with the cycle n and the operation k; `begin` and `end` round a group are alone in their line", 0, max(1, len(line)))
    if not words:
        return ScriptHint("a line of blanks alone is no fault: leave it empty, or begin it with `#`", 0, max(1, len(line)))
    for word, start, _ in words:
        if word.startswith(("#", "//", "(*")):
            stands = "a remark has a line of its own, which begins with `#`" if start else "the `#` of a remark comes first in its line"
            return ScriptHint(f"`{word}` begins a remark behind a fault or blanks: {stands}", start, len(line))
    act, start, end = words[0]
    if act not in ACTS:
        if act in GROUP_WORDS:
            return ScriptHint(f"`{act}` is alone in its line", start, words[-1][2])
        near = nearest(act, (*ACTS, *GROUP_WORDS))
        return ScriptHint(f"`{act}` is no fault: " + (f"did you mean `{near}`?" if near else "there are operand, result, operator and skip"), start, end)
    return _fields_hint(words, act) or whole


def _fields_hint(words: list[tuple[str, int, int]], act: str) -> ScriptHint | None:
    """Which field behind the act isn't of its form."""
    names = ["n", "k", "j"] if act == "operand" else ["n", "k"]
    what = {"n": "a cycle", "k": "an operation", "j": "an operand"}
    for index, name in enumerate(names, 1):
        if index >= len(words):
            return ScriptHint(f"the number of {what[name]} ({name}) is missing", words[-1][1], words[-1][2])
        word, start, end = words[index]
        most = 999999 if name == "n" else 4294967295
        if not re.fullmatch(r"[0-9]{1,10}", word) or int(word) > most:
            return ScriptHint(f"`{word}` is where the number of {what[name]} is wanted: {_number_reason(word, most)}", start, end)
    rest = words[len(names) + 1 :]
    if act == "skip":
        return ScriptHint(f"`{rest[0][0]}` is left over behind `skip n k`", rest[0][1], rest[-1][2]) if rest else None
    if act == "operator":
        return _operator_hint(rest, words[-1])
    return _change_hint(rest, act, words[-1])


def _number_reason(word: str, most: int) -> str:
    if re.match(r"0x|16#", word, re.I):
        return "numbers are decimal"
    if re.match(r"[A-Za-z_]", word):
        return "operations have numbers here and no names; `vcp list M` shows which"
    return f"decimal digits, at most {most}"


def _operator_hint(rest: list[tuple[str, int, int]], last: tuple[str, int, int]) -> ScriptHint | None:
    if not rest:
        return ScriptHint("a KIND is missing behind `operator n k`, as ADD", last[1], last[2])
    word, start, end = rest[0]
    if word not in KINDS:
        near = nearest(word, KINDS)
        return ScriptHint(f"`{word}` is no kind: " + (f"did you mean {near}?" if near else f"there are {listed(KINDS, 19)}"), start, end)
    return ScriptHint(f"`{rest[1][0]}` is left over behind the kind", rest[1][1], rest[-1][2]) if len(rest) > 1 else None


def _change_hint(rest: list[tuple[str, int, int]], act: str, last: tuple[str, int, int]) -> ScriptHint | None:
    """What is wrong with `add e`, `from r` or `stale`."""
    forms = "`add e`, `from r` or `stale`" if act == "operand" else "`add e`"
    if not rest:
        return ScriptHint(f"{forms} is missing", last[1], last[2])
    change, start, end = rest[0]
    if change not in (("add", "from", "stale") if act == "operand" else ("add",)):
        return ScriptHint(f"`{change}` is where {forms} is wanted", start, end)
    wanted = 0 if change == "stale" else 1
    if len(rest) - 1 < wanted:
        return ScriptHint(f"a number is missing behind `{change}`", start, end)
    if len(rest) - 1 > wanted:
        return ScriptHint(f"`{rest[wanted + 1][0]}` is left over behind `{change}`", rest[wanted + 1][1], rest[-1][2])
    if wanted:
        number, number_start, number_end = rest[1]
        return ScriptHint(f"`{number}` follows `{change}`: a decimal number is wanted, at most 2^62 in size", number_start, number_end)
    return None


def _number(words: list[tuple[str, int, int]], index: int) -> int:
    return int(words[index][0]) if index < len(words) and words[index][0].isdigit() else 0


def _site_hint(words: list[tuple[str, int, int]], operations: list[str] | None) -> ScriptHint:
    """F2: no such operation, or no such operand of it."""
    start, end = words[0][1], words[-1][2]
    k = _number(words, 2)
    if operations is None:
        return ScriptHint(f"the image has no operation {k}, or that operation has no such operand: `vcp list M` shows them", start, end)
    if k >= len(operations):
        return ScriptHint(f"the image has no operation {k}: its operations are 0 to {len(operations) - 1}", words[2][1], words[2][2])
    kind = operations[k]
    if words[0][0] == "operand" and _number(words, 3) >= KINDS[kind]:
        has = f"operands 0 to {KINDS[kind] - 1}" if KINDS[kind] else "no operand"
        return ScriptHint(f"operation {k} is {kind}, and has {has}", words[3][1], words[3][2])
    return ScriptHint(f"the operation behind `from` is to be an earlier one than {k}", start, end)


def _kind_hint(words: list[tuple[str, int, int]], operations: list[str] | None) -> ScriptHint:
    """F4: another number of operands."""
    word, start, end = words[3]
    k = _number(words, 2)
    own = operations[k] if operations and k < len(operations) else None
    has = f", and operation {k} is {own}, with {KINDS[own]}" if own else ", and the operation another number"
    alike = listed((kind for kind, count in KINDS.items() if own and count == KINDS[own]), 19)
    return ScriptHint(f"{word} takes {KINDS.get(word, 0)} operands{has}" + (f": take one of {alike}" if own else ""), start, end)


def image_hint(fault: FaultLine, data: bytes) -> str:
    """What is said of a file that is no image."""
    if fault.code == "I1":
        head = data[:200].decode("latin-1")
        if re.search(r"\bPROGRAM\b", head, re.I) or data[:2] in (b"(*", b"//"):
            return "this file is a source, and an image is wanted, as `vcp compile P >M` writes it (were the two exchanged?)"
        if data == b"":
            return "the file is empty, and an image is wanted (did `vcp compile` fail before?)"
        return "this file is no image, as `vcp compile P >M` writes it: it begins otherwise"
    if fault.code == "I2":
        return "the image has a version that this program doesn't know: compile the source again"
    if fault.code == "I3":
        return f"the image is cut off after {fault.first} bytes: copy or compile it again"
    if fault.code == "I6":
        return "a correction was changed, or was made with other signatures: this image is damaged, compile the source again"
    if fault.code == "I7":
        return f"bytes are left behind the image, from byte {fault.first} on: it was appended to, compile the source again"
    return f"the field at byte {fault.first} breaks its rule: the image is damaged, compile the source again"


WIRE_LINES = {"wire": "wire SENDERS LISTEN AGE SEED STEP", "cycle": "cycle V ..", "deliver": "deliver ID NUMBER ALTER"}
"""The lines of the script of a wire, by their first words."""


def wire_hint(line: str, code: str) -> str:
    """G1 to G3: what is wrong with a line of the script of a wire."""
    words = _words(line)
    if code == "G3":
        return "no such telegram was sent above this line: there is no such sender, or its cycle hasn't begun"
    if code == "G2":
        if words and words[0] == "cycle":
            return "a cycle has one value for each sender of the first line, each from -2147483648 to 2147483647"
        if words and words[0] == "deliver":
            return "what is added to the word is from -4611686018427387904 to 4611686018427387904"
        return "SENDERS is 1 to 16, LISTEN below it, AGE 0 to 999999, SEED 0 to 1073741823 and STEP 1 to 1000"
    if words and words[0] in WIRE_LINES:
        return f"the form is `{WIRE_LINES[words[0]]}`, with numbers; the line `wire ..` comes first, and once"
    near = nearest(words[0], WIRE_LINES) if words else None
    return "the lines are " + listed([f"`{it}`" for it in WIRE_LINES.values()]) + (f": did you mean `{near}`?" if near else "")
