"""A program made up for tests of what calls `vcp` and `vcp_study`: it prints the lines of docs/FORMATS.md, and its verdicts mean nothing.

    made_up.py vcp (exec M ROWS | inject M ROWS F), with `--cycles N` for ROWS, too
    made_up.py vcp_study (ranges M | sites M CYCLES CLASS [FROM COUNT | --count] | sum M SCRIPT VERDICTS [SCRIPT VERDICTS].. [ROWS])

FOUND=1 before it is the status where something is found, as before there was one of its own; else that is 9.
"""
from __future__ import annotations

import os
import sys
from pathlib import Path
from typing import Iterator, Sequence

VERDICTS = ("same", "wrong", "ran-on", "refused", "stopped")
OPERATIONS = 40
STANDS = "stands in a cell"
IMAGE = bytes.fromhex(
    "564350414e42440a" "0001" "0001" "00000000" "00000002" "00000001" "00000001" "00000000" "00000000" "00000004" "0000000178" "0000000179"
    "0000000002" "000000010200000003"
    "000202" "000000000000000000000000" "0000000000000000" "00000002" "0000000b" "00000000" "00000000"
    "010202" "000000000000000000000000" "0000000000000001" "00000004" "0000000a" "00000000" "0ccccccd"
    "080202" "000000000000000100000000" "0000000000000000" "00000004" "00000008" "00000000" "0ccccccd"
    "040202" "000000020000000000000000" "0000000000000000" "00000003" "0000000c" "00000000" "0ccccccd")
"""The image of `y := x + 1` that docs/FORMATS.md has."""


def install(folder: Path) -> dict[str, str]:
    """Puts both programs into a folder, and gives the variables that name them."""
    named = {}
    for name in ("vcp", "vcp_study"):
        file = folder / f"made_up_{name}"
        file.write_text(f'#!/bin/sh\nexec "{sys.executable}" -BES "{Path(__file__).resolve()}" {name} "$@"\n', encoding="utf-8")
        file.chmod(0o755)
        named[name.upper()] = str(file)
    return named


def groups(script: str) -> Iterator[tuple[int, list[list[str]]]]:
    """The groups of a script: the line of the first fault of each, and the words of its faults."""
    inside: tuple[int, list[list[str]]] | None = None
    for number, line in enumerate(script.split("\n"), 1):
        words = line.split()
        if not words or line.startswith("#"):
            continue
        if words[0] == "begin":
            inside = (0, [])
        elif words[0] == "end" and inside:
            yield inside
            inside = None
        elif inside is not None:
            inside = (inside[0] or number, [*inside[1], words])
        else:
            yield number, [words]


def verdict(faults: Sequence[Sequence[str]]) -> str:
    """Some verdict on a group."""
    number = sum(7 * int(words[1]) + 3 * int(words[2]) for words in faults) % 12
    return ("wrong" if number == 5 else "ran-on" if number == 7 else "stopped" if number == 9 else "refused") if number % 2 else "same"


def verdict_line(number: int, faults: Sequence[Sequence[str]], cycles: int = 1 << 30) -> str:
    """The line of a group's verdict over so many cycles."""
    found, cycle = verdict_over(faults, cycles), faults[0][1]
    rest = {"same": "", "wrong": f" {cycle} y got 1 want 0", "ran-on": f" {cycle}", "refused": f" {cycle} y found 1 expected 2", "stopped": f" {cycle} 2 RANGE"}
    return f"{number} {found}{rest[found]}"


def totals_of(found: Sequence[str]) -> str:
    """The line of totals."""
    return f"faults {len(found)}" + "".join(f" {name} {found.count(name)}" for name in VERDICTS)


def end_of(faults: Sequence[Sequence[str]], cycles: int) -> str:
    """How some group that is `same` ends."""
    cycle, operation = int(faults[0][1]), int(faults[0][2])
    return "never reached" if cycle >= cycles else STANDS if operation % 3 == 0 else "died out"


def rows_of(file: str) -> int:
    """The cycles of a rows file."""
    return len([line for line in Path(file).read_text(encoding="utf-8").splitlines() if line]) - 1


def cycles_over(words: Sequence[str]) -> int:
    """The cycles that words stand for which begin with ROWS, or with `--cycles N`."""
    return int(words[1]) if words[0] == "--cycles" else rows_of(words[0])


def verdict_over(faults: Sequence[Sequence[str]], cycles: int) -> str:
    """The verdict on a group over so many cycles: a group that isn't reached is `same`."""
    return verdict(faults) if int(faults[0][1]) < cycles else "same"


def summed(files: Sequence[str]) -> list[str]:
    """What is printed of scripts with their verdicts, and of ROWS where they stand behind these. MISCOUNT=1 before it is another sum of several scripts."""
    cycles = rows_of(files[-1]) if len(files) % 2 else None
    found: list[tuple[int, list[list[str]]]] = []
    told: list[str] = []
    pairs = list(zip(files[::2], files[1::2]))
    for number, (script, verdicts) in enumerate(pairs, 1):
        found += groups(Path(script).read_text(encoding="utf-8"))
        told += [f"{number}:" * (len(pairs) > 1) + line for line in Path(verdicts).read_text(encoding="utf-8").splitlines()[:-1]]
    if len(pairs) > 1 and os.environ.get("MISCOUNT"):
        found, told = found[1:], told[1:]
    return [*sums(found, told, cycles), totals_of([line.split()[1] for line in told])]


def sums(found: Sequence[tuple[int, list[list[str]]]], told: Sequence[str], cycles: int | None) -> Iterator[str]:
    """The tables of verdicts, and the faults that aren't seen."""
    tables: dict[str, dict[str, list[str]]] = {"by what the fault does": {}, "by where it stands": {}, "by where it shows": {},
                                               "by how many cycles later it shows": {}}
    if cycles is not None:
        tables["by how it ends where it shows nowhere"] = {}
    for line, (_, faults) in zip(told, found):
        word = line.split()[1]
        for title, names in (("by what the fault does", {words[0] + (f" {words[-2]}" if words[0] != "skip" else "") for words in faults}),
                             ("by where it stands", {f"operation {int(words[2])} ADD at 4:8" for words in faults}),
                             ("by where it shows", {"output y"} if word in ("wrong", "refused") else set()),
                             ("by how many cycles later it shows", {"after 0"} if word != "same" else set()),
                             ("by how it ends where it shows nowhere", {end_of(faults, cycles)} if word == "same" and cycles is not None else set())):
            for name in names:
                tables[title].setdefault(name, []).append(word)
    for title, rows in tables.items():
        yield f"  faults    same   wrong  ran-on refused stopped  {title}"
        for name in sorted(rows, key=lambda it: (int(it.split()[1]), it) if it.startswith("operation") else (0, it)):
            yield "".join(f"{number:8d}" for number in (len(rows[name]), *(rows[name].count(word) for word in VERDICTS))) + f"  {name}"
    for line, (_, faults) in zip(told, found):
        if line.split()[1] in ("wrong", "ran-on"):
            yield line
            yield from (f"  {' '.join(words)}: operation {words[2]} ADD at 4:8" for words in faults)
    for line, (_, faults) in zip(told, found):
        if line.split()[1] == "same" and cycles is not None and end_of(faults, cycles) == STANDS:
            yield f"{line.split()[0]} {STANDS}"
            yield from (f"  {' '.join(words)}: operation {words[2]} ADD at 4:8" for words in faults)


def main(words: Sequence[str]) -> int:
    """Does what the words say, and gives the status."""
    command, image = words[1], Path(words[2]).read_bytes()
    found = int(os.environ.get("FOUND", "9"))
    if command == "exec":
        cycles = cycles_over(words[3:])
        sys.stdout.write("cycle,y\n" + "".join(f"{cycle},0\n" for cycle in range(cycles)) + f"end {cycles}\n")
    elif command == "inject":
        cycles = cycles_over(words[3:])
        found_groups = groups(Path(words[-1]).read_text(encoding="utf-8"))
        told = [(verdict_line(number, faults, cycles), verdict_over(faults, cycles)) for number, faults in found_groups]
        sys.stdout.write("".join(line + "\n" for line, _ in told) + totals_of([it for _, it in told]) + "\n")
    elif command == "ranges":
        stops = len(image) % 2
        sys.stdout.write("operation 2 ADD at 4:8 RANGE of 0 LOAD t 0..9 and 1 CONST 1..1\n" * stops + f"may stop {stops} of 1\n")
        return found if stops else 0
    elif command == "sites":
        cycles = rows_of(words[3]) if words[4] in ("flips", "late") else int(words[3])
        first = 1 if words[4] in ("skip", "stale") else 0
        form = {"skip": "skip {} {}", "stale": "operand {} {} 0 stale"}.get(words[4], "result {} {} add 1")
        lines = [form.format(cycle, operation) for cycle in range(first, cycles) for operation in range(OPERATIONS)]
        if words[5:] == ["--count"]:
            print(len(lines))
            return 0
        import hashlib  # here alone, since it takes long to load
        start, count = (int(words[5]), int(words[6])) if len(words) > 6 else (0, len(lines))
        sys.stdout.write("\n".join([f"# sites {words[4]} of {hashlib.sha256(image).hexdigest()}", *lines[start : start + count], ""]))
    elif command == "sum":
        printed = summed(words[3:])
        sys.stdout.write("".join(line + "\n" for line in printed))
        return 0 if " wrong 0 ran-on 0 " in printed[-1] else found
    return 0


if __name__ == "__main__":
    try:
        sys.exit(main(sys.argv[1:]))
    except FileNotFoundError as lacking:
        print(f"{lacking.filename} read fault", file=sys.stderr)
        sys.exit(5)
