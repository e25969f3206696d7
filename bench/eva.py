#!/usr/bin/env python3
"""bench/eva.py [--precision N] [--seconds S] P..: what Frama-C's Eva leaves open of the operations that may stop, beside `vcp_study ranges`.

Each program is compiled by `vcp`, and its graph written as a C program: an endless loop with one assignment for each operation, inputs of any value of
their types, and an assertion for each operation whose result may be outside its type or whose divisor may be 0. Sums in assertions are of
mathematical integers, so nothing in them runs over. Eva proves an assertion or leaves it open.
A line for each program: the assertions, those that Eva leaves open and its seconds, and what `ranges` names and its seconds.
`VCP` and `VCP_STUDY` name the programs; `frama-c` is Debian's `frama-c-base`.
"""
from __future__ import annotations

import argparse
import csv
import os
import subprocess
import sys
import tempfile
import time
from pathlib import Path

ROOT = Path(__file__).resolve().parent.parent
sys.path.insert(0, str(ROOT / "tools"))

from vcp_tools.read.image import Image, Operation, read_image  # noqa: E402  (found by the path above)

LEAST = {"BOOL": 0, "INT": -(2**15), "DINT": -(2**31), "LINT": -(2**63)}
GREATEST = {"BOOL": 1, "INT": 2**15 - 1, "DINT": 2**31 - 1, "LINT": 2**63 - 1}
SIGNS = {"ADD": "+", "SUB": "-", "MUL": "*", "DIV": "/", "MOD": "%", "EQ": "==", "LT": "<", "AND": "&", "OR": "|", "XOR": "^"}
ARITHMETIC = {"ADD", "SUB", "MUL", "NEG", "CONV"}


def number(value: int) -> str:
    """A value as C has it: the least LINT is no literal."""
    return "(-9223372036854775807LL - 1)" if value == LEAST["LINT"] else f"{value}LL"


def assigned(operation: Operation) -> str:
    """The value of an operation in terms of those that it reads."""
    values = [f"v{it}" for it in operation.operands]
    match operation.kind:
        case "INPUT":
            return f"Frama_C_long_long_interval({number(LEAST[operation.type])}, {number(GREATEST[operation.type])})"
        case "CONST":
            return number(operation.own)
        case "LOAD":
            return f"c{operation.own}"
        case "NEG":
            return f"-{values[0]}"
        case "NOT":
            return f"!{values[0]}"
        case "SEL":
            return f"{values[0]} ? {values[2]} : {values[1]}"
        case "STORE" | "OUT" | "CONV":
            return values[0]
    return f"{values[0]} {SIGNS[operation.kind]} {values[1]}"


def asserted(image: Image, operation: Operation) -> str | None:
    """What has to hold for an operation not to stop; None where it can't stop."""
    least, greatest = LEAST[operation.type], GREATEST[operation.type]
    values = [f"v{it}" for it in operation.operands]
    if operation.kind in ("DIV", "MOD"):
        ends = f" && !({values[0]} == {least} && {values[1]} == -1)" if operation.kind == "DIV" else ""
        return f"{values[1]} != 0{ends}"
    if operation.kind == "CONV" and LEAST[image.operations[operation.operands[0]].type] >= least:
        return None
    if operation.kind in ARITHMETIC:
        return f"{least} <= {assigned(operation)} <= {greatest}"
    return None


def c_text(image: Image) -> str:
    """The graph as a C program."""
    lines = ['#include "__fc_builtin.h"', "int main(void) {"]
    lines += [f"  long long c{at} = {number(cell.initial)};" for at, cell in enumerate(image.cells)]
    lines += ["  while (1) {"]
    for operation in image.operations:
        condition = asserted(image, operation)
        if condition is not None:
            lines.append(f"    /*@ assert operation_{operation.number}: {condition}; */")
        lines.append(f"    long long v{operation.number} = {assigned(operation)};")
    lines += [f"    c{at} = v{cell.store};" for at, cell in enumerate(image.cells)]
    return "\n".join(lines + ["  }", "}", ""])


def open_assertions(folder: Path, precision: int, seconds: float) -> tuple[int, int, float] | None:
    """How many assertions Eva is asked for, how many it leaves open, and its seconds; None where it doesn't end in time."""
    begin = time.monotonic()
    words = ["frama-c", "-eva", f"-eva-precision={precision}", "-eva-verbose=0", str(folder / "graph.c"), "-then", "-report-csv", str(folder / "properties.csv")]
    try:
        done = subprocess.run(words, capture_output=True, text=True, timeout=seconds, check=False)
    except subprocess.TimeoutExpired:
        return None
    if done.returncode != 0:
        raise SystemExit(f"frama-c: status {done.returncode}\n{done.stdout[-2000:]}{done.stderr[-2000:]}")
    with open(folder / "properties.csv", encoding="utf-8") as told:
        rows = [row for row in csv.DictReader(told, delimiter="\t") if row["property kind"] == "user assertion"]
    return len(rows), sum(row["status"] != "Valid" for row in rows), time.monotonic() - begin


def ranges_of(image: Path) -> tuple[int, int, float]:
    """How many operations can stop, how many `vcp_study ranges` names, and its seconds."""
    begin = time.monotonic()
    study = os.environ.get("VCP_STUDY", str(ROOT / "vcp_study"))
    last = subprocess.run([study, "ranges", str(image)], capture_output=True, text=True, check=False).stdout.rstrip("\n").split("\n")[-1]
    words = last.split()
    return int(words[-1]), int(words[-3]), time.monotonic() - begin


def main() -> int:
    """A line for each program."""
    parser = argparse.ArgumentParser(description=__doc__.split("\n", 1)[0])
    parser.add_argument("--precision", type=int, default=5)
    parser.add_argument("--seconds", type=float, default=120)
    parser.add_argument("programs", nargs="+", type=Path, metavar="P")
    asked = parser.parse_args()
    print("| program | operations | can stop | Eva leaves open | seconds | `ranges` names | seconds |\n|---|---|---|---|---|---|---|")
    for program in asked.programs:
        with tempfile.TemporaryDirectory() as name:
            folder = Path(name)
            made = subprocess.run([os.environ.get("VCP", str(ROOT / "vcp")), "compile", str(program)], capture_output=True, check=True).stdout
            (folder / "image").write_bytes(made)
            image = read_image(made, str(program))
            (folder / "graph.c").write_text(c_text(image), encoding="ascii")
            can_stop, named, ours = ranges_of(folder / "image")
            found = open_assertions(folder, asked.precision, asked.seconds)
        eva = f"{found[1]} of {found[0]} | {found[2]:.1f}" if found else f"doesn't end | above {asked.seconds:.0f}"
        print(f"| `{program.stem}` | {len(image.operations)} | {can_stop} | {eva} | {named} | {ours:.2f} |", flush=True)
    return 0


if __name__ == "__main__":
    sys.exit(main())
