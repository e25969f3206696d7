#!/usr/bin/env python3
"""Whether each example of a fault of types or of instruction lists in docs/ERRORS.md is refused with its code, at the place that the page says.

    checks/refusals.py

It uses the program that is built, or that of VCP=FILE; without one nothing is tried. Each row below has the code, the example as it stands on the page, and
the same in a program, with `@` before the place at which the fault is to be reported. It prints what isn't so, and which examples of the page have no row; its
status is then 1.
"""
import os
import re
import subprocess
import sys
import tempfile
from pathlib import Path

TOP = Path(__file__).resolve().parent.parent
PROGRAM = """PROGRAM p
VAR_INPUT inp : INT; END_VAR
VAR_OUTPUT q : INT; END_VAR
VAR i, r, k, x, y : INT; d : DINT; b : BOOL; {declaration} END_VAR
VAR CONSTANT C : INT := 3; END_VAR
{statement}
END_PROGRAM
"""
LISTING = """PROGRAM p
VAR_INPUT x : DINT; b : BOOL; END_VAR
VAR_OUTPUT y : DINT; q : BOOL; END_VAR
VAR {declaration}n : INT; END_VAR
VAR CONSTANT C : DINT := 3; END_VAR
{statement}
"""
DECLARATIONS = [
    ("T1", "a, A : INT;", "a, @A : INT;"),
    ("T5", "a : INT := 1 + 2;", "a : INT := 1 @+ 2;"),
    ("Q6", "_acc_int : INT;", "@_acc_int : INT; "),
]
STATEMENTS = [
    ("T2", "q := zz;", "q := @zz;"),
    ("T3", "r := d;", "@r := d;"),
    ("T3", "d := 2147483648;", "@d := 2147483648;"),
    ("T3", "i + b", "i := i @+ b;"),
    ("T3", "INT_TO_LINT(d)", "d := @INT_TO_LINT(d);"),
    ("T3", "IF i THEN", "@IF i THEN END_IF;"),
    ("T4", "i := 1;", "@inp := 1;"),
    ("T4", "i := 1;", "@C := 1;"),
    ("T4", "i := 1;", "FOR k := 1 TO 3 DO @k := 1; END_FOR;"),
    ("T5", "FOR k := 1 TO d DO", "FOR k := 1 TO @d DO END_FOR;"),
    ("T5", "TO 40000", "FOR k := 1 TO @40000 DO END_FOR;"),
    ("T5", "TO TRUE", "FOR k := 1 TO @TRUE DO END_FOR;"),
    ("T5", "BY 0", "FOR k := 1 TO 3 BY @0 DO END_FOR;"),
    ("T6", "5..3", "CASE i OF @5..3: END_CASE;"),
    ("T6", "1..x", "CASE i OF @1..x: END_CASE;"),
    ("T6", "TRUE", "CASE i OF @TRUE: END_CASE;"),
    ("T7", "FOO(1)", "i := @FOO(1);"),
    ("T7", "MIN(i, d, d)", "d := @MIN(i, d, d);"),
    ("T8", "INT#32768", "i := @INT#32768;"),
    ("T8", "DINT#2147483648", "d := @DINT#2147483648;"),
    ("T8", "BOOL#2", "b := @BOOL#2;"),
    ("Q1", "LD", "LD x\n@LD"),
    ("Q1", "LD x y", "LD x\n@LD x y"),
    ("Q1", "NOT q", "LD b\n@NOT q"),
    ("Q1", "ADD( x", "LD x\n@ADD( x"),
    ("Q1", "JMP next", "LD x\n@JMP next"),
    ("Q1", "next: LD x", "LD x\n@next: LD x"),
    ("Q1", "LD x END_PROGRAM", "@LD x END_PROGRAM"),
    ("Q2", "LD zz", "LD @zz"),
    ("Q2", "LD C", "LD @C"),
    ("Q2", "LD INT#40000", "LD @INT#40000"),
    ("Q3", "ST x", "LD x\nST @x"),
    ("Q3", "S TRUE", "LD b\nS @TRUE"),
    ("Q4", "ADD 1", "@ADD 1"),
    ("Q5", "AND b", "LD x\n@AND b"),
    ("Q5", "NOT", "LD x\n@NOT"),
    ("Q5", "S q", "LD x\n@S q"),
    ("Q5", "ST q", "LD x\n@ST q"),
    ("Q5", "ADD 1", "LD b\n@ADD 1"),
    ("Q5", "GT 0", "LD b\n@GT 0"),
    ("Q5", "ST n", "LD x\n@ST n"),
    ("Q5", "LDN x", "@LDN x"),
]
# What stands in backquotes beside the examples, and is none itself.
BESIDE = {"zz", "i", "LD x", "LD b"}


def text_of(code, at, marked):
    """A program with a marked declaration or statement, without the mark, and the line and column of the mark."""
    parts = {"declaration": "", "statement": "LD x" if code == "Q6" else ""} | {at: marked}
    if code.startswith("Q") and not parts["statement"].endswith("END_PROGRAM"):
        parts["statement"] += "\nEND_PROGRAM"
    text = (LISTING if code.startswith("Q") else PROGRAM).format(**parts)
    before = text[: text.index("@")]
    return text.replace("@", "", 1), f"{before.count(chr(10)) + 1}:{len(before) - before.rfind(chr(10))}"


def examples_on_the_page():
    """Pairs of a code and an example of its item."""
    text = (TOP / "docs" / "ERRORS.md").read_text(encoding="utf8")
    for code, examples in re.findall(r"^- `([TQ]\d) \w+`(?:(?!^- ).)*?^  - Examples?: (.*?)^  - ", text, re.M | re.S):
        for example in re.findall(r"`([^`]+)`", examples):
            if example not in BESIDE:
                yield code, example


def faults(vcp, folder):
    rows = [(*row, "declaration") for row in DECLARATIONS] + [(*row, "statement") for row in STATEMENTS]
    page = set(examples_on_the_page())
    for code, example in sorted({row[:2] for row in rows} ^ page):
        yield f"ERRORS: {code}: the example `{example}` {'has no row' if (code, example) in page else 'is not on the page'}"
    for code, example, marked, at in rows:
        text, place = text_of(code, at, marked)
        Path(folder, "p").write_text(text, encoding="utf8")
        words = ["il", "p", "--cycles", "1"] if code.startswith("Q") else ["check", "p"]
        done = subprocess.run([vcp, *words], cwd=folder, capture_output=True, text=True, check=False)
        if not done.stderr.startswith(f"p:{place} {code} "):
            yield f"ERRORS: {code}: `{example}` is to be refused at {place}, and there came {(done.stderr or done.stdout).strip()}"


def main():
    vcp = Path(os.environ.get("VCP") or TOP / "crates" / "vcp" / "out" / "vcp").resolve()
    if not os.access(vcp, os.X_OK):
        print("refusals: no program is built, so that none is tried")
        return
    with tempfile.TemporaryDirectory() as folder:
        found = list(faults(vcp, folder))
    print("\n".join(found) or f"refusals: {len(DECLARATIONS) + len(STATEMENTS)} examples are refused as ERRORS says")
    sys.exit(1 if found else 0)


main()
