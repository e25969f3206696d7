#!/usr/bin/env python3
"""Whether `vcp_study dot` writes of each program of examples/ the text that docs/FORMATS.md describes, and whether Graphviz takes it.

    checks/graph_texts.py

The text is made here from the picture of `vcp_study graph`, from its boxes and lines, with the places of constants from `vcp list`. Of a graph the form of the
text leaves nothing free; for which output a constant is blind doesn't stand in the picture, and isn't compared. With VCP=FILE and
VCP_STUDY=FILE before it other programs than the built ones are taken. Without Graphviz's `dot` the texts are compared alone. Its status is 1 where something
differs, and then the name of the example is printed with the first line that does.
"""
import html
import os
import re
import shutil
import subprocess
import sys
import tempfile
from pathlib import Path

TOP = Path(__file__).resolve().parent.parent
HORIZON = "2"
HEAD = [
    "digraph {",
    'graph [ rankdir="LR" nodesep="0.15" ranksep="0.3" fontname="monospace" fontsize="9" ];',
    'graph [ label="red: blind for the output that it names, so many cycles later; grey: reaches no output" ];',
    'node [ fontname="monospace" fontsize="9" style="filled" margin="0.06" width="0" height="0" ];',
    'edge [ fontname="monospace" fontsize="8" arrowsize="0.5" labeldistance="1.4" ];',
]
SHAPES = {"INPUT": "ellipse", "OUT": "ellipse", "LOAD": "cylinder", "STORE": "cylinder", "CONST": "plaintext"}
FILLS = {"plain": "#ffffff", "unreached": "#dddddd", "blind": "#ff9999"}


class Box:
    """A box of the picture: its number, kind, name or value, place and what it is blind for, and its class."""

    def __init__(self, look, words):
        number, self.kind = words[0].split(" ")
        self.number, self.look, self.own, self.place = int(number), look, words[1], words[2]
        self.blind = f"\\nblind: {words[3]}" if len(words) > 3 else ""

    def node(self, name, label):
        return f'{name} [ label="{label}{self.blind}" shape="{SHAPES.get(self.kind, "box")}" fillcolor="{FILLS[self.look]}" ];'


def words_behind(rows, i):
    """What the texts behind a row say."""
    words = []
    while rows[i + 1 + len(words)].startswith("<text"):
        words.append(html.unescape(re.sub(r"<[^>]*>", "", rows[i + 1 + len(words)])))
    return words


def parts_of(picture, places):
    """The boxes of a picture; and of its lines and constants the reader's number, which operand it is, the operand's number, and the box of a constant."""
    boxes, reads = [], []
    rows = picture.split("\n")
    for i, row in enumerate(rows):
        if line := re.match(r'<line data-operand="(\d+)" data-reader="(\d+)" data-place="(\d+)"', row):
            operand, reader, which = map(int, line.groups())
            reads.append((reader, which, operand, None))
        if box := re.match(r'<rect data-operation="\d+" class="(\w+)"', row):
            boxes.append(Box(box.group(1), words_behind(rows, i)))
        if patch := re.match(r'<rect data-operand="(\d+)" data-place="(\d+)" class="(\w+)"', row):
            number = int(patch.group(1))
            constant = Box(patch.group(3), [f"{number} CONST", words_behind(rows, i)[0], places[number]])
            reads.append((boxes[-1].number, int(patch.group(2)), number, constant))
    return boxes, sorted(reads, key=lambda read: read[:2])


def text_of(picture, places):
    """The text for Graphviz of the graph that a picture draws, where the operations have these places in the source."""
    boxes, reads = parts_of(picture, places)
    out = list(HEAD)
    for box in boxes:
        own = f"\\n{box.own}" if box.own else ""
        out.append(box.node(f"n{box.number}", f"{box.number} {box.kind}{own}\\n{box.place}"))
    for reader, which, operand, constant in reads:
        name = f"n{operand}"
        if constant:
            name = f"c{reader}_{which}"
            out.append(constant.node(name, f"{constant.own}\\n{operand} {constant.place}"))
        out.append(f'{name} -> n{reader} [ headlabel="{which}" ];')
    stores = {box.own: box.number for box in boxes if box.kind == "STORE"}
    for box in boxes:
        if box.kind == "LOAD":
            out.append(f'n{stores[box.own]} -> n{box.number} [ style="dashed" constraint="false" ];')
    return "\n".join(out + ["}", ""])


def first_difference(text, wanted):
    for one, other in zip(text.split("\n") + [""], wanted.split("\n") + [""]):
        if one != other:
            return f"{one!r} and not {other!r}"
    return "its length"


def is_taken(text):
    """Whether Graphviz takes a text without a word, or isn't there."""
    if shutil.which("dot") is None:
        return True
    done = subprocess.run(["dot", "-Tplain"], input=text, capture_output=True, text=True)
    return done.returncode == 0 and not done.stderr


def main():
    vcp = os.environ.get("VCP", f"{TOP}/vcp")
    study = os.environ.get("VCP_STUDY", f"{TOP}/vcp_study")
    wrong = 0
    with tempfile.TemporaryDirectory() as folder:
        image = f"{folder}/image"
        programs = sorted(it for it in (TOP / "examples").rglob("*.st") if it.parent.name != "controllers")
        for program in programs:
            with open(image, "wb") as out:
                subprocess.run([vcp, "compile", program], stdout=out, check=True)
            picture, text = (
                subprocess.run([study, command, image, HORIZON], capture_output=True, text=True, check=True).stdout
                for command in ("graph", "dot")
            )
            listing = subprocess.run([vcp, "list", image], capture_output=True, text=True, check=True).stdout
            wanted = text_of(picture, re.findall(r" (at \d+:\d+)", listing))
            found = re.sub(r'^(c\d+_\d+ .*?)\\nblind: [^"]*', r"\1", text, flags=re.M)
            if found != wanted:
                print(f"graph_texts: {program.relative_to(TOP)}: {first_difference(found, wanted)}")
                wrong = 1
            elif not is_taken(text):
                print(f"graph_texts: {program.relative_to(TOP)}: Graphviz doesn't take it")
                wrong = 1
    if not wrong:
        print(f"graph_texts: {len(programs)} graphs")
    return wrong


sys.exit(main())
