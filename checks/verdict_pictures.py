#!/usr/bin/env python3
"""Whether `vcp_study faults` draws of scripts of examples/ the pictures that docs/FORMATS.md describes.

    checks/verdict_pictures.py

Each is made here from the picture of `vcp_study graph`, the script and what `vcp inject` prints of it: the boxes and lines stay, and the colours, the notes and
the legend are those of the verdicts. With VCP=FILE and VCP_STUDY=FILE before it other programs than the built ones are taken. Its status is 1 where something
differs, and then the name of the example is printed with the first line that does.
"""
import os
import re
import subprocess
import sys
import tempfile
from pathlib import Path

TOP = Path(__file__).resolve().parent.parent
VCP = os.environ.get("VCP", str(TOP / "vcp"))
STUDY = os.environ.get("VCP_STUDY", str(TOP / "vcp_study"))
WORST = ["wrong", "ran-on", "same", "stopped", "refused"]
STYLE = (
    "<style>text{font:9px monospace}rect{stroke:#333;fill:#fff}line{stroke:#888}.wrong{fill:#f66}.ran-on{fill:#fa6} "
    ".same{fill:#fe9}.stopped{fill:#9cf}.refused{fill:#9e9}.cell{fill:#36c}</style>"
)
PATCH = re.compile(r'<rect data-operand="(\d+)" data-place="(\d+)" class="\w+"(.*)')
BOX = re.compile(r'<rect data-operation="(\d+)" class="\w+" x="(\d+)" y="(\d+)"(.*)')
PLACES = dict(zip(WORST, [12, 112, 216, 312, 420]))
# A program with its rows, and a script of faults; or a class, and in how many cycles its faults are tried.
EXAMPLES = [
    ("crossing", "crossing.faults", None),
    ("crossing", "crossing_groups.faults", None),
    ("crossing", "skip", 6),
    ("two_tracks", "two_tracks.faults", None),
    ("two_hand", "stale", 4),
    ("odometer", "skip", 3),
]


def groups_of(script):
    """Of each group the number of its first fault's line, counted from 1, and the operations of its faults."""
    groups, inside, begun = [], False, False
    for number, line in enumerate(script.splitlines(), 1):
        words = line.split("#")[0].split()
        if not words:
            continue
        if words[0] in ("begin", "end"):
            inside = words[0] == "begin"
            begun = False
            continue
        if not (inside and begun):
            groups.append((number, set()))
        groups[-1][1].add(int(words[2]))
        begun = True
    return groups


def sample(x, look, told):
    return [f'<rect x="{x}" y="8" width="14" height="14" class="{look}"></rect>', f'<text x="{x + 20}" y="20">{told}</text>']


def legend(verdicts):
    lines = [STYLE]
    for name in WORST:
        lines += sample(PLACES[name], name, f"{name} {verdicts.count(name)}")
    return lines + sample(528, "plain", "no fault stands there") + sample(680, "cell", "a cell&#39;s LOAD (left) or STORE (right)")


def picture(graph, script, printed):
    """The picture by verdicts, from that by weights."""
    groups = groups_of(script)
    lines = printed.splitlines()[:-1]
    assert [int(line.split()[0]) for line in lines] == [first for first, _ in groups]
    verdicts = [line.split()[1] for line in lines]
    given = graph.splitlines()
    body = next(i for i, line in enumerate(given) if "data-operand" in line or "data-operation" in line)
    made = given[:1] + legend(verdicts)
    x = y = note = None

    def judged(number):
        here = [verdict for verdict, (_, operations) in zip(verdicts, groups) if number in operations]
        look = min(here, key=WORST.index) if here else "plain"
        return look, f"{look} {here.count(look)}/{len(here)}" if here else None

    for line in given[body:]:
        box, patch = BOX.fullmatch(line), PATCH.fullmatch(line)
        if patch:
            line = f'<rect data-operand="{patch[1]}" data-place="{patch[2]}" class="{judged(int(patch[1]))[0]}"{patch[3]}'
        if box:
            number, x, y = int(box[1]), int(box[2]), int(box[3])
            look, note = judged(number)
            line = f'<rect data-operation="{number}" class="{look}" x="{x}" y="{y}"{box[4]}'
        if y is None or f' y="{y + 45}">' not in line:
            made.append(line)
        if note and f' y="{y + 34}">' in line:
            made.append(f'<text x="{x + 5}" y="{y + 45}">{note}</text>')
            note = None
    return "\n".join(made) + "\n"


def run(words, statuses):
    done = subprocess.run(words, capture_output=True, text=True)
    if done.returncode not in statuses:
        sys.exit(f"{' '.join(words)}: status {done.returncode}\n{done.stderr}")
    return done


def main():
    with tempfile.TemporaryDirectory() as work:
        image, script, verdicts = (os.path.join(work, name) for name in ("image", "script", "verdicts"))
        for program, faults, cycles in EXAMPLES:
            Path(image).write_bytes(subprocess.run([VCP, "compile", f"{TOP}/examples/{program}.st"], capture_output=True, check=True).stdout)
            if cycles:
                text = run([STUDY, "sites", image, str(cycles), faults], [0]).stdout
            else:
                text = (TOP / "examples" / faults).read_text()
            Path(script).write_text(text)
            printed = run([VCP, "inject", image, f"{TOP}/examples/{program}.csv", script], [0]).stdout
            Path(verdicts).write_text(printed)
            wanted = picture(run([STUDY, "graph", image, "0"], [0]).stdout, text, printed)
            counts = printed.splitlines()[-1].split()
            unseen = int(counts[5]) + int(counts[7])
            # Status 9 where a fault isn't seen, and 1 of a vcp_study from before that status.
            drawn = run([STUDY, "faults", image, script, verdicts], [9, 1] if unseen else [0]).stdout
            for number, (want, got) in enumerate(zip(wanted.splitlines() + ["no more"], drawn.splitlines() + ["no more"]), 1):
                if want != got:
                    sys.exit(f"{program} {faults}: line {number}\n  wanted {want}\n  drawn  {got}")
    print(f"verdict_pictures: {len(EXAMPLES)} pictures are what they have to be")


if __name__ == "__main__":
    main()
