#!/usr/bin/env python3
"""How many worked rows there are in the sessions of crates/vcp_study/data, which `vcp_study play` plays.

    checks/count_rows.py [--write]

Of each: its calls, `$ plain,run ..` as two, and the lines that say what they have to give.

It reads the texts alone. Run it before and after a change of them, to see that no row was lost. With `--write` it writes the files args and
stdout of the program anew, by the texts that are there: `play` and their names, and how many calls each has.
"""
import sys
from pathlib import Path

CRATE = Path(__file__).resolve().parent.parent / "crates" / "vcp_study"
MARKS = ("#", "<", "+", "~", "@", "%", "!", "$")


def lines_of(file):
    return file.read_text().split("\n")[:-1]


def commands_of(line):
    """The commands of a line of calls, which stand behind the name of another program than `vcp`."""
    words = line.split(" ")
    return words[2 if words[1] in ("vcp_study", "call") else 1].split(",")


def counts_of(lines):
    """The calls of a session, and the lines that say what they give."""
    calls = sum(len(commands_of(line)) for line in lines if line.startswith("$ "))
    return calls, sum(1 for line in lines if line.split(" ")[0] not in MARKS or line.startswith("$ ") and " => " in line)


def main():
    counts = {file.name: counts_of(lines_of(file)) for file in sorted((CRATE / "data").glob("*.session"))}
    print("sessions: calls, lines of what they give")
    for name, (made, wanted) in counts.items():
        print(f"  {name}: {made}, {wanted}")
    print(f"all: {sum(made for made, _ in counts.values())}, {sum(wanted for _, wanted in counts.values())}")
    if "--write" in sys.argv[1:]:
        (CRATE / "args").write_text("".join(f"{word}\n" for word in ("play", *counts)))
        (CRATE / "stdout").write_text("".join(f"{name}: {made} calls\n" for name, (made, _) in counts.items()))


main()
