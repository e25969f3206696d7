#!/usr/bin/env python3
"""Whether the commands that README, the manual pages and the completion of bash list are those of docs/FORMATS.md, 'Command words'.

    checks/commands.py            prints what differs
    checks/commands.py --write    puts them right first

The two tables of docs/FORMATS.md have each form of `vcp` and `vcp_study` and what it writes; the usage lines (`specs/Forms.antt` of `vcp_inputs` and
`vcp_study_core`) say which commands there are, and in which order. From these come the table of README, the section COMMANDS of docs/vcp.1 and
docs/vcp_study.1, and the lists of commands in docs/completion.bash. It ends with status 1 where something differs.
"""
import re
import sys
from pathlib import Path

TOP = Path(__file__).resolve().parent.parent
PROGRAMS = {"vcp": "vcp_inputs", "vcp_study": "vcp_study_core"}


def commands(program):
    """The commands of a usage line, in its order."""
    text = (TOP / "crates" / PROGRAMS[program] / "specs" / "Forms.antt").read_text(encoding="utf8")
    usage = re.search(rf'"usage: {program} (.*)\\n"', text)[1]
    return list(dict.fromkeys(form.split()[0] for form in re.split(r", or |, | or ", usage)))


def forms(program):
    """The forms of each command in docs/FORMATS.md, as pairs of its words and of what it writes."""
    found = {}
    for words, what in re.findall(rf"^\| `{program} ([^`]*)` \| (.*) \|$", (TOP / "docs" / "FORMATS.md").read_text(encoding="utf8"), re.M):
        found.setdefault(words.split()[0], []).append((words, what))
    return found


def table():
    """README's table: two commands a line, those on programs and those on images."""
    rows = [(words, what) for command in commands("vcp") for words, what in forms("vcp").get(command, [])]
    return "| command | writes |\n|---|---|\n" + "".join(f"| `{words}` | {what} |\n" for words, what in rows)


def in_manual(text):
    """A text of a table in the marks of a manual page."""
    return re.sub(r"`([^`]*)`", r"\\fB\1\\fR", text).replace("-", r"\-")


def entries(program):
    """The section COMMANDS of a manual page."""
    lines = []
    for command in commands(program):
        (_, first), *others = forms(program).get(command, [("", "")])
        lines += [".TP", f".B {command}", in_manual(first)]
        for words, what in others:
            lines += [".br", in_manual(f"`{command}`{words.removeprefix(command)}: {what}")]
    return "\n".join(lines) + "\n"


def replaced(text, begin, end, new):
    """A text with what is between two marks, each of them there once, replaced."""
    head, mark, rest = text.partition(begin)
    _, last, tail = rest.partition(end)
    if not mark or not last:
        raise SystemExit(f"commands: no `{begin.strip()}` before `{end.strip()}`")
    return head + mark + new + last + tail


def wanted(path):
    """A document as it is to be."""
    text = path.read_text(encoding="utf8")
    if path.name == "README.md":
        return replaced(text, "<!-- checks/commands.py -->\n", "<!-- end -->\n", table())
    if path.name == "completion.bash":
        for program in PROGRAMS:
            text = replaced(text, f"_{program}_commands='", "'\n", " ".join(commands(program)))
        return text
    return replaced(text, ".SH COMMANDS\n", ".SH EXIT STATUS\n", entries(path.stem))


def main():
    differ = []
    for program in PROGRAMS:
        for command in sorted(set(commands(program)) ^ set(forms(program))):
            differ.append(f"docs/FORMATS.md: `{program} {command}` is in one of the usage line and the table alone")
    for name in ("README.md", "docs/vcp.1", "docs/vcp_study.1", "docs/completion.bash"):
        path = TOP / name
        text = wanted(path)
        if text != path.read_text(encoding="utf8"):
            if "--write" in sys.argv[1:]:
                path.write_text(text, encoding="utf8")
            else:
                differ.append(f"{name} differs from the tables of docs/FORMATS.md: checks/commands.py --write")
    print("\n".join(differ) or "commands: README, the manual pages and the completion have those of docs/FORMATS.md")
    sys.exit(1 if differ else 0)


main()
