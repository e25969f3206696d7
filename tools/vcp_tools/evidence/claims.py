"""What the documents claim, and what stands outside the gate."""
from __future__ import annotations

import re
from pathlib import Path
from typing import Iterator

from vcp_tools.evidence.gate import GateLog
from vcp_tools.files import read_bytes

_IMPORT = re.compile(r"^\s*(?:from|import) (\w+)", re.M)


def _promises(top: Path) -> str:
    return read_bytes(top / "docs" / "PROMISES.md").decode("utf-8", "replace")


def _section(text: str, title: str) -> str:
    """A section of a document, without its title."""
    return text.partition(f"\n## {title}\n")[2].partition("\n## ")[0].strip() + "\n"


def claims(top: Path) -> tuple[str, int]:
    """The claims of docs/PROMISES.md, each with the clauses that carry it, and how many there are."""
    found = re.findall(r"^### (\d+)\. (.*?)\n(.*?)(?=^### |\Z)", _section(_promises(top), "Claims"), re.M | re.S)
    lines = []
    for number, title, body in found:
        clause = re.search(r"^- \*clause\*: (.*?)(?=^- |\Z)", body, re.M | re.S)
        lines.append(f"{number}. {title}\n    {' '.join(clause[1].split()) if clause else 'NO CLAUSE'}\n")
    return "".join(lines), len(found)


def axioms_told(top: Path, counts: dict[str, str]) -> str:
    """What is taken without a proof: how many axioms each program has by the logs, and what docs/PROMISES.md says that they are."""
    counted = "".join(f"{name}: {count or 'not said by a log'}\n" for name, count in counts.items())
    return f"{counted}\n{_section(_promises(top), 'Taken without a proof')}"


def _reached(top: Path) -> set[str]:
    """The scripts of checks/ that `.ci/run` runs, by itself or by others, and the modules that they read."""
    scripts = {file.name for file in (top / "checks").glob("*.*") if file.suffix in (".sh", ".py")}
    reached: set[str] = set()
    wanted = [top / ".ci" / "run"]
    while wanted:
        file = wanted.pop()
        text = file.read_text(encoding="utf-8") if file.is_file() else ""
        shell = "\n".join(line for line in text.split("\n") if not line.lstrip().startswith("#"))
        named = {f"{module}.py" for module in _IMPORT.findall(text)} if file.suffix == ".py" else {name for name in scripts if name in shell}
        wanted += [top / "checks" / name for name in named & scripts - reached]
        reached |= named & scripts
    return reached


def outside(top: Path, log: GateLog | None) -> str:
    """What no run of the gate shows: scripts and edits that are tried by hand, what its log says was left out, and what docs/PROMISES.md calls tested."""
    return "\n".join(_outside(top, log)) + "\n"


def _outside(top: Path, log: GateLog | None) -> Iterator[str]:
    scripts = sorted(file.name for file in (top / "checks").glob("*.*") if file.suffix in (".sh", ".py") and file.name not in _reached(top))
    yield "Scripts that the gate doesn't run: " + (", ".join(f"checks/{name}" for name in scripts) or "none")
    edits = sorted((top / "checks" / "edits").glob("*/*.edit"))
    yield f"Wrong lines of code that are tried by hand, and not by the gate: {len(edits)}, of {len({file.parent for file in edits})} crates (checks/edits)"
    left_out = [line for line in log.told() if re.search(r"skipped|isn't|no program|couldn't|kept from earlier", line)] if log else []
    yield "What the gate's log says was left out, or taken from earlier runs:" + ("" if left_out else " nothing" if log else " there is no log")
    yield from (f"    {line}" for line in left_out)
    yield "Tools (tools/vcp_tools): tested, and not proved"
    yield "\nWhat is tested, trusted, and neither, by docs/PROMISES.md:\n"
    yield _section(_promises(top), "Tested, trusted, and neither").rstrip("\n")
