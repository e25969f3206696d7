"""The folder of evidence: all that is found, as files, and what differs between two of them."""
from __future__ import annotations

from dataclasses import dataclass
from pathlib import Path
from typing import Iterator

from vcp_tools import VERSION
from vcp_tools.evidence import toolchain
from vcp_tools.evidence.claims import axioms_told, claims, outside
from vcp_tools.evidence.gate import NONE, GateLog, axioms, of_these
from vcp_tools.evidence.repository import changes, commit, sources
from vcp_tools.files import read_bytes
from vcp_tools.program import present_toolchain, promised_toolchain
from vcp_tools.proved import PROGRAMS, TOLD, Standing, digest, standing, summary_lines

SUMS = "SHA256SUMS"
"""The file that has the digests of all others."""
README = """From which sources and by which toolchain the programs vcp and vcp_study were proved, and what the gate found.

summary.txt     the commit, the digests of sources, programs, toolchain and logs, and whether they belong together
sources.txt     every source, with its SHA-256
toolchain.txt   the files of the toolchain, with theirs; a folder's is that of such lines of all files in it
claims.txt      what is claimed, each with the clauses that carry it
axioms.txt      what is taken without a proof
outside.txt     what the gate doesn't show
gate.log        what the gate printed
*.proved        the record that is beside each program; *.log what was printed when ./vcp or ./vcp_study proved it
SHA256SUMS      the digest of each of these files; that of SHA256SUMS itself covers the whole: keep it elsewhere

`sha256sum -c SHA256SUMS` in this folder looks at these files alone. `vcp_tools evidence --check FOLDER` in the repository makes them again and names what
differs.
"""
LEFT_OUT = "left out"
"""What the summary says of the toolchain's files where they weren't asked for."""


@dataclass(frozen=True)
class Evidence:
    """The files of a folder of evidence, and what isn't as it should be."""

    files: dict[str, bytes]
    lacking: tuple[str, ...]


def made(top: Path, gate_log: bytes | None, with_toolchain: bool) -> Evidence:
    """All that is found now in a repository."""
    found = {name: standing(name, top) for name in PROGRAMS}
    logs = {name: _log_of(top, name, it) for name, it in found.items()}
    gate = GateLog.read(gate_log) if gate_log is not None else None
    counts = {name: axioms(logs[name] or gate_log or b"", name) for name in PROGRAMS}
    listed = sources(top)
    told_claims, count = claims(top)
    files = {"README": README.encode(), "sources.txt": listed.encode("utf-8", "surrogateescape"), "claims.txt": told_claims.encode(),
             "axioms.txt": axioms_told(top, counts).encode(), "outside.txt": outside(top, gate).encode()}
    files |= {f"{name}.log": log for name, log in logs.items() if log is not None}
    files |= {f"{name}.proved": read_bytes(_record(top, name)) for name in PROGRAMS if _record(top, name).is_file()}
    files |= {"gate.log": gate_log} if gate_log is not None else {}
    kit = toolchain.folder() if with_toolchain else None
    files |= {"toolchain.txt": toolchain.files(kit)[0].encode("utf-8", "surrogateescape")} if kit is not None else {}
    missing = LEFT_OUT if not with_toolchain else "none: rt isn't on the PATH"
    summary = {
        "evidence": "1", "tools": VERSION, "commit": commit(top), "clean": _clean(changes(top)),
        "sources": f"{digest(files['sources.txt'])}, {listed.count(chr(10))} files",
        **{key: value for name in PROGRAMS for key, value in _program(name, found[name], counts[name], logs[name]).items()},
        "toolchain recorded": promised_toolchain() or "none", "toolchain present": present_toolchain() or "none",
        "toolchain files": digest(files["toolchain.txt"]) if kit is not None else missing,
        **_gate(gate, gate_log, {name: it.sources for name, it in found.items()}),
        "claims": str(count),
    }
    files["summary.txt"] = "".join(f"{key}: {value}\n" for key, value in summary.items()).encode("utf-8", "surrogateescape")
    files[SUMS] = sums(files)
    return Evidence(files, tuple(_lacking(summary, found, gate)))


def sums(files: dict[str, bytes]) -> bytes:
    """The digests of files, as `sha256sum` writes them."""
    return "".join(f"{digest(data)}  {name}\n" for name, data in sorted(files.items()) if name != SUMS).encode()


def _record(top: Path, name: str) -> Path:
    return top / "crates" / name / "out" / f"{name}.proved"


def _log_of(top: Path, name: str, found: Standing) -> bytes | None:
    """What was printed when a program was proved by itself; None where its record names no log."""
    log = top / "crates" / name / "out" / "build.log"
    return read_bytes(log) if found.record.get("log", "none") != "none" and log.is_file() else None


def _clean(differing: list[str]) -> str:
    return "yes" if not differing else f"NO: {len(differing)} files differ from the commit or are beside it, as {differing[0]}"


def _program(name: str, found: Standing, count: str, log: bytes | None) -> dict[str, str]:
    """What is told of a program."""
    record = found.record
    return {
        name: f"{found.digest or 'none'}, {TOLD[found.state]}", f"{name} sources": found.sources,
        **{f"{name} proved {key}": record.get(word, "not recorded") for key, word in (("from", "sources"), ("by", "by"), ("with", "toolchain"))},
        f"{name} log": digest(log) if log is not None else "none", f"{name} axioms": count or "not said by a log",
    }


def _gate(gate: GateLog | None, log: bytes | None, present: dict[str, str]) -> dict[str, str]:
    """What is told of the gate."""
    if gate is None or log is None:
        return {"gate": NONE}
    return {"gate": gate.ending, "gate log": digest(log), "gate sources": of_these(gate, present),
            **{f"gate says {number}": line for number, line in enumerate(gate.told(), 1)}}


def _lacking(summary: dict[str, str], found: dict[str, Standing], gate: GateLog | None) -> Iterator[str]:
    """What isn't as it should be, a line each."""
    if summary["commit"].startswith("none") or summary["clean"] != "yes":
        yield f"the sources are no clean commit: {summary['commit'] if summary['commit'].startswith('none') else summary['clean']}"
    yield from (f"{name}: {TOLD[it.state]}" for name, it in found.items() if it.state != "proved")
    recorded, present = summary["toolchain recorded"], summary["toolchain present"]
    for what, line in (("rt version says", present), *((f"{name} was proved with", it.record.get("toolchain", "")) for name, it in found.items() if it.record)):
        if line != recorded:
            yield f"{what} `{line}`, and docs/PROMISES.md names `{recorded}`"
    for name, it in found.items():
        if it.record.get("log", "none") != summary[f"{name} log"]:
            yield f"{name}: crates/{name}/out/build.log isn't the log that its record names"
    if gate is None:
        yield NONE
    elif not gate.has_passed:
        yield f"the gate didn't pass: {gate.ending}"
    elif summary["gate sources"] != "the present ones":
        yield f"the gate's log is of other sources: {summary['gate sources']}"


def differences(filed: dict[str, bytes], now: dict[str, bytes]) -> Iterator[str]:
    """What differs between two folders of evidence: each line of a list by its name."""
    for name in sorted({*filed, *now} - {SUMS}):
        if name not in now or name not in filed:
            yield f"{name}: only {'filed' if name in filed else 'found now'}"
        elif filed[name] != now[name]:
            yield from (f"{name}: {line}" for line in _parted(name, filed[name], now[name]))


def _parted(name: str, filed: bytes, now: bytes) -> Iterator[str]:
    """The parts of a file that differ."""
    one, other = (data.decode("utf-8", "backslashreplace") for data in (filed, now))
    if name in ("sources.txt", "toolchain.txt"):
        before, after = ({rest: found for found, _, rest in (line.partition("  ") for line in text.split("\n")) if rest} for text in (one, other))
    elif name == "summary.txt":
        before, after = summary_lines(one), summary_lines(other)
    else:
        yield f"filed with the digest {digest(filed)}, and now {digest(now)}"
        return
    for key in sorted({*before, *after}):
        if before.get(key) != after.get(key):
            yield f"{key}: filed `{before.get(key, 'none')}`, now `{after.get(key, 'none')}`"


def damaged(filed: dict[str, bytes]) -> Iterator[str]:
    """The files of a folder whose bytes aren't those that its own list of digests names."""
    text = filed.get(SUMS, b"").decode("utf-8", "backslashreplace")
    named = {name: found for found, _, name in (line.partition("  ") for line in text.split("\n")) if name}
    for name in sorted({*named, *filed} - {SUMS}):
        if name not in filed:
            yield f"{name}: {SUMS} names it, and it isn't there"
        elif named.get(name) != digest(filed[name]):
            yield f"{name}: its digest is {digest(filed[name])}, and {SUMS} names {named.get(name, 'none')}"
