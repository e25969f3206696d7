#!/usr/bin/env python3
"""Flips bits in running programs, and tells in a table what came of it (docs/UPSETS.md).

    bench/upsets/table.py FOLDER [COUNT]    flips COUNT bits of registers in each program, 2,000 where COUNT isn't given, and fewer of flags and memory
    bench/upsets/table.py FOLDER 0          makes the table of what there is, and flips nothing

All that is made stands in FOLDER, which is made where it isn't there. What was flipped there before isn't flipped again: the same words go on where a call
was ended, and a greater COUNT adds to it. FOLDER is of one program, image, rows, injector and seed, and is refused for others. Its path is in the words of each
program, so that exactly the same flips come where it is as long. With VCP=FILE before it another
program than the built one is tried. It needs cc, rustc and binutils, and Linux on x86-64. Where it is called by root, the programs are run as the user nobody.
"""
from __future__ import annotations

import hashlib
import os
import re
import struct
import subprocess
import sys
from array import array
from bisect import bisect_right
from collections import Counter
from dataclasses import dataclass
from itertools import islice
from operator import ne
from pathlib import Path
from typing import Iterator, Sequence

HERE = Path(__file__).resolve().parent
TOP = HERE.parent.parent
sys.path.insert(0, str(TOP / "tools"))

from vcp_tools.campaign.interval import clopper_pearson  # noqa: E402

SEED = 20261130
MOST_IN_A_PASS = 20_000  # flips of registers
UNDISTURBED = 1_000
KINDS = {"register": 1.0, "flags": 0.1, "memory": 0.2}
"""The places that are flipped, and how many of them for each register's bit."""
OUTCOMES = {"same": "same", "refused": "refused (3)", "stopped": "stopped (2)", "status": "another status", "signal": "signal", "hung": "hung",
            "wrong": "wrong"}
SECOND_SEED = "7"
PARTS = (
    ("unit", r"coded_unit::"),
    ("division on 128 bits", r"__u?(div|mod)ti3$"),
    ("machine, channel", r"coded_machine::|pair_channel::"),
    ("meaning in `plain`", r"st_plain::"),
    ("rows", r"input_rows::|csv::|vcp_base::integers"),
    ("lines", r"vcp_outside::line|run_report::|core::fmt::|<\S*fmt|<std::io|write"),
    ("image", r"image_file::"),
    ("source to table", r"st_|flat_|graph_|op_graph::|signature_table::|vcp_typed::|indexmap::"),
    ("commands, files", r"vcp_core::|vcp_inputs::|vcp_words::|vcp::|il_front::"),
    ("plain Rust, inlined", r"coded::"),
    ("libraries, the rest", r""),
)
"""The parts of the programs, by the names of their functions: the first that fits."""


class Refusal(Exception):
    """Why the words can't be followed."""


@dataclass(frozen=True)
class Target:
    """A program with its words."""

    name: str
    title: str
    words: tuple[str, ...]


TARGETS = (
    Target("uncoded", "plain Rust, values alone", ("coded", "list", "rows.csv", "uncoded")),
    Target("short", "plain Rust, coded words", ("coded", "list", "rows.csv", "short")),
    Target("plain", "`vcp plain`", ("vcp", "plain", "program.st", "rows.csv")),
    Target("exec", "`vcp exec`, narrow", ("vcp", "exec", "narrow.img", "rows.csv")),
    Target("wide", "`vcp exec`, wide", ("vcp", "exec", "wide.img", "rows.csv")),
    Target("run", "`vcp run`", ("vcp", "run", "program.st", "rows.csv")),
    Target("pair", "`vcp pair`", ("vcp", "pair", "narrow.img", "rows.csv", SECOND_SEED)),
)


@dataclass(frozen=True)
class Flip:
    """A line of the injector's, with the function."""

    kind: str
    number: int
    moment: int
    lines: int
    place: str
    bit: int
    outcome: str
    status: int
    function: str
    told: str

    def in_cycles(self, lines: int) -> bool:
        """Whether it came within the cycles: behind the header's line, and before the last row's."""
        return 1 <= self.lines <= lines - 2


# ---- what is flipped

class Folder:
    """The folder with the programs, their files and what came of the flips."""

    def __init__(self, at: Path) -> None:
        self.at = at
        at.mkdir(parents=True, exist_ok=True)
        at.chmod(0o755)

    def path(self, name: str) -> Path:
        """That of a file in it."""
        return self.at / name

    def words(self, target: Target) -> list[str]:
        """The words of a target, with the files' paths."""
        return [str(self.path(word)) if self.path(word).is_file() else word for word in target.words]

    def told(self, *words: str | Path) -> bytes:
        """What a command prints that is called in the folder."""
        done = subprocess.run([str(word) for word in words], cwd=self.at, stdout=subprocess.PIPE, stderr=subprocess.PIPE)
        if done.returncode:
            raise Refusal(f"`{' '.join(map(str, words))}` ended with status {done.returncode}: {done.stderr.decode(errors='replace').strip()}")
        return done.stdout

    def prepare(self) -> None:
        """Builds the injector and the plain programs, and makes the images; where all is there, it looks whether it is the same."""
        vcp = Path(os.environ.get("VCP") or TOP / "crates/vcp/out/vcp")
        if not vcp.is_file():
            raise Refusal(f"{vcp} isn't there: build it by ./vcp, or name another by VCP=FILE")
        given = {"vcp": vcp, "program.st": HERE / "program.st", "rows.csv": HERE / "rows.csv"}
        sources = [HERE / "inject.c", HERE.parent / "coded.rs", HERE.parent / "code.rs"]
        what = [f"seed {SEED}"] + [f"{hashlib.sha256(path.read_bytes()).hexdigest()} {name}"
                                   for name, path in [*given.items(), *((source.name, source) for source in sources)]]
        if self.path("what").is_file():
            if self.path("what").read_text() != "\n".join(what) + "\n":
                raise Refusal(f"{self.at} is of another program, or of other rows: take another folder")
            return
        for name, path in given.items():
            self.path(name).write_bytes(path.read_bytes())
        self.path("vcp").chmod(0o755)
        self.told("cc", "-O2", "-o", "inject", sources[0])
        self.told("rustc", "--edition", "2024", "-O", "-C", "target-feature=+crt-static", "-o", "coded", sources[1])
        right = self.told(*self.words(TARGETS[2]))
        self.path("right").write_bytes(right)
        self.path("narrow.img").write_bytes(self.told("./vcp", "compile", "program.st"))
        self.path("wide.img").write_bytes(self.told("./vcp", "widen", "narrow.img"))
        listed = re.sub(rb" sig \d+ cor \d+", b"", self.told("./vcp", "list", "narrow.img"))
        self.path("list").write_bytes(right[: right.index(b"\n") + 1] + listed)
        for target in TARGETS:
            if self.told(*self.words(target)) != right:
                raise Refusal(f"{target.title} prints something else than `vcp plain`")
        self.path("what").write_text("\n".join(what) + "\n")

    def lines(self) -> int:
        """How many lines the right text has."""
        return self.path("right").read_bytes().count(b"\n")

    def trace_of(self, target: Target) -> Path:
        """The file of the addresses of an undisturbed run's instructions."""
        trace = self.path(f"{target.name}.trace")
        if not trace.is_file():
            part = self.path(f"{target.name}.trace.part")
            self.told("./inject", "trace", "right", part, *self.words(target))
            part.rename(trace)
        return trace

    def done(self, target: Target) -> int:
        """How many bits of registers were flipped, in whole passes."""
        flips = self.path(f"{target.name}.flips")
        return sum(line.startswith("register ") for line in flips.open()) if flips.is_file() else 0

    def flip(self, target: Target, until: int) -> None:
        """A pass: the next flips, up to this number of registers. What a pass that was ended has told is kept."""
        done = self.done(target)
        until = min(until, done + MOST_IN_A_PASS)
        part = self.path(f"{target.name}.part.{done}.{until}")
        told = part.read_bytes() if part.is_file() else b""
        told = told[: told.rfind(b"\n") + 1]
        part.write_bytes(told)
        plan: list[str] = []
        for kind, share in KINDS.items():
            plan += [kind, str(int(done * share)), str(int(until * share) - int(done * share))]
        if done == 0:
            plan += ["none", "0", str(UNDISTURBED)]
        words = ["./inject", "flips", "right", self.trace_of(target).name, str(SEED), str(told.count(b"\n")), *plan, "--", *self.words(target)]
        with part.open("ab") as into:
            if subprocess.run(words, cwd=self.at, stdout=into).returncode:
                raise Refusal(f"the flips of {target.name} weren't ended")
        named = [f"{line} in {self.function(line)}\n" for line in part.read_text().splitlines()]
        with self.path(f"{target.name}.flips").open("a") as into_all:
            into_all.write("".join(named))
        part.unlink()

    def function(self, line: str) -> str:
        """The function at whose instruction the run was when the bit of this line was flipped."""
        name, _, offset = line.split()[3].rpartition("+")
        if name not in _SYMBOLS:
            libraries = re.findall(r"(/\S+) \(0x", self.told("ldd", "./vcp").decode())
            at = self.path(name) if self.path(name).is_file() else next((Path(path) for path in libraries if Path(path).name == name), None)
            _SYMBOLS[name] = self.symbols(at) if at else Symbols([], [])
        return _SYMBOLS[name].at(int(offset, 16)) or f"{name}+{offset}"

    def symbols(self, path: Path) -> Symbols:
        """The functions that `nm` lists, of a library those of what is installed for debugging it."""
        lowest = lowest_address(path.read_bytes())
        build = re.search(r"Build ID: (..)(\S+)", self.told("readelf", "-n", path).decode(errors="replace"))
        debug = Path(f"/usr/lib/debug/.build-id/{build[1]}/{build[2]}.debug") if build else path
        found: dict[int, str] = {}
        for line in self.told("nm", "-C", "--defined-only", debug if debug.is_file() else path).decode(errors="replace").splitlines():
            address, kind, name = line.split(" ", 2)
            if kind in "tTwWiI":
                found.setdefault(int(address, 16) - lowest, re.sub(r"::h[0-9a-f]{16}$|::<#[0-9a-f]{16}>$", "", name))
        starts = sorted(found)
        return Symbols(starts, [found[start] for start in starts])

    def flips(self, target: Target) -> Iterator[Flip]:
        """All that were flipped in whole passes."""
        path = self.path(f"{target.name}.flips")
        for line in path.open() if path.is_file() else ():
            rest, _, function = line.rstrip("\n").partition(" in ")
            kind, number, moment, _, lines, place, bit, outcome, status, *told = rest.split()
            yield Flip(kind, int(number), int(moment), int(lines), place, int(bit), outcome, int(status), function, " ".join(told))


@dataclass
class Symbols:
    """The functions of a program, by their offsets from its lowest address."""

    starts: list[int]
    names: list[str]

    def at(self, offset: int) -> str:
        """The function that has this offset, or nothing."""
        i = bisect_right(self.starts, offset)
        return self.names[i - 1] if i else ""


_SYMBOLS: dict[str, Symbols] = {}


def lowest_address(elf: bytes) -> int:
    """The lowest address that an ELF file of 64 bits asks for: 0 where it may stand anywhere."""
    at, = struct.unpack_from("<Q", elf, 32)
    size, count = struct.unpack_from("<HH", elf, 54)
    heads = [struct.unpack_from("<IIQQ", elf, at + i * size) for i in range(count)]
    return min(address for kind, _, _, address in heads if kind == 1) & ~0xfff


# ---- the table

def percent(share: float) -> str:
    """A share as a percentage."""
    return f"{100 * share:.3f}" if share < 0.1 else f"{100 * share:.1f}"


def row(title: str, kind: str, flips: Sequence[Flip], lines: int) -> str:
    """The row of a program and a kind of place."""
    counts = Counter(flip.outcome for flip in flips)
    low, high = clopper_pearson(counts["wrong"], len(flips))
    inside = sum(flip.in_cycles(lines) for flip in flips) / len(flips)
    cells = [title, kind, f"{len(flips):,}", f"{100 * inside:.1f} %", *(f"{counts[outcome]:,}" for outcome in OUTCOMES)]
    return "| " + " | ".join([*cells, f"{percent(counts['wrong'] / len(flips))} [{percent(low)}, {percent(high)}]"]) + " |"


def by_function(flips: Sequence[Flip], lines: int) -> list[str]:
    """The functions in which the wrong ones came, the most first."""
    wrong = [flip for flip in flips if flip.outcome == "wrong"]
    counts = Counter(flip.function for flip in wrong)
    inside = Counter(flip.function for flip in wrong if flip.in_cycles(lines))
    return [f"  {count:5} {inside[function]:5}  {function}" for function, count in counts.most_common()]


def part_of(function: str) -> str:
    """The part of a program that a function is of."""
    return next(part for part, form in PARTS if re.match(f"<*(?:{form})", function))


def by_part(folder: Folder) -> list[str]:
    """For each part and program, how many flips of registers were wrong there, of how many that came there."""
    rows = ["| part | " + " | ".join(target.name for target in TARGETS) + " |", "|---" * (1 + len(TARGETS)) + "|"]
    came: Counter[tuple[str, str]] = Counter()
    wrong: Counter[tuple[str, str]] = Counter()
    for target in TARGETS:
        for flip in folder.flips(target):
            if flip.kind == "register":
                came[part_of(flip.function), target.name] += 1
                wrong[part_of(flip.function), target.name] += flip.outcome == "wrong"
    for part, _ in PARTS:
        cells = [f"{wrong[part, target.name]} of {came[part, target.name]:,}" if came[part, target.name] else "" for target in TARGETS]
        rows.append(f"| {part} | " + " | ".join(cells) + " |")
    return rows


def lengths(folder: Folder) -> list[str]:
    """For each program, how many instructions its run has, and how many copies without a flip were tried, which all ended as it does."""
    done = [target for target in TARGETS if folder.done(target)]
    ways = [array("Q", folder.trace_of(target).read_bytes()) for target in done]
    counts = [1 + sum(map(ne, way, islice(way, 1, None))) for way in ways]
    copies = [sum(flip.kind == "none" for flip in folder.flips(target)) for target in done]
    return ["| | " + " | ".join(target.name for target in done) + " |", "|---" * (1 + len(done)) + "|",
            "| instructions | " + " | ".join(f"{count:,}" for count in counts) + " |",
            "| copies without a flip | " + " | ".join(f"{count:,}" for count in copies) + " |"]


def table(folder: Folder) -> str:
    """The table of all that was flipped, and behind it the functions of the wrong ones."""
    lines = folder.lines()
    heads = ["program", "place", "flips", "in cycles", *OUTCOMES.values(), "wrong, % [95 %]"]
    rows = ["| " + " | ".join(heads) + " |", "|---" * len(heads) + "|"]
    functions: list[str] = []
    for kind in KINDS:
        for target in TARGETS:
            flips = [flip for flip in folder.flips(target) if flip.kind == kind]
            if flips:
                rows.append(row(target.title, kind, flips, lines))
                functions += ["", f"{target.name}, {kind}: wrong, of these in cycles, function", *by_function(flips, lines)]
    return "\n".join([*rows, "", *lengths(folder), "", *by_part(folder), "", *folder.path("what").read_text().splitlines(), *functions, ""])


def write_wrong(folder: Folder) -> None:
    """A line for each wrong one, without what was printed."""
    lines = (f"{target.name} {re.sub(' got .* in ', ' in ', line)}" for target in TARGETS if folder.path(f"{target.name}.flips").is_file()
             for line in folder.path(f"{target.name}.flips").open() if line.split()[7] == "wrong")
    folder.path("wrong").write_text("".join(lines))


def main(words: list[str]) -> int:
    """Does what the words ask for."""
    if len(words) not in (1, 2) or words[0].startswith("-"):
        print(__doc__)
        return 4
    folder = Folder(Path(words[0]).resolve())
    count = int(words[1]) if len(words) == 2 else 2_000
    try:
        folder.prepare()
        while any(folder.done(target) < count for target in TARGETS):
            for target in TARGETS:
                if folder.done(target) < count:
                    folder.flip(target, count)
                    print(f"{target.name}: {folder.done(target)} of {count}", file=sys.stderr)
    except Refusal as refusal:
        print(f"upsets: {refusal}", file=sys.stderr)
        return 1
    folder.path("table").write_text(table(folder))
    write_wrong(folder)
    print(folder.path("table").read_text(), end="")
    return 0


if __name__ == "__main__":
    sys.exit(main(sys.argv[1:]))
