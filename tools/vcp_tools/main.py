"""The words of `vcp_tools`: which tool is meant, its help, and its end."""
from __future__ import annotations

import argparse
import contextlib
import errno
import importlib
import io
import os
import sys
from types import ModuleType

from vcp_tools import VERSION
from vcp_tools.refusal import UNUSABLE, Refusal

TOOLS: dict[str, str] = {
    "explain": "what a refusal means: the line, a caret, and the mistake that people make there",
    "rows": "stimuli to a rows file and back, and a check for input that vcp accepts without warning",
    "table": "inputs, outputs and variables of a run side by side, cycle by cycle",
    "vcd": "the same as a VCD file, for GTKWave",
    "expect": "compares a run with wanted rows, and names the first difference",
    "never": "whether a condition comes in any run: shown, or refuted by rows that replay",
    "witness": "for each operation that may stop, rows by which it does",
    "diff": "whether two programs or images have the same operations, and where they part",
    "lint": "what is lawful and likely a mistake",
    "report": "one HTML file on a program and its run, to be filed",
    "lower": "a program of the profile that does what a text as controllers have it does: timers, edges, counters, blocks, arrays, TIME",
    "simulate": "the run of such a text itself, in a plain interpreter: the second reading of what `lower` writes",
    "campaign": "every fault of a class or a script, tried on an image, and what became of each",
    "evidence": "from what the programs were proved: sources, toolchain, gate and claims with their digests, to be filed and compared",
    "version": "which tools, commit, programs and toolchain are here",
    "help": "where to read on",
}
"""The tools, with what their help says."""
MODULES = {
    "explain": "explain.command", "rows": "rows.command", "table": "pictures.table", "vcd": "pictures.vcd", "expect": "compare.expect",
    "never": "ask.never", "witness": "ask.witness", "diff": "compare.diff", "lint": "lint.command", "report": "pictures.report",
    "lower": "lower.command", "simulate": "simulate.command",
    "campaign": "campaign.command", "evidence": "evidence.command", "version": "version", "help": "guide",
}
"""The module of each tool."""
VALUED = frozenset(("--changes-of", "--cycles", "--cycle-time", "--faults", "--horizon", "--check", "-o", "--allow", "--from", "--assume", "--inputs",
                    "--seconds", "--gate", "--seed", "--step"))
"""The options that a word follows."""
INTERRUPTED = 128 + 2
"""The status of a tool that a Ctrl-C has ended, as shells tell it."""
USAGE = ("statuses: 0 nothing was found, 9 a fault, a difference or a likely mistake was found, 2 the words or a file can't be used, "
         "10 what is asked stays open; explain gives vcp's own")


def _module(tool: str) -> ModuleType:
    """The module of a tool: what adds its words, and what runs it."""
    return importlib.import_module(f"vcp_tools.{MODULES[tool]}")


def parser(wanted: str) -> argparse.ArgumentParser:
    """What reads the words; of the tools the one that is wanted alone is loaded."""
    top = argparse.ArgumentParser(prog="vcp_tools", description="Tools around the program vcp: tested, and not proved. docs/TOOLS.md shows each.", epilog=USAGE)
    top.add_argument("--version", action="version", version=f"vcp_tools {VERSION}")
    below = top.add_subparsers(dest="tool", required=True, metavar="TOOL")
    for name, about in TOOLS.items():
        tool = below.add_parser(name, help=about, description=f"{name}: {about}", epilog=USAGE)
        if name == wanted:
            _module(name).add_words(tool)
    return top


def _are_words_of_vcp(words: list[str]) -> bool:
    """Whether the words behind `explain` are a call of vcp that begins with an option, which isn't one of `explain`."""
    kept = ("-h", "--help", "--all", "--source", "--from", "--il") if words[:1] == ["explain"] else ("-h", "--help")
    return words[:1] in (["explain"], ["campaign"]) and len(words) > 1 and words[1].startswith("-") and words[1] not in kept


def _options_first(words: list[str]) -> list[str]:
    """The words with the options of a tool behind its name, and of `rows` behind what it is to do, so that they may stand anywhere, as `--cycles N` in the
    place of ROWS does."""
    if not words or words[0] in ("explain", "campaign"):
        return words
    options: list[str] = []
    rest: list[str] = []
    at = 1
    while at < len(words):
        count = 2 if words[at] in VALUED else 1
        (options if words[at].startswith("-") else rest).extend(words[at : at + count])
        at += count
    first = 1 if words[0] == "rows" else 0
    return [words[0], *rest[:first], *options, *rest[first:]]


def _run(words: list[str]) -> int:
    """Runs the tool that the words name, to the last byte of what it prints."""
    try:
        given = parser("".join(words[:1])).parse_args(words[:1] + ["--", *words[1:]] if _are_words_of_vcp(words) else _options_first(words))
    except SystemExit:
        sys.stdout.flush()  # a help or a version, of which argparse keeps to itself that it couldn't be written
        raise
    empty = [name for name, value in vars(given).items() if value == ""]
    if empty:
        raise Refusal(f"{given.tool}: an empty word is in the place of {empty[0].upper().replace('_', '-')}")
    status: int = _module(given.tool).run(given)
    sys.stdout.flush()
    return status


def main(words: list[str]) -> int:
    """Runs the tool that the words name, and gives its status."""
    if sys.stdout is None:
        print("vcp_tools: standard output is closed", file=sys.stderr)
        return UNUSABLE
    if isinstance(sys.stdout, io.TextIOWrapper):
        sys.stdout.reconfigure(errors="backslashreplace")  # names of files and texts that the caller's locale can't spell
    if isinstance(sys.stdin, io.TextIOWrapper):
        sys.stdin.reconfigure(errors="surrogateescape")
    try:
        return _run(words)
    except Refusal as refusal:
        return _unusable(str(refusal))
    except MemoryError:
        return _unusable("there is no memory left")
    except KeyboardInterrupt:
        return INTERRUPTED
    except OSError as error:
        if isinstance(error, BrokenPipeError):
            _flush_or_drop()
            return UNUSABLE
        where = error.filename or ("" if error.errno == errno.ENOENT else "standard output")
        return _unusable(f"{where}: {error.strerror}" if where else str(error.strerror))


def _unusable(why: str) -> int:
    """Says in one line, behind what was printed, why a tool couldn't look."""
    _flush_or_drop()
    print("vcp_tools: " + why.replace("\n", "\\n"), file=sys.stderr)
    return UNUSABLE


def _flush_or_drop() -> None:
    """Writes what is left of the output, or drops it where that fails, so that the interpreter doesn't try it again at its end."""
    try:
        sys.stdout.flush()
    except OSError:
        with contextlib.suppress(OSError):
            os.dup2(os.open(os.devnull, os.O_WRONLY), sys.stdout.fileno())


def command() -> int:
    """The installed command `vcp_tools`."""
    return main(sys.argv[1:])
