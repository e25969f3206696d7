"""The words of `campaign`."""
from __future__ import annotations

from dataclasses import dataclass, field
from typing import Sequence

from vcp_tools.campaign.sites import CLASSES
from vcp_tools.campaign.traced import BITS, MOST_BIT, TOLD_BY_WORDS
from vcp_tools.files import read_bytes
from vcp_tools.refusal import Refusal

USAGE = """usage: vcp_tools campaign M (SCRIPT | CLASS) (--rows ROWS [--rows ROWS].. | --cycles N) [OPTION]..
       vcp_tools campaign M ROWS (SCRIPT | CLASS) [OPTION]..

judges each fault of a class, or of a script of any length, over the image M and the rows; docs/CAMPAIGNS.md shows it
  CLASS           bits, stale, skip, from, operator, all, flips or late; a script that has such a name is given as ./bits
  --bits 0..62    the bits that flips turns, else 0..31
  --rows ROWS     the rows file; with several of them the faults that no run shows are named
  --cycles N      in the place of rows, for a program without inputs
  --draw N        N faults of the class, drawn without bias; --seed S draws others
  --then CLASS    pairs of a fault that stands in a cell when the rows end, and a later one of CLASS; --draw says how many
  --jobs N        so many parts side by side, else as many as there are processors
  --hosts FILE    judge on the machines that FILE names for GNU parallel, too
  --out FOLDER    what is kept of the campaign is there, else in campaign.DIGEST
  --page FILE     write a page to look at: bars, the graph, the source with --source, and a table of operations
  --store FILE    keep each fault with its verdict in a database of SQLite
  --sum           have `vcp_study sum` count all parts together, too, which is proved, and compare: by one processor, and at most 10,000 parts
  --source P      the source of M, by which operations are named with the variables of their statements; --il, where P is an instruction list, and its text
                  doesn't tell that
  --quiet         say nothing of progress
  other options, and what follows them, go to GNU parallel
statuses: 0 all faults were judged and each is seen, 9 one isn't (wrong or ran-on), 2 a part wasn't judged, or the words or a file can't be used"""
_VALUED = ("--bits", "--rows", "--cycles", "--draw", "--seed", "--then", "--jobs", "-j", "--hosts", "--out", "--page", "--store", "--source")

_ALONE = {"--quiet": "quiet", "--sum": "sum", "--il": "as_list"}
"""The options that no word follows, each with what is set by it."""


@dataclass
class Words:
    """What was asked."""

    image: str = ""
    faults: str = ""
    rows: list[str] = field(default_factory=list)
    cycles: int | None = None
    bits: tuple[int, int] = BITS
    draw: int | None = None
    seed: int = 0
    then: str = ""
    jobs: int | None = None
    out: str = ""
    page: str = ""
    store: str = ""
    source: str = ""
    sum: bool = False
    quiet: bool = False
    as_list: bool = False
    parallel: list[str] = field(default_factory=list)


def read_words(words: Sequence[str]) -> Words:
    """The words of a call; a refusal where they have no form."""
    found = Words()
    plain: list[str] = []
    at = 0
    while at < len(words):
        word, value = words[at], words[at + 1] if at + 1 < len(words) else None
        if word in _VALUED:
            if value is None:
                raise Refusal(f"campaign: a word is missing behind `{word}`")
            _take(found, word, value)
            at += 2
        elif word in _ALONE:
            setattr(found, _ALONE[word], True)
            at += 1
        elif word.startswith("-"):
            found.parallel += words[at:]
            break
        else:
            plain.append(word)
            at += 1
    has_rows = bool(found.rows) or found.cycles is not None
    if len(plain) != (2 if has_rows else 3):
        raise Refusal("campaign: M, ROWS and SCRIPT or CLASS are wanted (`vcp_tools campaign --help`)")
    found.image, found.faults = plain[0], plain[-1]
    if not has_rows:
        found.rows = [plain[1]]
    if found.rows and found.cycles is not None:
        raise Refusal("campaign: `--rows` and `--cycles` are given together: a program has inputs or it has none")
    if len(found.rows) > 1 and found.out:
        raise Refusal("campaign: `--out` is the folder of one campaign, and several rows files make one each")
    return found


def check_words(found: Words) -> None:
    """Refuses what can't be asked for together."""
    if found.faults in TOLD_BY_WORDS and len(found.rows) > 1:
        raise Refusal(f"campaign: the faults of `{found.faults}` are made from the words of one run: give one rows file, or a script")
    if found.page and (len(found.rows) > 1 or found.then):
        raise Refusal("campaign: `--page` is the page of one campaign, over one rows file, and without `--then`")
    if found.bits != BITS and "flips" not in (found.faults, found.then):
        raise Refusal("campaign: `--bits` are those that the class `flips` turns")
    if not found.then:
        if found.draw is not None and found.faults not in CLASSES:
            raise Refusal("campaign: `--draw` draws of a class, and this is a script")
        return
    if found.then not in CLASSES or found.then == "all":
        raise Refusal(f"campaign: `--then {found.then}`: a class is wanted that goes by cycles: {', '.join(it for it in CLASSES if it != 'all')}")
    if found.draw is None:
        raise Refusal("campaign: `--then` wants `--draw N`: so many pairs are drawn")
    if len(found.rows) != 1 or found.store:
        raise Refusal("campaign: `--then` wants one rows file, at whose end a fault may be left in a cell, and no `--store`")


def _take(found: Words, word: str, value: str) -> None:
    """Takes an option with its value."""
    if not value:
        raise Refusal(f"campaign: an empty word follows `{word}`")
    if word == "--rows":
        found.rows.append(value)
    elif word == "--bits":
        low, _, high = value.partition("..")
        if not (low.isdigit() and high.isdigit() and len(value) < 7 and int(low) <= int(high) <= MOST_BIT):
            raise Refusal(f"campaign: `{value}` follows `--bits`, and two numbers of 0 to {MOST_BIT} are wanted, as 0..{MOST_BIT}")
        found.bits = int(low), int(high)
    elif word == "--hosts":
        read_bytes(value)
        found.parallel = ["--sshloginfile", value, *found.parallel]
    elif word in ("--out", "--page", "--store", "--source", "--then"):
        setattr(found, word[2:], value)
    else:
        least = 0 if word == "--seed" else 1
        if not value.isdigit() or int(value) < least or len(value) > 10:
            raise Refusal(f"campaign: `{value}` follows `{word}`, and a number from {least} on is wanted")
        setattr(found, {"-j": "jobs"}.get(word, word[2:]), int(value))
