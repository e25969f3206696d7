"""`campaign`: cuts a class or a script into parts, has the proved programs judge each, and joins what they print, where it is whole."""
from __future__ import annotations

import argparse
import os
import shutil
import signal
import sys
from concurrent.futures import ProcessPoolExecutor
from dataclasses import dataclass, replace
from itertools import repeat
from pathlib import Path
from typing import Sequence

from vcp_tools.campaign.dormant import dormant_of, pairs_of
from vcp_tools.campaign.engine import judge
from vcp_tools.campaign.folder import FORM, Folder, Manifest, PartOf, copies_of, digest
from vcp_tools.campaign.interval import share
from vcp_tools.campaign.page import campaign_page
from vcp_tools.campaign.parts import Judged, judged
from vcp_tools.campaign.shown import Shown
from vcp_tools.campaign.sites import CLASSES, Faults, cycles_of
from vcp_tools.campaign.store import Store
from vcp_tools.campaign.summed import summed
from vcp_tools.campaign.traced import BITS, TOLD_BY_WORDS, faults_of
from vcp_tools.campaign.words import USAGE, Words, check_words, read_words
from vcp_tools.files import read_bytes, write_bytes
from vcp_tools.program import Program
from vcp_tools.proved import PROGRAMS, told_of
from vcp_tools.read import script as script_form
from vcp_tools.read.assigned import Assigned
from vcp_tools.read.given import source_of
from vcp_tools.read.image import read_image
from vcp_tools.read.script import Part, cut, digest_of_remark
from vcp_tools.read.sum_tables import Sum, add, sum_text, totals_line
from vcp_tools.refusal import FINE, FOUND, Refusal


def add_words(parser: argparse.ArgumentParser) -> None:
    """The words of `campaign`, which `read_words` reads."""
    parser.usage = USAGE[len("usage: "):].partition("\n\n")[0]
    parser.description = USAGE.partition("\n\n")[2]
    parser.formatter_class = argparse.RawDescriptionHelpFormatter
    parser.add_argument("words", nargs=argparse.REMAINDER, help=argparse.SUPPRESS)


def run(given: argparse.Namespace) -> int:
    """Does what the words ask for; the status is 9 where a fault isn't seen, and 2 where a part wasn't judged."""
    for number in (signal.SIGTERM, signal.SIGHUP, signal.SIGINT):
        signal.signal(number, lambda which, _: sys.exit(128 + which))
    words = read_words(given.words[1:] if given.words[:1] == ["--"] else given.words)
    check_words(words)
    programs = Program.found("vcp"), Program.found("vcp_study")
    assigned = assigned_of(words, programs[0])
    shown = Shown()
    store = Store(words.store) if words.store else None
    cycles = _most_cycles(programs[0], words)
    runs: list[str | None] = [*words.rows] or [None]
    unseen = 0
    for rows in runs:
        done = Campaign(words, programs, rows, cycles).run()
        unseen += done.unseen
        sys.stdout.write(done.tables)
        if done.summed:
            print(done.summed)
        if len(runs) > 1:
            print(shown.add(str(rows), done.verdicts))
        if words.page:
            _write_page(words, programs, done)
        if words.then:
            unseen += _pairs(words, done).unseen
        elif words.draw is not None:
            print(share(done.totals, f"{done.of} faults of `{words.faults}`", "class", words.seed))
        if store is not None:
            store.add(rows or "", done.script, done.verdicts, done.image, assigned)
        if len(runs) > 1 and rows == runs[-1]:
            done.folder.write("unshown", shown.listed(done.script, done.verdicts))
            print(f"{done.folder.at}/unshown names those that no run shows")
    if store is not None:
        store.close()
    return FOUND if unseen else FINE


def _write_page(words: Words, programs: tuple[Program, Program], done: "Done") -> None:
    """Writes the page of a campaign."""
    source = source_of(programs[0], words.source, read_image(done.image, words.image), words.as_list) if words.source else None
    page = campaign_page(f"Campaign: {words.faults} over {words.image}", done.tables, done.image, source, programs[1], _files(words, programs, done))
    write_bytes(words.page, page.encode("utf-8"))
    print(f"{words.page}: {len(page.encode())} bytes, the page of the campaign")


def _files(words: Words, programs: tuple[Program, Program], done: "Done") -> list[tuple[str, str, str]]:
    """What was judged, and by what, as the folder of the campaign has it: what it is, its name, and its SHA-256."""
    manifest = done.folder.manifest()
    digests = {} if manifest is None else {name: said[0] for name, said in manifest.copies.items()}
    drawn = f", {words.draw} drawn with seed {words.seed}" if words.draw is not None else ""
    bits = f", bits {words.bits[0]}..{words.bits[1]}" if words.faults == "flips" else ""
    return [
        ("image", words.image, digests.get("image", "")),
        ("rows", words.rows[0] if words.rows else f"--cycles {words.cycles}", digests.get("rows", "")),
        ("class of faults" if words.faults in CLASSES else "script of faults", words.faults + bits + drawn, digest(done.script)),
        *((name, told_of(it.file), digests.get(key, "")) for name, key, it in zip(PROGRAMS, ("vcp", "study"), programs)),
    ]


def _pairs(words: Words, first: "Done") -> "Done":
    """The campaign of pairs: a fault that stands in a cell when the rows end, and a later one of another class; all over the copies of the first one."""
    folder = first.folder
    copies = {name: str(folder.at / name) for name in ("image", "rows", "pairs")}
    vcp, study = Program(folder.at / "vcp"), Program(folder.at / "study", "vcp_study")
    dormant = dormant_of(first.script, str(folder.at / "faults"), first.standing)
    print(f"dormant: {len(dormant)} of the {first.totals[0]} faults are left in a cell when the rows end")
    cycles = cycles_of(vcp, copies["image"], [copies["rows"]])
    behind = faults_of(words.then, (vcp, study), folder.at / "image", [copies["rows"]], cycles, words.bits)
    script, number = pairs_of(dormant, behind, words.draw or 0, words.seed, digest(first.image))
    folder.write("pairs", script)
    asked = replace(words, image=copies["image"], faults=copies["pairs"], draw=None, then="", out=str(folder.at / "then") if words.out else "")
    paired = Campaign(asked, (vcp, study), copies["rows"], 0).run()
    sys.stdout.write(paired.tables)
    if paired.summed:
        print(paired.summed)
    print(share(paired.totals, f"{number} pairs of a dormant fault of `{words.faults}` and a later one of `{words.then}`", "pairs", words.seed))
    return paired


def assigned_of(words: Words, vcp: Program) -> Assigned | None:
    """What stands at each place of the source, where it is given; a refusal where it isn't that of the image."""
    return Assigned(source_of(vcp, words.source, read_image(read_bytes(words.image), words.image), words.as_list)) if words.source else None


def _most_cycles(vcp: Program, words: Words) -> int:
    """The cycles of the longest of several runs, over which the faults of a class are told; 0 where there is one."""
    if words.faults not in CLASSES or len(words.rows) < 2:
        return 0
    return max(cycles_of(vcp, words.image, [rows]) for rows in words.rows)


@dataclass
class Done:
    """A campaign that is whole."""

    folder: Folder
    tables: str
    verdicts: bytes
    totals: list[int]
    standing: list[int]
    script: bytes
    image: bytes
    of: int
    summed: str

    @property
    def unseen(self) -> int:
        """How many groups are `wrong` or `ran-on`."""
        return self.totals[2] + self.totals[3]


class Campaign:
    """One campaign: an image, a script or class, and one rows file or a number of cycles."""

    def __init__(self, words: Words, programs: tuple[Program, Program], rows: str | None, cycles: int) -> None:
        self.words, self.rows, self.cycles = words, rows, cycles
        self.programs = programs
        self.is_class = words.faults in CLASSES
        self.of = 0

    def run(self) -> Done:
        """The campaign; a refusal where parts weren't judged, which are named then."""
        files = {"vcp": self.programs[0].file, "study": self.programs[1].file, "image": Path(self.words.image)}
        if self.rows is not None:
            files["rows"] = Path(self.rows)
        if not self.is_class:
            files["script"] = Path(self.words.faults)
        copies, digests = copies_of(files, Path(self.words.out or "campaign").absolute().parent)
        try:
            self.take_cycles(copies)
            asked = self.asked(digests)
            folder = Folder(Path(self.words.out or f"campaign.{digest(asked.encode())[:12]}"))
            with folder:
                manifest = self.prepared(folder, asked, copies, digests["image"])
                return self.joined(folder, manifest, self.judged(folder, manifest))
        finally:
            shutil.rmtree(copies, ignore_errors=True)

    def asked(self, digests: dict[str, str]) -> str:
        """What a campaign is named by: all that its answer may rest on. With `--then`, pairs are drawn, and of the class itself nothing is."""
        bits = f"{self.words.bits} " if self.words.bits != BITS else ""
        drawn = "None 0" if self.words.then else f"{self.words.draw} {self.words.seed}"
        of_class = f"{self.words.faults} {bits}{self.cycles} {drawn}" if self.is_class else ""
        return f"{FORM} {self.words.cycles} {of_class} " + " ".join(f"{name}={digests[name]}" for name in sorted(digests))

    def prepared(self, folder: Folder, asked: str, copies: Path, image_digest: str) -> Manifest:
        """The manifest of the folder, which is filled where it isn't yet, or where a copy was changed."""
        found = folder.manifest()
        if found is not None and found.asked != asked:
            raise Refusal(f"{folder.at}: another campaign is in this folder")
        changed = folder.changed_copies(found) if found is not None else []
        if changed:
            print(f"campaign: {folder.at}: changed since, and so the campaign is made again: {', '.join(changed)}", file=sys.stderr)
        if found is not None and not changed:
            if self.is_class:
                self.of = self.class_of(copies).count
            return found
        script, parts = self.cut(copies, image_digest)
        (copies / "script").unlink(missing_ok=True)
        over = "rows" if self.rows is not None else f"--cycles {self.words.cycles}"
        return folder.lay_out(copies, asked, over, script, parts)

    def take_cycles(self, copies: Path) -> None:
        """Takes the cycles over which the faults of a class are told: those of the copied rows, of several runs those of the longest."""
        if not self.is_class or self.words.faults in TOLD_BY_WORDS:
            return
        own = cycles_of(Program(copies / "vcp"), str(copies / "image"), self.over(copies), (self.words.image, self.rows or "--cycles"))
        if own > self.cycles > 0:
            raise Refusal(f"{self.rows}: the file has changed while the campaign began")
        self.cycles = self.cycles or own

    def over(self, copies: Path) -> list[str]:
        """The words for the rows, of the copies."""
        return ["--cycles", str(self.words.cycles)] if self.rows is None else [str(copies / "rows")]

    def class_of(self, copies: Path) -> Faults:
        """The class of faults, over the copies."""
        programs = Program(copies / "vcp"), Program(copies / "study", "vcp_study")
        shown = self.words.image, self.rows if self.rows is not None and self.words.faults in TOLD_BY_WORDS else str(self.cycles)
        return faults_of(self.words.faults, programs, copies / "image", self.over(copies), self.cycles, self.words.bits, shown)

    def cut(self, copies: Path, image_digest: str) -> tuple[bytes, list[Part]]:
        """The whole script and its parts."""
        if not self.is_class:
            script = read_bytes(copies / "script")
            named = digest_of_remark(script)
            if named and named != image_digest:
                raise Refusal(f"{self.words.faults} is a script of another image than {self.words.image}")
            return script, cut(script, self.words.faults, script_form.MOST)
        faults = self.class_of(copies)
        self.of = faults.count
        is_whole = self.words.draw is None or bool(self.words.then)
        return faults.parts() if is_whole else faults.drawn(self.words.draw or 0, self.words.seed)

    def judged(self, folder: Folder, manifest: Manifest) -> list[Judged]:
        """All parts; a refusal where some weren't judged, which are named then."""
        found: list[Judged | None] = [None] * len(manifest.parts)
        folder.write_judge(manifest)
        for is_last in (False, True):
            left = []
            missing = [number for number, it in enumerate(found) if it is None]
            for number, it in zip(missing, self.look(folder, manifest, missing)):
                if isinstance(it, Judged):
                    found[number] = it
                    continue
                left.append((number, it))
                if not is_last:
                    self.clear(folder, manifest, number, it)
            if not is_last and left:
                folder.forget_answer()
                scripts = [folder.name(number, "faults") for number, _ in left]
                judge(folder.at, scripts, self.words.jobs, _in_folder(self.words.parallel), self.words.quiet, folder.held())
        for number, why in left:
            print(f"campaign: {folder.at}/{folder.name(number, 'faults')} isn't judged: {why}", file=sys.stderr)
        whole = [it for it in found if it is not None]
        if len(whole) < len(found):
            raise Refusal(f"{len(found) - len(whole)} of {len(found)} parts aren't judged; the same call tries them again")
        return whole

    def look(self, folder: Folder, manifest: Manifest, numbers: Sequence[int]) -> list[Judged | str]:
        """Each part, or why it is none."""
        if len(numbers) < 8:
            return [_look(folder.at, number, manifest.parts[number]) for number in numbers]
        with ProcessPoolExecutor(os.cpu_count()) as pool:
            return list(pool.map(_look, repeat(folder.at), numbers, [manifest.parts[number] for number in numbers], chunksize=4))

    def clear(self, folder: Folder, manifest: Manifest, number: int, why: str) -> None:
        """Removes what is left of a part that is to be judged, and names it where it was judged before."""
        base = folder.at / folder.name(number, "done")
        if base.exists() or base.with_suffix(".verdicts").exists():
            print(f"campaign: part {number:06d}: {why}: it is made again", file=sys.stderr)
        for end in ("done", "verdicts", "sums", "done.now", "verdicts.now", "sums.now"):
            base.with_suffix("." + end).unlink(missing_ok=True)
        script = base.with_suffix(".faults")
        if not script.is_file() or digest(script.read_bytes()) != manifest.parts[number].digest:
            write_bytes(script, self.part_again(folder, manifest.parts[number], number))

    def part_again(self, folder: Folder, part: PartOf, number: int) -> bytes:
        """The script of a part, from the whole script."""
        whole = folder.read("faults")
        if not self.is_class:
            return cut(whole, "faults", script_form.MOST)[number].text
        lines = whole.split(b"\n")
        return b"\n".join([lines[0], *lines[part.first + 1 : part.first + 1 + part.faults], b""])

    def joined(self, folder: Folder, manifest: Manifest, parts: list[Judged]) -> Done:
        """The verdicts and the tables of all parts, which have to be as many as the manifest says."""
        total = Sum()
        for part, said in zip(parts, manifest.parts):
            add(total, part.sums, said.first)
        verdicts = b"".join(part.verdicts for part in parts)
        if total.totals[0] != manifest.groups or verdicts.count(b"\n") != manifest.groups:
            raise Refusal(f"{folder.at}: {total.totals[0]} groups are counted, and the script has {manifest.groups}")
        image = folder.read("image")
        outputs = [slot.name for slot in read_image(image, self.words.image).outputs]
        tables = sum_text(total, outputs)
        said_by_all = summed(folder, manifest, tables) if self.words.sum else ""
        assigned = assigned_of(self.words, self.programs[0])
        tables = assigned.named(tables) if assigned else tables
        folder.write("verdicts", verdicts + totals_line(total.totals).encode("ascii") + b"\n")
        folder.write("tables", tables.encode("utf-8"))
        return Done(folder, tables, verdicts, total.totals, [line for line, _ in total.standing], folder.read("faults"), image, self.of, said_by_all)


def _look(folder: Path, number: int, part: PartOf) -> Judged | str:
    """A part, or why it is none."""
    try:
        return judged(folder, number, part)
    except Refusal as refusal:
        return str(refusal)


def _in_folder(words: Sequence[str]) -> list[str]:
    """The words for parallel: a file that one names stands in the caller's folder."""
    return [str(Path(word).absolute()) if not word.startswith("-") and Path(word).is_file() else word for word in words]
