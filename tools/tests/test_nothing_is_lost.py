"""Seven ways in which a campaign may lose faults without a word, each made to happen: what stands in the end is whole, or no answer stands.

CAMPAIGN=FILE tries another program in the tool's place, with the same words; its parts have to be of 50 faults. The programs are made up.
"""
from __future__ import annotations

import contextlib
import os
import shutil
import subprocess
import sys
import time

from tests.made_up import IMAGE, OPERATIONS
from tests.test_failures import CALL, CYCLES, MadeUp

OTHER = os.environ.get("CAMPAIGN")
LINE = b"faults %d same " % (OPERATIONS * (CYCLES - 1))


class NothingIsLost(MadeUp):
    """A campaign of ten parts."""

    def setUp(self) -> None:
        super().setUp()
        self.words = ["m.img", "r.csv", "skip"]

    def begun(self, *words: str) -> subprocess.Popen[bytes]:
        """Begins a campaign with these words, or those of the class."""
        call = [OTHER] if OTHER else [sys.executable, "-c", CALL, "campaign", "--quiet"]
        return subprocess.Popen([*call, *(words or self.words)], cwd=self.folder, stdin=subprocess.DEVNULL, stdout=subprocess.PIPE, stderr=subprocess.PIPE)

    def tried(self, *words: str) -> tuple[bool, bytes]:
        """Whether a campaign says that all was judged, and what it prints."""
        running = self.begun(*words)
        told, errors = running.communicate(timeout=120)
        self.assertNotIn(b"Traceback", errors)
        return running.returncode in (0, 9), told

    def reference_of(self, *words: str) -> bytes:
        """What a campaign prints where nothing goes wrong; its folder is removed."""
        is_whole, told = self.tried(*words)
        self.assertTrue(is_whole)
        self.clear()
        return told

    def whole_or_refused(self, wanted: bytes, *words: str) -> None:
        """A campaign gives the whole answer or none."""
        is_whole, told = self.tried(*words)
        if is_whole:
            self.assertEqual(told, wanted)

    def again(self) -> bytes:
        """What a campaign prints that is called when all is well."""
        is_whole, told = self.tried()
        self.assertTrue(is_whole)
        return told

    def failing(self, name: str, command: str, script: str) -> None:
        """Has a program do another thing for one command, as long as the file `fail` stands in the folder."""
        self.wrap(name, f'if [ "$1" = {command} ] && [ -e "{self.folder}/fail" ]; then {script}; fi\nexec REAL "$@"\n')

    def test_1_tables_that_break_off(self) -> None:
        """`sum` is killed in its midst, or the disk is full."""
        self.failing("vcp_study", "sum", 'REAL "$@" | head -c 300; kill -9 $$')
        wanted = self.reference_of()
        self.write("fail", "")
        self.whole_or_refused(wanted)
        (self.folder / "fail").unlink()
        self.assertEqual(self.again(), wanted)

    def test_2_parts_that_are_deleted(self) -> None:
        """Two parts are gone with all of their files."""
        wanted = self.again()
        for number in (2, 3):
            for file in self.folder.glob(f"campaign.*/parts/{number:06d}.*"):
                file.unlink()
        self.whole_or_refused(wanted)

    def test_3_a_script_whose_name_is_an_assignment(self) -> None:
        """`seed=3.faults`, which a program may take for a setting."""
        script = "".join(f"skip {1 + number % 9} {number % OPERATIONS}\n" for number in range(120))
        for name in ("plain.faults", "seed=3.faults", "-- %d.faults"):
            self.write(name, script)
        wanted = self.reference_of("m.img", "r.csv", "plain.faults")
        self.assertIn(b"faults 120 same ", wanted)
        for name in ("seed=3.faults", "-- %d.faults"):
            self.assertEqual(self.tried("m.img", "r.csv", f"./{name}" if name[0] == "-" else name), (True, wanted))

    def test_4_a_run_that_breaks_off(self) -> None:
        """`exec`, by which the cycles of a class are told, ends early with a status that says so."""
        wanted = self.reference_of()
        self.write("fail", "")
        for script in ('REAL "$@" | head -c 30; exit 5', 'REAL "$@" | head -n 4; exit 0', "kill -9 $$", "exit 6"):
            self.failing("vcp", "exec", script)
            self.whole_or_refused(wanted)
            self.clear()
            self.unwrap("vcp")

    def test_5_another_program(self) -> None:
        """A rebuilt program judges otherwise: the old one's answers are none of its."""
        wanted = self.again()
        self.assertIn(b" got 1 want 0", wanted)
        self.wrap("vcp", '[ "$1" = inject ] || exec REAL "$@"\nREAL "$@" | sed "s/ got 1 / got 7 /"\n')
        self.assertEqual(self.tried(), (True, wanted.replace(b" got 1 ", b" got 7 ")))

    def test_6_ends_of_lines(self) -> None:
        """CR LF: the digest of another image in the first line is seen, and no group is cut."""
        for number in (1, 9):
            self.write("other.faults", f"# sites skip of {number:064d}\r\nskip 1 1\r\n")
            self.assertFalse(self.tried("m.img", "r.csv", "other.faults")[0])
        script = "".join(f"begin\nskip {1 + number % 9} {number % 37}\nskip {1 + number % 9} 38\nskip {2 + number % 9} 39\nend\n" for number in range(60))
        self.write("lf.faults", script)
        self.write("cr_lf.faults", script.replace("\n", "\r\n"))
        wanted = self.reference_of("m.img", "r.csv", "lf.faults")
        self.assertIn(b"\nfaults 60 same ", wanted)
        self.assertEqual(self.tried("m.img", "r.csv", "cr_lf.faults"), (True, wanted))

    def test_7_two_campaigns_at_once(self) -> None:
        """One of them is whole, and the other one, too, or it is refused."""
        wanted = self.reference_of()
        self.wrap("vcp_study", '[ "$1" != sites ] || sleep 0.3\nexec REAL "$@"\n')
        running = [self.begun()]
        time.sleep(1)
        running.append(self.begun())
        told = [it.communicate(timeout=120)[0] for it in running]
        found = [text for it, text in zip(running, told) if it.returncode in (0, 9)]
        self.assertGreater(len(found), 0)
        self.assertEqual(set(found), {wanted})
        self.assertEqual(self.again(), wanted)

    def test_7_files_that_change_meanwhile(self) -> None:
        """The rows get shorter while the campaign begins, and are put right: what stands is of the right ones."""
        wanted = self.reference_of()
        self.write("short.csv", "x\n" + "1\n" * 4)
        shutil.copy(self.folder / "r.csv", self.folder / "long.csv")
        self.failing("vcp", "exec", f'rm "{self.folder}/fail"; REAL "$@"; cp "{self.folder}/short.csv" "{self.folder}/r.csv"; exit 0')
        self.write("fail", "")
        self.whole_or_refused(wanted)
        shutil.copy(self.folder / "long.csv", self.folder / "r.csv")
        self.assertEqual(self.again(), wanted)

    def test_7_writes_that_fail(self) -> None:
        """A limit of a file's size is passed wherever it is."""
        wanted = self.reference_of()
        for blocks in (1, 3, 12):
            call = [OTHER] if OTHER else [sys.executable, "-c", CALL, "campaign", "--quiet"]
            limited = ["sh", "-c", f'ulimit -f {blocks}; exec "$@"', "sh", *call, *self.words]
            done = subprocess.run(limited, cwd=self.folder, capture_output=True, stdin=subprocess.DEVNULL, check=False)
            if done.returncode in (0, 9):
                self.assertEqual(done.stdout, wanted)
        self.assertEqual(self.again(), wanted)

    def test_7_programs_without_inputs(self) -> None:
        """Cycles in the place of rows."""
        is_whole, told = self.tried("m.img", "skip", "--cycles", str(CYCLES))
        self.assertTrue(is_whole)
        self.assertIn(LINE, told)
        with contextlib.suppress(FileNotFoundError):
            self.assertEqual((self.folder / "m.img").read_bytes(), IMAGE)
