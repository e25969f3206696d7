"""`campaign`, where something fails in its midst: each fault is judged in the end, or the tool says that it isn't. The programs are made up."""
from __future__ import annotations

import contextlib
import os
import re
import shutil
import signal
import subprocess
import sys
import time
import unittest
from pathlib import Path
from unittest import mock

from tests.made_up import IMAGE, OPERATIONS, install
from tests.support import InFolder
from vcp_tools.needs import INSTALL
from vcp_tools.program import TOP
from vcp_tools.read.range_lines import ranges_of
from vcp_tools.refusal import Refusal

CYCLES = 13
TOTALS = f"faults {OPERATIONS * (CYCLES - 1)} same "
CALL = "import sys; from vcp_tools.read import script; script.MOST = 50; from vcp_tools.main import main; sys.exit(main(sys.argv[1:]))"
"""The tool with small parts."""
SSH = """#!/bin/sh
# ssh [OPTION].. HOST [--] COMMAND.., of a machine that is a folder and has no shell for its user; the file `lost` there says how many calls go on before
# it is lost.
while :; do case $1 in -[loip]) shift 2 ;; -*) shift ;; *) break ;; esac; done
shift
[ "$1" != -- ] || shift
cd HERE || exit 1
if [ -s lost ]; then
    until mkdir counts 2>/dev/null; do sleep 0.01; done
    left=$(cat lost)
    echo $((left > 0 ? left - 1 : 0)) >lost
    rmdir counts
    [ "$left" -gt 0 ] || { echo "ssh: connect to host far port 22: No route to host" >&2; exit 255; }
fi
cd home && HOME=$PWD SHELL=/bin/false exec sh -c "$*"
"""
needs_parallel = unittest.skipUnless(shutil.which("parallel") and shutil.which("rsync"), "GNU parallel and rsync aren't both installed")


class MadeUp(InFolder):
    """A campaign of ten parts over made-up programs, each test with its own harm."""

    reference: dict[str, bytes] = {}

    def setUp(self) -> None:
        super().setUp()
        home = os.environ.get("HOME", str(self.folder))  # without one GNU parallel warns
        patch = mock.patch.dict(os.environ, {**install(self.folder), "PYTHONPATH": str(TOP / "tools"), "PYTHONDONTWRITEBYTECODE": "1", "HOME": home})
        patch.start()
        self.addCleanup(patch.stop)
        self.write("m.img", IMAGE)
        self.write("r.csv", "x\n" + "1\n" * CYCLES)
        self.words = ["campaign", "m.img", "r.csv", "skip", "--quiet"]

    def begin(self, *more: str, at: Path | None = None) -> subprocess.Popen[str]:
        """Begins the campaign."""
        call = [sys.executable, "-c", CALL, *self.words, *more]
        return subprocess.Popen(call, cwd=at or self.folder, text=True, stdin=subprocess.DEVNULL, stdout=subprocess.PIPE, stderr=subprocess.PIPE)

    def run_to(self, status: int, *more: str, at: Path | None = None) -> str:
        """The campaign to its end, with this status; what it prints, errors behind the rest."""
        running = self.begin(*more, at=at)
        told, errors = running.communicate()
        self.assertEqual(running.returncode, status, told[-200:] + errors)
        self.assertNotIn("Traceback", errors)
        return told + errors

    def whole(self, at: Path | None = None) -> bytes:
        """The verdicts of the campaign that stands in a folder, which have to be those of one without a failure; and so have its tables."""
        if not MadeUp.reference:
            self.run_to(9, "--out", "reference")
            MadeUp.reference = {name: (self.folder / "reference" / name).read_bytes() for name in ("verdicts", "tables", "faults")}
        folders = [*(at or self.folder).glob("campaign.*")]
        self.assertEqual(len(folders), 1)
        self.assertEqual({name: (folders[0] / name).read_bytes() for name in MadeUp.reference}, MadeUp.reference)
        return MadeUp.reference["verdicts"]

    def wrap(self, name: str, script: str) -> None:
        """Puts a shell script, in which REAL is the program, in the place of one."""
        file = self.folder / f"made_up_{name}"
        file.rename(self.folder / f"real_{name}")
        self.write(file.name, "#!/bin/sh\n" + script.replace("REAL", str(self.folder / f"real_{name}"))).chmod(0o755)

    def unwrap(self, name: str) -> None:
        """Puts the program back."""
        (self.folder / f"real_{name}").rename(self.folder / f"made_up_{name}")

    def clear(self) -> None:
        """Removes the campaigns' folders."""
        for folder in self.folder.glob("campaign.*"):
            shutil.rmtree(folder)

    def answers(self, at: Path | None = None) -> list[str]:
        """The answers of the whole that stand in the campaigns' folders."""
        return [file.name for folder in (at or self.folder).glob("campaign.*") for file in folder.glob("[tv]*") if file.name in ("tables", "verdicts")]

    def without_parallel(self) -> str:
        """A folder of programs in which GNU parallel isn't."""
        at = self.folder / "bin"
        at.mkdir()
        for folder in os.environ["PATH"].split(":"):
            for file in Path(folder).glob("*"):
                if file.name != "parallel" and not (at / file.name).is_symlink():
                    (at / file.name).symlink_to(file)
        return str(at)


class Statuses(MadeUp):
    """9 where something was found, by both programs of the repository and by those from before."""

    def test_a_campaign_that_finds_something(self) -> None:
        for status in ("9", "1"):
            with mock.patch.dict(os.environ, {"FOUND": status}):
                self.assertIn(TOTALS, self.run_to(9))
        self.write("seen.faults", "".join(f"skip {cycle} 1\n" for cycle in range(1, 9) if (7 * cycle + 3) % 12 not in (5, 7)))
        self.words[3] = "seen.faults"
        self.assertIn(" wrong 0 ran-on 0 ", self.run_to(0))

    def test_copies_stand_in_the_callers_folder(self) -> None:
        self.wrap("vcp", f'[ "$1" != exec ] || echo "$2" >>"{self.folder}/asked"\nexec REAL "$@"\n')
        self.run_to(9)
        (self.folder / "out").mkdir()
        self.run_to(9, "--out", "out/here")
        images = [Path(line) for line in (self.folder / "asked").read_text().splitlines()]
        self.assertEqual([image.parent.parent for image in images], [self.folder, self.folder / "out"])
        self.assertEqual([file for at in (self.folder, self.folder / "out") for file in at.glob(".campaign-*")], [])

    def test_progress_and_quiet(self) -> None:
        self.wrap("vcp", '[ "$1" != inject ] || sleep 0.2\nexec REAL "$@"\n')
        for at in range(2):
            quiet = ["--quiet"] * at
            call = [sys.executable, "-c", f"from vcp_tools.campaign import engine; engine.SECONDS = 0.3; {CALL}", *self.words[:4], "--jobs", "1", *quiet]
            done = subprocess.run(call, cwd=self.folder, capture_output=True, text=True, stdin=subprocess.DEVNULL, check=False)
            self.assertEqual(done.returncode, 9, done.stderr)
            said = re.findall(r"^campaign: (\d+) of 10 parts(?:, about \d+ s left)?$", done.stderr, re.M)
            self.assertEqual(said, sorted(said, key=int))
            self.assertEqual((bool(said), " s left" in done.stderr), (not at, not at), done.stderr)
            self.clear()

    def test_without_parallel(self) -> None:
        self.write("hosts", "2/far\n")
        with mock.patch.dict(os.environ, {"PATH": self.without_parallel()}):
            for words in (["--hosts", "hosts"], ["--bar"], ["--stroe", "s.db"]):
                self.assertIn(f"goes to GNU parallel, which isn't installed: {INSTALL}", self.run_to(2, *words))
            self.assertIn("GNU parallel isn't installed: the parts run in a pool of 3", self.run_to(9, "--jobs", "3"))
            self.whole()

    def test_all_parts_are_counted_together_and_compared(self) -> None:
        said = "summed: `vcp_study sum` over all 10 parts together, which is proved, says the same\n"
        self.assertTrue(self.run_to(9, "--sum").endswith(said))
        self.whole()
        folder = next(self.folder.glob("campaign.*"))
        self.assertRegex((folder / "summed").read_text(encoding="utf-8"), r"(?m)^9:\d+ wrong ")
        with mock.patch.dict(os.environ, {"MISCOUNT": "1"}):
            self.assertIn("isn't what is added up of each", self.run_to(2, "--sum"))
        self.assertNotIn("summed", self.run_to(9))
        self.wrap("vcp_study", '[ "$1" != sum ] || [ $# -lt 8 ] || { echo "no memory" >&2; exit 7; }\nexec REAL "$@"\n')
        self.clear()
        self.assertIn("vcp_study sum: no memory", self.run_to(2, "--sum"))

    def test_statuses_that_say_another_thing(self) -> None:
        for script, said in (('[ "$1" != sum ] || { REAL "$@"; exit 0; }', "isn't judged"), ('[ "$1" != sum ] || { REAL "$@"; exit 4; }', "isn't judged"),
                             ('[ "$1" != sum ] || { echo "f:1 V1 Verdict" >&2; exit 1; }', "isn't judged")):
            self.wrap("vcp_study", f'{script}\nexec REAL "$@"\n')
            self.assertIn(said, self.run_to(2))
            self.assertEqual(self.answers(), [])
            self.unwrap("vcp_study")

    def test_ranges(self) -> None:
        for status in ("9", "1"):
            with mock.patch.dict(os.environ, {"FOUND": status}):
                self.assertEqual(ranges_of(IMAGE + b"x").ending, "may stop at 1 of 1 operations")
        self.assertEqual(ranges_of(IMAGE).ending, "can't stop")
        for script in ('REAL "$@"; exit 0', "echo 'm.img:3 I3 Short' >&2; exit 1", 'REAL "$@" | head -c 10; exit 9'):
            self.wrap("vcp_study", script + "\n")
            with self.assertRaises(Refusal):
                ranges_of(IMAGE + b"x")
            self.unwrap("vcp_study")


class Failures(MadeUp):
    """What fails in the midst of a campaign."""

    def mounted(self) -> Path:
        """A small file system in a file; the test is skipped where it can't be made."""
        at = self.folder / "small"
        at.mkdir()
        self.write("small.ext2", bytes(600 << 10))
        for call in (["mkfs.ext2", "-q", "-F", "-N", "256", "small.ext2"], ["mount", "-o", "loop", "small.ext2", "small"]):
            if not shutil.which(call[0]) or subprocess.run(call, cwd=self.folder, capture_output=True, check=False).returncode:
                self.skipTest("no file system can be made and mounted here")
        self.addCleanup(lambda: subprocess.run(["umount", str(at)], check=True))
        for name in ("m.img", "r.csv"):
            shutil.copy(self.folder / name, at)
        return at

    def fill(self, file: Path, left: int) -> None:
        """Fills a disk with a file, and leaves so many bytes."""
        with open(file, "wb", buffering=0) as ballast, contextlib.suppress(OSError):
            while ballast.write(bytes(1024)):
                pass
        os.truncate(file, file.stat().st_size - left)

    def test_a_disk_that_is_full(self) -> None:
        at = self.mounted()
        for left in (1_000, 12_000, 25_000):
            self.fill(at / "ballast", left)
            self.assertRegex(self.run_to(2, at=at), "full|isn't judged|No space")
            self.assertEqual(self.answers(at), [])
            (at / "ballast").unlink()
        self.assertIn(TOTALS, self.run_to(9, at=at))
        self.whole(at)

    def test_a_limit_of_file_size(self) -> None:
        call = f'ulimit -f 2; exec "{sys.executable}" -c "$0" {" ".join(self.words)}'
        done = subprocess.run(["sh", "-c", call, CALL], cwd=self.folder, capture_output=True, text=True, check=False)
        self.assertIn(done.returncode, (2, 153), done.stderr)
        self.assertEqual(self.answers(), [])
        self.run_to(9)
        self.whole()

    def test_a_tool_that_is_ended(self) -> None:
        for path, numbers in ((os.environ["PATH"], (signal.SIGTERM, signal.SIGINT)), (self.without_parallel(), (signal.SIGHUP,))):
            for number in numbers:
                slow = f': >"{self.folder}/slow"; sleep 30'
                self.wrap("vcp", f'[ "$1" != inject ] || case $(ls parts/*.done | wc -l) in [3-9]) {slow} ;; esac\nexec REAL "$@"\n')
                with mock.patch.dict(os.environ, {"PATH": path}):
                    running = self.begin("--jobs", "1")
                    self.wait_for(self.folder / "slow")
                    running.send_signal(number)
                    began = time.monotonic()
                    _, errors = running.communicate()
                self.assertEqual(running.returncode, 128 + number, errors)
                self.assertLess(time.monotonic() - began, 10)
                self.assertEqual(self.answers(), [])
                (self.folder / "slow").unlink()
                self.unwrap("vcp")
                for folder in self.folder.glob("campaign.*"):
                    self.assertEqual(len(list(folder.glob("parts/*.done"))), 3)
                    subprocess.run(["flock", "--timeout", "10", str(folder / "lock"), "true"], check=True)
                    shutil.rmtree(folder)
                self.run_to(9)
                self.whole()
                self.clear()

    def test_a_tool_that_is_killed_goes_on_where_it_was(self) -> None:
        self.wrap("vcp", f'[ "$1" != inject ] || [ ! -e "{self.folder}/hold" ] || case $(ls parts/*.done | wc -l) in 4) : >"{self.folder}/slow"; '
                         f'while [ -e "{self.folder}/hold" ]; do sleep 0.1; done ;; esac\nexec REAL "$@"\n')
        self.write("hold", "")
        running = self.begin("--jobs", "1")
        self.wait_for(self.folder / "slow")
        running.kill()
        for pipe in (running.stdout, running.stderr):
            if pipe is not None:
                pipe.close()
        running.wait()
        self.assertIn("another campaign works in this folder", self.run_to(2))
        (self.folder / "hold").unlink()
        folder = next(self.folder.glob("campaign.*"))
        subprocess.run(["flock", str(folder / "lock"), "true"], check=True, timeout=30)
        self.assertIn(TOTALS, self.run_to(9))
        self.whole()

    def test_programs_that_are_killed_now_and_then(self) -> None:
        for name, command in (("vcp", "inject"), ("vcp_study", "sum")):
            once = f'[ "$1" = {command} ] && [ ! -e "{self.folder}/killed" ]'
            self.wrap(name, f'if {once}; then : >"{self.folder}/killed"; REAL "$@" | head -n 5; kill -9 $$; fi\nexec REAL "$@"\n')
            self.assertIn(TOTALS, self.run_to(9))
            self.whole()
            (self.folder / "killed").unlink()
            self.unwrap(name)
            self.clear()

    def test_a_second_campaign_at_once(self) -> None:
        self.wrap("vcp", f'[ "$1" != inject ] || while [ ! -e "{self.folder}/go" ]; do : >"{self.folder}/slow"; sleep 0.1; done\nexec REAL "$@"\n')
        running = self.begin()
        self.wait_for(self.folder / "slow")
        self.assertIn("another campaign works in this folder", self.run_to(2))
        self.write("go", "")
        told, errors = running.communicate()
        self.assertEqual(running.returncode, 9, errors)
        self.assertIn(TOTALS, told)
        self.whole()

    def test_parts_that_are_half_changed_or_gone(self) -> None:
        first = self.run_to(9)
        verdicts = self.whole()
        at = next(self.folder.glob("campaign.*"))
        harms = [(end, harm) for end in ("faults", "verdicts", "sums", "done") for harm in ("gone", "empty", "changed", "half", "another part's")]
        for begin in (0, 10):
            for number, (end, harm) in enumerate(harms[begin : begin + 10]):
                file = at / f"parts/{number:06d}.{end}"
                given = file.read_bytes()
                file.unlink()
                if harm != "gone":
                    other = (at / f"parts/{(number + 1) % 10:06d}.{end}").read_bytes()
                    file.write_bytes({"empty": b"", "changed": given.replace(b"1", b"2", 1), "half": given[: len(given) // 2], "another part's": other}[harm])
            again = self.run_to(9)
            self.assertEqual([number for number in range(10) if f"part {number:06d}: " not in again], [])
            self.assertTrue(again.startswith(first))
            self.assertEqual((at / "verdicts").read_bytes(), verdicts)
        for names in (("judge", "tables", "verdicts", "lock"), ("manifest",), ("image", "rows"), ("vcp", "study"), ("faults",), ("parts",)):
            for name in names:
                shutil.rmtree(at / name) if name == "parts" else (at / name).unlink()
            self.assertTrue(self.run_to(9).startswith(first), names)
            self.assertEqual((at / "verdicts").read_bytes(), verdicts)

    def test_names_and_ends_of_lines(self) -> None:
        script = b"# of nothing\n\nbegin\nskip 1 1\n# a remark\nskip 2 2\nend\n" + b"".join(b"skip %d %d\n" % (n // 40 + 3, n % 40) for n in range(200))
        self.write("seed=3.faults", script.replace(b"\n", b"\r\n"))
        self.write("plain.faults", script)
        told = []
        for name in ("seed=3.faults", "plain.faults"):
            self.words[3] = name
            told.append(self.run_to(9))
        self.assertIn("\nfaults 201 same ", told[0])
        self.assertEqual(*told)

    def wait_for(self, file: Path) -> None:
        """Waits until a file is there."""
        for _ in range(300):
            if file.exists():
                return
            time.sleep(0.1)
        self.fail(f"{file} doesn't come")


@needs_parallel
class Hosts(MadeUp):
    """Other machines, and such that are lost."""

    def setUp(self) -> None:
        super().setUp()
        (self.folder / "far/home").mkdir(parents=True)
        self.write("ssh", SSH.replace("HERE", str(self.folder / "far"))).chmod(0o755)
        patch = mock.patch.dict(os.environ, {"PARALLEL_SSH": str(self.folder / "ssh")})
        patch.start()
        self.addCleanup(patch.stop)

    def test_a_host(self) -> None:
        self.write("hosts", "2/far\n")
        self.assertIn(TOTALS, self.run_to(9, "--hosts", "hosts"))
        self.whole()
        self.assertEqual(list((self.folder / "far/home").iterdir()), [])

    def test_options_that_go_to_parallel(self) -> None:
        self.write("hosts", "2/far\n")
        for words in (["--bar"], ["--eta"], ["--progress", "--jobs", "2"], ["-j2"], ["--jobs", "3"], ["--sshloginfile", "hosts"], ["--load", "1000%"]):
            self.assertIn(TOTALS, self.run_to(9, *words))
            self.whole()
            self.clear()

    def test_a_host_that_is_lost(self) -> None:
        self.write("hosts", "2/far\n")
        for left in (0, 30, 60):
            self.write("far/lost", f"{left}\n")
            self.assertRegex(self.run_to(2, "--hosts", "hosts"), r"isn't judged: 00000\d\.\w+ is gone[^$]*of 10 parts aren't judged")
            self.assertEqual(self.answers(), [])
        (self.folder / "far/lost").unlink()
        self.assertIn(TOTALS, self.run_to(9, "--hosts", "hosts"))
        self.whole()

    def test_a_host_that_is_lost_beside_one_that_is_not(self) -> None:
        self.write("hosts", "1/far\n2/:\n")
        self.write("far/lost", "20\n")
        self.assertIn(TOTALS, self.run_to(9, "--hosts", "hosts"))
        self.whole()

    @unittest.skipIf(subprocess.run("ssh -o BatchMode=yes -o ConnectTimeout=3 ${SSH_OPTIONS-} localhost true", shell=True, capture_output=True,
                                    check=False).returncode, "no server lets us in at localhost by ssh (SSH_OPTIONS)")
    def test_a_server_at_localhost(self) -> None:
        with mock.patch.dict(os.environ, {"PARALLEL_SSH": f"ssh -o BatchMode=yes {os.environ.get('SSH_OPTIONS', '')}"}):
            self.write("hosts", "2/localhost\n")
            self.assertIn(TOTALS, self.run_to(9, "--hosts", "hosts"))
            self.whole()
            self.write("hosts", "1/localhost\n1/localhost.invalid\n")
            self.clear()
            self.assertIn(TOTALS, self.run_to(9, "--hosts", "hosts"))
            self.whole()


if __name__ == "__main__":
    unittest.main()
