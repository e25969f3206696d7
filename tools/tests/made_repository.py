"""A repository made up for tests of what records, files and installs the proved programs: three small crates, a toolchain that proves nothing, and the
launchers, the scripts and the tools of this one."""
from __future__ import annotations

import contextlib
import os
import shutil
import subprocess
from pathlib import Path
from typing import Iterator
from unittest import mock

from vcp_tools.program import TOP

RT = """#!/bin/sh
[ "$1" != version ] || { echo rattle-kit-1 logic a; exit 0; }
echo "$*" >>"HERE/calls"
[ ! -f "HERE/fails" ] || { echo "error: it isn't proved"; echo "0 passed, 1 failed"; exit 1; }
[ ! -f "HERE/slow" ] || sleep 2
rm -rf crates/*/out
for crate in $(sed 's/:.*//' crates.txt); do
    echo "== $crate"
    mkdir -p "crates/$crate/out"
    case $crate in vcp*)
        printf '#!/bin/sh\\necho %s of %s "$@"\\n' "$crate" "$(cat crates/*/src/*.rt | sha256sum | cut -c 1-8)" >"crates/$crate/out/$crate"
        chmod 755 "crates/$crate/out/$crate"
        echo "logic=proved functions=2 axioms=39 main=none" ;;
    *) echo "logic=proved functions=7" ;;
    esac
    echo "rt: $crate proved"
done
[ ! -f "HERE/meanwhile" ] || echo "// more" >>crates/base/src/lib.rt
echo "rt: ok; handles allowed: none; must-fail edits: 1 refused"
echo "4 passed, 0 failed"
"""
"""The toolchain's command: it counts its calls, and builds programs that tell the digest of all code."""
PROMISES = """# Promises

## Claims

### 1. It ends

- *clause*: `base::ends.ok`,
  `base::ends.err`.
- *limit*: none.

### 2. It is right

- *clause*: `base::right`.

## Taken without a proof

The contracts of C functions.

## Tested, trusted, and neither

**Only tested**: that it is quick. Proved with

    rattle-kit-1 logic a

## Not promised
"""
FILES = {
    "crates.txt": "base:\nother: base\nvcp: base\nvcp_study: base other\n", "HANDLES": "Handles allowed: none.\n", ".gitignore": "out/\n__pycache__/\n",
    "crates/base/src/lib.rt": "// base\n", "crates/base/specs/Lib.antt": "pub mod A\n", "crates/base/specs/A.antt": "-- A\n",
    "crates/base/must-fail/one.edit": "old: a\n", "crates/other/src/lib.rt": "// other\n", "crates/vcp/src/main.rt": "// vcp\n",
    "crates/vcp/data/in.csv": "x\n", "crates/vcp_study/src/main.rt": "// study\n", "docs/PROMISES.md": PROMISES, "docs/vcp.1": ".TH vcp\n",
    "docs/vcp_study.1": ".TH study\n", "docs/completion.bash": "# bash\n", "examples/add.st": "PROGRAM Add\n",
    "README.md": "# Made up\n", "CHANGELOG.md": "# Changes\n",
    "checks/documents.sh": "#!/bin/sh\nexit 0\n", "checks/tools.sh": "#!/bin/sh\necho 'OK (skipped=1)'\n", "checks/by_hand.sh": "#!/bin/sh\n",
    "checks/edits/base/two.edit": "old: b\n",
}
KIT = {"KIT-ID": "rattle-kit-1 logic a\n", "bin/rattle": "prover\n", "rlibs/std.rlib/format": "1\n", "rlibs/std.rlib/lang": "2\n", "logic_built/a": "3\n"}
_TOPS = ("program.TOP", "proved.TOP", "evidence.command.TOP", "version.TOP")
"""Where the tools know their repository by."""
TAKEN = ("launch.sh", "vcp", "vcp_study", "vcp_tools", "install.sh", "dist.sh", "checks/installed.sh", ".ci/run")


class Repository:
    """One in a folder `top`, with its toolchain in a folder `kit` beside it."""

    def __init__(self, folder: Path, with_tools: bool = False) -> None:
        self.folder = folder
        self.top = folder / "top"
        self.kit = folder / "kit"
        for top, files in ((self.top, FILES), (self.kit, KIT)):
            for name, text in files.items():
                (top / name).parent.mkdir(parents=True, exist_ok=True)
                (top / name).write_text(text, encoding="utf-8")
        (self.kit / "bin/rt").write_text(RT.replace("HERE", str(folder)), encoding="utf-8")
        for name in TAKEN:
            (self.top / name).parent.mkdir(exist_ok=True)
            shutil.copy(TOP / name, self.top / name)
        if with_tools:
            shutil.copytree(TOP / "tools", self.top / "tools", ignore=shutil.ignore_patterns("__pycache__", "tests"))
        for file in (self.kit / "bin/rt", self.top / "checks/documents.sh", self.top / "checks/tools.sh"):
            file.chmod(0o755)

    def run(self, *words: str | Path, top: Path | None = None, path: str | None = None) -> subprocess.CompletedProcess[str]:
        """Runs a command in a folder, the repository's where none is given, with nothing of the caller's environment but the PATH."""
        known = f"{self.kit / 'bin'}:{os.environ['PATH']}" if path is None else path
        named = {"GIT_AUTHOR_NAME": "a", "GIT_AUTHOR_EMAIL": "a@a", "GIT_COMMITTER_NAME": "a", "GIT_COMMITTER_EMAIL": "a@a", "GIT_CONFIG_GLOBAL": "/dev/null"}
        return subprocess.run([str(word) for word in words], cwd=top or self.top, env={"PATH": known, **named}, capture_output=True, text=True,
                              stdin=subprocess.DEVNULL, check=False)

    @contextlib.contextmanager
    def taken_for_ours(self, path: str | None = None) -> Iterator[None]:
        """Has the tools of this process take the repository for theirs."""
        with contextlib.ExitStack() as patched:
            for name in _TOPS:
                patched.enter_context(mock.patch(f"vcp_tools.{name}", self.top))
            patched.enter_context(mock.patch("vcp_tools.evidence.command.GATE", self.top / "out/gate.log"))
            known = {"PATH": f"{self.kit / 'bin'}:{os.environ['PATH']}" if path is None else path}
            patched.enter_context(mock.patch.dict(os.environ, known))
            for name in ("VCP", "VCP_STUDY"):
                os.environ.pop(name, None)
            yield

    def commit(self) -> None:
        """Commits all that is there."""
        self.run("git", "init", "-q")
        self.run("git", "add", "-A")
        self.run("git", "commit", "-q", "-m", "all")

    def gate(self) -> None:
        """Runs the gate, and keeps its log."""
        (self.top / "out").mkdir(exist_ok=True)
        done = self.run(".ci/run")
        (self.top / "out/gate.log").write_text(done.stdout + done.stderr, encoding="utf-8")

    @property
    def proofs(self) -> int:
        """How often the toolchain was asked for proofs."""
        calls = self.folder / "calls"
        return calls.read_text(encoding="utf-8").count("\n") if calls.is_file() else 0

    def change(self, name: str) -> None:
        """Changes one byte of a file, in its last line but one, and gives the file no other time."""
        file = self.top / name
        data, found = bytearray(file.read_bytes()), file.stat()
        at = data.rindex(b"\n", 0, -1) - 1 if data.count(b"\n") > 1 else len(data) - 2
        data[at] ^= 1
        file.write_bytes(data)
        os.utime(file, ns=(found.st_atime_ns, found.st_mtime_ns))
