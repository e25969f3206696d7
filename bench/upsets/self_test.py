#!/usr/bin/env python3
"""Whether the injector flips what it says, and sorts what came as it should: each flip of bits in a program of which the effect of each is known (self_test.c).

    bench/upsets/self_test.py [COUNT]    flips COUNT bits of registers, 300 where COUNT isn't given, and half as many of flags and of memory

It takes a minute or two, since some of the runs hang, as they should, and prints what came otherwise, or how many flips came as expected.
"""
from __future__ import annotations

import subprocess
import sys
import tempfile
from pathlib import Path

HERE = Path(__file__).resolve().parent
sys.path.insert(0, str(HERE))

from table import lowest_address  # noqa: E402

FLAGS = ("-O1 -static -nostdlib -no-pie -fno-stack-protector -fno-builtin -mgeneral-regs-only -mno-red-zone -fcf-protection=none -Wl,--build-id=none").split()
RIGHT = "cycle,y\n0,0\n1,1\nend 2\n"
SEED = "1"
ENDS = {
    "rax": "refused 3", "rbx": "stopped 2", "rcx": "status 5", "rdx": "hung -1", "rsi": "hung -1", "rdi": "signal 1004", "rbp": "wrong 0 got - want 1,1",
    "r8": "wrong 3 got 1,9 want 1,1", "r9": "status 6", "r10": "refused 3", "r11": "wrong 0 got 1,1 want -", "r12": "wrong 0 got stop~1~RANGE~1:1 want 1,1",
}
"""What comes where a register differs; of the others the row names the register and the bit."""
FIELD_BYTES = 8 * 2048


def expected(place: str, bit: str, field: int) -> str | None:
    """What a flip in the long row comes to, or nothing where that isn't known."""
    if place in ENDS:
        return ENDS[place]
    told = f"{place}:{bit}"
    where, _, address = place.partition(":")
    if where == "stack":
        return "same 0"
    if where in ("data", "heap"):
        at = int(address.partition("/")[0], 16)
        if not field <= at < field + FIELD_BYTES:
            return None
        told = f"{at}:{bit}"
    elif place[1:] == "F":
        told = f"flags:{bit}"
    return f"wrong 0 got 1,{told} want 1,1"


def main(words: list[str]) -> int:
    """Flips, and compares."""
    count = int(words[0]) if words else 300
    with tempfile.TemporaryDirectory() as at:
        folder = Path(at)
        folder.chmod(0o755)
        program, inject, right = str(folder / "program"), str(folder / "inject"), str(folder / "right")
        Path(right).write_text(RIGHT)
        subprocess.run(["cc", "-O2", "-o", inject, str(HERE / "inject.c")], check=True)
        subprocess.run(["cc", *FLAGS, "-o", program, str(HERE / "self_test.c")], check=True)
        symbols = {name: int(address, 16) for address, _, name in
                   (line.split(" ") for line in subprocess.run(["nm", program], check=True, capture_output=True, text=True).stdout.splitlines())}
        trace = str(folder / "trace")
        subprocess.run([inject, "trace", right, trace, program], check=True, capture_output=True)
        plan = ["register", "0", str(count), "flags", "0", str(count // 2), "memory", "0", str(count // 2), "none", "0", str(count)]
        told = subprocess.run([inject, "flips", right, trace, SEED, "0", *plan, "--", program], check=True, capture_output=True, text=True).stdout
        lowest = lowest_address(Path(program).read_bytes())
    compared = otherwise = 0
    for line in told.splitlines():
        _, _, _, object_at, _, place, bit, came = line.split(" ", 7)
        address = lowest + int(object_at.partition("+")[2], 16)
        wanted = expected(place, bit, symbols["field"]) if symbols["row"] < address < symbols["row_end"] and place != "-" else None
        if wanted is None:
            continue
        compared += 1
        if came != wanted:
            otherwise += 1
            print(f"{line}: {wanted} was expected")
    print(f"{compared} of {len(told.splitlines())} flips compared, {otherwise} came otherwise")
    return int(otherwise > 0 or compared < count)


if __name__ == "__main__":
    sys.exit(main(sys.argv[1:]))
