"""Files that a tool reads or writes; each failure is a refusal of one line."""
from __future__ import annotations

import errno
from pathlib import Path
from typing import NoReturn

from vcp_tools.refusal import Refusal

_REASONS = {
    errno.ENOENT: "there is no such file", errno.EISDIR: "this is a folder, and a file is wanted", errno.ENOSPC: "the disk is full",
    errno.ENOTDIR: "a file is where a folder is wanted",
}


def read_bytes(file: str | Path) -> bytes:
    """The bytes of a file; a refusal that tells absence, a folder and permission apart."""
    try:
        return Path(file).read_bytes()
    except OSError as error:
        refuse(file, error, "read")


def write_bytes(file: str | Path, data: bytes) -> None:
    """Writes a file; a refusal where that fails."""
    try:
        Path(file).write_bytes(data)
    except OSError as error:
        refuse(file, error, "write")


def refuse(file: str | Path, error: OSError, doing: str) -> NoReturn:
    """Refuses a file that couldn't be read or written."""
    if error.errno in (errno.EACCES, errno.EPERM, errno.EROFS):
        raise Refusal(f"{file}: there is no permission to {doing} it") from None
    if error.errno == errno.ENOENT and doing == "write":
        raise Refusal(f"{file}: there is no folder `{Path(file).parent}`") from None
    reason = _REASONS.get(error.errno or 0)
    raise Refusal(f"{file}: {reason or f'{doing} failed: {error.strerror}'}") from None
