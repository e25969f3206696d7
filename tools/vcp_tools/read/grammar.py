"""Grammars in files, read by `lark`."""
from __future__ import annotations

from functools import lru_cache
from pathlib import Path
from typing import Any

from vcp_tools.needs import need_module


@lru_cache(maxsize=None)
def reader(name: str, start: str, builder: type, postlex: type | None = None, lexer: str = "basic") -> Any:
    """What reads texts of the grammar in the file `name`.lark from its rule `start`, and has a `builder` make something of each rule."""
    lark = need_module("lark")
    more: dict[str, Any] = {} if postlex is None else {"postlex": postlex()}
    file = Path(__file__).resolve().parent / f"{name}.lark"
    more["import_paths"] = [str(file.parent)]
    return lark.Lark(file.read_text(encoding="ascii"), parser="lalr", lexer=lexer, start=start, transformer=builder(), **more)
