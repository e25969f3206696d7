"""What a tool needs beyond Python's own library, and how it is installed."""
from __future__ import annotations

import importlib
import importlib.util
import sys
from types import ModuleType

from vcp_tools.refusal import Refusal

INSTALL = "apt-get install python3-lark python3-z3 parallel"
"""The one line that installs what the tools need on Debian."""
DEBIAN = "/usr/lib/python3/dist-packages"
"""Where Debian's packages stand: another Python, first on the PATH, doesn't look there."""
_PIP = {"z3": "z3-solver"}
"""What a module is called elsewhere, where that isn't its own name."""


def find_module(name: str) -> ModuleType | None:
    """A module that may be installed; None where it isn't."""
    if importlib.util.find_spec(name) is None and DEBIAN not in sys.path:
        sys.path.append(DEBIAN)
        importlib.invalidate_caches()
    return importlib.import_module(name) if importlib.util.find_spec(name) is not None else None


def need_module(name: str) -> ModuleType:
    """A module without which a tool can't go on; a refusal with the line that installs it where it is missing."""
    found = find_module(name)
    if found is None:
        raise Refusal(f"the Python module `{name}` isn't installed: {INSTALL} (or: pip install {_PIP.get(name, name)})")
    return found
