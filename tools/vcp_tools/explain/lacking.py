"""What is said of what IEC 61131-3 has and this profile lacks: what there isn't, what stands for it here, and the page that shows it."""
from __future__ import annotations

NO_REAL = "there is no REAL: count in a fixed point, as thousandths in a DINT (1.5 becomes 1500; docs/PATTERNS.md, 'Fixed point')"
NO_TIME = ("there is no TIME: count cycles in an INT, as 10 for 5 s where a cycle takes 500 ms, and 11 for a TON "
           "(docs/PATTERNS.md, 'Time, counted in cycles'; `vcp_tools lower` writes timers so)")
NO_DATE = "there are no dates and no times of day: what depends on them is an input (docs/PATTERNS.md)"
NO_ARRAYS = "there are no arrays: declare a variable for each element (docs/PATTERNS.md)"
NO_STRUCTURES = "there are no structures: declare a variable for each part (docs/PATTERNS.md)"
NO_ADDRESSES = "there are no direct addresses: declare a VAR_INPUT or VAR_OUTPUT by its name alone; inputs come from the rows (docs/PATTERNS.md)"
NO_BITS = "there are no bits of a number: declare a BOOL for each (docs/PATTERNS.md)"
NO_POINTERS = "there are no pointers and references: use the variables themselves"
NO_BLOCKS = "there are no function blocks: keep a timer or an edge in variables of your own, counted by cycles (docs/PATTERNS.md)"
_TIMERS = ("there are no function blocks: a timer is a counter of cycles in a variable of your own "
           "(docs/PATTERNS.md, 'Time, counted in cycles')")
_EDGES = ("there are no function blocks: for an edge keep the value of the cycle before in a variable of your own "
          "(docs/PATTERNS.md, 'Edges and latches')")
_LATCHES = "there are no function blocks: a latch is a line of its own (docs/PATTERNS.md, 'Edges and latches')"
_COUNTERS = "there are no function blocks: count the edges in a variable of your own (docs/PATTERNS.md, 'Edges and latches')"
_OWN = "there are no function blocks: write its variables and its statements out (docs/PATTERNS.md)"
_BLOCKS = {
    **dict.fromkeys(("TON", "TOF", "TP", "BLINK", "RTC", "TONR", "TON_R"), _TIMERS), **dict.fromkeys(("R_TRIG", "F_TRIG"), _EDGES),
    **dict.fromkeys(("RS", "SR", "SEMA"), _LATCHES), **dict.fromkeys(("CTU", "CTD", "CTUD"), _COUNTERS),
}
"""Function blocks of the standard, and common ones."""
_PARTS = {
    **dict.fromkeys(("ET", "PT", "ELAPSED"), "TON"), **dict.fromkeys(("CLK",), "R_TRIG"),
    **dict.fromkeys(("Q1", "SET1", "RESET1", "SET", "RESET"), "RS"), **dict.fromkeys(("CV", "PV", "CU", "CD", "QU", "QD", "LOAD"), "CTU"),
    **dict.fromkeys(("Q", "IN"), ""),
}
"""Inputs and outputs of these blocks, each with a block that has it, where that tells which kind it is."""
TYPE_WAYS = {
    "REAL": NO_REAL, "LREAL": NO_REAL, "TIME": NO_TIME, "LTIME": NO_TIME,
    **dict.fromkeys(("DATE", "LDATE", "TOD", "TIME_OF_DAY", "DT", "DATE_AND_TIME"), NO_DATE),
    "ARRAY": NO_ARRAYS,
    "STRING": "there are no strings: use a number in its place", "WSTRING": "there are no strings: use a number in its place",
    "STRUCT": NO_STRUCTURES,
    "SINT": "an INT holds its values", "USINT": "an INT holds its values", "BYTE": "an INT holds its values (there are no bit strings)",
    "UINT": "a DINT holds its values", "WORD": "a DINT holds its values (there are no bit strings)",
    "UDINT": "a LINT holds its values", "DWORD": "a LINT holds its values (there are no bit strings)",
    "ULINT": "the largest type is LINT, up to 2^63 - 1", "LWORD": "the largest type is LINT, up to 2^63 - 1",
}
"""The types that the profile hasn't, each with what stands for it."""
NUMBERS = ("ET", "PT", "ELAPSED", "CV", "PV")
"""The inputs and outputs of usual blocks that aren't BOOL."""


def is_block(type_name: str) -> bool:
    """Whether a type is a function block, by its name."""
    return type_name.upper() in _BLOCKS or type_name.upper().startswith("FB_")


def is_part_of_block(member: str) -> bool:
    """Whether this is the name of an input or output of a usual function block."""
    return member.upper() in _PARTS


def no_block(type_name: str, members: tuple[str, ...] = ()) -> str:
    """What is said of a function block of a type, or of one that has these inputs and outputs."""
    if not type_name:
        type_name = next((_PARTS[it.upper()] for it in members if _PARTS.get(it.upper())), "")
    return _BLOCKS.get(type_name.upper(), _OWN if type_name else NO_BLOCKS)


def no_enumeration(first: str) -> str:
    """What is said of an enumeration, whose first value is this."""
    return (f"there are no enumerations: the variable is an INT, and each value a constant, as `VAR CONSTANT {first} : INT := 0; .. END_VAR` "
            "(docs/PATTERNS.md, 'States')")
