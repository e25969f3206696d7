"""How a tool ends: its statuses, and the refusal of what it was given."""

FINE = 0
"""Nothing was found: the program was accepted, the runs agree, the check is clean."""
REFUSED = 1
"""What the proved programs end with where they refuse a file, and `explain` with them."""
UNUSABLE = 2
"""The tool couldn't look: its words or a file that it was given are refused, and one line says why."""
FOUND = 9
"""The tool looked at all, and found what it looks for: a fault, a difference, a likely mistake. `vcp_study` ends so, too."""
OPEN = 10
"""The tool looked as far as it was told to, and what is asked is neither shown nor refuted."""


class Refusal(Exception):
    """What a tool was given can't be used; the text says what, where and why, and is printed as one line."""
