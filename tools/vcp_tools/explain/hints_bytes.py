"""What is said where no token begins (S1), a comment isn't closed (S2), or a literal is none (S3)."""
from __future__ import annotations

import re
import unicodedata

from vcp_tools.explain import lacking
from vcp_tools.explain.hint import Hint, Repair
from vcp_tools.read.source import GREATEST_NUMBER, Source, Token

_SPACES = ("\u00a0", "\u2007", "\u202f", "\u2009", "\u3000", "\u200b", "\ufeff")
_QUOTES = "\u201c\u201d\u201e\u2018\u2019\u201a\u00ab\u00bb"
_DASHES = "\u2010\u2011\u2012\u2013\u2014\u2212"
_TIME_PREFIXES = ("T", "TIME", "LTIME", "LT", "D", "DATE", "TOD", "TIME_OF_DAY", "DT", "DATE_AND_TIME")
_BYTES = {
    "[": lacking.NO_ARRAYS,
    "]": lacking.NO_ARRAYS,
    "{": "there are no pragmas: leave `{ .. }` out",
    "}": "there are no pragmas: leave `{ .. }` out",
    "'": "there are no strings: leave the text out, or use a number in its place",
    '"': "there are no strings: leave the text out, or use a number in its place",
    "%": f"a remainder is `MOD`; and {lacking.NO_ADDRESSES}",
    "^": "there are no pointers, and no power: use plain variables and products",
    "|": "`|` is no operator here: write OR",
    "?": "`?` is no operator here: write SEL(condition, value if FALSE, value if TRUE)",
    "\\": "`\\` is no operator here: a division is `/`",
    "~": "`~` is no operator here: write NOT",
    "@": "`@` occurs in no name: names are letters, digits and `_`",
    "$": "`$` occurs in no name: names are letters, digits and `_`",
    "#": "`#` occurs only in numbers with a base or a type, as 16#FF and INT#5",
}
_SAME = {"!": ("NOT", "NOT"), "|": ("OR", "OR"), "~": ("NOT", "NOT")}


def byte_hint(source: Source, at: int) -> Hint:
    """What is said of the byte `at`, with which no token begins."""
    if at >= len(source.data):
        return Hint("the file has changed since: it ends before this place", at, at)
    for look in (_encoding, _image, _outside_ascii, _not_equal, _time, _dot):
        hint = look(source, at)
        if hint is not None:
            return hint
    byte = source.text[at : at + 1]
    if byte == "!":
        return Hint("`!` is no operator here: write NOT", at, at + 1, repair=Repair(at, at + 1, " NOT "))
    message = _BYTES.get(byte, f"the character {byte!r} occurs in no word, number or symbol of the language")
    end = _bracketed(source, at) if byte in "[{" else at + 1
    return Hint(message, at, end, repair=Repair(at, end, _SAME.get(byte, ("", " "))[1]))


def _bracketed(source: Source, at: int) -> int:
    """The byte behind the bracket that closes the one at `at` in its line."""
    closing = source.text.find({"[": "]", "{": "}"}[source.text[at]], at)
    line_end = source.text.find("\n", at)
    return closing + 1 if 0 <= closing and (line_end < 0 or closing < line_end) else at + 1


def _encoding(source: Source, at: int) -> Hint | None:
    if at <= 1 and (source.data[:2] in (b"\xff\xfe", b"\xfe\xff") or b"\0" in source.data[:4]):
        return Hint("the file is in UTF-16: save it in UTF-8 (or ASCII), without changing anything else", 0, 2)
    return None


def _image(source: Source, at: int) -> Hint | None:
    if source.data.startswith(b"VCPANBD\n"):
        return Hint("this file is an image, as `compile` writes it: here the source is wanted (were the two exchanged?)", 0, 7)
    return None


def _outside_ascii(source: Source, at: int) -> Hint | None:
    """A byte outside ASCII: the character that it begins, by name."""
    if source.data[at] < 0x80:
        return None
    for length in (2, 3, 4):
        try:
            character = source.data[at : at + length].decode("utf-8")
        except UnicodeDecodeError:
            continue
        return _character(character, at, at + length)
    latin = source.data[at : at + 1].decode("cp1252", "replace")
    return Hint(
        f"the byte {source.data[at]:02X} is outside ASCII (`{latin}` in the Windows code page): names are letters A to Z, digits and `_`",
        at, at + 1, repair=Repair(at, at + 1, "_"),
    )


def _character(character: str, at: int, end: int) -> Hint:
    name = f"U+{ord(character[0]):04X}, {unicodedata.name(character[0], 'without a name').lower()}"
    if character in _SPACES:
        return Hint(f"what looks like a space is none ({name}): put a plain space in its place", at, end, repair=Repair(at, end, " "))
    if character in _QUOTES:
        return Hint(f"a typographic quote is here ({name}): there are no strings, and names have no quotes", at, end, repair=Repair(at, end, " "))
    if character in _DASHES:
        return Hint(f"what looks like a minus is none ({name}): put a plain `-` in its place", at, end, repair=Repair(at, end, "-"))
    message = f"`{character}` ({name}) is outside ASCII: names are letters A to Z, digits and `_`"
    return Hint(message, at, end, repair=Repair(at, end, "_"))


def _not_equal(source: Source, at: int) -> Hint | None:
    if source.text.startswith("!=", at):
        return Hint("`!=` is no operator here: unequal is `<>`", at, at + 2, repair=Repair(at, at + 2, "<>"))
    return None


def _time(source: Source, at: int) -> Hint | None:
    """`T#5s` and other literals of time, and `TYPE#NAME` of an enumeration."""
    match = re.compile(r"#[A-Za-z0-9_.:-]*").match(source.text, at)
    before = re.search(r"[A-Za-z_][A-Za-z0-9_]*\Z", source.text[:at])
    if match is None or before is None:
        return None
    whole = before[0] + match[0]
    repair = Repair(before.start(), match.end(), "0")
    if before[0].upper() in _TIME_PREFIXES:
        return Hint(f"`{whole}`: {lacking.NO_TIME}", before.start(), match.end(), repair=repair)
    return Hint(
        f"`{whole}`: a number names BOOL, INT, DINT or LINT before `#`, or the base 2, 8 or 16; there are no other types and no enumerations",
        before.start(), match.end(), repair=repair,
    )


def _dot(source: Source, at: int) -> Hint | None:
    """A single `.`: a number with a fraction, or a member of something."""
    if source.text[at : at + 1] != ".":
        return None
    before = re.search(r"[A-Za-z0-9_]*\Z", source.text[:at])
    behind = re.compile(r"\.[A-Za-z0-9_]*").match(source.text, at)
    front = before[0] if before else ""
    start, end = at - len(front), behind.end() if behind else at + 1
    whole = source.text[start:end]
    if not front or front[0].isdigit():
        return Hint(f"`{whole}`: {lacking.NO_REAL}", start, end, repair=Repair(start, end, front or "0"))
    if whole[len(front) + 1 :].isdigit():
        return Hint(f"`{whole}`: {lacking.NO_BITS}", start, end, repair=Repair(start, end, front))
    member = whole[len(front) + 1 :]
    if lacking.is_part_of_block(member):
        return Hint(f"`{whole}`: {lacking.no_block('', (member,))}", start, end, repair=Repair(at, at + 1, "_"))
    own = f"{front}_{whole[len(front) + 1 :]}"
    message = f"`{whole}`: there are no structures, blocks or enumerations, and so no members: declare a constant or variable `{own}`"
    return Hint(message, start, end, repair=Repair(at, at + 1, "_"))


def comment_hint(source: Source, at: int) -> Hint:
    """What is said of a comment that opens at `at` and isn't closed."""
    opener = source.text[at : at + 2]
    closer = "*)" if opener == "(*" else "*/"
    message = f"the comment that opens here isn't closed: `{closer}` is missing"
    return Hint(message, at, at + 2, ("Comments don't nest: each ends at its first end mark.",), Repair(at, _line_end(source, at), ""))


def _line_end(source: Source, at: int) -> int:
    found = source.text.find("\n", at)
    return len(source.text) if found < 0 else found


def number_hint(token: Token) -> Hint:
    """What is said of a literal that is none of the forms, or too large."""
    text = token.text
    repair = Repair(token.start, token.end, "0")

    def say(message: str) -> Hint:
        return Hint(f"`{text}`: {message}", token.start, token.end, repair=repair)

    if re.match(r"0[xX]", text):
        return say(f"a number in base 16 is written `16#{text[2:] or 'FF'}`")
    if re.match(r"0[bB][01]+\Z", text):
        return say(f"a number in base 2 is written `2#{text[2:]}`")
    if re.match(r"[0-9]+[eE][0-9]*\Z", text):
        return say(lacking.NO_REAL)
    if re.match(r"[0-9]+(ms|s|m|h|d)\Z", text, re.I):
        return say(lacking.NO_TIME)
    if "__" in text or text.endswith("_") or "#_" in text:
        return say("a single `_` may be between two digits, and nowhere else")
    if re.match(r"[0-9_]+\Z", text):
        return say(f"the greatest number is {GREATEST_NUMBER}")
    if re.match(r"[0-9]+#", text) and not re.match(r"(2|8|16)#", text):
        return say("the bases are 2, 8, 10 and 16, as 16#FF")
    if "#" in text:
        return say(f"these are no digits of the base before `#`, or the number is above {GREATEST_NUMBER}")
    return say("a number is digits alone; a name begins with a letter or `_`")
