"""What is said of a token that the wider grammar doesn't take: by its name where it is a part of the language that isn't taken."""
from __future__ import annotations

import re

from vcp_tools.read.source import Source
from vcp_tools.read.structured_text import SyntaxFault

_FORMS = (
    (r"[0-9][0-9_]*\.[0-9]", "there is no REAL: count in a fixed point (docs/PATTERNS.md, 'Fixed point')"),
    (r"(REAL|LREAL)#", "there is no REAL: count in a fixed point (docs/PATTERNS.md, 'Fixed point')"),
    (r"(LTIME|LT)#", "LTIME isn't taken: TIME is"),
    (r"(LDATE|DATE|DATE_AND_TIME|DT|TIME_OF_DAY|TOD|D|LD|LTOD|LDT)#", "there are no dates and times of day: what depends on them is an input"),
    (r"(T|TIME)#", "a time is written as T#1d2h3m4s5ms, in whole milliseconds at least"),
    (r"(ULINT|LWORD)#", "ULINT and LWORD aren't taken: the largest type is LINT"),
    (r"['\"]|STRING\b|WSTRING\b", "there are no strings"),
    (r"\^|REF_TO\b|POINTER\b|REFERENCE\b", "there are no pointers and references"),
    (r"%", "an address follows AT in a declaration alone: declare a variable at it"),
    (r"METHOD\b|PROPERTY\b|CLASS\b|INTERFACE\b|EXTENDS\b|IMPLEMENTS\b|THIS\b|SUPER\b", "there are no methods and no classes"),
    (r"CONFIGURATION\b|RESOURCE\b|TASK\b", "a file has no configuration: the program alone is taken, with its types, blocks and functions"),
    (r"JMP\b|GOTO\b", "there are no jumps"),
    (r"\*\*", "there is no `**`"),
    (r"\(\*@", "a bound of turns follows DO or REPEAT"),
    (r"\(\*|/\*|\{", "this isn't closed"),
    (r"!=", "`<>` is written for unequal"),
    (r"!", "NOT is written"),
    (r"ELSEIF\b", "`ELSEIF` is no word of the language: write ELSIF"),
)


def told_word(source: Source, fault: SyntaxFault) -> str:
    """What is said of the token at which a text can't be read on."""
    if not fault.text:
        return "the text ends here, and what is begun isn't complete"
    before = source.text[max(0, fault.at - 1) : fault.at]
    if re.search(r"\b(POINTER|REFERENCE)\s+\Z", source.text[max(0, fault.at - 20) : fault.at], re.I):
        return "there are no pointers and references"
    for form, message in _FORMS:
        if re.match(form, source.text[fault.at :], re.I):
            return message
    if before == "*" and fault.text == "*":
        return "there is no `**`"
    if before == "." and fault.text[:1].isdigit():
        return "there are no bits of a number by their places: declare a BOOL for each, or mask it, as `w AND 16#08`"
    if fault.text == "=":
        return "`=` compares: to set a variable write `:=`"
    if fault.text == ":=":
        return "`:=` assigns: to compare write `=`"
    return f"`{fault.text}` can't come here"
