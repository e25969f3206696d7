"""The grammars of Structured Text and of lists take what the proved readers take, on texts that are at hand and on made ones."""
from __future__ import annotations

import os
import random
import re
import sys
import unittest
from collections import Counter
from concurrent.futures import ThreadPoolExecutor
from pathlib import Path
from typing import Any, Iterator

from tests.support import DATA, EXAMPLES, InFolder, needs_program
from tests.test_explain import FRAME, mistakes
from vcp_tools.needs import find_module
from vcp_tools.program import TOP, Program
from vcp_tools.read.fault_line import read_fault
from vcp_tools.read.grammar import reader
from vcp_tools.read.instruction_list import OPERATORS, InstructionList, parse_list
from vcp_tools.read.source import RESERVED, Source
from vcp_tools.read.structured_text import Builder, SyntaxFault, parse
from vcp_tools.read.syntax import Tree

MADE = int(os.environ.get("MADE", "400"))
"""So many texts of each kind are made; MADE=2000 tries more, and the long texts of the sessions, too."""
MOST_BYTES = 1 << 30 if "MADE" in os.environ else 20_000
PIECES = [*sorted(RESERVED), *(
    ":= : ; , ( ) .. + - * / = <> <= >= < > & . # $ (* *) // /* */ [ ] TON a x_1 _ _b 5 5_0 5__0 16#fF 16#g 2#1 8#8 INT#5 int#-5 INT#+5 BOOL#1 bool#TRUE "
    "BOOL#-1 LINT#16#ff INT#-16#f 1.5 T#5s 9223372036854775807 9223372036854775808 1..5 1e5 7a MIN(a, 3) SEL(a,1,2) r:=1; a=b CASE_x IF1").split(" ")]
LIST_PIECES = [*OPERATORS, *map(str.lower, OPERATORS), "x", "y", "q", "s", "add", "5", "-5", "- 5", "-INT#5", "INT#-5", "TRUE", "FALSE", ";", "(", ")",
               ":", "JMP", "END_PROGRAM", "VAR", "END_VAR", "IF", "REAL", "\n", "\n\n", "// r\n", "(* a\nb *)", "16#FF", "BOOL#1", "&", ":="]
LIST = """PROGRAM p
VAR_INPUT x : DINT; b : BOOL; END_VAR
VAR_OUTPUT y : DINT; q : BOOL; END_VAR
VAR s, add : BOOL; END_VAR
LD x
ADD 1 // more
ST y
LDN b
AND TRUE
NOT
OR s
S q
LD x
MUL -3
ST y
END_PROGRAM
"""
TEXT = FRAME % ("IF a AND NOT x THEN r := -i + 3 * (t - 1) MOD 2; ELSIF i >= 5 OR t <> 2 THEN ; ELSE x := TRUE; END_IF;\n"
                "CASE t OF 1, 3..5: q := a; -2: ; FOR t := 0 TO 3 BY 1 DO r := MIN(r, t); END_FOR; ELSE q := a XOR x; END_CASE;\n")


def made(text: str, pieces: list[str], draw: random.Random) -> str:
    """A text with one to three tokens left out, doubled, exchanged or put in, or a byte changed."""
    for _ in range(draw.choice((1, 1, 1, 2, 3))):
        tokens = Source(text.encode("latin-1")).tokens[:-1]
        if not tokens:
            return text
        one = draw.choice(tokens)
        how = draw.randrange(5)
        if how == 0:
            text = text[: one.start] + text[one.end :]
        elif how == 1:
            text = text[: one.end] + " " + one.text + text[one.end :]
        elif how == 2:
            text = text[: one.start] + draw.choice(pieces) + text[one.end :]
        elif how == 3:
            text = text[: one.start] + draw.choice(pieces) + " " + text[one.start :]
        else:
            at = draw.randrange(len(text))
            text = text[:at] + draw.choice("\n\t ;:=.#_'aA0-(*)/&<>$\xe4") + text[at + 1 :]
    return text


class Derivation:
    """Texts that the rules of the grammar derive, each rule's forms as likely as each other, and the shortest ones where a text gets long."""

    gaps = (*" " * 12, "\n", "\t", "  ", " (* two\nlines *) ", " // a remark\n", " /* */")
    names = "a b1 x_ Q t_1 in_ PROGRAMM END_IFS va r MIN sel limit".split()
    numbers = "0 7 0012 1_000 32768 9223372036854775807 2#1_0 8#17 16#fF_0 INT#5 int#-5 LINT#+7 DINT#16#aB BOOL#1 bool#TRUE BOOL#false".split()

    def __init__(self, draw: random.Random) -> None:
        self.draw = draw
        read = reader("structured_text", "program", Builder)
        self.spelled = {it.name: it.pattern.value for it in read.terminals}
        self.forms: dict[str, list[list[Any]]] = {}
        for rule in read.rules:
            self.forms.setdefault(rule.origin.name, []).append(list(rule.expansion))
        # How many steps the shortest text of each rule takes, by going round until nothing gets shorter.
        self.least: dict[str, int] = {}
        while any(self._shortened(name) for name in self.forms):
            pass

    def _shortened(self, name: str) -> bool:
        """Whether a shorter text of a rule was found."""
        known = [self._steps(form) for form in self.forms[name]]
        least = 1 + min(known)
        if least < self.least.get(name, 1 << 20):
            self.least[name] = least
            return True
        return False

    def _steps(self, form: list[Any]) -> int:
        return max((self.least.get(it.name, 1 << 20) for it in form if not it.is_term), default=0)

    def text(self) -> str:
        """A text: the tokens with something between them."""
        self.left = self.draw.choice((20, 60, 150))
        return "".join(token + self.draw.choice(self.gaps) for token in self._tokens("program"))

    def _tokens(self, name: str) -> Iterator[str]:
        """The tokens of a rule's text."""
        forms = self.forms[name]
        self.left -= 1
        if self.left < 0:
            shortest = min(map(self._steps, forms))
            forms = [form for form in forms if self._steps(form) == shortest]
        for it in self.draw.choice(forms):
            if it.is_term:
                yield self._token(it.name)
            else:
                yield from self._tokens(it.name)

    def _token(self, name: str) -> str:
        """A token of a terminal."""
        if name in ("NAME", "NUMBER"):
            return self.draw.choice(self.names if name == "NAME" else self.numbers)
        word = str(self.spelled[name])
        return self.draw.choice((word, word.lower(), word.capitalize())) if word.isalpha() or "_" in word else word


def refused_at(data: bytes, is_list: bool) -> tuple[int, int] | None:
    """The line and column at which a grammar refuses a text; None where it takes it."""
    try:
        found: Tree | InstructionList = parse_list(Source(data)) if is_list else parse(Source(data))
        assert found.name
        return None
    except SyntaxFault as fault:
        return Source(data).place(fault.at)


def texts_of_sessions() -> list[bytes]:
    """Each file of the sessions, whatever it is, but for a few of more than MOST_BYTES bytes: docs/dev/SESSIONS.md has their form."""
    spelled = {b"n": b"\n", b"r": b"\r", b"t": b"\t", b"\\": b"\\"}
    found: dict[bytes, None] = {}
    for file in sorted((TOP / "crates/vcp_study/data").glob("*.session")):
        files: dict[bytes, bytes] = {}
        for line in file.read_bytes().split(b"\n"):
            if line[:2] not in (b"< ", b"+ "):
                continue
            name, _, rest = line[2:].partition(b" ")
            times, _, more = rest.partition(b" ") if line[:1] == b"+" else (b"1", b"", rest)
            more, _, digits = more.partition(rb"\h")
            text = re.sub(rb"\\(x[0-9A-Fa-f]{2}|.)", lambda it: spelled[it[1]] if it[1] in spelled else bytes([int(it[1][1:], 16)]), more)
            text += bytes.fromhex(digits.decode("ascii"))
            files[name] = (files.get(name, b"") if line[:1] == b"+" else b"") + text * int(times)
            found[files[name]] = None
    return [text for text in found if len(text) <= MOST_BYTES]


@unittest.skipUnless(find_module("lark"), "lark isn't installed")
class Grammars(InFolder):
    """Each text is taken by the grammar exactly where the program has no fault of tokens, grammar or instructions in it."""

    def judged(self, number: int, data: bytes, is_list: bool) -> tuple[bool, str]:
        """Whether the program reads a text, and what it says."""
        file = self.write(f"{number}.st", data)
        words = ["il", str(file), "--cycles", "0"] if is_list else ["format", str(file)]
        outcome = Program.found().call(*words)
        code = outcome.fault.rsplit(" ", 2)[-2] if outcome.fault.count(" ") > 1 else ""
        return code not in ("S1", "S2", "S3", "S4", "S5", "Q1"), outcome.fault

    def compare(self, texts: list[bytes], is_list: bool) -> None:
        """Compares both answers on each text; one too deep or too long is beyond the limits of the program. Where MADE is given, the numbers are told."""
        with ThreadPoolExecutor(4) as pool:
            answers = list(pool.map(lambda it: self.judged(it[0], it[1], is_list), enumerate(texts)))
        counts: Counter[str] = Counter()
        for data, (wanted, fault) in zip(texts, answers):
            found = refused_at(data, is_list)
            if " S5 " in fault or " L1 " in fault:
                counts["beyond a limit"] += 1
            elif wanted and found is not None and is_list and self.hides(fault, found):
                counts["with an earlier fault of another kind"] += 1
            else:
                self.assertEqual(found is None, wanted, f"{fault}\n{data[:4000].decode('latin-1')}")
                counts["taken by both" if wanted else "refused by both"] += 1
        if "MADE" in os.environ:
            told = ", ".join(f"{count} {what}" for what, count in sorted(counts.items()))
            print(f"{self._testMethodName}: {len(texts)} texts as {'lists' if is_list else 'programs'}: {told}", file=sys.stderr)

    def hides(self, fault: str, found: tuple[int, int]) -> bool:
        """Whether the program's fault is of an earlier line, behind which it doesn't look: of a list the first line that has a fault is told."""
        at = read_fault(fault)
        return at is not None and at.first is not None and at.first <= found[0]

    @needs_program
    def test_texts_at_hand(self) -> None:
        files = [*EXAMPLES.glob("**/*.st"), *(Path(os.environ["TEXTS"]).glob("**/*.st") if "TEXTS" in os.environ else ())]
        self.compare([file.read_bytes() for file in files if file.is_file()], False)
        self.compare([file.read_bytes() for file in EXAMPLES.glob("**/*.il")], True)
        texts = [FRAME % text if form == "frame" else text for it in mistakes() for form, text in it.files.values() if form in ("frame", "")]
        self.compare([text.encode("utf-8") for text in texts], False)
        self.assertTrue(DATA.is_dir())

    @needs_program
    def test_texts_of_sessions(self) -> None:
        texts = texts_of_sessions()
        self.assertGreater(len(texts), 1000)
        self.compare(texts, False)
        self.compare(texts, True)

    @needs_program
    def test_made_texts(self) -> None:
        draw = random.Random(1)
        sources = [TEXT, *(file.read_text("latin-1") for file in sorted(EXAMPLES.glob("*.st")) if file.stat().st_size < 2000)]
        texts = [made(draw.choice(sources), PIECES, draw).encode("latin-1") for _ in range(MADE)]
        self.assertGreater(sum(refused_at(text, False) is None for text in texts), MADE // 20)
        self.compare(texts, False)

    @needs_program
    def test_texts_that_the_grammar_derives(self) -> None:
        draw = random.Random(3)
        derivation = Derivation(draw)
        texts = [derivation.text() for _ in range(MADE)]
        self.assertGreater(len(set(texts)), MADE * 9 // 10)
        self.assertEqual([text for text in texts if refused_at(text.encode("ascii"), False)], [])
        self.compare([text.encode("ascii") for text in texts], False)

    @needs_program
    def test_made_lists(self) -> None:
        draw = random.Random(2)
        texts = [made(LIST, LIST_PIECES, draw).encode("latin-1") for _ in range(MADE)]
        self.assertGreater(sum(refused_at(text, True) is None for text in texts), MADE // 40)
        self.compare(texts, True)


if __name__ == "__main__":
    unittest.main()
