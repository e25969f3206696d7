"""`explain --all`: what IEC 61131-3 has and this profile lacks is told as one thing each, with the page that says what stands for it."""
from __future__ import annotations

import re
import unittest

from tests.support import EXAMPLES, InFolder, needs_program
from vcp_tools.explain.foreign import foreign
from vcp_tools.read.source import Source

HEAD = "PROGRAM p\nVAR_INPUT a, b : BOOL; n : INT; END_VAR\nVAR_OUTPUT q : BOOL; m : INT; END_VAR\n"


def declared(*texts: str) -> list[tuple[str, str]]:
    """Declarations in a block of their own, with nothing in the body that reads them."""
    return [(text if text.startswith("VAR") else f"VAR {text} END_VAR", "q := a;") for text in texts]


def written(declaration: str, *bodies: str) -> list[tuple[str, str]]:
    """Statements behind a declaration."""
    return [(declaration, body) for body in bodies]


ADDRESSES = [
    *declared("x AT %IX0.0 : BOOL;", "x AT%IX0.0:BOOL;", "VAR_INPUT x at %ix0.1 : bool; END_VAR", "VAR_OUTPUT x AT %QX1.7 : BOOL := TRUE; END_VAR",
              "x AT %MW10 : INT;", "x AT %MD48 : DINT := 5;", "x AT %I* : BOOL;", "x\n  AT %IX0.0 : BOOL;", "x AT %IX0.0 : BOOL (* left *);",
              "x AT %IW2.3.4 : INT;", "AT %IX0.0 : BOOL;", "VAR RETAIN x AT %MX0.0 : BOOL; END_VAR", "y : BOOL; x AT %IX0.0 : BOOL; z : INT;",
              "x AT %IB7 : INT; // a byte\n"),
    *written("", "q := %IX0.0;", "%QX0.0 := a;", "q := a AND NOT %IX0.3 OR b;", "IF %IX0.0 THEN q := TRUE; END_IF;", "m := %IW4 + 1;",
             "m := SEL(%I0.2, 1, 2);", "q := %MX10.1.2;", "IF a THEN %QX0.0 := TRUE; END_IF;"),
]
ENUMERATIONS = [
    *declared("s : (OPEN, WARN);", "s : (OPEN,WARN):=WARN;", "s : (OPEN := 3, WARN := 7);", "s : (OPEN, WARN) INT;", "s : (OPEN, WARN) UINT := OPEN;",
              "s, t : (OPEN, WARN);", "s : (\n  OPEN,  // first\n  WARN   (* then *)\n);", "s : (OPEN);", "s : (OPEN, WARN,);",
              "VAR_OUTPUT s : (open, warn); END_VAR", "x : BOOL; s : (OPEN, WARN); y : INT;", "VAR RETAIN s : (OPEN, WARN); END_VAR",
              "s : (OPEN := -1, WARN);", "s : (A1, A2, A3, A4, A5, A6, A7, A8, A9, A10, A11);"),
    *written("VAR s : (OPEN, WARN); END_VAR", "s := WARN;", "CASE s OF OPEN: q := a; WARN: q := b; END_CASE;", "IF s = OPEN THEN s := WARN; END_IF;",
             "m := SEL(s = WARN, 1, 2);", "q := s <> OPEN AND s <> Warn;"),
    *written("VAR s : INT; END_VAR", "s := E_State#OPEN;", "q := s = E_State#OPEN;"),
]
SETS = written(
    "", "q S= a;", "q S=a;", "q s= a;", "q S= a AND b;", "q S= NOT a;", "q S= (a OR b) AND a;", "IF a THEN q S= b; END_IF;",
    "IF a THEN m := 1; ELSE q S= TRUE; END_IF;", "CASE n OF 1: q S= a; END_CASE;", "q\n  S= a;", "q S= n > 3;", "m := 1; q S= a; m := 2;",
    "FOR m := 0 TO 3 DO q S= a; END_FOR;", "q S= a; // set", "q S= (* when *) a;", "q S= a = b;", "q S= MAX(n, 3) > 2;",
    "IF a THEN ; ELSIF b THEN q S= a; END_IF;", "q S= TRUE;", "q S=\n a\n AND b;",
)
TIMES = [
    *written("", "m := T#5s;", "m := t#5S;", "m := TIME#5s;", "m := T#1m30s;", "m := T#1.5s;", "m := T#1h_30m_5s;", "m := LTIME#5us;", "m := T#-5s;",
             "m := T#0s;", "IF n > T#2s THEN q := a; END_IF;", "m := n + T#500ms;", "m := T#5s * 2;", "m := MIN(n, T#10ms);", "m := 5s;", "m := 500ms + n;",
             "m := SEL(a, T#1s, n);"),
    *declared("pt : INT := T#5s;", "VAR CONSTANT PT : INT := T#500ms; END_VAR", "pt : TIME := T#5s;", "pt : TIME;", "p1, p2 : TIME;", "pt : LTIME;"),
]
ARRAYS_OF_BLOCKS = declared(
    "t : ARRAY[0..1] OF R_TRIG;", "t : ARRAY [1..4] OF TON;", "t : array[0..1] of r_trig;", "t : ARRAY[0..1, 0..2] OF TOF;", "t : ARRAY[0..1] OF FB_Motor;",
    "t : ARRAY[0..1] OF ARRAY[0..2] OF TP;", "t, u : ARRAY[0..1] OF CTU;", "t : ARRAY[0..1] OF TON := [2((PT := T#5s))];", "t : ARRAY[1..N] OF SR;",
    "\n t :\n ARRAY[0..1]\n OF F_TRIG;\n",
)
ELEMENTS = written(
    "VAR t : ARRAY[0..1] OF R_TRIG; END_VAR", "t[0](CLK := a);", "t[n](CLK := a AND b);", "q := t[0].Q;", "IF t[1].Q THEN q := a; END_IF;",
    "q := NOT t[n + 1].Q AND a;", "t[0].CLK := a;", "t[0]();", "FOR m := 0 TO 1 DO t[m](CLK := a); END_FOR;", "t[0](CLK := a, Q => q);",
    "m := SEL(t[0].q, 1, 2);", "CASE n OF 1: t[1](CLK := a); END_CASE;",
)
MEMBERS = [
    *written("VAR t : R_TRIG; END_VAR", "q := t.Q;", "q := NOT t.Q;", "IF t.Q THEN q := a; END_IF;", "q := a AND t.q OR b;", "t(CLK := a);",
             "t(CLK := a, Q => q);", "t();", "t.CLK := a;", "q := t.Q = b;", "m := SEL(t.Q, 1, 2);", "FOR m := 0 TO 1 DO t(CLK := a); END_FOR;",
             "CASE n OF 1: t(CLK := b); END_CASE;"),
    *written("VAR t : TON; END_VAR", "m := t.ET;", "q := t.ET > 5;", "t(IN := a, PT := T#5s);", "t(IN := a, PT := T#5s, Q => q, ET => m);", "t.PT := T#3s;"),
    *written("VAR t : TON := (PT := T#5s); END_VAR", "q := t.Q;"), *written("VAR c : CTU; END_VAR", "m := c.CV;", "q := c.QU;"),
    *written("VAR s : RS; END_VAR", "q := s.Q1;"), *written("VAR f : FB_Motor; END_VAR", "q := f.running;", "f(start := a);"),
]
KINDS = {
    "there are no direct addresses": ADDRESSES, "there are no enumerations": ENUMERATIONS, "there is no `S=`": SETS,
    "there is no `R=`": [(declaration, body.replace("S=", "R=").replace("s=", "r=")) for declaration, body in SETS],
    "there is no TIME": TIMES, "there are no arrays": ARRAYS_OF_BLOCKS,
}
"""What is said of each kind, and texts in which it is the one thing to mend."""
TWO = {"there are no arrays": ELEMENTS, "there are no function blocks": MEMBERS}
"""Texts in which the declaration is one, and a statement another."""


class Told(InFolder):
    """Each text, as `explain --all` tells it."""

    def told(self, declaration: str, body: str, start: str = "") -> list[str]:
        """The messages on a text; what may follow from them, or wasn't looked at, fails the test."""
        self.write("p.st", start + HEAD + declaration + "\n" + body + "\nEND_PROGRAM\n")
        printed = self.tool("explain", "--all", "check", "p.st", status=1)
        self.assertRegex(printed.split("\n")[-2], r"^p\.st: \d+ to mend$", printed)
        return re.findall(r"^p\.st:\d+:\d+: (.*)$", printed, re.M)

    @needs_program
    def test_each_is_one_thing_to_mend(self) -> None:
        for said, texts in KINDS.items():
            self.assertGreaterEqual(len(texts), 20 if texts is not ARRAYS_OF_BLOCKS else 10)
            for declaration, body in texts:
                with self.subTest(declaration + body):
                    messages = self.told(declaration, body)
                    self.assertEqual(len(messages), 1, messages)
                    self.assertIn(said, messages[0])
                    self.assertIn("docs/PATTERNS.md", messages[0])

    @needs_program
    def test_a_declaration_and_its_use_are_two(self) -> None:
        self.assertGreaterEqual(len(MEMBERS), 20)
        self.assertGreaterEqual(len(ARRAYS_OF_BLOCKS) + len(ELEMENTS), 20)
        for said, texts in TWO.items():
            for declaration, body in texts:
                with self.subTest(declaration + body):
                    messages = self.told(declaration, body)
                    self.assertEqual(len(messages), 2, messages)
                    for message in messages:
                        self.assertIn(said, message)
                        self.assertIn("docs/PATTERNS.md", message)

    @needs_program
    def test_types_of_enumerations(self) -> None:
        for start in ("TYPE E_State : (OPEN, WARN); END_TYPE\n", "TYPE\n  E_State :\n  (\n    OPEN := 0,\n    WARN := 10\n  ) INT := OPEN;\nEND_TYPE\n"):
            for body, count in (("s := OPEN;", 2), ("s := E_State.WARN;", 3), ("CASE s OF E_State.OPEN: q := a; E_State.WARN: q := b; END_CASE;", 4)):
                messages = self.told("VAR s : E_State; END_VAR", body, start)
                self.assertEqual(len(messages), count, messages)
                for message in messages:
                    self.assertIn("there are no enumerations", message)

    @needs_program
    def test_nothing_is_quoted_that_the_text_has_not(self) -> None:
        for texts in (*KINDS.values(), *TWO.values()):
            for declaration, body in texts:
                whole = " ".join((HEAD + declaration + body).split())
                for message in self.told(declaration, body):
                    for quoted in re.findall(r"^`([^`]*)`", message):
                        self.assertIn(quoted.removesuffix("(..)"), whole, message)


class Programs(unittest.TestCase):
    """Programs have none of it."""

    def test_the_examples_have_none(self) -> None:
        for file in (it for it in EXAMPLES.glob("**/*.st") if it.parent.name != "controllers"):
            self.assertEqual(foreign(Source(file.read_bytes())).hints, [], file)


if __name__ == "__main__":
    unittest.main()
