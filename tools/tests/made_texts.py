"""Texts as controllers have them, made at random of all constructs that `lower` takes, and rows for them."""
from __future__ import annotations

import random
from collections import Counter

HEAD = """TYPE
  E_MODE : (IDLE, RUN := 5, HALT);
  T_PAIR : STRUCT a : INT; flag : BOOL; deep : ARRAY[0..1] OF USINT; END_STRUCT;
  T_SMALL : INT (-3..9);
END_TYPE
VAR_GLOBAL total : INT; seen : BOOL; END_VAR
VAR_GLOBAL CONSTANT MOST : INT := 7; END_VAR
FUNCTION Twice : INT
VAR_INPUT x : INT; up : BOOL; END_VAR
VAR keep : INT; END_VAR
keep := x;
IF up THEN Twice := LIMIT(-100, keep, 100) * 2; RETURN; END_IF
Twice := keep;
END_FUNCTION
FUNCTION Near : BOOL
VAR_INPUT x, y : INT; END_VAR
VAR_IN_OUT count : INT; END_VAR
VAR_OUTPUT apart : INT; END_VAR
apart := LIMIT(-500, x, 500) - LIMIT(-500, y, 500);
Near := ABS(apart) < 3;
IF Near THEN count := MIN(count + 1, 50); END_IF
total := apart;
END_FUNCTION
FUNCTION Shift : INT
VAR_INPUT x : INT; END_VAR
VAR CONSTANT BY_THIS : INT := 3; END_VAR
total := LIMIT(-90, total + x, 90);
Shift := LIMIT(-90, x, 90) + BY_THIS;
END_FUNCTION
FUNCTION_BLOCK Axis
VAR CONSTANT STEPS : INT := 2; END_VAR
VAR_INPUT go : BOOL; way : INT := 4; END_VAR
VAR_OUTPUT at_end : BOOL; place : INT; END_VAR
VAR t : TON := (PT := T#300ms); edge : R_TRIG; past : ARRAY[1..STEPS] OF INT := [STEPS, 0]; END_VAR
VAR_TEMP now : INT; END_VAR
edge(CLK := go);
IF edge.Q THEN place := 0; END_IF
t(IN := go);
now := now + 1;
IF NOT go THEN RETURN; END_IF
past[1] := past[STEPS];
past[2] := place;
place := MIN(place + now, way);
at_end := t.Q AND place = way;
END_FUNCTION_BLOCK
PROGRAM made
VAR_INPUT b0, b1, b2 : BOOL; i0, i1 : INT; u0 : USINT; w0 : WORD; pt : TIME; d0 : DINT; v AT %IW3 : ARRAY[0..1] OF SINT; END_VAR
VAR_OUTPUT qb0, qb1, qb2 : BOOL; qi0, qi1 : INT; qd0 : DINT; qv : ARRAY[0..2] OF INT; qt : TIME; qw : WORD; qe : E_MODE; qsum : DINT; END_VAR
VAR CONSTANT SPAN : INT := 2 + 1; TABLE : ARRAY[1..2, 1..3] OF INT := [1, 2, 3, 2(7), -4]; END_VAR
VAR
  x, y, z : INT := 1; i, j, k : INT; d, turn, sum : DINT; far : LINT; u : UINT; us : USINT; si : SINT; byt : BYTE; w : WORD; ud : UDINT; dw : DWORD;
  f, g, h AT %MX1.0 : BOOL; tm : TIME := T#1s500ms; state : (OPEN, SHUT, LOCKED) := SHUT; mode : E_MODE; small : T_SMALL := 2; few : INT (0..9) := 3;
  ar : ARRAY[0..3] OF INT := [4, 3, 2, 1]; grid : ARRAY[1..2, 1..3] OF INT; flags : ARRAY[-1..1] OF BOOL; pair, other : T_PAIR;
  pairs : ARRAY[0..1] OF T_PAIR; again : ARRAY[0..3] OF INT;
  trig : ARRAY[0..2] OF R_TRIG; tons : ARRAY[0..1] OF TON; one : R_TRIG; down : F_TRIG; sr1 : SR; rs1 : RS; cu1 : CTU := (PV := 3); cd1 : CTD; cud1 : CTUD;
  on1 : TON := (PT := T#250ms); off1 : TOF; tp1 : TP; ax : Axis; axes : ARRAY[0..1] OF Axis;
END_VAR
VAR RETAIN kept : INT; END_VAR
"""
"""Types, blocks and declarations of all made texts."""
TAIL = """qb0 := f; qb1 := g; qb2 := h;
qi0 := x; qi1 := y; qd0 := d; qv[0] := z; qv[1] := i; qv[2] := total; qt := tm; qw := w; qe := mode; qsum := sum;
END_PROGRAM
"""
_BOOLS = ("b0", "b1", "b2", "f", "g", "h", "seen", "pair.flag", "flags[0]", "one.Q", "on1.Q", "ax.at_end", "trig[1].Q")
_NUMBERS = {
    "INT": ("i0", "i1", "x", "y", "z", "k", "small", "few", "total", "kept", "pair.a", "ar[2]", "grid[2,3]", "cu1.CV", "SPAN", "MOST", "Twice_", "state",
            "ax.place"),
    "DINT": ("d0", "d"), "UINT": ("u",), "USINT": ("us", "u0"), "SINT": ("si", "v[0]"), "LINT": ("far",), "UDINT": ("ud",),
}
_TARGETS = {"x": "INT", "y": "INT", "z": "INT", "kept": "INT", "total": "INT", "d": "DINT", "u": "UINT", "us": "USINT", "si": "SINT", "far": "LINT",
            "ud": "UDINT", "pair.a": "INT", "ar[1]": "INT", "small": "INT", "few": "INT", "byt": "USINT"}
_GROUPS = {"INT": ("INT", "SINT", "USINT"), "DINT": ("DINT", "INT", "UINT", "SINT"), "UINT": ("UINT", "USINT"), "USINT": ("USINT",), "SINT": ("SINT",),
           "LINT": ("LINT", "UDINT", "DINT"), "UDINT": ("UDINT", "UINT")}


class Maker:
    """Makes one text; `counted` has how often each construct stands in it."""

    def __init__(self, seed: int) -> None:
        self.draw = random.Random(seed)
        self.counted: Counter[str] = Counter()
        self.loops = 0
        self.controls = ["i", "j"]

    def text(self, statements: int) -> str:
        """A whole text."""
        return HEAD + "".join(self.statement(0) for _ in range(statements)) + TAIL

    def any_of(self, *words: str) -> str:
        """One of some words."""
        return self.draw.choice(words)

    def count(self, construct: str) -> None:
        """Notes that a construct stands in the text."""
        self.counted[construct] += 1

    def truth(self, depth: int = 0) -> str:
        """An expression of type BOOL."""
        kind = self.draw.randrange(9 if depth < 2 else 2)
        if kind < 2:
            return self.any_of(*_BOOLS)
        if kind == 2:
            return f"NOT {self.truth(3)}"
        if kind < 5:
            word = self.any_of("AND", "OR", "XOR", "&")
            return f"({self.truth(depth + 1)} {word} {self.truth(depth + 1)})"
        if kind == 5:
            word = self.any_of("AND_THEN", "OR_ELSE")
            self.count(word)
            return f"({self.truth(depth + 1)} {word} {self.truth(depth + 1)})"
        if kind == 6:
            self.count("TIME comparison")
            return f"(tm {self.any_of('<', '>=', '=')} {self.any_of('T#1s', 'on1.ET', 'T#2s500ms', 'pt')})"
        if kind == 7:
            self.count("variable index")
            return f"flags[LIMIT(-1, {self.any_of('x', 'i0', 'small')}, 1)]"
        return f"({self.number('INT', depth + 1)} {self.any_of('=', '<>', '<', '>', '<=', '>=')} {self.number('INT', depth + 1)})"

    def number(self, kind: str, depth: int = 0) -> str:
        """An expression of a type of numbers, or of one that converts to it."""
        choice = self.draw.randrange(12 if depth < 2 else 5)
        if choice < 3:
            name = self.any_of(*_NUMBERS[self.any_of(*_GROUPS[kind])])
            if name == "Twice_":
                self.count("FUNCTION")
                return f"Twice({self.any_of('x', 'i0', '3')}, up := {self.any_of('b0', 'f')})"
            return name
        if choice < 5:
            return str(self.draw.randrange(0, 9))
        if choice < 8:
            return f"({self.number(kind, depth + 1)} {self.any_of('+', '-', '*', '+', '-')} {self.number(kind, depth + 1)})"
        if choice == 8:
            return f"({self.number(kind, depth + 1)} {self.any_of('/', 'MOD')} {self.any_of('2', '3', '5', 'MAX(2, SPAN)')})"
        if choice == 9:
            count = self.draw.randrange(2, 4)
            return f"{self.any_of('MIN', 'MAX')}({', '.join(self.number(kind, depth + 1) for _ in range(count))})"
        if choice == 10:
            return f"SEL({self.truth(2)}, {self.number(kind, depth + 1)}, {self.number(kind, depth + 1)})"
        if kind == "INT":
            self.count("variable index")
            return self.any_of("ar[LIMIT(0, x, 3)]", "TABLE[1 + ABS(i0 MOD 2), 2]", "grid[LIMIT(1, y, 2), LIMIT(1, z, 3)]", "pairs[SEL(b1, 0, 1)].a",
                               "v[SEL(b2, 0, 1)]")
        return f"LIMIT(0, {self.number(kind, depth + 1)}, 100)"

    def statement(self, depth: int) -> str:
        """One statement of any kind."""
        makers = [self.assignment, self.assignment, self.habit, self.block, self.block, self.block, self.time, self.kinds, self.bits, self.arrays, self.arrays,
                  self.units, self.units, self.risk]
        if depth < 3:
            makers += [self.choice, self.choice, self.loop, self.loop]
        return self.draw.choice(makers)(depth)

    def some(self, depth: int) -> str:
        """A few statements."""
        return "".join(self.statement(depth + 1) for _ in range(self.draw.randrange(1, 3)))

    def assignment(self, depth: int) -> str:
        """An assignment of a truth value or a number."""
        if self.draw.random() < 0.4:
            return f"{self.any_of('f', 'g', 'h', 'seen', 'pair.flag', 'flags[1]')} := {self.truth()};\n"
        target = self.any_of("x", "y", "z", "kept", "total", "d", "pair.a", "ar[1]", "far")
        kind = _TARGETS[target]
        if target in ("total",):
            self.count("VAR_GLOBAL")
        if target == "kept":
            self.count("VAR RETAIN")
        return f"{target} := LIMIT(-200, {self.number(kind)}, 200);\n"

    def kinds(self, depth: int) -> str:
        """An assignment to a type that is an integer by another name, and a conversion."""
        target = self.any_of("u", "us", "si", "ud", "small", "few", "byt", "w", "dw", "mode")
        kept = {"u": 60000, "us": 250, "si": 100, "ud": 4_000_000_000, "small": 9, "few": 9}
        name = {"small": "subrange", "few": "subrange", "u": "UINT", "us": "USINT", "si": "SINT", "ud": "UDINT", "byt": "BYTE", "w": "WORD", "dw": "DWORD",
                "mode": "enumeration type"}[target]
        self.count(name)
        if target == "mode":
            return f"mode := {self.any_of('E_MODE.RUN', 'E_MODE#HALT', 'IDLE')};\n"
        if target in ("byt", "w", "dw"):
            return f"{target} := {self.any_of({'byt': 'USINT_TO_BYTE(u0)', 'w': 'w0', 'dw': 'DWORD#16#FFFF0001'}[target], '16#7F', 'BYTE#3')};\n"
        if self.draw.random() < 0.3:
            self.count("conversion")
            most = kept[target]
            if target in ("small", "few"):
                return f"{target} := DINT_TO_INT(LIMIT(0, d, {most}));\n"
            return f"{target} := DINT_TO_{name}(LIMIT(0, d, {min(most, 250)}));\n"
        if self.draw.random() < 0.5:
            return f"{target} := MIN({target} + {self.draw.randrange(4)}, {kept[target]});\n"
        value = self.number(_TARGETS[target], 1)
        return f"{target} := {value if any(it.isalpha() for it in value) else f'MIN({target}, 5)'};\n"

    def bits(self, depth: int) -> str:
        """Logic of a string of bits with a constant mask."""
        self.count("mask")
        target, bits = self.draw.choice((("w", 16), ("byt", 8), ("dw", 32)))
        mask = self.draw.choice((1, 0x0F, 0xF0, 0xA5, 0xFF, 1 << bits - 2, 3 << bits - 3, self.draw.getrandbits(bits)))
        source = self.any_of(target, f"NOT {target}", "w0" if target == "w" else target)
        if self.draw.random() < 0.3:
            return f"f := ({source} AND 16#{mask:X}) = {mask};\n"
        return f"{target} := {source} {self.any_of('AND', 'OR', 'XOR')} 16#{mask:X};\n"

    def habit(self, depth: int) -> str:
        """The habits of CODESYS and TwinCAT."""
        kind = self.draw.randrange(6)
        if kind == 0:
            self.count("S=")
            return f"{self.any_of('f', 'g', 'flags[0]')} S= {self.truth(1)};\n"
        if kind == 1:
            self.count("R=")
            return f"{self.any_of('f', 'g', 'pair.flag')} R= {self.truth(1)};\n"
        if kind == 2:
            self.count("chain")
            return f"x := pair.a := ar[LIMIT(0, y, 3)] := LIMIT(-50, {self.number('INT', 1)}, 50);\n"
        if kind == 3:
            self.count("array of instances")
            index = self.any_of("0", "1", "2", "LIMIT(0, x, 2)")
            return f"trig[{index}](CLK := {self.truth(1)});\ng := trig[{self.any_of('0', '1', '2')}].Q;\n"
        if kind == 4:
            self.count("enumeration in place")
            return f"CASE state OF OPEN: IF {self.truth(1)} THEN state := SHUT; END_IF SHUT: state := LOCKED; ELSE state := OPEN; END_CASE\nx := state;\n"
        self.count("address")
        return f"h := {self.truth(1)};\nz := v[1];\n"

    def block(self, depth: int) -> str:
        """A call of a block of the standard."""
        name = self.any_of("R_TRIG", "F_TRIG", "SR", "RS", "CTU", "CTD", "CTUD", "TON", "TOF", "TP", "TON")
        self.count(name)
        a, b, c = self.truth(1), self.truth(2), self.truth(2)
        time = self.any_of("T#200ms", "T#250ms", "T#0s", "pt", "t#0.4s", "tm")
        return {
            "R_TRIG": f"one({a});\nf := one.Q;\n", "F_TRIG": f"down(CLK := {a}, Q => g);\n", "SR": f"sr1(S1 := {a}, R := {b});\nh := sr1.Q1;\n",
            "RS": f"rs1(SET := {a}, RESET1 := {b}, Q1 => f);\n", "CTU": f"cu1(CU := {a}, RESET := {b});\ng := cu1.Q;\nx := cu1.CV;\n",
            "CTD": f"cd1({a}, LD := {b}, PV := {self.any_of('3', 'few')}, CV => y);\nf := cd1.Q;\n",
            "CTUD": f"cud1(CU := {a}, CD := {b}, R := {c}, LD := {self.any_of('b2', 'FALSE')}, PV := 2, QU => f, QD => g, CV => z);\n",
            "TON": self.any_of(f"on1(IN := {a});\nf := on1.Q;\ntm := on1.ET;\n", f"tons[{self.any_of('0', '1', 'SEL(b0, 0, 1)')}]({a}, {time}, Q => g);\n",
                               f"on1.PT := {time};\non1(IN := {a}, ET => tm);\n"),
            "TOF": f"off1(IN := {a}, PT := {time});\nh := off1.Q;\ntm := off1.ET;\n", "TP": f"tp1(IN := {a}, PT := {time}, Q => f, ET => qt);\ntm := tp1.ET;\n",
        }[name]

    def time(self, depth: int) -> str:
        """Arithmetic of times."""
        self.count("TIME arithmetic")
        value = self.any_of("T#1s + T#500ms", "LIMIT(T#0s, tm - T#100ms, T#5s)", "MIN(tm + T#1m, T#2h)", "T#200ms * MAX(1, few)", "tm / 2", "MAX(pt, T#0s)",
                            "DINT_TO_TIME(LIMIT(0, d, 3000))", "SEL(b0, tm, T#3s)")
        if self.draw.random() < 0.4:
            self.count("TIME_TO_DINT")
            return f"tm := {value};\nd := LIMIT(-1000, TIME_TO_DINT(tm), 100000);\n"
        return f"tm := {value};\n"

    def arrays(self, depth: int) -> str:
        """Arrays and structures."""
        kind = self.draw.randrange(6)
        value = f"LIMIT(-50, {self.number('INT', 1)}, 50)"
        if kind == 0:
            self.count("constant index")
            return f"ar[{self.draw.randrange(4)}] := {value};\n"
        if kind == 1:
            self.count("variable index")
            return f"ar[{self.any_of('LIMIT(0, x, 3)', 'few', 'ABS(y MOD 4)', 'SEL(b0, 1, 3)')}] := {value};\n"
        if kind == 2:
            self.count("two dimensions")
            return f"grid[{self.any_of('1', '2', 'LIMIT(1, x, 2)')}, {self.any_of('3', 'LIMIT(1, z, 3)')}] := {value};\n"
        if kind == 3:
            self.count("structure")
            return f"pairs[{self.any_of('0', 'SEL(b2, 0, 1)')}].{self.any_of('a := ' + value, 'flag := ' + self.truth(1), 'deep[1] := us')};\n"
        if kind == 4:
            self.count("whole structure")
            return self.any_of("other := pair;\npair := pairs[1];\n", "pairs[SEL(b1, 0, 1)] := pair;\n")
        self.count("whole array")
        return "again := ar;\nz := again[2];\n"

    def risk(self, depth: int) -> str:
        """What often stops, or would without a guard."""
        self.count("stop")
        return self.any_of("y := 10 / i1;\n", "z := ar[i0];\n", "us := us + 100;\n", "few := few + 1;\n", "ar[few] := 3;\n", "x := Twice(6 / i1, b1);\n",
                           "si := DINT_TO_SINT(d0);\n",
                           "f := x >= 0 AND_THEN x < 4 AND_THEN ar[x] > 1;\n", "f := i1 = 0 OR_ELSE 6 MOD i1 = 0 OR_ELSE Twice(i1, b0) > 3;\n",
                           "pairs[SEL(b2, 0, 1)].deep[i1] := us;\n", "k := 0;\nWHILE k < i0 DO (*@ bound 5 *) k := k + 1; END_WHILE\n")

    def units(self, depth: int) -> str:
        """Functions and function blocks of the user."""
        kind = self.draw.randrange(5)
        if kind == 4:
            self.count("FUNCTION")
            return f"{self.any_of('y', 'total')} := LIMIT(-99, total + Shift({self.any_of('x', '2', 'Shift(1)')}) + total * 2, 99);\n"
        if kind == 0:
            self.count("FUNCTION")
            return f"x := Twice({self.any_of('y', 'Twice(i0, b0)', '3')}, {self.truth(1)}) + z MOD 5;\n"
        if kind == 1:
            self.count("VAR_IN_OUT")
            return f"f := Near(x := i0, y := {self.any_of('x', 'z')}, count := {self.any_of('kept', 'pair.a')}, apart => y);\n"
        self.count("FUNCTION_BLOCK")
        if kind == 2:
            return f"ax(go := {self.truth(1)}{self.any_of('', ', way := few', ', way := 6')}, place => x);\ng := ax.at_end;\n"
        return f"axes[{self.any_of('0', '1', 'SEL(b1, 0, 1)')}]({self.truth(1)}, at_end => h);\n"

    def choice(self, depth: int) -> str:
        """IF and CASE."""
        if self.draw.random() < 0.5:
            self.count("END_IF without ;")
            more = f"ELSIF {self.truth()} THEN\n{self.some(depth)}" if self.draw.random() < 0.5 else ""
            more += f"ELSE\n{self.some(depth)}" if self.draw.random() < 0.5 else ""
            return f"IF {self.truth()} THEN\n{self.some(depth)}{more}END_IF\n"
        selector = self.any_of("x", "few", "mode", "us", "state", "i0 MOD 3")
        labels = self.draw.sample(("0", "1", "2..4", "5, 6", "-2..-1", "SPAN", "7"), 3)
        branches = "".join(f"{label}: {self.some(depth)}" for label in labels)
        return f"CASE {selector} OF\n{branches}{self.any_of('', 'ELSE ' + self.some(depth))}END_CASE\n"

    def loop(self, depth: int) -> str:
        """Loops, with ways out."""
        if not self.controls:
            return self.assignment(depth)
        control = self.controls.pop()
        kind = self.any_of("FOR", "FOR", "WHILE", "REPEAT", "computed FOR")
        self.count(kind)
        way = ""
        if self.draw.random() < 0.6:
            word = self.any_of("EXIT", "CONTINUE", "EXIT", "CONTINUE", "RETURN")
            self.count(word)
            when = f"turn MOD 3 = {self.any_of('0', '1', '2')} {self.any_of('AND', 'OR')} {self.truth(1)}"
            way = f"turn := turn + 1;\nIF {when} THEN {word}; END_IF\nsum := (sum * 3 + turn) MOD 10007;\n"
        body = f"{self.some(depth)}{way}ar[{control if kind == 'FOR' else '1'}] := LIMIT(-9, x, 9);\n" if way or kind == "FOR" else self.some(depth)
        self.controls.append(control)
        bound = self.any_of("(*@ bound 4 *)", "(*@ bound 6 *)")
        before = "turn := 0;\n" if way else ""
        if kind == "FOR":
            return f"{before}FOR {control} := {self.any_of('0 TO 3', '3 TO 0 BY -1', '0 TO SPAN BY 2', '2 TO 1')} DO\n{body}END_FOR\n"
        if kind == "computed FOR":
            last = self.any_of("few", "LIMIT(0, x, 3)", "3")
            return f"{before}FOR {control} := {self.any_of('0', 'few', 'LIMIT(0, y, 2)')} TO {last} DO {bound}\n{body}END_FOR\n"
        step = f"k := k + 1;\n{body}"
        if kind == "WHILE":
            return f"{before}k := 0;\nWHILE k < {self.any_of('3', 'few', '2')} AND {self.truth(1)} DO {bound}\n{step}END_WHILE\n"
        return f"{before}k := 0;\nREPEAT {bound}\n{step}UNTIL k >= {self.any_of('2', 'few')} OR {self.truth(1)} END_REPEAT\n"


NAMES = ("b0", "b1", "b2", "i0", "i1", "u0", "w0", "pt", "d0", "v_0", "v_1")
"""The inputs of a made text, as they stand in rows."""
_ENDS = {"i0": (-32768, 32767), "i1": (-32768, 32767), "u0": (0, 255), "w0": (0, 65535), "pt": (-(2**31), 2**31 - 1), "d0": (-(2**31), 2**31 - 1),
         "v_0": (-128, 127), "v_1": (-128, 127)}


def made_rows(seed: int, cycles: int) -> str:
    """A rows file for a made text: most values change seldom, numbers are mostly small."""
    draw = random.Random(seed)
    present = dict.fromkeys(NAMES, 0)
    lines = [",".join(NAMES)]
    for _ in range(cycles):
        for name in NAMES:
            if draw.random() < 0.3:
                present[name] = draw.randrange(2) if name.startswith("b") else _number(draw, name)
        lines.append(",".join(str(present[name]) for name in NAMES))
    return "\n".join(lines) + "\n"


def _number(draw: random.Random, name: str) -> int:
    low, high = _ENDS[name]
    if name == "pt":
        return draw.choice((0, 100, 200, 250, 300, 1000))
    if draw.random() < 0.9:
        return draw.randrange(max(low, -3), 10)
    return draw.choice((low, high, draw.randrange(low, high + 1)))
