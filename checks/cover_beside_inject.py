#!/usr/bin/env python3
"""Whether `vcp inject` says of single faults on drawn rows what `vcp_study cover` says of them in every run.

    checks/cover_beside_inject.py [--seed N] [--images N] [--groups N] [--demo N] [--statements N] [SOURCE..]

Of each source, those of examples/ where none is given, N images (2) are made, with a drawn seed and step, of narrow ones some in the wide code, too; and one
image of each of N programs as `demo` has them, with N of its statements (1000, all). On a few drawn rows for each image N faults (300) are drawn of all
classes, each in a drawn cycle, and half of them with later faults at the same operation. What is told of a fault is read from what `cover` prints: that it
shows, from its own line; that it runs on or is beyond, from the line of its operation; that it does nothing, by the operations from which no output and none
that may stop (`ranges`) is reached; else that it is refused, so many cycles later as the least horizon with which its operation isn't beyond. The numbers of
the tables have to be those of the faults that are counted here. Then, of each fault,

- one that is told to be refused is neither `wrong` nor `ran-on`; where it is `refused`, it is so in the cycle that is told; and it isn't `same` where the run
  without it goes on beyond that cycle;
- one that does nothing is `same` or `stopped`, and where it is of a kind that does the same, and alone, `same`;
- one that shows isn't `refused` up to the cycle in which the first outputs are reached, where it is alone.

It prints the counts, and each fault of which something else is said; its status is 1 then. With VCP=FILE and VCP_STUDY=FILE before it other programs than the
built ones are taken. It is run by hand: 200 programs of `demo` take some minutes.
"""
import argparse
import collections
import os
import random
import subprocess
import sys
import tempfile
from pathlib import Path

TOP = Path(__file__).resolve().parent.parent
sys.dont_write_bytecode = True
sys.path.insert(0, str(TOP / "tools"))
from vcp_tools.read.cover_lines import BY_CLASS, BY_DELAY, CLASSES, read_cover  # noqa: E402
from vcp_tools.read.image import KIND_NAMES, OPERANDS, goes_into, read_image  # noqa: E402
from vcp_tools.read.range_lines import read_ranges  # noqa: E402
from vcp_tools.read.run_lines import read_trace  # noqa: E402

VCP = os.environ.get("VCP", str(TOP / "vcp"))
STUDY = os.environ.get("VCP_STUDY", str(TOP / "vcp_study"))
HORIZON = 8
A = {1: 2**31 - 1, 2: 2**61 - 1}
SAME_WORK = ({"INPUT", "CONST"}, {"LOAD", "STORE", "OUT", "CONV"})
PLACES = {kind: 1 if kind == "LOAD" else OPERANDS.get(kind, 2) for kind in KIND_NAMES}
LEAST = {"BOOL": 0, "INT": -(2**15), "DINT": -(2**31), "LINT": -(2**63)}
MOST = {"BOOL": 1, "INT": 2**15 - 1, "DINT": 2**31 - 1, "LINT": 2**63 - 1}
MOST_COUNTED = 400
"""Of an image with more operations the faults of `from` and `late` aren't counted one by one."""


def call(program, *words):
    done = subprocess.run([program, *map(str, words)], stdout=subprocess.PIPE, stderr=subprocess.PIPE, check=False)
    return done.returncode, done.stdout, done.stderr.decode()


def must(program, *words):
    status, output, errors = call(program, *words)
    if status not in (0, 9):
        raise SystemExit(f"{program} {' '.join(map(str, words))}: {errors.strip() or status}")
    return output


class Draws:
    """The draws of `demo`, after docs/FORMATS.md, 'Made programs'."""

    def __init__(self, number):
        self.state = number % 2**31

    def draw(self, most):
        self.state = (1103515245 * self.state + 12345) % 2**31
        return self.state // 65536 % most


def demo(number, statements):
    """The source of the made program of a number, with so many of its statements."""
    draws = Draws(number)
    lines = ["PROGRAM demo", "VAR_INPUT a, b : DINT; END_VAR", "VAR_OUTPUT y : DINT; END_VAR", f"VAR {', '.join(f'v{i}' for i in range(100))} : DINT; END_VAR"]
    for _ in range(statements):
        p, q, r, form = draws.draw(100), draws.draw(100), draws.draw(100), draws.draw(6)
        lines.append((f"v{p} := (v{q} + a) MOD 1000;", f"v{p} := (v{q} - b) MOD 1010;", f"v{p} := (v{q} * v{r}) MOD 1020;",
                      f"IF v{q} < v{r} THEN v{p} := (v{p} + 1) MOD 1000; END_IF;", f"v{p} := SEL(v{q} = v{r}, v{q}, a MOD 1030);",
                      f"v{p} := LIMIT(-500, v{q}, 500);")[form])
    return "\n".join([*lines, "y := v0 + v1 + v2 + v3;", "END_PROGRAM", ""])


class Faults:
    """The faults of each class at an operation, as `cover` spells them, in their order."""

    def __init__(self, image):
        self.image, self.operations = image, image.operations
        self.store_of = {cell.load: cell.store for cell in image.cells}
        self.load_of = {cell.store: cell.load for cell in image.cells}
        self.readers = [[] for _ in image.operations]
        for it in image.operations:
            for place, read in enumerate(it.operands):
                self.readers[read].append((it.number, place))

    def readings(self, k):
        """The readings of an operation's word: each an operation, an operand of it, and the cycle borders before it."""
        found = [(reader, place, 0) for reader, place in self.readers[k]]
        return found + ([(self.load_of[k], 0, 1)] if k in self.load_of else [])

    def of(self, name, k):
        operation = self.operations[k]
        places = range(PLACES[operation.kind])
        if name == "add":
            return [f"result N {k} add any", *(f"operand N {k} {j} add any" for j in places)]
        if name == "rest":
            return [] if operation.kind == "OUT" else [f"rest N {k} {i} add any" for i in range(1, len(self.readings(k)) - 1)]
        if name == "stale":
            return [f"operand N {k} {j} stale" for j in places]
        if name == "skip":
            return [f"skip N {k}"]
        if name == "operator":
            return [f"operator N {k} {kind}" for kind in KIND_NAMES if kind != operation.kind and PLACES[kind] == len(places)]
        others = range(k) if name == "from" else range(k, len(self.operations))
        own = {j: self.store_of[k] if k in self.store_of and name == "late" else -1 for j in places}
        if name == "from" and operation.kind != "LOAD":
            own = dict(enumerate(operation.operands))
        return [f"operand N {k} {j} {name} {r}" for j in places for r in others if r != own[j] and goes_into(self.operations[r].type, operation.wanted(j))]

    def has_same_work(self, text):
        words = text.split()
        return words[0] == "operator" and any(self.operations[int(words[2])].kind in kinds and words[3] in kinds for kinds in SAME_WORK)


class Told:
    """What `cover` tells of an image's faults, as its lines say it."""

    def __init__(self, file, faults):
        self.faults = faults
        count = len(faults.operations)
        self.by_class = {name: read_cover(must(STUDY, "cover", file, HORIZON, name).decode()) for name in CLASSES}
        self.shows = {it.fault: it for found in self.by_class.values() for it in found.shows}
        self.left = {name: {it.operation for it in found.left} for name, found in self.by_class.items()}
        self.first = [None] * count
        for horizon in range(HORIZON, -1, -1):
            found = self.by_class["add"] if horizon == HORIZON else read_cover(must(STUDY, "cover", file, horizon, "add").decode())
            beyond = {it.operation for it in found.left if it.what == "beyond"}
            self.first = [it if k in beyond else horizon for k, it in enumerate(self.first)]
        self.reaching = self.reach({it.operation for it in read_ranges(must(STUDY, "ranges", file).decode()).may_stop})

    def reach(self, stops):
        """The operations from which an output or one that may stop is reached, across whatever borders."""
        found = {it.operation for it in self.faults.image.outputs} | stops
        left = list(found)
        while left:
            k = left.pop()
            before = [*self.faults.operations[k].operands, *([self.faults.store_of[k]] if k in self.faults.store_of else [])]
            left += [it for it in before if it not in found]
            found.update(before)
        return found

    def of(self, name, text):
        """What is told of a fault: a word, and of one that is refused or shows the cycle borders."""
        k = int(text.split()[2])
        if self.faults.has_same_work(text):
            return "same work", 0
        if text in self.shows:
            return "shows", self.shows[text].borders
        starts = [(k, 0)] if name != "rest" else [(reader, borders) for reader, _, borders in self.faults.readings(k)[int(text.split()[3]):]]
        if not any(start in self.reaching for start, _ in starts):
            return "nothing", 0
        if k in self.left[name]:
            return "left", 0
        return "refused", min(self.first[start] + borders for start, borders in starts if start in self.reaching and self.first[start] is not None)

    def otherwise(self):
        """The classes whose numbers aren't those that are counted here."""
        for name, found in self.by_class.items():
            if name in ("from", "late") and len(self.faults.operations) > MOST_COUNTED:
                continue
            told = [self.of(name, text) for k in range(len(self.faults.operations)) for text in self.faults.of(name, k)]
            is_split = name == "rest" and self.left[name]
            words = [sum(it[0] in kinds for it in told) for kinds in (("refused",), ("nothing", "same work"), ("shows",), ("left",))]
            numbers = found.tables[BY_CLASS].get(name, [0] * 6)
            if numbers[0] != len(told) or (not is_split and [*numbers[1:4], numbers[4] + numbers[5]] != words):
                yield f"{name}: {numbers} are told, and {len(told)}, {words} counted"
            delays = collections.Counter(f"after {it[1]}" if it[1] < 16 else "after 16 or more" for it in told if it[0] == "refused")
            if not is_split and {key: row[0] for key, row in found.tables[BY_DELAY].items()} != dict(delays):
                yield f"{name}: {found.tables[BY_DELAY]} are told, and {dict(delays)} counted"


class Trial:
    """An image with rows, and what is told and said of its faults."""

    def __init__(self, source, draw, folder):
        self.draw, self.folder, self.image = draw, folder, folder / "image"
        code = ["--seed", draw.choice([0, 1, 305419896, draw.randrange(2**30)]), "--step", draw.choice([1, 1, 2, 7, 10, 100, draw.randint(1, 1000)])]
        self.image.write_bytes(must(VCP, "compile", source, *code))
        self.graph = read_image(self.image.read_bytes(), str(source))
        if self.graph.version == 1 and draw.random() < 0.2:
            self.image.write_bytes(must(VCP, "widen", self.image))
            self.graph = read_image(self.image.read_bytes(), str(source))
        self.faults = Faults(self.graph)
        self.told = Told(self.image, self.faults)
        self.cycles = draw.randint(6, 16)
        self.rows = self.drawn_rows()
        last = call(VCP, "exec", self.image, *self.rows)[1].decode().strip().split("\n")[-1].split()
        self.released = int(last[1]) if last[0] in ("end", "stop") else 0
        self.words = {}

    def drawn_rows(self):
        if not self.graph.inputs:
            return ["--cycles", str(self.cycles)]
        style = self.draw.random()
        lines = [",".join(it.name for it in self.graph.inputs)]
        lines += [",".join(str(self.value(it.type, style)) for it in self.graph.inputs) for _ in range(self.cycles)]
        (self.folder / "rows.csv").write_text("\n".join(lines) + "\n")
        return [str(self.folder / "rows.csv")]

    def value(self, kind, style):
        if kind == "BOOL":
            return int(self.draw.random() < style)
        how = self.draw.random()
        if how < 0.2:
            return self.draw.choice([LEAST[kind], MOST[kind], 0, 1, -1])
        return self.draw.randint(-300, 300) if how < 0.8 else self.draw.randint(LEAST[kind], MOST[kind])

    def word(self, cycle, operation):
        """The word of an operation in the run without faults; None where it isn't answered."""
        if cycle not in self.words:
            status, output, _ = call(VCP, "trace", self.image, *self.rows, cycle)
            found = read_trace(output.decode())[0] if status in (0, 2, 3) else []
            self.words[cycle] = {it.operation: it.word for it in found}
        return self.words[cycle].get(operation)

    def added(self):
        """A number that is no multiple of A."""
        of_code = A[self.graph.version]
        while True:
            sizes = [1, 2**30, of_code + 1, 2 ** self.draw.randrange(62), self.draw.randint(0, 2**62), self.draw.randint(0, 20)]
            near = of_code * self.draw.randint(-3, 3) + self.draw.randint(-3, 3)
            found = self.draw.choice([*sizes, *(-it for it in sizes), near])
            if found % of_code and abs(found) <= 2**62:
                return found

    def lines(self, name, text, cycle):
        """The lines of a script for a fault that begins in a cycle; None where a script has none."""
        words = text.split()
        k = int(words[2])
        if name == "rest":
            later = self.faults.readings(k)[int(words[3]):]
            number = self.added()
            one_each = len({reader for reader, _, _ in later}) == len(later)
            return [f"operand {cycle + borders} {reader} {place} add {number}" for reader, place, borders in later] if one_each else None
        if name == "late":
            return self.late(k, int(words[3]), int(words[5]), cycle)
        if name in ("stale", "skip") and cycle == 0:
            return None
        return [text.replace(" N ", f" {cycle} ").replace("any", str(self.added()))]

    def late(self, k, place, other, cycle):
        """The word that another operation answered in the cycle before, in the place of an operand's: the difference is added."""
        if cycle == 0 or (self.graph.operations[k].kind != "LOAD" and self.word(cycle, k) is None and self.released <= cycle):
            return None
        is_load = self.graph.operations[k].kind == "LOAD"
        own = self.word(cycle - 1, self.faults.store_of[k]) if is_load else self.word(cycle, self.graph.operations[k].operands[place])
        before = self.word(cycle - 1, other)
        if own is None or before is None or abs(before - own) > 2**62:
            return None
        return [f"operand {cycle} {k} {place} add {before - own}"]

    def another(self, k, cycle):
        """Any act at an operation in a cycle."""
        draw, kind = self.draw, self.graph.operations[k].kind
        places = PLACES[kind]
        acts = [f"result {cycle} {k} add {draw.choice([self.added(), A[self.graph.version] * draw.randint(-2, 2)])}"]
        acts += [f"skip {cycle} {k}"] * (cycle > 0)
        if places:
            place = draw.randrange(places)
            acts += [f"operand {cycle} {k} {place} add {self.added()}", f"operand {cycle} {k} {place} stale"][: 1 + (cycle > 0)]
            acts.append(f"operator {cycle} {k} {draw.choice([it for it in KIND_NAMES if PLACES[it] == places])}")
            acts += [f"operand {cycle} {k} {place} from {draw.randrange(k)}"] if k else []
        return draw.choice(acts)

    def groups(self, count):
        """Drawn faults: the class, the fault, what is told of it, its cycle, whether there are later acts, and the lines."""
        for _ in range(count):
            name = self.draw.choice(CLASSES)
            texts = self.faults.of(name, self.draw.randrange(len(self.graph.operations)))
            cycle = self.draw.randrange(min(self.cycles, 6))
            if not texts:
                continue
            text = self.draw.choice(texts)
            lines = self.lines(name, text, cycle)
            if lines is None:
                continue
            is_alone = name == "rest" or self.draw.random() < 0.5
            if not is_alone:
                later = self.draw.sample(range(cycle + 1, self.cycles + 1), min(self.draw.randint(1, 3), self.cycles - cycle))
                lines = lines + [self.another(int(text.split()[2]), it) for it in sorted(later)]
            yield name, text, self.told.of(name, text), cycle, is_alone, lines

    def judge(self, count, counts):
        """Tries drawn faults, and gives those of which something else is said."""
        groups, script, first = list(self.groups(count)), [], []
        for *_, lines in groups:
            first.append(len(script) + 1 + (len(lines) > 1))
            script += ["begin", *lines, "end"] if len(lines) > 1 else lines
        (self.folder / "script").write_text("".join(f"{line}\n" for line in script))
        _, output, errors = call(VCP, "inject", self.image, *self.rows, self.folder / "script")
        said = {int(line.split()[0]): line.split()[1:] for line in output.decode().splitlines() if line.split()[0].isdigit()}
        if sorted(said) != sorted(first):
            return [f"not judged: {errors.strip()}"]
        found = []
        for (name, text, told, cycle, is_alone, lines), at in zip(groups, first):
            counts[name, told[0], said[at][0]] += 1
            if self.is_otherwise(told, cycle, is_alone, said[at]):
                found.append(f"{text}: told {told}, said {' '.join(said[at])}, of {lines}")
        return found

    def is_otherwise(self, told, cycle, is_alone, said):
        """Whether something else is said than what is told."""
        end = cycle + told[1]
        if told[0] == "refused":
            return said[0] in ("wrong", "ran-on") or (said[0] == "refused" and int(said[1]) != end) or (said[0] == "same" and self.released > end)
        if told[0] == "nothing":
            return said[0] not in ("same", "stopped")
        if told[0] == "same work":
            return is_alone and said[0] != "same"
        return told[0] == "shows" and is_alone and said[0] == "refused" and int(said[1]) <= end


def sources_of(given, folder):
    """Each source with the number of images of it that are tried."""
    for source in given.sources or sorted((TOP / "examples").glob("**/*.st")):
        if call(VCP, "check", source)[0]:
            print(f"not compiled: {source}")
        else:
            yield source, given.images
    for number in range(given.demo):
        file = folder / "demo.st"
        file.write_text(demo(number, given.statements))
        yield file, 1


def main():
    parser = argparse.ArgumentParser(description=(__doc__ or "").partition("\n")[0])
    for name, default in (("seed", 0), ("images", 2), ("groups", 300), ("demo", 0), ("statements", 1000)):
        parser.add_argument(f"--{name}", type=int, default=default)
    parser.add_argument("sources", nargs="*")
    given = parser.parse_args()
    draw, counts, otherwise, images = random.Random(given.seed), collections.Counter(), 0, 0
    with tempfile.TemporaryDirectory() as folder:
        for source, number in sources_of(given, Path(folder)):
            for _ in range(number):
                trial = Trial(source, draw, Path(folder))
                images += 1
                for line in [*trial.told.otherwise(), *trial.judge(given.groups, counts)]:
                    otherwise += 1
                    print(f"{source}: {line}", flush=True)
    for key in sorted(counts):
        print(f"{counts[key]:8d} {key[0]}, told {key[1]}, said {key[2]}")
    print(f"{images} images, {sum(counts.values())} faults, {otherwise} otherwise")
    return 1 if otherwise else 0


if __name__ == "__main__":
    sys.exit(main())
