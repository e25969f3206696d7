#!/usr/bin/env python3
"""docs/CLAUSES.md: each public item with what its comment says, its clauses, what they cite, what breaks them and what shows them.

    checks/clauses.py            prints where the page isn't the present one, names in marks that aren't there, and edits without a mark; then sums
    checks/clauses.py --write    writes the page first

A promise stands beside its clause: in the `///` of a public function, method, type or trait, or at the head of a module of specs/. Marks say the rest:

- an edit of must-fail/ or checks/edits/ has a line `# breaks: CRATE::CALL.clause, ..`;
- a text of a crate's data/, as a session, has lines `# shows: CRATE::CALL, ..`.

A call is named as lib.rt exports it, a method with its type, as `op_graph::Graph::len`; behind a dot may stand the name of a clause.
Its status is 1 where something is printed but the sums. It reads the sources and proves nothing.
"""
import re
import sys
from textwrap import wrap

sys.dont_write_bytecode = True
from cited_modules import Definitions, modules_of  # noqa: E402
from sources import CRATES, TOP, listed_crates, read_crates  # noqa: E402

PAGE = TOP / "docs" / "CLAUSES.md"
HEAD = """# Clauses: what each public call promises, crate by crate

Made from the sources by `checks/clauses.py --write`; `checks/documents.sh` compares it. An assessor begins with the claims of `docs/PROMISES.md`, which rest on
these clauses. That page also has what isn't promised, and how to read a contract and a definition.

Of each public function, method, trait and type: what its comment says, then

- *clauses*: the names of what it ensures, and after *needs* of what a caller must meet; `(1)` is one without a name. All are proved: the gate checks them.
- *read*: the modules of `specs/` that the clauses name, of the same crate where no other is named, and how many lines of how many modules these are with
  all that they name. If you accept them, you need not read code or proofs.
- *broken by*: wrong lines of code that the proofs refuse: files of the crate's `must-fail/`, or, where marked *by hand*, of `checks/edits/`. The gate
  tries the first, TRIED of them, and not the others, BY_HAND of them, which `checks/edits.sh` tries (`docs/PROMISES.md`, 'What the gate shows').
- *shown by*: texts of worked rows that a program plays, as `session NAME` (`docs/dev/SESSIONS.md`).

A dash says that there is none: the proof alone shows that promise. A method of a trait that says nothing of its own has the words of the trait. At the end of a
crate are the modules of definitions that public contracts cite, with what is said of them.

For all crates: every call returns, for all arguments that meet its condition; no step overflows, no index is out of range, no cast loses bits. That is the
toolchain's clause, for each function. A call that can answer `Memory` may answer it at any time. It is an answer of its own, and means nothing else. Code
review, not proof, shows that a call without such an answer takes no memory.
"""


def marks(text, mark):
    """The names behind a mark, of all its lines."""
    return [name.strip() for names in re.findall(rf"^\s*{mark}: (.*)$", text, re.M) for name in names.split(",") if name.strip()]


class Marks:
    """What breaks and what shows each item: maps from a crate and an item's path to what is named, each with the clause where one is."""

    def __init__(self, crates):
        self.crates = crates
        self.broken_by, self.shown_by, self.faults = {}, {}, []
        self.edits = {"": 0, "by hand": 0}
        for name in crates:
            for folder, how in ((CRATES / name / "must-fail", ""), (TOP / "checks" / "edits" / name, "by hand")):
                for file in sorted(folder.glob("*.edit")):
                    self.edits[how] += 1
                    names = marks(file.read_text(), "# breaks")
                    if not names:
                        self.faults.append(f"{file.relative_to(TOP)}: no line says what it breaks")
                    self.put(self.broken_by, names, f"`{file.stem}`" if names and names[0].startswith(f"{name}::") else f"`{name}::{file.stem}`", how, file)
            self.read_rows(name)

    def read_rows(self, crate):
        for file in sorted(path for path in (CRATES / crate / "data").glob("**/*") if path.is_file()):
            try:
                text = file.read_text()
            except UnicodeDecodeError:
                continue
            word = {".session": "session "}.get(file.suffix, f"{crate}/")
            self.put(self.shown_by, marks(text, "# shows"), f"`{word}{file.stem}`", "", file)

    def put(self, where, names, what, how, file):
        for cited in names:
            crate, _, rest = cited.partition("::")
            path, _, clause = rest.partition(".")
            found = self.crates[crate].named(path) if crate in self.crates else []
            if not found or (clause and not any(clause in item.names_of_clauses() for item in found)):
                self.faults.append(f"{file.relative_to(TOP)}: `{cited}` isn't there")
            told = where.setdefault((crate, path), {}).setdefault((what, how), [])
            told += [f"`{clause}`"] * (bool(clause) and f"`{clause}`" not in told)

    @staticmethod
    def listed(where, key):
        """What is at an item, each with its clauses and, behind them, whether it is tried by hand."""
        found = []
        for (what, how), clauses in where.get(key, {}).items():
            note = ", ".join(clauses + [how] * bool(how))
            found.append(f"{what} ({note})" if note else what)
        return found


def in_lines(text, first="", later=""):
    return wrap(text, 160, initial_indent=first, subsequent_indent=later, break_long_words=False, break_on_hyphens=False)


def paragraphs(comment, first="", later=""):
    """The lines of a comment: its words as one paragraph up to a table or a list, which stay as they are."""
    marked = next((i for i, line in enumerate(comment) if line.startswith(("|", "- "))), len(comment))
    rows = in_lines(" ".join(filter(None, comment[:marked])), first, later)
    behind = [f"{later}{line}".rstrip() for line in comment[marked:]]
    return rows + ([""] + behind if behind else [])


def grouped(crate, modules, order):
    """The modules of a list, those of the crate itself first."""
    own = [f"`{module}`" for owner, module in sorted(modules) if owner == crate]
    others = [f"`{owner}::{module}`" for owner, module in sorted(modules, key=lambda m: (order.index(m[0]), m[1])) if owner != crate]
    return ", ".join(own + others)


class Page:
    """The page, made crate by crate."""

    def __init__(self, crates):
        self.crates = crates
        self.order = list(crates)
        self.marks = Marks(crates)
        self.definitions = Definitions(crates)
        self.cited = set()
        self.counts = {}
        self.of_traits = {}
        for crate in crates.values():
            for item in crate.items:
                if item.kind == "method" and item.comment and self.is_of_trait(crate, item):
                    self.of_traits.setdefault(item.path.split("::")[-1], f"{crate.name}::{item.path}")

    @staticmethod
    def is_of_trait(crate, item):
        owner = item.path.rpartition("::")[0]
        return any(other.path == owner and other.kind == "trait" for other in crate.items)

    def annex(self, crate, item):
        """The lines behind an item: its clauses, what they cite, what breaks and what shows them."""
        key = (crate.name, item.path)
        broken, shown = (self.marks.listed(where, key) for where in (self.marks.broken_by, self.marks.shown_by))
        if not item.clauses and not broken and not shown and (item.kind == "type" or not item.comment):
            return []
        kinds = {kind: [f"`{name}`" for own, name, _ in item.clauses if own == kind and name] for kind in ("ensures", "requires")}
        for kind, names in kinds.items():
            nameless = sum(1 for own, name, _ in item.clauses if own == kind and not name)
            names += [f"({nameless})"] * bool(nameless)
        parts = []
        if item.kind in ("function", "method"):
            needs = f", *needs* {', '.join(kinds['requires'])}" if kinds["requires"] else ""
            parts.append(f"*clauses* {', '.join(kinds['ensures']) or '–'}{needs}")
        nodes = self.definitions.of_contract(crate, {item.file.module}, item.contract())
        if nodes:
            modules = modules_of(self.definitions.reached(nodes))
            self.cited |= modules
            lines = sum(self.crates[owner].modules[module].lines for owner, module in modules)
            direct = grouped(crate.name, modules_of(nodes), self.order)
            parts += [f"*read* {direct or '–'}, {lines} lines of {len(modules)}"] * bool(modules)
        parts += [f"*broken by* {', '.join(broken) or '–'}", f"*shown by* {', '.join(shown) or '–'}"]
        self.count(crate, broken, shown)
        return in_lines("; ".join(parts) + ".", "  - ", "    ")

    def count(self, crate, broken, shown):
        counts = self.counts.setdefault(crate.name, [0, 0, 0, 0])
        for place, is_so in enumerate((True, not broken, not shown, not broken and not shown)):
            counts[place] += is_so

    def block(self, crate, item):
        annex = self.annex(crate, item)
        comment = item.comment
        if not comment and annex and item.kind == "method":
            trait = self.of_traits.get(item.path.split("::")[-1])
            comment = [f"As `{trait}`."] if trait else []
        if not comment and not annex:
            return []
        said = paragraphs([f"**`{item.path}`** {comment[0] if comment else ''}", *comment[1:]], "- ", "  ")
        return said + ([""] if annex and len(said) > 1 and said[-1].startswith(("  |", "  -", "   ")) else []) + annex

    def section(self, crate):
        rows = [f"## {crate.name}", ""]
        rows += [*paragraphs(crate.files["lib"].heading()), ""] if "lib" in crate.files else []
        rows += ["No program of this repository uses it.", ""] * (crate.name not in self.used)
        plain = []
        owners = {item.path.rpartition("::")[0] for item in crate.items if item.kind == "method"}
        for item in sorted(crate.items, key=self.place_of(crate)):
            if item.kind == "type" and item.path not in owners and (crate.name, item.path) not in self.marks.broken_by | self.marks.shown_by:
                plain.append(f"**`{item.path}`** {' '.join(filter(None, item.comment))}")
            else:
                rows += self.block(crate, item)
        rows += [line for text in plain for line in in_lines(text, "- ", "  ")]
        return [*rows, ""]

    def place_of(self, crate):
        """Items in the order of their files, each method behind its type."""
        files = list(crate.files)
        first = {}
        for item in crate.items:
            if item.kind != "method":
                first[item.path] = (files.index(item.file.module), item.line)

        def place(item):
            owner = item.path.rpartition("::")[0] if item.kind == "method" else item.path
            return (*first.get(owner, (files.index(item.file.module), item.line)), item.kind == "method", files.index(item.file.module), item.line)

        return place

    def text(self):
        below = listed_crates()
        self.used = {"vcp", "vcp_study"}
        for crate in reversed(self.order):
            if crate in self.used:
                self.used |= set(below[crate])
        shown = [crate for crate in self.crates.values() if any(item.clauses for item in crate.items)]
        sections = [(crate, self.section(crate)) for crate in shown]
        head = HEAD.replace("TRIED", str(self.marks.edits[""])).replace("BY_HAND", str(self.marks.edits["by hand"]))
        rows = [head, "## Contents", "", "| crate | public items with an annex | without an edit | without a test | without either |", "|---|---|---|---|---|"]
        for name, counts in [*self.counts.items(), ("all", [sum(column) for column in zip(*self.counts.values())])]:
            rows.append(f"| {f'[{name}](#{name})' if name in self.crates else name} | {' | '.join(map(str, counts))} |")
        rows.append("")
        for crate, section in sections:
            rows += section
            heads = [(name, module.heading()) for name, module in crate.modules.items() if (crate.name, name) in self.cited]
            if heads:
                rows += ["Definitions:", "", *(line for name, said in heads for line in in_lines(f"`{name}`: {said or '–'}", "- ", "  ")), ""]
        return "\n".join(rows).rstrip("\n") + "\n"


def main():
    page = Page(read_crates())
    text = page.text()
    if "--write" in sys.argv[1:]:
        PAGE.write_text(text)
    faults = list(page.marks.faults)
    if not PAGE.is_file() or PAGE.read_text() != text:
        faults.append("docs/CLAUSES.md isn't what the sources say: checks/clauses.py --write")
    print("\n".join(faults) or "clauses: docs/CLAUSES.md is what the sources say")
    items, unbroken, unshown, neither = (sum(column) for column in zip(*page.counts.values()))
    print(f"clauses: of {items} items {unbroken} have no edit, {unshown} no row, {neither} neither")
    sys.exit(1 if faults else 0)


if __name__ == "__main__":
    main()
