#!/usr/bin/env python3
"""Which modules of specs/ an assessor reads: those that public contracts cite.

    checks/cited_modules.py                  prints the list of docs/dev/ARCHITECTURE.md, 'What an assessor reads'
    checks/cited_modules.py --write          puts it there, in the place of the one that stands there
    checks/cited_modules.py vcp_core::vcp    the modules that one public item of a crate rests on, with the lines of each, and of what is cited of it
    checks/cited_modules.py vcp_core::vcp exec audit    the same for these commands alone: without what only the arms of the others cite

It reads the sources as they stand and proves nothing. Python 3 and its library are all that it needs.

Public is what a crate's lib.rt exports: its functions and traits, and of its types the public methods and the
implementations of traits. A contract is a `requires` or an `ensures`, the value as which contracts see a type
(`ghost Value`), and a trait's ghost members with what a type gives for them. The views and invariants of types speak of
private fields and are counted apart. Each name of a contract is followed through the imports of its file to a
definition, and from there on through the names of that definition. A definition is one item of a module, or one
`mutual` block. A name that a definition binds by itself is followed too where an import has the same name, so that a
module may be listed too much, but none is left out.
"""
import re
import sys
from functools import lru_cache

sys.dont_write_bytecode = True
from sources import TOP, read_crates  # noqa: E402

DOCUMENT = TOP / "docs" / "dev" / "ARCHITECTURE.md"
HEAD = "Modules of `specs/` that public contracts cite, and after *views* those that views and invariants alone cite:"
WIDTH = 150

# A dot with a space behind it ends the variables of a λ, and is no part of a name.
WORD = re.compile(r"[^\s(){}\[\],;.:\"⟦⟧]+|\.(?=\S)")


@lru_cache(maxsize=None)
def words(text):
    """The names in a piece of a definition or contract, those behind a dot with what stands before it."""
    found = []
    before = None
    for word in WORD.findall(re.sub(r'"[^"]*"', " ", text)):
        if word == ".":
            before = found[-1][1] if found else None
            continue
        found.append((before, word))
        before = None
    return found


COMMANDS = {
    "check": "answers", "format": "answers", "plain": "answers", "run": "runs", "il": "runs", "compile": "compiles", "list": "answers", "exec": "runs",
    "trace": "runs", "widen": "answers", "audit": "answers", "inject": "judges", "pair": "compares", "pairs": "pairs_", "wire": "wires", "demo": "runs"}
"""The commands of `vcp`, each with the kind of task that it comes to. Each has an arm in the definitions that go command by command, and each kind in those
that go kind by kind."""
SUBJECTS = {"plain": "source", "run": "source", "demo": "source", "il": "listed", "exec": "image", "trace": "image"}
"""What is run by those that run something."""
BY_KIND = ("Abouts", "Answer", "Endings", "GraphsOf", "Kinds", "Reports")
WITH_ARMS = {("vcp_inputs", "Forms"), ("vcp_core", "Tasks"), *(("vcp_inputs", module) for module in BY_KIND)}


def without_arms(text, left_out):
    """A definition without the arms of these constructors: equations and constructors, with the lines behind them that go on with one."""
    head = re.compile(rf"(\s*)(?:[\w']+ \((?:{'|'.join(left_out)})\b|(?:{'|'.join(left_out)}) :)")
    kept, within = [], None
    for line in text.split("\n"):
        found = head.match(line)
        if found:
            within = len(found.group(1))
        elif within is None or not line.strip() or len(line) - len(line.lstrip()) <= within:
            within = None
            kept.append(line)
    return "\n".join(kept)


class Definitions:
    """Which definitions each definition names, and each contract: a crate, a module and the number of its item there, or a public type."""

    def __init__(self, crates, commands=()):
        self.crates = crates
        kept = {"answers", *commands, *(COMMANDS[it] for it in commands), *(SUBJECTS.get(it) for it in commands)}
        self.left_out = sorted({*COMMANDS, *COMMANDS.values(), *SUBJECTS.values()} - kept) if commands else []
        self.of_kit = set()
        self.known = {}

    def in_module(self, path, name):
        """A definition, or a type of the code, which is named by a module's path; none in what the toolchain has."""
        parts = path.split(".", 3)
        if parts[0] != "Rattle" or len(parts) < 4:
            return set()
        if parts[1] not in self.crates:
            self.of_kit.add((parts[1], parts[3].split(".")[0]))
            return set()
        crate = self.crates[parts[1]]
        if parts[3].startswith("declared"):
            owner = crate.type_of(name)
            return {("type", parts[1], owner)} if owner else set()
        module = crate.modules.get(parts[3])
        if module is not None and name in module.items:
            return {(parts[1], parts[3], module.items[name])}
        if module is not None and name in module.imports:
            return self.in_module(*module.imports[name])
        print(f"cited_modules: {name} isn't found in {path}", file=sys.stderr)
        return set()

    def in_text(self, text, imports, own=None):
        found = set()
        for before, word in words(text):
            if before is not None:
                if before in imports and imports[before][1] is None:
                    found |= self.in_module(imports[before][0], word)
            elif own is not None and word in own[1].items:
                found.add((own[0], own[1].name, own[1].items[word]))
            elif word in imports and imports[word][1] is not None:
                found |= self.in_module(*imports[word])
        return found

    def of_contract(self, crate, files, text):
        return set().union(*(self.in_text(text, crate.files[file].imports) for file in files))

    def of_node(self, node):
        if node not in self.known:
            crate = self.crates[node[1] if node[0] == "type" else node[0]]
            if node[0] == "type":
                self.known[node] = self.of_contract(crate, crate.file_of[node[2]], crate.seen_as(node[2]))
            else:
                module = crate.modules[node[1]]
                self.known[node] = self.in_text(self.text_of(node), module.imports, (crate.name, module))
        return self.known[node]

    def text_of(self, node):
        """What is read of a definition."""
        text = self.crates[node[0]].modules[node[1]].texts[node[2]]
        return without_arms(text, self.left_out) if self.left_out and (node[0], node[1]) in WITH_ARMS else text

    def reached(self, nodes):
        """These definitions, and those that are reached from them."""
        found, waiting = set(nodes), list(nodes)
        while waiting:
            new = self.of_node(waiting.pop()) - found
            found |= new
            waiting += new
        return found


def modules_of(nodes):
    return {(node[0], node[1]) for node in nodes if node[0] != "type"}


class Reading:
    """The definitions that are reached from the contracts of public items."""

    def __init__(self, crates, definitions=None):
        self.definitions = definitions or Definitions(crates)
        self.cited = set()

    def of_item(self, crate, item, text):
        self.cited |= self.definitions.of_contract(crate, crate.file_of[item], text)

    @property
    def reached(self):
        return self.definitions.reached(self.cited)

    def modules(self):
        return modules_of(self.reached)


def named(modules):
    return ", ".join(f"`{m}`" for m in sorted(modules))


def listed(crate, modules):
    """The modules of a crate, or that they are all."""
    return "all" if modules and len(modules) == len(crate.modules) else named(modules)


def listing(crates):
    definitions = Definitions(crates)
    cited, viewed = Reading(crates, definitions), Reading(crates, definitions)
    for crate in crates.values():
        for item in crate.public:
            cited.of_item(crate, item, crate.public[item])
    in_contracts = cited.modules()
    of_kit = set(definitions.of_kit)
    for crate in crates.values():
        for item in crate.views:
            viewed.of_item(crate, item, crate.views[item])
    in_views = viewed.modules() - in_contracts
    rows = [HEAD, ""]
    for name, crate in crates.items():
        here = {m for c, m in in_contracts if c == name}
        more = {m for c, m in in_views if c == name}
        if here or more:
            rows += in_lines(f"`{name}`: " + "; ".join([listed(crate, here)] * bool(here) + [f"*views*: {listed(crate, more)}"] * bool(more)))
    for kit in sorted({c for c, _ in of_kit} - {"std"}):
        rows += in_lines(f"`{kit}`, of the kit: {named(m for c, m in of_kit if c == kit)}")
    return rows


def in_lines(text):
    """The lines of an item of the list."""
    lines = ["-"]
    for word in text.split(" "):
        if len(lines[-1]) + 1 + len(word) > WIDTH:
            lines.append(" ")
        lines[-1] += " " + word
    return lines


def lines_of(text):
    return sum(1 for line in text.split("\n") if line.strip())


def lines_read(crates, wanted, commands=()):
    """Of a public item, for these commands alone: the crates and modules that it rests on, each with the lines that are cited of it and all of its lines."""
    name, _, item = wanted.partition("::")
    reading = Reading(crates, Definitions(crates, commands))
    reading.of_item(crates[name], item, crates[name].public[item])
    cited = {}
    for node in reading.reached:
        if node[0] != "type":
            cited[node[:2]] = cited.get(node[:2], 0) + lines_of(reading.definitions.text_of(node))
    order = list(crates)
    return [(*it, cited[it], crates[it[0]].modules[it[1]].lines) for it in sorted(cited, key=lambda it: (order.index(it[0]), it[1]))]


def one_item(crates, wanted, commands):
    name, _, item = wanted.partition("::")
    if name not in crates or item not in crates[name].public:
        sys.exit(f"{wanted} is no public item with a contract")
    if not set(commands) <= set(COMMANDS):
        sys.exit(f"the commands are {', '.join(COMMANDS)}")
    rows = lines_read(crates, wanted, commands)
    for crate, module, cited, lines in rows:
        print(f"{cited:6} of {lines:5} {crate} {module}")
    print(f"{sum(row[2] for row in rows):6} lines of the definitions that are cited, without comments, blank lines and imports")
    print(f"{sum(row[3] for row in rows):6} lines of {len(rows)} modules, without comments, blank lines and imports")


def main():
    crates = read_crates()
    if len(sys.argv) > 1 and sys.argv[1] != "--write":
        return one_item(crates, sys.argv[1], sys.argv[2:])
    rows = listing(crates)
    if len(sys.argv) == 1:
        print("\n".join(rows))
        return
    lines = DOCUMENT.read_text().split("\n")
    start = lines.index(HEAD)
    end = next(i for i in range(start + 2, len(lines) + 1) if i == len(lines) or not lines[i].startswith(("- ", "  ")))
    DOCUMENT.write_text("\n".join(lines[:start] + rows + lines[end:]))


if __name__ == "__main__":
    main()
