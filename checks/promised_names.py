#!/usr/bin/env python3
"""Whether what documents name is there.

    checks/promised_names.py            prints what isn't
    checks/promised_names.py --write    puts the numbers of lines and of edits right in docs/PROMISES.md, and then prints

Of docs/PROMISES.md: as many contracts of C functions are named as are counted. Of each claim: its clauses and its edits are there, named with their crates, an edit that the gate doesn't try is called so, and the
definitions to be read have so many lines; and all that is named so elsewhere on that page is there.
Of crates/vcp_study: each session of data/ is in args, behind `play`, and stdout has its line.
Of docs/dev/ARCHITECTURE.md: each crate stands in a layer and on none above it, and has its row in the table of crates and, but for those of tests,
in that of main contracts; each name of a crate, a file or a definition is there; and the list of
modules is the one that checks/cited_modules.py prints.
Of docs/GLOSSARY.md: the names in the last column are there (of names that two crates have, checks/double_names.py tells).
Of docs/UNITS.md: each line of code that it shows is a line of coded_unit, or of own_unit of vcp_study.
Of docs/PROMISES.md, 'The order of reading' and 'What the gate shows': each family of commands has as many lines of definitions as it says; each step of the
order names modules that are there, and has as many lines as the top call rests on in its crates, or, of a crate that stands in several steps, in the modules
that it names; each crate that the top call rests on has a step, or is named after them; and there are as many edits as it says.

Of README.md and docs/START.md: the times that they say, in minutes and hours, are in docs/MEASURES.md.
Of CHANGELOG.md: its first release is that of the tools, and releases and their days go down.
Of docs/SAFETY.md: the assumptions and the claims that it cites by their numbers are there, and each assumption is one that a hazard or another part cites.

What docs/CLAUSES.md names is there, since checks/clauses.py makes it. It ends with status 1 where there is something. It reads the sources and proves nothing.
"""
import re
import subprocess
import sys
from datetime import datetime

sys.dont_write_bytecode = True
from cited_modules import lines_read  # noqa: E402
from sources import CRATES, TOP, listed_crates, read_crates  # noqa: E402

CHECKS = TOP / "checks"
PROMISES = TOP / "docs" / "PROMISES.md"
ARCHITECTURE = TOP / "docs" / "dev" / "ARCHITECTURE.md"


def without_comments(file, mark):
    return re.sub(mark + ".*", "", file.read_text())


def defined():
    """The names of definitions in specs/, of all crates, and the fields of records."""
    names = set()
    for file in CRATES.glob("*/specs/**/*.antt"):
        text = without_comments(file, "--")
        names |= set(re.findall(r"^\s*(?:(?:abbrev|unfoldable|opaque|pub|data|record) )*([^\s(){}:=.,;]+)(?= [:({])", text, re.M))
        names |= set(re.findall(r"^  pub (\w+) :", text, re.M))
    return names


def in_code(crates):
    """The names of all code: of files, types and traits, functions and their clauses."""
    names = set()
    for crate in crates.values():
        for file in crate.files.values():
            names.add(file.path.stem)
            for found in re.finditer(r"\b(?:struct|enum|trait|type|fn|as) (\w+)|\b(?:ensures|requires) (\w+) *\{", file.text):
                names.add(found.group(1) or found.group(2))
    return names


def is_clause(crates, cited):
    """Whether `crate::call` or `crate::call.clause` is there."""
    crate, _, rest = cited.partition("::")
    path, _, clause = rest.partition(".")
    found = crates[crate].named(path) if crate in crates else []
    return bool(found) and (not clause or any(clause in item.names_of_clauses() for item in found))


def quoted(text):
    return [name.lstrip(".") for name in re.findall(r"`([^`]+)`", text)]


def folders_of_edits(crate):
    """Where edits of a crate stand: those that the gate tries, and those that are tried by hand."""
    return CRATES / crate / "must-fail", CHECKS / "edits" / crate


def is_tried(crate, name):
    """Whether the gate tries the edit."""
    return (folders_of_edits(crate)[0] / f"{name}.edit").is_file()


def has_edit(crate, name):
    return any((folder / f"{name}.edit").is_file() for folder in folders_of_edits(crate))


def lines_of_module(crate, module):
    """The lines of a module of specs/ without comments, blank lines and imports; None where it isn't there."""
    file = CRATES / crate / "specs" / f"{module}.antt"
    if not file.is_file():
        return None
    return sum(1 for line in without_comments(file, "--").split("\n") if line.strip() and not re.match(r"(pub )?use ", line))


def modules_in(text):
    """The pairs of a crate and a module that a list names, as `crate`: `Module`, `Module`; `crate`: `Module`."""
    return [(crate, module) for crate, modules in re.findall(r"`(\w+)`:\s+([^;:]*)(?=;|\Z)", text) for module in quoted(modules)]


def claims():
    """The claims of docs/PROMISES.md: the number of each and its parts."""
    text = PROMISES.read_text().partition("\n## Claims\n")[2].partition("\n## ")[0]
    for number, claim in re.findall(r"^### (\d+)\. (.*?)(?=^### |\Z)", text, re.M | re.S):
        yield number, {part: " ".join(said.split()) for part, said in re.findall(r"^- \*([a-z ]+)\*: (.*?)(?=^- |\Z)", claim, re.M | re.S)}


def faults_of_claims(crates):
    for number, parts in claims():
        for cited in quoted(parts.get("clause", "")):
            if not is_clause(crates, cited):
                yield f"claim {number}: the clause `{cited}` isn't there"
        for cited, note in re.findall(r"`(\w+::\w+)`( \(by hand\))?", parts.get("broken by", "")):
            crate, _, edit = cited.partition("::")
            if not has_edit(crate, edit):
                yield f"claim {number}: the edit `{cited}` isn't there"
            elif is_tried(crate, edit) == bool(note):
                yield f"claim {number}: the edit `{cited}` is tried by {'the gate' if note else 'hand'}"
        read, _, said = parts.get("read", "").rpartition(": ")
        for crate, module in modules_in(read):
            if lines_of_module(crate, module) is None:
                yield f"claim {number}: the module `{crate}::{module}` isn't there"
        lines = lines_in(read)
        if said.split()[:1] != [str(lines)]:
            yield f"claim {number}: what is to be read has {lines} lines"


def faults_of_cited_names(crates):
    """What docs/PROMISES.md names beside its claims, as `crate::name`: a clause or an edit of that crate."""
    for cited in sorted(set(quoted(PROMISES.read_text()))):
        crate, _, rest = cited.partition("::")
        if re.fullmatch(r"[\w:.]+", rest) and crate in crates and not is_clause(crates, cited) and not has_edit(crate, rest):
            yield f"`{cited}` isn't there"


def faults_of_axioms():
    """Whether docs/PROMISES.md names as many contracts of C functions as it counts."""
    text = PROMISES.read_text().partition("\n## Taken without a proof\n")[2].partition("\n## ")[0]
    named = {name for item in re.findall(r"^- (?:.*\n)(?:  .*\n)*", text, re.M) for name in quoted(item)}
    for counted in re.findall(r"`axioms=(\d+)`|counts (\d+)", text):
        if int("".join(counted)) != len(named):
            yield f"{len(named)} contracts of C functions are named, and {''.join(counted)} are counted"


def faults_of_times():
    """The times of README and of docs/START.md that docs/MEASURES.md doesn't have."""
    measured = " ".join((TOP / "docs" / "MEASURES.md").read_text().split())
    for page in ("README.md", "docs/START.md"):
        for time in sorted(set(re.findall(r"\b(?:\d+ to )?\d+ (?:minutes|min|hours)\b", (TOP / page).read_text()))):
            if time not in measured:
                yield f"{page}: docs/MEASURES.md has no time `{time}`"


def faults_of_releases():
    """What is wrong with the releases of CHANGELOG.md."""
    found = re.findall(r"^## (\d+)\.(\d+), (\d+ \w+ \d+)$", (TOP / "CHANGELOG.md").read_text(), re.M)
    version = re.search(r'^VERSION = "(.*)"$', (TOP / "tools" / "vcp_tools" / "__init__.py").read_text(), re.M)[1]
    if not found or ".".join(found[0][:2]) != version:
        yield f"the first release isn't that of the tools, {version}"
    numbers = [(int(major), int(minor)) for major, minor, _ in found]
    days = [datetime.strptime(day, "%d %B %Y") for *_, day in found]
    if len(set(numbers)) < len(numbers) or numbers != sorted(numbers, reverse=True) or days != sorted(days, reverse=True):
        yield "releases or their days don't go down"


def faults_of_safety():
    """The numbers of assumptions and claims that docs/SAFETY.md cites and that aren't there, and assumptions that nothing cites."""
    text = (TOP / "docs" / "SAFETY.md").read_text()
    stated = set(map(int, re.findall(r"^\*\*A(\d+)\.", text, re.M)))
    rows = [row.split(" | ") for row in re.findall(r"^\| (H\d+ .*) \|$", text, re.M)]
    cited = set(map(int, re.findall(r"(?<!\*)\bA(\d+)\b", text)))
    for first, last in re.findall(r"\bA(\d+) to A(\d+)\b", text):
        cited |= set(range(int(first), int(last) + 1))
    yield from (f"the assumption A{number} isn't there" for number in sorted(cited - stated))
    yield from (f"nothing cites the assumption A{number}" for number in sorted(stated - cited))
    numbers = {int(number) for number, _ in claims()}
    for said in [*re.findall(r"\bclaims? (\d+(?:(?:, | and | to )\d+)*)", " ".join(text.split())), *(row[1] for row in rows)]:
        yield from (f"there is no claim {number}" for number in re.findall(r"\d+", said) if int(number) not in numbers)


def lines_in(text):
    return sum(lines_of_module(crate, module) or 0 for crate, module in modules_in(text))


def write_lines_of_claims():
    def right(found):
        return f"{found[1]}{found[2]}:{found[3]}{lines_in(found[2])} lines."

    head, mark, rest = PROMISES.read_text().partition("\n## Endings\n")
    PROMISES.write_text(re.sub(r"(- \*read\*: )((?:(?!^- ).)*?):(\s+)\d+ lines\.", right, head, flags=re.M | re.S) + mark + rest)


def is_there(cited, crates, names):
    """Whether a name of docs/dev/ARCHITECTURE.md is a crate, a file, a definition, or a name of some crate's code."""
    if len(cited) == 1 or cited == "st_" or cited in crates or any(cited in listed for listed in crates.values()):
        return True
    if (TOP / cited).exists() or any(CRATES.glob(f"*/src/**/{cited}")) or any(CRATES.glob(f"*/{cited}")):
        return True
    if any((TOP / "tools").glob(f"**/{cited}")):
        return True
    if any(CRATES.glob(f"*/specs/{cited}")) or any(CRATES.glob(f"*/specs/{cited}.antt")) or any((TOP / "bench").glob(cited)):
        return True
    last = re.split(r"::|\.", cited)[-1]
    return last in names


def faults_of_layers(text, crates):
    """Whether each crate that something rests on stands in a layer, and on none above it."""
    lines = re.findall(r"^    .*", text.partition("\n## The layers\n")[2].partition("\n## ")[0], re.M)
    layer_of = {crate: number for number, line in enumerate(lines) for crate in crates if re.search(rf"\b{crate}\b", line)}
    for crate, others in crates.items():
        if crate not in layer_of:
            yield f"the crate `{crate}` stands in no layer"
        for other in others:
            if layer_of.get(crate, 0) > layer_of.get(other, len(lines)):
                yield f"the crate `{crate}` stands in a layer below `{other}`, on which it stands"


def faults_of_architecture(crates, names):
    text = ARCHITECTURE.read_text()
    table = text.partition("\n## The crates\n")[2].partition("\n## ")[0]
    for crate in crates:
        if not re.search(rf"^\| `{crate}` \| .* \|$", table, re.M):
            yield f"the crate `{crate}` has no row"
    contracts = text.partition("\n## The main contract of each crate\n")[2].partition("\n## ")[0]
    for crate in crates:
        if not re.search(rf"^\|[^|]*`{crate}`", contracts, re.M):
            yield f"the crate `{crate}` has no main contract"
    yield from faults_of_layers(text, crates)
    # The modules of the kit's crates are no files of the repository; that they are the present ones is compared below.
    own = re.sub(r"^- `\w+`, of the kit: .*$", "", text, flags=re.M)
    for cited in sorted(set(re.findall(r"`([A-Za-z_][\w./:]*)`", own))):
        if not is_there(cited, crates, names):
            yield f"`{cited}` isn't there"
    if cited_modules() not in text:
        yield "the list of modules differs from what checks/cited_modules.py prints"


def faults_of_rows():
    """Whether each session is given to the program that plays it, and has its line of what is wanted."""
    crate = CRATES / "vcp_study"
    wanted = [file.name for file in sorted((crate / "data").glob("*.session"))]
    if (crate / "args").read_text().split("\n")[:-1] != ["play", *wanted]:
        yield "vcp_study: args differs from `play` and the names of data/, in their order"
    if [line.partition(":")[0] for line in (crate / "stdout").read_text().split("\n")[:-1]] != wanted:
        yield "vcp_study: stdout has not one line for each name of data/, in their order"


def faults_of_glossary(crates, names):
    for line in (TOP / "docs" / "GLOSSARY.md").read_text().split("\n"):
        for cited in quoted(line.split("|")[-2]) if line.startswith("| ") else ():
            if not cited.startswith("--") and not is_there(cited, crates, names):
                yield f"`{cited}` isn't there"


def faults_of_units():
    files = [*(CRATES / "coded_unit" / "src").glob("**/*.rt"), *(CRATES / "vcp_study" / "src" / "own_unit").glob("*.rt")]
    code = {line.strip() for file in files for line in file.read_text().split("\n")}
    for line in (TOP / "docs" / "UNITS.md").read_text().split("\n"):
        if line.startswith("    ") and line.strip() not in code:
            yield f"no line of code is `{line.strip()}`"


def lines_below_the_top_call(crates):
    """How many lines the top call rests on, by crate and module."""
    return {(crate, module): lines for crate, module, _, lines in lines_read(crates, "vcp_core::vcp")}


def lines_of_crate(lines_of, crate):
    return sum(lines for (name, _), lines in lines_of.items() if name == crate)


def lines_of_step(lines_of, found, steps):
    """The lines that the top call rests on in a step's crates: all of a crate that stands in this step alone, and of another those of the modules named here."""
    total = 0
    for crate, modules in modules_of_step(found):
        if sum(crate in dict(modules_of_step(step)) for step in steps) == 1 and crate not in BESIDE_STEPS:
            total += lines_of_crate(lines_of, crate)
        else:
            total += sum(lines_of.get((crate, module), 0) for module in quoted(modules))
    return total


def lines_beside(lines_of, crate, steps):
    """The lines that the top call rests on in a crate that is named beside the steps, without the modules that a step names."""
    named = {(crate, module) for step in steps for name, modules in modules_of_step(step) if name == crate for module in quoted(modules)}
    return lines_of_crate(lines_of, crate) - sum(lines_of.get(it, 0) for it in named)


def cited_modules(*words):
    command = [sys.executable, TOP / "checks" / "cited_modules.py", *words]
    return subprocess.run(command, capture_output=True, text=True, check=True).stdout


STEP = re.compile(r"^(\d+)(\. .*) (\d+) lines:\n((?:   .*\n)+)", re.M)
BESIDE = re.compile(r"`(\w+)` \((\d+) lines\)")


# Crates of which some modules stand in a step, and the others are named beside the steps.
BESIDE_STEPS = ("st_tree",)


def modules_of_step(found):
    return re.findall(r"^ +- `(\w+)`: (.*(?:\n +[^\s-].*)*)", found[4], re.M)


def steps_of(text):
    return list(STEP.finditer(text.partition("\n## The order of reading\n")[2].partition("\n## ")[0]))


def faults_of_order(crates):
    lines_of = lines_below_the_top_call(crates)
    text = PROMISES.read_text().partition("\n## The order of reading\n")[2].partition("\n## ")[0]
    steps = list(STEP.finditer(text))
    told = set()
    for found in steps:
        wanted = lines_of_step(lines_of, found, steps)
        if wanted != int(found[3]):
            yield f"step {found[1]} has {wanted} lines, and not {found[3]}"
        for crate, modules in modules_of_step(found):
            told.add(crate)
            for module in quoted(modules):
                if not (CRATES / crate / "specs" / f"{module}.antt").is_file():
                    yield f"step {found[1]}: the module `{crate}::{module}` isn't there"
    for crate, lines in BESIDE.findall(text):
        told.add(crate)
        if lines_beside(lines_of, crate, steps) != int(lines):
            yield f"`{crate}` has {lines_beside(lines_of, crate, steps)} lines, and not {lines}"
    for crate in sorted({crate for crate, _ in lines_of} - told):
        yield f"the top call rests on `{crate}`, which has no step"


FAMILY = re.compile(r"^(\| .* \| )(\w+)( \| `\.\. ?([a-z ]*)` \|)$", re.M)


def lines_of_family(crates, commands):
    """How many lines of definitions the top call rests on for these commands alone; for all of them where none are named."""
    return sum(row[2] for row in lines_read(crates, "vcp_core::vcp", commands.split()))


def faults_of_families(crates):
    for found in FAMILY.finditer(PROMISES.read_text()):
        wanted = lines_of_family(crates, found[4])
        if found[2] != str(wanted):
            yield f"the definitions of `{found[4]}` have {wanted} lines, and not {found[2]}"


EDITS = re.compile(r"(\d+) edits are in\s+`must-fail/`(.*?)(\d+) others are in\s+`checks/edits/`", re.S)


def count_edits():
    """How many edits the gate tries, and how many are tried by hand."""
    return len(list(CRATES.glob("*/must-fail/*.edit"))), len(list(CHECKS.glob("edits/*/*.edit")))


def faults_of_counts():
    found = EDITS.search(PROMISES.read_text())
    tried, by_hand = count_edits()
    if not found or (int(found[1]), int(found[3])) != (tried, by_hand):
        yield f"the gate tries {tried} edits, and {by_hand} are tried by hand"


def write_lines_of_order(crates):
    lines_of = lines_below_the_top_call(crates)
    steps = steps_of(PROMISES.read_text())

    def of_step(found):
        return f"{found[1]}{found[2]} {lines_of_step(lines_of, found, steps)} lines:\n{found[4]}"

    def of_command(found):
        return found[1] + cited_modules(found[2]).split("\n")[-2] + "\n"

    text = STEP.sub(of_step, PROMISES.read_text())
    tried, by_hand = count_edits()
    text = EDITS.sub(lambda found: found[0].replace(found[1], str(tried), 1).replace(found[3] + " others", f"{by_hand} others"), text)
    text = FAMILY.sub(lambda found: found[1] + str(lines_of_family(crates, found[4])) + found[3], text)
    text = BESIDE.sub(lambda found: f"`{found[1]}` ({lines_beside(lines_of, found[1], steps)} lines)", text)
    PROMISES.write_text(re.sub(r"(    \$ checks/cited_modules\.py (\S+) \| tail -n 1\n    ).*\n", of_command, text))


def main():
    listed, crates = listed_crates(), read_crates()
    if "--write" in sys.argv[1:]:
        write_lines_of_claims()
        write_lines_of_order(crates)
    names = defined() | in_code(crates)
    faults = [f"PROMISES: {fault}" for fault in [*faults_of_claims(crates), *faults_of_cited_names(crates), *faults_of_axioms()]]
    faults += faults_of_times()
    faults += [f"CHANGELOG: {fault}" for fault in faults_of_releases()]
    faults += [f"SAFETY: {fault}" for fault in faults_of_safety()]
    faults += [f"ARCHITECTURE: {fault}" for fault in faults_of_architecture(listed, names)]
    faults += [f"GLOSSARY: {fault}" for fault in faults_of_glossary(listed, names)]
    faults += faults_of_rows()
    faults += [f"UNITS: {fault}" for fault in faults_of_units()]
    faults += [f"PROMISES: {fault}" for fault in [*faults_of_order(crates), *faults_of_families(crates), *faults_of_counts()]]
    print("\n".join(faults) or "promised_names: all is there")
    sys.exit(1 if faults else 0)


main()
