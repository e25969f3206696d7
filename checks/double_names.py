#!/usr/bin/env python3
"""Names that two crates have: each is to stand in one of the last two tables of docs/GLOSSARY.md, which say what it is there and there.

    checks/double_names.py            prints the names of which that isn't so
    checks/double_names.py --write    first puts the crates right in the rows that stand, and leaves out those whose name no two crates have any more;
                                      what a name is in a crate that came in, or a new row, is written by hand

Types: those that the lib.rt of two crates export. Definitions: statements, records and kinds of data of specs/, whose names begin with a capital, among all
that the contract of one top call rests on, as checks/cited_modules.py follows it. Crates for tests are left aside.

Names in small letters are left aside too: values and functions, as `cycle` of a graph and of a program, are told apart by what they are given.

Its status is 1 where there is something. It reads the sources and proves nothing.
"""
import re
import sys

sys.dont_write_bytecode = True
from cited_modules import Reading  # noqa: E402
from sources import TOP, read_crates  # noqa: E402

GLOSSARY = TOP / "docs" / "GLOSSARY.md"
TOP_CALLS = (("vcp_core", "vcp"), ("vcp_study_core", "vcp_study"), ("coded_unit", "Unit"))
ROW = re.compile(r"^\| `(\w+)` \| (.*) \| ((?:`\w+`(?:, )?)+) \|\n", re.M)
TABLES = {"Types": "\n### Types\n", "Definitions": "\n### Definitions\n"}


def of_two(found):
    return {name: owners for name, owners in found.items() if len(owners) > 1}


def types_of_two_crates(crates):
    """The types and traits that more than one crate exports, each with its crates."""
    found = {}
    for crate in crates.values():
        for item in crate.items:
            if item.kind in ("type", "trait"):
                found.setdefault(item.path.split("::")[-1], set()).add(crate.name)
    return of_two(found)


def definitions_of_two_crates(crates):
    """The definitions that one top call finds under one name in more than one crate, each with these crates."""
    doubled = {}
    for owner, call in TOP_CALLS:
        reading = Reading(crates)
        reading.of_item(crates[owner], call, crates[owner].public[call])
        found = {}
        for crate, module, number in reading.reached:
            if crate != "type":
                items = crates[crate].modules[module].items
                for name in (name for name, at in items.items() if at == number and name[0].isupper()):
                    found.setdefault(name, set()).add(crate)
        for name, owners in of_two(found).items():
            doubled.setdefault(name, set()).update(owners)
    return doubled


def in_code(owners):
    return ", ".join(f"`{owner}`" for owner in owners)


def owners_in(row):
    return re.findall(r"`(\w+)`", row[3])


def put_right(text, wanted):
    """The rows of a table with the crates as they are, in their old order, without those whose name no two crates have."""

    def right(row):
        owners = wanted.get(row[1], set())
        kept = [owner for owner in owners_in(row) if owner in owners]
        return f"| `{row[1]}` | {row[2]} | {in_code(kept + sorted(owners - set(kept)))} |\n" if owners else ""

    return ROW.sub(right, text)


def main():
    crates = read_crates()
    wanted = {"Types": types_of_two_crates(crates), "Definitions": definitions_of_two_crates(crates)}
    head, types, rest = GLOSSARY.read_text().partition(TABLES["Types"])
    types_table, definitions, definitions_table = rest.partition(TABLES["Definitions"])
    tables = {"Types": types_table, "Definitions": definitions_table}
    if "--write" in sys.argv[1:]:
        tables = {name: put_right(text, wanted[name]) for name, text in tables.items()}
        GLOSSARY.write_text(head + types + tables["Types"] + definitions + tables["Definitions"])
    faults = 0
    for table, text in tables.items():
        told = {row[1]: set(owners_in(row)) for row in ROW.finditer(text)}
        for name in sorted(set(told) | set(wanted[table])):
            owners = wanted[table].get(name, set())
            if told.get(name, set()) != owners:
                faults += 1
                says = in_code(sorted(told.get(name, ()))) or "nothing of it"
                print(f"GLOSSARY: {table}: `{name}` is one of {in_code(sorted(owners)) or 'one crate at most'}, and the table says {says}")
    if not faults:
        print(f"double_names: {sum(map(len, wanted.values()))} names stand in two crates, and GLOSSARY says what they are")
    sys.exit(1 if faults else 0)


main()
