#!/usr/bin/env python3
"""Proof files that take something from the `proofs/` of another crate of the repository.

    checks/foreign_proofs.py

What a proof may rest on of a lower crate are its public contracts and its `specs/`. The libraries of the kit are left aside. EXPECTED lists what stands
for want of a clause below. Its status is 1 where a file takes more than that.
"""
import pathlib
import re
import sys

CRATES = pathlib.Path(__file__).resolve().parent.parent / "crates"
# (the crate that takes it, the module that it is taken from)
EXPECTED = {
    # the law of operands, which some twenty lemmas of expressions carry
    ("flat_expr", "op_graph::OperandLaw"),
    # the part of a word behind a byte
    ("fault_sites", "vcp_base::Firsts"),
    # graphs and scripts of worked rows
    ("fault_injector", "run_report::OperationRows"),
    ("verdict_tables", "run_report::OperationRows"),
    # how counts of calls grow, and how the loop over rows goes on
    ("fault_injector", "coded_machine::Growth"),
    ("pair_channel", "coded_machine::Stopping"),
    ("pair_channel", "coded_machine::UpTo"),
    ("pair_channel", "coded_machine::Writing"),
    # why a row that is refused is so
    ("vcp_core", "vcp_inputs::Causes"),
}


def foreign(crate, names):
    """What the proofs of a crate take from those of another one: the module, and the files."""
    found = {}
    for folder in ("specs", "proofs"):
        for path in sorted((crate / folder).rglob("*.antt")):
            for owner, module in re.findall(r"^use Rattle\.(\w+)\.proofs\.([\w.+-]+?)\.?(?:\{| as |$)", path.read_text(), re.M):
                if owner in names and owner != crate.name:
                    found.setdefault(f"{owner}::{module}", []).append(path.relative_to(CRATES))
    return found


def main():
    names = {path.name for path in CRATES.iterdir() if (path / "src").is_dir()}
    found = {}
    for name in sorted(names):
        for module, files in foreign(CRATES / name, names).items():
            found[name, module] = files
    for name, module in sorted(set(found) - EXPECTED):
        print(f"foreign_proofs: {name} takes {module}: {', '.join(map(str, found[name, module]))}")
    if set(found) - EXPECTED:
        sys.exit(1)
    print(f"foreign_proofs: {len(found)} modules of other crates' proofs are taken, as is listed")


main()
