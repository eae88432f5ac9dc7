#!/usr/bin/env python3
"""Contracts that cannot be weakened alone: tools/contracts.py [--tried REPORT]

Every public call has a law under its name in its crate's proofs/Contracts.antt: its contract, as the toolchain makes it from the source, is the proposition that the laws about the call speak of.
A must-fail edit has all of a crate's contracts promise nothing (contracts_weakened), and one for each call has its contract alone do so (contracts_weakened_CALL; where a crate has one call, the
first is it). With --tried, REPORT is what `rt ci` or `rt must-fail` said: of each of these edits it must say that it was refused, and at that law.
"""
import pathlib
import re
import sys

ROOT = pathlib.Path(__file__).resolve().parent.parent
# The public calls: every public function of glsl, the C functions over them, and those of document 01 (and beside them) that stand below.
WHOLE = ["glsl", "glsl_c"]
BELOW = {"records": ["name"], "settings": ["read", "tight", "open", "export", "to_bytes", "fresh_state"]}


def calls():
    """Each crate with the names of its public calls."""
    found = {}
    for crate in WHOLE:
        source = (ROOT / f"crates/{crate}/src/lib.rt").read_text(encoding="utf-8")
        found[crate] = re.findall(r'^pub (?:extern "C" )?fn (\w+)', source, re.M)
    return {**found, **BELOW}


def laws(crate):
    """The names of the laws that a crate has."""
    text = (ROOT / f"crates/{crate}/proofs/Contracts.antt").read_text(encoding="utf-8")
    return set(re.findall(r"^  pub «?(\w+)»? : \(κs", text, re.M))


def edit_of(crate, name, names):
    """The edit that has the contract of this call promise nothing."""
    return f"contracts_weakened_{name}" if len(names) > 1 else "contracts_weakened"


def refused(report):
    """The law at which each weakening edit was refused, by crate and edit; where its contract was refused for something else, that."""
    found = {}
    for line in report.split("\n"):
        told = re.search(r"must-fail (\w+)/(contracts_weakened\w*)\.edit: (.*)", line)
        if told:
            law = re.match(r"refused, as it must be: \S*/Contracts\.antt:\d+:\d+: error: `«?(\w+)»?`", told.group(3))
            found[told.group(1), told.group(2)] = law.group(1) if law else f"({told.group(3)})"
    return found


def main():
    tried = len(sys.argv) == 3 and sys.argv[1] == "--tried"
    if sys.argv[1:] and not tried:
        sys.exit(__doc__)
    at = refused(pathlib.Path(sys.argv[2]).read_text(encoding="utf-8")) if tried else {}
    faults = []
    for crate, names in calls().items():
        there = laws(crate)
        faults += [f"{crate}: no law of {name}" for name in sorted(set(names) - there)]
        for name in names:
            edit = edit_of(crate, name, names)
            if not (ROOT / f"crates/{crate}/must-fail/{edit}.edit").is_file():
                faults.append(f"{crate}: no must-fail edit {edit}")
            elif tried and at.get((crate, edit)) != name:
                faults.append(f"{crate}: {edit} was not refused at the law of {name}: {at.get((crate, edit), 'not tried')}")
        if tried and len(names) > 1 and at.get((crate, "contracts_weakened")) not in there:
            faults.append(f"{crate}: contracts_weakened was not refused at a law: {at.get((crate, 'contracts_weakened'), 'not tried')}")
    if faults:
        sys.exit("\n".join(f"contracts: {fault}" for fault in faults))
    print(f"contracts: {sum(map(len, calls().values()))} calls, each with its law" + (", refused where the contract promises nothing" if tried else ""))


main()
