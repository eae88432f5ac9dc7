#!/usr/bin/env python3
"""computing.py: writes crates/text/proofs/Computing.antt, whose one name opens every definition of the text, so that worked texts hold by refl.
Run it from the repository's root after a definition was added, renamed or removed; `computing.py --check` only says whether it is up to date."""
import re
import sys

# (crate, module): the definitions that a worked text goes through
MODULES = [
    ("words", "Word"), ("words", "Symbol"), ("words", "Keyword"), ("words", "Form"), ("decimal", "Decimal"), ("records", "Record"), ("settings", "Settings"),
    ("text", "Token"), ("text", "Asked"), ("text", "Pen"), ("text", "Operator"), ("text", "Joins"), ("text", "Text"), ("text", "Reading"), ("text", "Visible"), ("text", "Whole"),
    ("text", "Joined"),
]
TARGET = "crates/text/proofs/Computing.antt"


def unfoldables(source):
    names = re.findall(r"^ *unfoldable pub (\S+) :", source, re.M)
    for block in re.split(r"^ *unfoldable mutual\n", source, flags=re.M)[1:]:
        for line in block.split("\n"):
            if line and not line.startswith(" "):
                break
            found = re.match(r" *pub (\S+) :", line)
            if found:
                names.append(found.group(1))
            elif re.match(r" *(unfoldable|abbrev) ", line):
                break
    return list(dict.fromkeys(names))


def written():
    uses, names = [], []
    for crate, module in MODULES:
        found = unfoldables(open(f"crates/{crate}/specs/{module}.antt", encoding="utf-8").read())
        if found:
            uses.append(f"use Rattle.{crate}.specs.{module}.{{{', '.join(found)}}}")
            names += found
    return (
        "-- For worked texts: `unfolding computing` opens every definition of the text. Made by tools/computing.py. Assumes nothing.\n"
        "use Prim.Native.Nat.{ℕ}\n" + "\n".join(uses) + "\n\nunfoldable pub computing : ℕ\nunfolding " + " ".join(names) + "\ncomputing = 0\n"
    )


if sys.argv[1:] == ["--check"]:
    if open(TARGET, encoding="utf-8").read() != written():
        sys.exit(f"{TARGET} is not what tools/computing.py writes")
else:
    open(TARGET, "w", encoding="utf-8").write(written())
