#!/usr/bin/env python3
"""vectors.py FILE [COUNT [KEPT]]: writes crates/vectors/proofs from the oracle's answers in FILE, as theorems by computation about the definition of the
text. What stands there was made, from the repository's root, by

    oracle/target/release/oracle vectors 1 6000 > target/lines && python3 tools/vectors.py target/lines 286 tools/kept-vectors.txt

vectors.py --lines: prints the vectors of crates/vectors/proofs again as lines of the oracle, for `oracle check`.

A line is: Expr or Unit, then settings, records, names and text in hex (`-` for none), then the answer to the joined question (0, 1; 2: a unit, of which
it is not asked). The texts are the Rust module's (000), with the two words mended that it misspells, and where byte 21 of the settings is 1 those of the
oracle's second printer; the joined answers are the oracle's own. Of FILE's lines so many are taken as COUNT says (300): some joined expressions, without
needed spaces and with them, some units with them, then always the line that shows most for its length that none before has shown (kinds with variants,
neighbouring kinds, settings values). All lines of KEPT are taken besides: cases that someone looked for, because wrong definitions agreed with all others
or document 02 names them."""
import glob
import os
import re
import sys

PER_MODULE = 25
JOINED = 20
SPACED = 14
SPACED_UNITS = 8
FOLDER = "crates/vectors/proofs"


def unhex(word):
    return b"" if word == "-" else bytes.fromhex(word)


def read(line):
    root, settings, records, names, text, joined = line.split()
    return root, unhex(settings), unhex(records), unhex(names), unhex(text), joined


def read_all(path):
    with open(path, encoding="ascii") as file:
        return [read(line) for line in file]


def shown(vector):
    """What a vector shows: kinds with variants, kinds that stand one behind the other, settings values."""
    _, settings, records, _, _, _ = vector
    kinds = [(records[i], records[i + 1]) for i in range(0, len(records), 12)]
    pairs = {(a[0], b[0]) for a, b in zip(kinds, kinds[1:])}
    return {("kind", k, v) for k, v in kinds} | {("pair", a, b) for a, b in pairs} | {("setting", i, b) for i, b in enumerate(settings)}


def is_spaced(vector):
    """Whether byte 21 of the settings is 1 and the text has spaces where signs, or an int and a dot, would meet."""
    _, settings, _, _, text, _ = vector
    return settings[21:] == b"\1" and re.search(rb"- -|\+ \+|\d \.", text) is not None


def chosen(vectors, count):
    vectors = sorted(set(vectors), key=lambda v: (len(v[2]) + len(v[3]), v))
    spaced = [v for v in vectors if is_spaced(v)]
    kept = [v for v in vectors if v[5] == "1" and v not in spaced][:JOINED]
    kept += [v for v in spaced if v[5] == "1"][:SPACED] + [v for v in spaced if v[0] == "Unit"][:SPACED_UNITS]
    seen = set().union(*map(shown, kept))
    left = {v: shown(v) for v in vectors if v not in kept}
    while left and len(kept) < count:
        # the most that is new for the records that it costs
        best = max(left, key=lambda v: len(left[v] - seen) / (len(v[2]) // 12 + 4))
        seen |= left.pop(best)
        kept.append(best)
    return sorted(kept, key=lambda v: (len(v[2]), v))


def quoted(data):
    escapes = {"\n": "\\n", "\t": "\\t", '"': '\\"', "\\": "\\\\"}
    return '"' + "".join(escapes.get(chr(b), chr(b)) for b in data) + '"'


def module(first, vectors):
    lines = [
        "-- Texts of the Rust module, two words mended, and of the oracle's second printer. Made by tools/vectors.py. Assumes nothing.",
        "use mathlib.Core.Path.{refl}",
        "use Rattle.text.specs.Case.{defined}",
        "use Rattle.text.proofs.Computing.{computing}",
        "",
    ]
    sorts = set()
    for i, (root, settings, records, names, text, joined) in enumerate(vectors, first):
        sort = {"Unit2": "unit", "Expr0": "expr", "Expr1": "joined_expr"}[root + joined]
        sorts.add(sort)
        lines += [
            f'pub v{i} : Vector ({sort} "{settings.hex()}"',
            f'    "{records.hex()}"',
            f"    {quoted(names)}",
            f"    {quoted(text)})",
            "unfolding computing defined hex",
            f"v{i} = record {{ outcome = refl; size = refl }}",
            "",
        ]
    lines.insert(4, "use Rattle.vectors.specs.Vector.{Vector, " + ", ".join(sorted(sorts)) + ", hex}")
    return "\n".join(lines)


def unquoted(text):
    return re.sub(r"\\(.)", lambda m: {"n": "\n", "t": "\t"}.get(m.group(1), m.group(1)), text).encode("ascii")


def print_lines():
    """The vectors of the crate, as they came from the oracle."""
    quote = r'"((?:[^"\\]|\\.)*)"'
    pattern = re.compile(r"Vector\s*\((unit|expr|joined_expr)\s+" + r"\s+".join([quote] * 4) + r"\)")
    for path in sorted(glob.glob(FOLDER + "/V*.antt")):
        with open(path, encoding="utf-8") as file:
            module_text = file.read()
        found = pattern.findall(module_text)
        if len(found) != len(re.findall(r"(?m)^pub v\d+ :", module_text)):
            sys.exit(f"{path} holds a vector that is not read")
        for sort, settings, records, names, text in found:
            root, joined = {"unit": ("Unit", "2"), "expr": ("Expr", "0"), "joined_expr": ("Expr", "1")}[sort]
            print(root, settings, records, unquoted(names).hex() or "-", unquoted(text).hex() or "-", joined)


def main():
    if sys.argv[1:] == ["--lines"]:
        return print_lines()
    count = int(sys.argv[2]) if len(sys.argv) > 2 else 300
    vectors = chosen(read_all(sys.argv[1]), count) + (read_all(sys.argv[3]) if len(sys.argv) > 3 else [])
    for old in glob.glob(FOLDER + "/V*.antt"):
        os.remove(old)
    names = []
    for first in range(0, len(vectors), PER_MODULE):
        names.append(f"V{first // PER_MODULE:02}")
        with open(f"{FOLDER}/{names[-1]}.antt", "w", encoding="utf-8") as file:
            file.write(module(first, vectors[first : first + PER_MODULE]))
    with open(FOLDER + "/Lib.antt", "w", encoding="utf-8") as file:
        file.write("".join(f"pub mod {name}\n" for name in names))
    seen = set().union(*(shown(v) for v in vectors))
    for rank in ("kind", "setting", "pair"):
        print(f"{rank}: {sum(1 for x in seen if x[0] == rank)} shown")


main()
