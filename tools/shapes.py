#!/usr/bin/env python3
"""shapes.py: writes crates/shapes/src/rows.rt, the constant rows of the record check, from the readable ones in crates/shapes/specs, as the types of
its src/lib.rt. Run it from the repository's root after a row was changed; `shapes.py --check` only says whether the file is up to date.
That the ones say what the others say is proved, so nothing here need be believed."""
import re
import sys

SPECS = "crates/shapes/specs/"
TARGET = "crates/shapes/src/rows.rt"
FIELDS = ["empty", "integer", "name", "declared", "float"]
COUNTS = ["unused", "any", "positive"]
ANY_VARIANT = 255


def read(name):
    return re.sub(r"^ *--.*\n", "", open(SPECS + name, encoding="utf-8").read(), flags=re.M)


def class_names():
    return " ".join(re.findall(r"^  (.*) : Class$", read("Class.antt"), re.M)).split()


def allowed(text):
    """the fields of a line such as `1 to 16 or 20` or `declaring (only 27)`"""
    declares = text.startswith("declaring ")
    if declares:
        text = text.removeprefix("declaring ").strip("()")
    kinds, _, variants = text.partition(" of_variants ")
    kinds, _, also = kinds.partition(" or ")
    low, _, high = kinds.replace("only ", "").partition(" to ")
    low, high = int(low), int(high or low)
    least, most = map(int, variants.strip("()").split(" to ")) if variants else (0, ANY_VARIANT)
    return {"low": low, "high": high, "also": int(also or low), "least": least, "most": most, "declares": str(declares).lower()}


class Rows:
    """the rows of specs/Shape.antt, for one variant"""

    def __init__(self, v):
        source = re.search(r"rows v =\n(.*?)\n\n", read("Shape.antt"), re.S).group(1)
        self.words, self.v = re.findall(r"[()]|[^\s()]+", source), v

    def next(self):
        return self.words.pop(0)

    def all(self):
        rows = {}
        while self.words != ["[]"]:
            assert self.next() == "kind"
            number, last = int(self.next()), int(self.next())
            assert number not in rows, f"kind {number} is listed twice"
            rows[number] = (last, self.term(), self.term(), self.term())
            assert self.next() == "∷"
        return rows

    def sum(self):
        parts = self.term()
        while self.words[0] == "++":
            self.next()
            parts = parts + self.term()
        return parts

    def term(self):
        word = self.next()
        if word == "(":
            inner = self.sum()
            assert self.next() == ")"
            return inner
        if word in ("one", "several"):
            return [(word, self.next())]
        if word == "when":
            test, parts = self.term(), self.term()
            return parts if test else []
        if word == "cond":
            test, yes, no = self.term(), self.term(), self.term()
            return yes if test else no
        if word in ("eqb", "ltb"):
            assert self.next() == "v"
            limit = int(self.next())
            return self.v == limit if word == "eqb" else self.v < limit
        if word in ("bit0", "bit1", "bit2"):
            assert self.next() == "v"
            return self.v >> int(word[3]) & 1 == 1
        assert word in ["[]"] + FIELDS + COUNTS, f"unknown word {word}"
        return [] if word == "[]" else word


def camel(word):
    return "".join(part.capitalize() for part in word.split("_"))


def literal(name, fields, indent):
    """a struct of these fields, broken as `rt fmt` breaks it"""
    inline = ", ".join(f"{field}: {value}" for field, value in fields.items())
    if len(inline) <= 18:
        return f"{name} {{ {inline} }}"
    return f"{name} {{\n" + "".join(f"{indent}    {field}: {value},\n" for field, value in fields.items()) + f"{indent}}}"


def with_parts(parts, more):
    """The parts with more of them, and where these begin: where they stand already, or at the end, which may have their front. So equal ones are stored once."""
    at = next(at for at in range(len(parts) + 1) if parts[at : at + len(more)] == more[: len(parts) - at])
    return parts + more[len(parts) - at :], at


def shape_name(fields, count, parts):
    """what a and b hold and what the count is, where they are used, and the parts"""
    used = [word for word in (fields, count) if word not in ("empty", "unused")]
    return "_".join(used + [c if times == "one" else f"several_{c}" for times, c in parts] or ["nothing"]).upper()


def table():
    """the shapes by name; for each kind the names of its variants' (a kind that is not listed has one, of nothing)"""
    last = {k: row[0] for k, row in Rows(0).all().items()}
    by_variant = [Rows(v).all() for v in range(max(last.values()) + 1)]
    nothing = ("empty", "unused", [])
    kinds = {k: [by_variant[v][k][1:] for v in range(last[k] + 1)] for k in last}
    shapes = {shape_name(*nothing): nothing}
    for one in sum(kinds.values(), []):
        assert shapes.setdefault(shape_name(*one), one) == one, "two shapes of one name"
    return shapes, {k: [shape_name(*one) for one in kinds[k]] for k in kinds}


def row(fields, count, first, end):
    assert fields in FIELDS and count in COUNTS
    return literal("Row", {"fields": "Fields::" + camel(fields), "count": "Count::" + camel(count), "first": first, "end": end}, "")


def array(name, kind, lines):
    count = sum(not line.startswith("//") for line in lines)
    return f"pub(crate) static {name}: [{kind}; {count}] = [\n" + "".join(f"    {line}\n" for line in lines) + "];\n"


def written():
    shapes, kinds = table()
    parts, rows = [], {}
    # the shapes with the most parts first: those of others are often among theirs
    for name, (fields, count, own) in sorted(shapes.items(), key=lambda item: -len(item[1][2])):
        parts, first = with_parts(parts, own)
        rows[name] = row(fields, count, first, first + len(own))
    lines, heads, found = ["NOTHING,"], [], 1
    for k in range(max(kinds) + 1):
        heads.append({"last": len(kinds[k]) - 1, "first": found} if k in kinds else {"last": 0, "first": 0})
        lines += [f"// {k}"] * (k in kinds) + [f"{name}," for name in kinds.get(k, [])]
        found += len(kinds.get(k, []))
    places = dict(re.findall(r"^allowed Class\.(\S+) = (.*)$", read("Class.antt"), re.M))
    return (
        "// What the shapes hold, with the parts from `first` up to `end`; the shapes of each kind, by variant, and where they begin; and what each class asks\n"
        "// for. Written by tools/shapes.py from specs/.\n"
        "use crate::Part::{Counted, OneOf};\n"
        "use crate::{Allowed, Class, Count, Fields, Kind, Part, Row};\n\n"
        + array("PARTS", "Part", [("OneOf" if times == "one" else "Counted") + f"(Class::{camel(c)})," for times, c in parts])
        + "".join(f"\nconst {name}: Row = {rows[name]};\n" for name in shapes)
        + "\n"
        + array("ROWS", "Row", lines)
        + "\n"
        + array("KINDS", "Kind", [literal("Kind", head, "    ") + "," for head in heads])
        + "\n"
        + array("ALLOWED", "Allowed", [literal("Allowed", allowed(places[name]), "    ") + "," for name in class_names()])
    )


made = written()
if sys.argv[1:] == ["--check"]:
    if open(TARGET, encoding="utf-8").read() != made:
        sys.exit(f"{TARGET} is not what tools/shapes.py writes")
elif sys.argv[1:]:
    sys.exit(__doc__)
else:
    open(TARGET, "w", encoding="utf-8").write(made)
