#!/usr/bin/env python3
"""Spells this repository's own definitions and lemmas as today's Rattle spells its own: types in camel case, all else in snake case. Run once, behind the kit's port.py.

usage: tools/respell.py            in the repository: rewrites crates/*/src, specs and proofs, and says which names would fall together
       tools/respell.py --table    prints the names that change, old and new, and writes nothing

A name is own where a file of specs/ or proofs/ declares it, as a definition, a lemma, a field or a constructor, or where it is bound in such a file. A name that
a file takes from a library keeps its spelling there. Functions, types and fields of src/ have the spelling already.
Two names that would fall together in one file are in APART, each with the name that it gets instead.
"""

import collections
import glob
import os
import re
import sys

NAME = r'[^\s(){}.;,@"«»|]+'
# Several constructors may stand before one colon.
DECLARED = re.compile(rf"(?m)^ *((?:{NAME} +)*{NAME})(?: \{{[^{{}}\n]*\}})* :(?!\S)")
USE = re.compile(r"^[ \t]*(?:pub )?(?:ghost )?use ([^\s;{]+?)\.?(?:\{([^}]*)\})?(?: as ([^\s;]+))?;?[ \t]*$", re.M)
TOKEN = re.compile(rf"(\.?)(«?)({NAME})")
# A string, a comment or a token
PIECE = re.compile(rf'("(?:\\.|[^"\\])*")|((?<!\S)--(?=\s|$).*)|(\.?)(«?)({NAME})')

# Names that would meet another in a file where both stand. A lemma gives way to its function, by the ending that the kit has for this.
APART = {
    "binaryOp": "binary_op_of",
    "unaryOp": "unary_op_of",
    "unarySign": "unary_sign_of",
    "behind-digits": "digits_behind",
}
APART.update({n: n.replace("-", "_") + "_lem" for n in "in-range name-byte nothing-behind root-text qualifier-word field-of block-of declaration-of declarator-of declarators-of full-type-of prototype-of".split()})

# Lemmas that port.py spelled like a definition of the same crate, which it left; and a constructor that it spelled as if it were a lemma.
AGAIN = {"pen": {"at_level": "at_level_lem"}, "show_declaration": {"single_of": "single_of_lem"}}
AGAIN.update({c: {"one_of_lem": "one_of"} for c in ("shapes", "walk", "joined")})


def is_own_style(name):
    if re.match(r"[A-Z]", name):
        return "-" in name
    return bool(re.match(r"◌?[a-z]", name)) and bool(re.search(r"[a-z0-9]-|-[a-z0-9]|[a-z0-9][A-Z]|·", name))


def snake(name):
    if name in APART:
        return APART[name]
    if name[0].isupper():
        return re.sub(r"-(\w)", lambda m: m[1].upper(), name)
    name = re.sub(r"(?<=[a-z0-9])[A-Z](?![A-Z])", lambda m: "_" + m[0].lower(), name)
    name = re.sub(r"(?<=[a-z0-9])([A-Z])$", lambda m: "_" + m[1].lower(), name)
    # a name of the grammar and its case, which a middle dot joined, are two names
    return name.replace("-", "_").replace("·", "-")


def without_comments(text, mark):
    return re.sub(rf"(?m)(^|\s){mark}.*$", r"\1", text)


def is_ours(path, crates):
    steps = path.split(".")
    return steps[0] == "Rattle" and len(steps) > 1 and steps[1] in crates


class Texts:
    def __init__(self, root):
        self.root = root
        self.crates = {os.path.basename(c) for c in glob.glob(os.path.join(root, "crates", "*"))}
        find = lambda pattern: sorted(glob.glob(os.path.join(root, "crates", "*", pattern), recursive=True))
        self.antt = find("specs/**/*.antt") + find("proofs/**/*.antt")
        self.rt = find("src/**/*.rt")
        self.declared = set()
        for f in self.antt:
            with open(f, encoding="utf-8") as it:
                names = " ".join(DECLARED.findall(without_comments(it.read(), "--"))).split()
                self.declared.update(n for n in names if is_own_style(n))

    def borrowed(self, code):
        """The names and the module names that a file takes from libraries."""
        names, modules = set(), set()
        for path, items, alias in USE.findall(code):
            if is_ours(path, self.crates):
                continue
            for it in (items or "").split(","):
                it = it.strip()
                if it:
                    names.update(it.split(" as ")[:1])
            if not items:
                modules.add(alias or path.split(".")[-1])
        return names, modules

    def own_antt(self, text, crate):
        """What the names of a file of specs/ or proofs/ become there."""
        names, modules = self.borrowed(without_comments(text, "--"))
        table, there = {}, set()
        for line in text.split("\n"):
            for string, comment, dot, quoted, name in PIECE.findall(line):
                if not name:
                    continue
                if not dot:
                    there.add(name)
                if name in AGAIN.get(crate, {}):
                    table[name] = AGAIN[crate][name]
                if is_own_style(name) and name not in names and (not dot or name in self.declared):
                    table[name] = snake(name)
        return table, there, modules

    def turn_antt(self, text, crate):
        table, _, modules = self.own_antt(text, crate)
        out = []
        for line in text.split("\n"):
            path = USE.match(line)

            def one(m):
                string, comment, dot, quoted, name = m.groups()
                if string:
                    return string
                if comment:
                    return self.in_words(comment)
                if name not in table:
                    return m[0]
                if dot:
                    head = re.search(rf"({NAME})(?:\.{NAME})*$", line[: m.start()])
                    if head and head[1] in modules or path and not is_ours(path[1], self.crates):
                        return m[0]
                return dot + quoted + table[name]

            out.append(PIECE.sub(one, line))
        return "\n".join(out)

    def in_words(self, words):
        """A comment: names in camel case, and any own name between backticks."""
        words = re.sub(r"(?<![\w.-])[a-z]+[a-z0-9]*(?:[A-Z][a-z0-9]*)+(?![\w-])", lambda m: snake(m[0]) if m[0] in self.declared else m[0], words)
        return re.sub(r"`([^`\s]+)`", lambda m: "`" + snake(m[1]) + "`" if m[1] in self.declared else m[0], words)

    def turn_rt(self, text):
        def one(m):
            if m[0].startswith("//"):
                return self.in_words(m[0])
            if m[0].startswith('"') or m[0].startswith("b\""):
                return m[0]
            return snake(m[0]) if m[0] in self.declared else m[0]

        return re.sub(rf'//[^\n]*|b?"(?:\\.|[^"\\])*"|[a-z][\w·]*(?:-[\w·]+)*\'*', one, text)


def main(argv):
    root = os.path.dirname(os.path.dirname(os.path.abspath(__file__)))
    texts = Texts(root)
    if argv == ["--table"]:
        for n in sorted(texts.declared):
            print(f"{n}\t{snake(n)}")
        return 0
    together = 0
    for f in texts.antt + texts.rt:
        with open(f, encoding="utf-8") as it:
            text = it.read()
        if f.endswith(".antt"):
            crate = os.path.relpath(f, os.path.join(root, "crates")).split(os.sep)[0]
            table, there, _ = texts.own_antt(text, crate)
            new = collections.defaultdict(set)
            for old in there:
                new[table.get(old, old)].add(old)
            for it, olds in new.items():
                if len(olds) > 1:
                    together += 1
                    print(f"together: {os.path.relpath(f, root)}: {it} <- {', '.join(sorted(olds))}")
            turned = texts.turn_antt(text, crate)
        else:
            turned = texts.turn_rt(text)
        if turned != text and "--dry" not in argv:
            with open(f, "w", encoding="utf-8") as it:
                it.write(turned)
    print(f"respell: {len(texts.declared)} own names, {together} that would fall together")
    return 1 if together else 0


if __name__ == "__main__":
    raise SystemExit(main(sys.argv[1:]))
