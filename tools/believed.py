#!/usr/bin/env python3
"""believed.py: what a reader must believe. Follows names from the contracts of the public calls and from the theorems about them, definition by definition, and counts the
lines of each that is reached: blank lines, comments and imports left out. Run it from the repository's root.

    tools/believed.py            the lines of each file, and in all
    tools/believed.py --unread   which definitions of those files are not reached"""
import os
import re
import sys

# The public calls, by the file that has their contracts (None: every public function of it), what the program `print` writes, and the settings TIGHT, OPEN and EXPORT.
CALLS = {
    "crates/glsl/src/lib.rt": None,
    "crates/records/src/lib.rt": ["name"],
    "crates/print/src/main.rt": ["answer"],
    "crates/settings/src/lib.rt": ["read", "tight", "open", "export", "to_bytes"],
}
# Promise 3, and what it was before #106, about the words of GLSL, those of the preprocessor, and those of any language between (crates/reading/proofs/Demand3.antt); that settings are only layout, that joined is
# exact by the words of GLSL, and that promise 3 holds too where it answers no (crates/reading/proofs/Spaces.antt).
THEOREMS = [
    ("reading", "Demand3", "Demand3"),
    ("reading", "Demand3", "Demand3Of00"),
    ("lexis", "Preprocessing", "Between"),
    ("reading", "Spaces", "Closed"),
]

IMPORT = re.compile(r"^\s*(?:ghost |unfoldable |pub )*use Rattle\.(\w+)\.specs\.([\w.]+?)(?:\.\{(.*)\})?(?: as (\S+?))?;?$")
WORDS = re.compile(r"[^\s(){}\[\],;]+")


def path_of(crate, module):
    return os.path.join("crates", crate, "specs", module + ".antt")


class Module:
    """A file of specs/: its definitions by name, each a list of lines; constructors and operators lead to the definition that they belong to."""

    def __init__(self, crate, name):
        self.lines, self.owner, self.imports, self.aliases = {}, {}, {}, {}
        with open(path_of(crate, name), encoding="utf-8") as file:
            self.read(file.read().split("\n"))

    def read(self, lines):
        current, waiting, in_data = None, [], False
        for line in lines:
            text = line.split(" -- ")[0].rstrip() if not line.strip().startswith("--") else ""
            if not text.strip():
                continue
            if take_import(text, self.imports, self.aliases):
                continue
            indent = len(text) - len(text.lstrip())
            if re.match(r"\s*(module |mutual$|unfoldable mutual$|infix)", text):
                waiting.append(text)  # counted with the definition that follows
                continue
            kind = re.match(r"\s*pub (data|record) (\S+)", text)
            if kind:
                current, in_data, data_indent = kind.group(2), True, indent
                self.begin(current, waiting, text)
                waiting = []
                continue
            if in_data and indent > data_indent:
                self.lines[current].append(text)
                names = text.split(" : ")[0].split()
                for name in names:
                    if name != "pub":
                        self.owner[name] = current
                continue
            in_data = False
            signature = re.match(r"\s*(?:abbrev |unfoldable |pub )*([^\s(]+) :(?: |$)", text)
            if signature:
                current = signature.group(1)
                self.begin(current, waiting, text)
                waiting = []
            else:
                self.lines[current].append(text)

    def begin(self, name, waiting, text):
        self.lines[name] = waiting + [text]
        self.owner[name] = name
        if "◌" in name:
            for part in name.split("◌"):
                if part:
                    self.owner[part] = name


def take_import(text, imports, aliases):
    """Notes an import; says whether the line is one."""
    if not re.match(r"\s*(?:ghost |unfoldable |pub )*use ", text):
        return False
    found = IMPORT.match(text)
    if found:
        crate, path, names, alias = found.groups()
        module = path.split(".")[0]
        # What `declared` brings is an enum or a struct of the code; a library's own definitions are the kit's.
        if module != "declared" and os.path.exists(path_of(crate, module)):
            if alias:
                aliases[alias] = (crate, module)
            for name in (names or "").split(","):
                plain, _, other = name.strip().partition(" as ")
                if plain:
                    imports[(other or plain).strip("◌")] = (crate, module, plain)
    return True


def targets(text, module_key, module, load):
    """The definitions that a text names."""
    for word in WORDS.findall(text):
        for part in [word] + word.split("."):
            part = part.strip(".")
            if part in module.imports:
                crate, name, plain = module.imports[part]
                yield resolve(crate, name, plain, load)
            elif part in module.owner:
                yield module_key + (module.owner[part],)
        left, _, right = word.partition(".")
        if left in module.aliases:
            crate, name = module.aliases[left]
            yield resolve(crate, name, right.split(".")[0], load)


def resolve(crate, name, plain, load):
    """Where a name is defined: the file itself, or one that it hands on."""
    module = load(crate, name)
    if plain in module.owner:
        return (crate, name, module.owner[plain])
    if plain in module.imports:
        return resolve(*module.imports[plain][:2], module.imports[plain][2], load)
    return None


def contracts(path, wanted):
    """The contracts of the public functions, and the file's imports."""
    imports, aliases, texts = {}, {}, []
    with open(path, encoding="utf-8") as file:
        source = file.read()
    for line in source.split("\n"):
        take_import(line, imports, aliases)
    for found in re.finditer(r"^\s*(pub )?(?:extern \"C\" )?fn (\w+).*?^\s*\{$", source, re.M | re.S):
        public, name = found.group(1), found.group(2)
        if (wanted is None and public) or (wanted and name in wanted):
            texts += re.findall(r"ensures(?: \w+)? \{(.*)\}", found.group(0))
    return texts, imports, aliases


class Contracts:
    owner = {}

    def __init__(self, imports, aliases):
        self.imports, self.aliases = imports, aliases


def believed():
    """All files that are looked at, and the definitions that the calls and the theorems reach."""
    modules = {}

    def load(crate, name):
        if (crate, name) not in modules:
            modules[crate, name] = Module(crate, name)
        return modules[crate, name]

    waiting, reached = list(THEOREMS), set()
    for path, wanted in CALLS.items():
        texts, imports, aliases = contracts(path, wanted)
        for text in texts:
            waiting += targets(text, None, Contracts(imports, aliases), load)
    while waiting:
        found = waiting.pop()
        if found is None or found in reached:
            continue
        reached.add(found)
        crate, name, definition = found
        module = load(crate, name)
        for line in module.lines[definition]:
            waiting += targets(line, (crate, name), module, load)
    return modules, reached


def lines_of(modules, reached):
    return sum(len(modules[crate, name].lines[definition]) for crate, name, definition in reached)


def main():
    if sys.argv[1:] not in ([], ["--unread"]):
        sys.exit(__doc__)
    modules, reached = believed()
    for (crate, name), module in sorted(modules.items()):
        here = [definition for definition in module.lines if (crate, name, definition) in reached]
        if not here:
            continue
        print(f"{lines_of(modules, [(crate, name, definition) for definition in here]):5}  {crate}/specs/{name}")
        if sys.argv[1:]:
            for definition in module.lines:
                if definition not in here:
                    print(f"          not reached: {definition}")
    print(f"{lines_of(modules, reached):5}  in all")


if __name__ == "__main__":
    main()
