#!/usr/bin/env python3
"""Turns the Proof.antt files of crates into Invariants.antt and Answers.antt.

    python3 tools/port_proofs.py [--keep] [--names FILE] [--only WORD] CRATE_FOLDER..

Run it where a crate's sources and the crates below it check. It asks `rt check --generated DIR --old-names`
for the table of old and new names (--names FILE: a names.json that is there already), and says on
standard output what it left. Answers that Rattle finds itself (search rules, a bare omega arith, refl)
are dropped; --keep keeps them. --only WORD: only the functions whose path has WORD. The Proof.antt that
are turned are removed.
"""
import json
import os
import re
import shutil
import subprocess
import sys
import tempfile

WORD = r"[^\W\d][\w\-'₀₁₂₃₄₅₆₇₈₉]*"
FIELD = r"[\w][\w\-'₀₁₂₃₄₅₆₇₈₉]*"
PATH = re.compile(r"(?<![\w.\-'₀-₉])" + WORD + r"(?:\." + FIELD + r")*")
HEAD = re.compile(r"^((?:abbrev |unfoldable |opaque |pub )*)(\+?" + WORD + r"(?:::" + WORD + r")*) :(?=\s|$)")
DIRECT = {"args", "requires", "ranges", "well_formed", "lifetimes", "utf8"}
SKIP_USE = re.compile(
    r"\.(Statement|Tie|Lts|Reads|Kinds)(\.|\s|$)|\.Lts-|^use borrow\.Fn\.|\.\{statement\}|\.Proof\.")
said = []


def flat(name):
    return name.replace("_", "-").lower()


class Item:
    def __init__(self, kind, name="", head="", lines=None):
        self.kind, self.name, self.head, self.lines = kind, name, head, lines or []
        self.before = []

    # the signature, the unfolding line and the clauses [(arguments, body)]
    def split(self):
        text = "\n".join(self.lines)
        lines = text.split("\n")
        at = len(lines)
        unfolding = ""
        clauses = []
        start = re.compile(r"^" + re.escape(self.name) + r"(?=\s)")
        i = 1
        while i < len(lines):
            if lines[i].startswith("unfolding "):
                at = min(at, i)
                unfolding = lines[i]
            elif start.match(lines[i]):
                at = min(at, i)
                clauses.append([lines[i]])
            elif clauses:
                clauses[-1].append(lines[i])
            i += 1
        signature = "\n".join(lines[:at])
        out = []
        for c in clauses:
            t = "\n".join(c)
            m = re.match(re.escape(self.name) + r"((?:\s+[^=]*?)?)\s=(\s)", t, re.S)
            if not m:
                m = re.match(re.escape(self.name) + r"(.*?)\s=()$", t, re.S)
            out.append((m.group(1).strip(), t[m.end(2) - (1 if m.group(2) == "\n" else 0):]))
        return signature, unfolding, out


def parse(text):
    items, pending, current = [], [], None
    for line in text.split("\n"):
        if line.startswith("--"):
            pending.append(line)
            current = None
            continue
        if not line.strip():
            current = current if current and current.kind == "use" else current
            continue
        if line.startswith("use "):
            current = Item("use", lines=[line])
            items.append(current)
            current.before, pending = pending, []
            continue
        m = HEAD.match(line)
        if m and not line[0].isspace():
            current = Item("decl", m.group(2), m.group(1), [line])
            current.before, pending = pending, []
            items.append(current)
            continue
        if current is None:
            current = Item("other", lines=[line])
            current.before, pending = pending, []
            items.append(current)
        else:
            current.lines.append(line)
    return items


# The arguments of a call, at its top level.
def arguments(text):
    out, depth, cur = [], 0, ""
    for ch in text:
        if ch in "([{":
            depth += 1
        if ch in ")]}":
            depth -= 1
        if ch.isspace() and depth == 0:
            if cur:
                out.append(cur)
            cur = ""
        else:
            cur += ch
    if cur:
        out.append(cur)
    return out


def inside(text, at):
    depth = 0
    for i in range(at, len(text)):
        depth += text[i] in "([{"
        depth -= text[i] in ")]}"
        if depth == 0:
            return text[at + 1:i]
    return text[at + 1:]


class Places:
    def __init__(self, table):
        self.t = table
        self.at, self.index = {}, {}
        for i, p in enumerate(table["places"]):
            self.at[flat(p[0])] = p
            self.index[flat(p[0])] = i
        self.steps = {p[2][1]: p for p in table["places"]}

    def get(self, name):
        return self.at.get(flat(name))

    def new_name(self, place):
        return self.t["places_by_name"][self.index[flat(place[0])]]


class Body:
    """Rewrites the paths of a body. env: name -> ('place', place, how) or ('step', place)"""

    def __init__(self, places, where, renamed, goal):
        self.p, self.where, self.renamed, self.goal = places, where, renamed, goal
        self.env = {}
        self.bare = set()
        self.cycle = False

    def say(self, what):
        said.append(f"{self.where}: {what}")

    def path(self, token):
        parts = token.split(".")
        got = self.env.get(parts[0])
        if got is None:
            if parts[0] in self.renamed:
                return ".".join([self.renamed[parts[0]]] + parts[1:]), None
            return token, None
        if got[0] == "step":
            return ".".join([parts[0]] + self.fields(got[1], parts[1:])), None
        place, own = got[1], got[2]
        i = 1
        while i < len(parts) and parts[i] == "before":
            up = place[1]
            place = self.p.get(up) if up else place
            i += 1
        if i == len(parts):
            return "c", ("place", place, own)
        field, rest = parts[i], parts[i + 1:]
        field = "requires" if field == "pre" else field
        if field == "requires" and self.cycle:
            # in a cycle it was the measure's equation and then the requires
            if rest[:1] == ["0"]:
                return ".".join(["c", "decreases"] + rest[1:]), None
            if rest[:1] == ["1"]:
                return ".".join(["c", "requires"] + rest[1:]), None
            self.say(f"look at {token}, the measure's equation and the requires")
        if field in DIRECT:
            return ".".join(["c", field] + rest), None
        got = self.arm(place, field, rest)
        if got is None:
            got = self.step(place, field, rest, False)
        # the old walk had places that are no more: the step is found by its name
        p = own
        while got is None and p is not None:
            got = self.arm(p, field, rest) or self.step(p, field, rest, True)
            p = self.p.get(p[1]) if p[1] else None
        if got is None:
            self.say(f"no step {field} at {place[0]}: {token}")
            return token, None
        return got

    def step(self, place, field, rest, exact):
        old, new = place[2]
        if not old:
            return None
        field = re.sub(r"-lem$", "", flat(field))
        if field == flat(old) or not exact and re.sub(r"\d+$", "", field) == re.sub(r"\d+$", "", flat(old)):
            return ".".join(["c", new] + self.fields(place, rest)), (("step", place) if not rest else None)
        return None

    # a field of an old match step is a field of today's arm
    def arm(self, place, field, rest):
        arm = self.p.t["arms"][self.p.index[flat(place[0])]]
        best = None
        for new, old, olds in arm[2] if arm else []:
            if flat(old) == flat(field) and [flat(x) for x in rest[:len(olds)]] == [flat(x) for x in olds]:
                if best is None or len(olds) > len(best[1]):
                    best = (new, olds)
        if best is None:
            return None
        return ".".join(["c", arm[0], best[0]] + rest[len(best[1]):]), None

    def fields(self, place, rest):
        if not rest:
            return rest
        if place[2][0].startswith("if") or place[2][0].endswith("test"):
            rest = [{"taken": "true", "left": "false"}.get(rest[0], rest[0])] + rest[1:]
        for old, new in place[4] if len(place) > 4 else []:
            if flat(old) == flat(rest[0]):
                rest = [new] + rest[1:]
                break
        if rest[0] == "type-inv":
            rest = ["type_inv"] + rest[1:]
        if rest[0] in ("auto", "new") and len(rest) > 1 and rest[1].isdigit():
            names = [v for v in (self.p.t.get("params") or {}).get(place[3] or "", [])]
            if names:
                rest = [rest[0], names[int(rest[1])]] + rest[2:]
            self.say(f"look at .{'.'.join(rest)} of {place[2][1]}")
        return rest

    def turn(self, text):
        out, pos = [], 0
        let = re.compile(r"let\s+(" + WORD + r")\s*=\s*(" + PATH.pattern + r")\s+in(?=\s)\s*")
        for m in re.finditer(r"(?<![\w.\-'])(?:let(?=\s)|" + PATH.pattern + r")", text):
            if m.start() < pos:
                continue
            out.append(text[pos:m.start()])
            pos = m.start()
            token = m.group(0)
            if token == "let":
                w = let.match(text, pos)
                if w:
                    new, sym = self.path(w.group(2))
                    name = w.group(1)
                    if sym and sym[0] == "place":
                        self.env[name] = sym
                        pos = w.end()
                        continue
                    if sym:
                        self.env[name] = sym
                    elif name in self.env:
                        del self.env[name]
                    out.append(text[pos:w.start(2)] + new)
                    pos = w.end(2)
                    continue
                out.append(token)
                pos = m.end()
                continue
            new, sym = self.path(token)
            if sym and sym[0] == "place":
                new = self.as_argument(sym)
            out.append(new)
            pos = m.end()
        out.append(text[pos:])
        text = "".join(out)
        if re.search(r"\bto_z-of_z \(record", text):
            text = re.sub(r"\bto_z-of_z \(record", "to_z-of_z {w = w64} (record", text)
            self.say("to_z-of_z: {w = w64} is a guess")
        text = re.sub(r"\bnot-true _ (" + WORD + r"(?:\." + FIELD + r")*)\.true-raw", r"\1.true", text)
        text = re.sub(r"\bnot-false _ (" + WORD + r"(?:\." + FIELD + r")*)\.false-raw", r"\1.false", text)
        text = re.sub(r"\bnot_true _ (" + WORD + r"(?:\." + FIELD + r")*)\.true-raw", r"\1.true", text)
        text = re.sub(r"\bnot_false _ (" + WORD + r"(?:\." + FIELD + r")*)\.false-raw", r"\1.false", text)
        return text

    def as_argument(self, sym):
        place, own = sym[1], sym[2]
        if place[0] == own[0]:
            return "c"
        name = self.p.new_name(place)
        self.bare.add(name)
        if self.goal is None:
            self.say(f"a lemma that passes {name} on")
            return "c"
        return f"(goal.at.{self.goal} c).{name}"


def unfit(body):
    m = re.fullmatch(r"\s*record\s*\{\s*fits\s*=\s*(.*?);?\s*\}\s*", body, re.S)
    return body[:len(body) - len(body.lstrip())] + m.group(1) if m else body


def trivial(body):
    b = re.sub(r"[(),\s]+", " ", body).strip()
    b = re.sub(r"omega arith|search rules|refl", "", b)
    return not b.strip()


def used_names(text):
    return set(PATH.findall(text)) | {t.split(".")[0] for t in PATH.findall(text)}


def imports(uses, text):
    names = used_names(text)
    out = []
    if "{w = w64}" in text and not any("w64" in " ".join(u.lines) for u in uses):
        out.append("use mir.Syntax.{w64}")
    for u in uses:
        line = re.sub(r"\s+", " ", " ".join(u.lines)).strip()
        if SKIP_USE.search(line):
            continue
        m = re.match(r"use (\S+)\.\{(.*)\}$", line)
        if m:
            keep = []
            for n in [x.strip() for x in m.group(2).split(",") if x.strip()]:
                last = n.split(" as ")[-1].strip()
                if "◌" in last:
                    bits = [b for b in last.split("◌") if b]
                    ok = last in text or all(re.search(r"(?:^|[\s(])" + re.escape(b) + r"(?:[\s)]|$)", text) for b in bits)
                elif re.fullmatch(WORD, last):
                    ok = last in names
                else:
                    ok = last in text
                if ok:
                    keep.append(n)
            if keep:
                out.append(f"use {m.group(1)}.{{{', '.join(keep)}}}")
            continue
        m = re.match(r"use (\S+)(?: as (\S+))?$", line)
        if m:
            last = m.group(2) or m.group(1).split(".")[-1]
            if last in names:
                out.append(line)
    return out


# The invariants and measures of loops: parameters to fields of l.
def loop_fact(name, args, body, table, new, changed_of):
    params = args.split()
    loop = None
    for i, (pair, variables) in enumerate(table["loops"]):
        if flat(pair[1]) == flat(new):
            loop, changed = variables, table["changed"][i]
    if loop is None:
        return None
    n = len(loop) + sum(changed)
    if len(params) < n:
        return None
    params = params[-n:]
    subst = {}
    for p, v, ch in zip(params, loop, changed):
        subst[p] = f"l.initial.{v}" if ch else f"l.{v}"
    for p, v in zip(params[len(loop):], [v for v, ch in zip(loop, changed) if ch]):
        subst[p] = f"l.{v}"

    def sub(m):
        parts = m.group(0).split(".")
        if re.search(r"[{;]\s*$", body[:m.start()]) and re.match(r"\s*[=:]\s", body[m.end():]):
            return m.group(0)  # a record's field
        if parts[0] in subst:
            rest = parts[1:]
            return ".".join([subst[parts[0]]] + rest)
        return m.group(0)

    bound = set(re.findall(r"(?:λ|\(|let)\s*(" + WORD + r")\s*(?::|\.\s|=)", body)) & set(subst)
    if bound:
        said.append(f"{name}: binders that hide a parameter: {' '.join(sorted(bound))}")
    return PATH.sub(sub, body)


# which goal an old answer is of
def need_of(item, table):
    m = re.search(r"[\w-]\.Need-(\S+)", item.split()[0]) or re.search(r"\btie\.Need-(\S+)", item.split()[0])
    if not m:
        return None
    got = flat(m.group(1))
    for k, n in enumerate(table["needs"]):
        old = flat(n[0])
        if got in (old, "overflow-" + old) or got == old.replace("part-", "slice-bounds-", 1):
            return k
    return None


def find_loop(word, table):
    """new name of the loop that `word` (as loop, loop2) is"""
    for pair, _ in table["loops"]:
        if flat(pair[0]) == flat(word):
            return pair[1]
    return table["loops"][0][0][1] if len(table["loops"]) == 1 else None


def convert(folder, crate, path, names, keep):
    where = f"{crate}/{path}"
    file = os.path.join(folder, "Proof.antt")
    items = parse(open(file, encoding="utf-8").read())
    key = f"Rattle-{crate}-proofs.{path}.Lts"
    if key not in names:
        said.append(f"{where}: no table {key}")
        return False
    table = names[key]
    places = Places(table)
    module = f"Rattle.{crate}.proofs.{path}"
    uses = [i for i in items if i.kind == "use"]
    head = []
    for i in items:
        if i.kind == "use":
            head = i.before
            break
    decls = {i.name: i for i in items if i.kind == "decl"}
    others = [i for i in items if i.kind == "other"]
    spec = None
    for i in decls.values():
        if re.search(r"\btie\.close\b", "\n".join(i.lines)):
            spec = i
    if spec is None:
        said.append(f"{where}: no tie.close")
        return False
    text = "\n".join(spec.lines)
    at = text.index("tie.spec")
    start = text.rfind("(", 0, at)
    if start < 0 or not re.fullmatch(r"\s*", text[start + 1:at]):
        body = text[at:]
    else:
        body = inside(text, start)
    args = arguments(body.strip()[len("tie.spec"):])
    kinds = {}
    for i in decls.values():
        signature = i.split()[0]
        m = re.search(r"\btie\.(invariant|decreases)(-\S+)?", signature)
        if m and "Need" not in signature:
            kinds[i.name] = (m.group(1), (m.group(2) or "-")[1:])
    facts = [a for a in args if a in kinds]
    args = [a for a in args if a not in kinds]
    needs = table["needs"]
    if len(args) != len(needs):
        said.append(f"{where}: {len(args)} answers for {len(needs)} goals; by name")
        pairs = []
        for a in args:
            k = need_of(decls[a], table) if a in decls else None
            if k is not None:
                pairs.append((a, needs[k], table["asked_at"][k]))
    else:
        pairs = [(a, n, table["asked_at"][k]) for k, (a, n) in enumerate(zip(args, needs))]

    renamed = {}
    for a, n, _ in pairs:
        if a in decls and a not in renamed:
            renamed[a] = n[1]
    helpers = [i for i in items if i.kind == "decl" and i is not spec and i.name not in kinds and i.name not in renamed and "tie.Need-" not in i.split()[0]]

    # the loops' facts
    inv_parts, inv_text = [], ""
    for f in facts:
        signature, unfolding, clauses = decls[f].split()
        kind, loop = kinds[f]
        new = find_loop(loop, table)
        a, b = clauses[0]
        got = loop_fact(f"{where} {f}", a, b, table, new, None) if new else None
        if got is None:
            said.append(f"{where}: {f} by hand")
            continue
        goal = f"{kind}-{new}"
        part = f"abbrev pub {goal} : goal.{goal}\n" + (unfolding + "\n" if unfolding else "") + f"{goal} l ={got if got[0] == chr(10) else ' ' + got.lstrip(' ')}"
        inv_parts.append(part)
        inv_text += part + "\n"
    moved = []
    more = True
    while more:
        more = False
        for h in helpers:
            t = "\n".join(h.lines)
            if h not in moved and h.name in used_names(inv_text) and "tie." not in t:
                moved.append(h)
                inv_text += t + "\n"
                more = True

    # the answers
    bare, out, done, written = set(), {}, set(), {}

    def clause_args(text_args):
        a = text_args.split()
        return a[0] if a else "c"

    for a, (old, new), (old_place, _) in pairs:
        if new in done:
            said.append(f"{where}: a second answer for {new}")
            continue
        done.add(new)
        place = places.get(old_place)
        if place is None:
            said.append(f"{where}: no place {old_place}")
            continue
        b = Body(places, f"{where} {new}", renamed, new)
        comment, unfolding = [], ""
        if a in decls:
            signature, unfolding, clauses = decls[a].split()
            comment = decls[a].before
            if len(clauses) != 1:
                said.append(f"{where}: {a} has {len(clauses)} clauses")
                continue
            ca, cb = clauses[0]
        else:
            m = re.fullmatch(r"\(\s*λ\s+([^.]*?)\.\s(.*)\)", a, re.S)
            if not m:
                said.append(f"{where}: argument {a[:60]} for {new}")
                continue
            ca, cb = m.group(1), " " + m.group(2)
        b.env[clause_args(ca)] = ("place", place, place)
        cb = unfit(cb)
        plain = trivial(cb) and not unfolding
        text = b.turn(cb)
        text = text.rstrip()
        text = text if text.startswith("\n") else " " + text.strip()
        bare |= b.bare
        written[new] = (comment, unfolding, text, plain)
    # what is trivial goes, unless another cites it
    answers = []
    for new, (comment, unfolding, text, plain) in written.items():
        if plain and not keep:
            cited = any(new in used_names(t) for n, (_, _, t, _) in written.items() if n != new)
            if not cited:
                continue
        answers.append((new, comment, unfolding, text))
    # an answer stands behind those that it cites
    ordered = []
    while answers:
        for x in answers:
            if not any(y is not x and y[0] in used_names(x[3]) for y in answers):
                break
        else:
            x = answers[0]
        answers.remove(x)
        ordered.append(x)
    answers = ordered
    lemma_parts = []
    for h in helpers:
        if h in moved:
            continue
        t = "\n".join(h.lines)
        b = Body(places, f"{where} {h.name}", renamed, None)

        def typed(m):
            p = places.get(m.group(2))
            if p is None:
                return m.group(0)
            n = places.new_name(p)
            bare.add(n)
            b.env[m.group(1)] = ("place", p, p)
            return f"({m.group(1)} : {n})"

        t = re.sub(r"\((" + WORD + r") : tie\.(" + WORD + r")\)", typed, t)
        if b.env:
            t = b.turn(t)
        if "tie." in t:
            said.append(f"{where}: lemma {h.name} names tie")
        lemma_parts.append("\n".join(h.before + [t]))
    ans_text = "\n".join(t + "\n" + u for _, _, u, t in answers) + "\n" + "\n".join(lemma_parts)

    # lemmas that no answer cites go
    def write(name, parts, text, link):
        lines = list(head)
        lines += imports(uses, text)
        lines += link
        open(os.path.join(folder, name), "w", encoding="utf-8").write("\n".join(lines) + "\n\n" + "\n\n".join(parts) + "\n")

    if inv_parts:
        parts = []
        for h in moved:
            t = "\n".join(h.lines)
            if "pub" not in h.head:
                t = ("abbrev pub " + t[len("abbrev "):]) if t.startswith("abbrev ") else ("unfoldable pub " + t[len("unfoldable "):]) if t.startswith("unfoldable ") else "pub " + t
            parts.append("\n".join(h.before + [t]))
        write("Invariants.antt", parts + inv_parts, inv_text, [f"use {module}.Given as goal"])
    if answers:
        link = []
        cited = [h.name for h in moved if h.name in used_names(ans_text)]
        if cited:
            link.append(f"use {module}.Invariants.{{{', '.join(cited)}}}")
        link.append(f"use {module}.Goals as goal")
        if bare:
            link.append(f"use {module}.Goals.{{{', '.join(sorted(bare))}}}")
        parts = []
        for o in others:
            parts.append("\n".join(o.before + o.lines))
        # each answer in the order of the old file; lemmas before the first answer that cites them
        left = list(lemma_parts)
        for new, comment, unfolding, text in answers:
            again = True
            while again:
                again = False
                for t in list(left):
                    n = HEAD.match([x for x in t.split("\n") if not x.startswith("--")][0]).group(2)
                    if n in used_names(text) or any(n in used_names(o) for o in left if o is not t and False):
                        before = [o for o in left if o is not t and HEAD.match([x for x in o.split("\n") if not x.startswith("--")][0]).group(2) in used_names(t)]
                        for o in before + [t]:
                            if o in left:
                                parts.append(o)
                                left.remove(o)
                        again = True
                        break
            parts.append("\n".join(comment + [f"pub {new} : goal.{new}"] + ([unfolding] if unfolding else []) + [f"{new} c ={text}"]))
        for t in left:
            said.append(f"{where}: a lemma that no answer cites is left out: {t.splitlines()[0][:60]}")
        write("Answers.antt", parts, "\n\n".join(parts), link)
    os.remove(file)
    if not os.listdir(folder):
        os.rmdir(folder)
    return True


# The names of a function's parameters, by the calls of it in the crate.
def parameters(names, function, folder):
    for v in names.values():
        if isinstance(v, dict):
            for k, ps in (v.get("params") or {}).items():
                if k.split("::")[-1] == function:
                    return ps
    return None


def convert_cycle(folder, crate, path, names, keep):
    where = f"{crate}/{path}"
    module = f"Rattle.{crate}.proofs.{path}"
    main_file = os.path.join(folder, "Proof.antt")
    files = [main_file]
    sub = os.path.join(folder, "Proof")
    if os.path.isdir(sub):
        files += sorted(os.path.join(sub, f) for f in os.listdir(sub) if f.endswith(".antt"))
    inv_parts, inv_text, inv_uses = [], "", []
    ans_parts, ans_uses, bare, head = [], [], set(), []
    for file in files:
        items = parse(open(file, encoding="utf-8").read())
        uses = [i for i in items if i.kind == "use"]
        if file == main_file and uses:
            head = uses[0].before
        lts = {}
        for u in uses:
            m = re.match(r"use \S+\.Lts-(\S+) as (\S+)$", re.sub(r"\s+", " ", " ".join(u.lines)).strip())
            if m:
                key = f"Rattle-{crate}-proofs.{path}.Lts-{m.group(1)}"
                if key in names:
                    lts[m.group(2)] = (m.group(1), names[key])
                else:
                    said.append(f"{where}: no table {key}")
        decls = [i for i in items if i.kind == "decl"]
        needs, renamed, helpers, kept = [], {}, [], []
        for i in decls:
            signature, unfolding, clauses = i.split()
            m = re.search(r"([\w-]+)\.(Need-|invariant-|decreases-)(\S*)", signature)
            if m and m.group(1) in lts:
                function, table = lts[m.group(1)]
                stem = table["stem"]
                if m.group(2) == "Need-":
                    k = need_of(i, table)
                    if k is None:
                        said.append(f"{where}: {i.name}: no goal {m.group(3)} any more")
                        continue
                    new = stem + table["needs"][k][1]
                    renamed[i.name] = new
                    needs.append((i, new, table, table["asked_at"][k][0], unfolding, clauses))
                else:
                    kind = m.group(2)[:-1]
                    new = find_loop(m.group(3), table)
                    got = loop_fact(f"{where} {i.name}", clauses[0][0], clauses[0][1], table, new, None) if new else None
                    if got is None:
                        said.append(f"{where}: {i.name} by hand")
                        continue
                    name = f"{kind}-{stem}{new}"
                    inv_parts.append(f"abbrev pub {name} : goal.{name}\n{name} l ={got if got[0] == chr(10) else ' ' + got.lstrip(' ')}")
                    inv_uses += uses
                continue
            m = re.search(r"\bMeasures \S+ (\S+)-kinds\.ps", signature)
            if m:
                alias, function = m.group(1) + "-kinds", None
                for u in uses:
                    w = re.match(r"use (\S+)\.Kinds as (\S+)$", " ".join(u.lines).strip())
                    if w and w.group(2) == alias:
                        function = w.group(1).split(".")[-1]
                ps = parameters(names, function, folder)
                args, body = clauses[0]
                a = args.split()[-1]
                if ps is None:
                    said.append(f"{where}: measure of {function} by hand")
                    continue

                def sub_arg(w):
                    k = w.group(1).count("1")
                    return "l." + (ps[k] if k < len(ps) else f"arg{k}")

                body = re.sub(r"\b" + re.escape(a) + r"\.((?:1\.)*)0\b", sub_arg, body)
                stem = next((names[k]["stem"] for k in names if k == f"Rattle-{crate}-proofs.{path}.Lts-{function}"), function + "-")
                name = "decreases-" + stem.rstrip("-")
                inv_parts.append(f"abbrev pub {name} : goal.{name}\n{name} l ={body.rstrip() if body.startswith(chr(10)) else ' ' + body.strip()}")
                inv_uses += uses
                continue
            t = "\n".join(i.lines)
            if re.search(r"-kinds\.|-lts\.|-reads\.|\bstatement\b|\.Claims|\bclose\b", t):
                continue
            helpers.append(i)
        texts = []
        for i, new, table, place_name, unfolding, clauses in needs:
            places = Places(table)
            place = places.get(place_name)
            b = Body(places, f"{where} {new}", renamed, new)
            b.cycle = True
            args, body = clauses[0]
            args = args.split()
            t_name, c_name = args[0], args[1]
            b.env[c_name] = ("place", place, place)
            body = unfit(body)
            plain = trivial(body) and not unfolding
            text = b.turn(body).rstrip()
            text = text if text.startswith("\n") else " " + text.strip()
            bare |= b.bare
            texts.append((i, new, t_name, unfolding, text, plain))
        shown = []
        for i, new, t_name, unfolding, text, plain in texts:
            if plain and not keep and not any(new in used_names(o[4]) for o in texts if o[1] != new):
                continue
            shown.append("\n".join(i.before + [f"pub {new} : goal.{new}"] + ([unfolding] if unfolding else []) + [f"{new} {t_name} c ={text}"]))
        cited, more = [], True
        while more:
            more = False
            for h in helpers:
                if h not in cited and h.name in used_names("\n".join(shown + ["\n".join(x.lines) for x in cited])):
                    cited.append(h)
                    more = True
        ans_parts += ["\n".join(h.before + h.lines) for h in helpers if h in cited]
        ans_parts += shown
        if shown:
            ans_uses += uses

    def merged(uses, text):
        out, seen = {}, []
        for line in imports(uses, text):
            m = re.match(r"use (\S+)\.\{(.*)\}$", line)
            if m:
                lst = out.setdefault(m.group(1), [])
                lst += [x.strip() for x in m.group(2).split(",") if x.strip() not in lst]
            elif line not in seen:
                seen.append(line)
        return [f"use {k}.{{{', '.join(v)}}}" for k, v in out.items()] + seen

    def write(name, parts, uses, link):
        lines = head + merged(uses, "\n\n".join(parts)) + link
        open(os.path.join(folder, name), "w", encoding="utf-8").write("\n".join(lines) + "\n\n" + "\n\n".join(parts) + "\n")

    if inv_parts:
        write("Invariants.antt", inv_parts, inv_uses, [f"use {module}.Given as goal"])
    if ans_parts:
        write("Answers.antt", ans_parts, ans_uses, [f"use {module}.Goals as goal"] + ([f"use {module}.Goals.{{{', '.join(sorted(bare))}}}"] if bare else []))
    os.remove(main_file)
    if os.path.isdir(sub):
        shutil.rmtree(sub)
    return True


def main():
    argv = sys.argv[1:]
    keep, file, only, folders = False, None, None, []
    while argv:
        a = argv.pop(0)
        if a == "--keep":
            keep = True
        elif a == "--names":
            file = argv.pop(0)
        elif a == "--only":
            only = argv.pop(0)
        else:
            folders.append(a)
    if not folders:
        sys.exit(__doc__)
    for crate_folder in folders:
        crate = os.path.basename(os.path.abspath(crate_folder))
        at = file
        if at is None:
            d = tempfile.mkdtemp(prefix=f"port_proofs_{crate}_")
            subprocess.run(["rt", "check", "--generated", d, "--old-names"], cwd=crate_folder, stdout=subprocess.DEVNULL, stderr=subprocess.DEVNULL)
            at = os.path.join(d, "names.json")
        if not os.path.exists(at):
            said.append(f"{crate}: rt check wrote no names.json")
            continue
        names = json.load(open(at, encoding="utf-8"))
        top = os.path.join(crate_folder, "proofs")
        n = 0
        for root, dirs, files in list(os.walk(top)):
            if not os.path.isdir(root):
                continue
            if "Proof.antt" not in files:
                continue
            path = os.path.relpath(root, top).replace(os.sep, ".")
            if only and only not in path:
                continue
            if os.path.basename(root).startswith("+"):
                if convert_cycle(root, crate, path, names, keep):
                    n += 1
                continue
            if convert(root, crate, path, names, keep):
                n += 1
        print(f"{crate}: {n} functions turned")
    for s in said:
        print("  " + s)


main()
