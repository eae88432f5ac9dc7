#!/usr/bin/env python3
"""Brings the must-fail edits of an older tree to the spelling of a newer one, with the same wrong meaning.

usage: port_edits.py turn OLD NEW [CRATE/EDIT ..]    rewrites NEW/crates/*/must-fail/*.edit from those of OLD
       port_edits.py look OLD NEW [CRATE/EDIT ..]    says the same and writes nothing; with names, prints each edit's text before and after
       port_edits.py verify NEW                      whether each edit of NEW applies, changes something, and differs from each other one

OLD and NEW are folders that hold a whole tree each (OLD as by `git archive COMMIT | tar -x -C OLD`). An edit's text is always taken from OLD, so `turn` can run again
whenever NEW changed. Nothing is known of the names beforehand: OLD's files are brought to the forms of the newer notation (projections, clauses, paths), aligned with
NEW's, and what stands at one place in both trees says how a name is spelled now.

For each pair of an edit: what the pair changes in OLD's file is found as the smallest run of tokens; the run that stands at its place in NEW's file is replaced by the
new tokens in the newer spelling; the text is grown to about what the older edit said, and until it stands once in the file, within its line. An edit is turned for
certain where the older run, respelled, is what NEW has there, and each new name stands in NEW. Others are listed ('look:' where a text was made, 'left:' where none was),
unless port_edits_by_hand.txt beside this file has them. There an entry is

    edit: CRATE/NAME.edit
    file: PATH
    old: TEXT
    new: TEXT

with texts as they would stand in OLD, which are turned in place of the edit's own; or, with a line `newer:` behind `edit:`, as they stand in NEW, where {{name}} is the
newer spelling of OLD's name. A line `checked: WHY` says that the text that is made, of the entry's lines or with none of the edit's own, was read and is right.
"""

import collections
import difflib
import os
import re
import sys

HERE = os.path.dirname(os.path.realpath(__file__))
BY_HAND = os.path.join(HERE, "port_edits_by_hand.txt")

TOKEN = re.compile(
    r"""(?P<str>\bb"(?:[^"\\\n]|\\.)*"|"(?:[^"\\\n]|\\.)*")
      | (?P<chr>b?'(?:[^'\\\n]|\\.|\\x[0-9a-f]{2})')
      | (?P<mix>[_\u25cc][^\s\w(){}\[\],;."'\u25cc]+[_\u25cc])
      | (?P<life>'[a-z]\b)
      | (?P<id>\u00ab?[^\W\d][\w]*(?:[-\u00b7][\w]+)*['\u2032]*\u00bb?)
      | (?P<num>\d\w*)
      | (?P<op>[^\s\w(){}\[\],;."'\\]+)
      | (?P<one>[^\s])""",
    re.X,
)
KEYWORDS = set("let in where module record with unfolding abbrev pub data open use as match if else fn return while for mut const struct enum impl ghost requires ensures rw simp omega cc".split())
OPEN, CLOSE = "([{", ")]}"


def tokens(text):
    return [(m.group(), m.start(), m.end(), m.lastgroup) for m in TOKEN.finditer(text)]


def plain(word):
    """A word without what the spellings differ in."""
    w = word.strip("\u00ab\u00bb").replace("\u2032", "'")
    if TOKEN.fullmatch(word) and TOKEN.fullmatch(word).lastgroup == "mix":
        return "\u25cc" + word[1:-1] + "\u25cc"
    if w[:1].isalpha() or w[:1] == "_" and len(w) > 1:
        return re.sub(r"[-_\u00b7]", "", w).lower()
    return w


# ---- the older notation, brought to the forms of the newer one (names stay)


def tight(text):
    """Projections `x .f` as `x.f`, and `(f x).g` for `f x .g`; a line at a time, by the brackets."""
    text = re.sub(r"\u00ab(\w+)\u00bb", r"\1", text)
    while True:
        was = text
        # (x .f .g) where it is an argument or stands alone
        text = re.sub(r"\(([\w'\u2032.-]*[\w'\u2032]) \.(\w[\w'-]*)\)", r"\1.\2", text)
        text = re.sub(r"(\(|\(\(|[=:,\u2261\u2264<\u00d7\u2192\u2237+*/%|;\u03bb] |&& |\|\| |\+\+ |- |\blet |\bin |^\s*)([\w'\u2032.-]*[\w'\u2032]) \.(\w[\w'-]*)(?![\w'])", r"\1\2.\3", text, flags=re.M)
        if text == was:
            break
    # f a b .g: the application in front is taken as a whole
    out = []
    for line in text.split("\n"):
        while True:
            m = re.search(r"(?<=[\w')\u2032]) \.(\w[\w'-]*)(?![\w'])", line)
            if not m or line.lstrip().startswith(("--", "//")):
                break
            i, depth = m.start(), 0
            while i > 0:
                c = line[i - 1]
                if c in CLOSE:
                    depth += 1
                elif c in OPEN:
                    if depth == 0:
                        break
                    depth -= 1
                elif depth == 0:
                    if c in ",;=\u2261\u2264<\u00d7\u2192\u2237+*/%|\u03bb:&\u2219":
                        break
                    if c == "." and i < len(line) and line[i] == " ":
                        break
                    if line[:i].endswith((" -", " let", " in", " where", " rw", " simp")):
                        break
                i -= 1
            while line[i] == " ":
                i += 1
            head = line[i : m.start()]
            if not head:
                break
            if not re.fullmatch(r"[\w'\u2032.-]+", head):
                head = "(" + head + ")"
            # (f x .g) is an argument (f x).g
            if i > 0 and line[i - 1] == "(" and line[m.end() :].startswith(")") and head.startswith("("):
                line = line[: i - 1] + head + "." + m.group(1) + line[m.end() + 1 :]
                continue
            line = line[:i] + head + "." + line[m.start() + 2 :]
        out.append(line)
    return "\n".join(out)


def paths(text):
    text = re.sub(r"Rattle\u00b7(\w+)\u00b7(specs|proofs)\.\2(?![\w'-])", r"Rattle.\1.\2", text)
    return re.sub(r"Rattle\u00b7(\w+)", r"Rattle.\1", text)


def clauses(text):
    """The clauses of a .rt file."""

    def one(m):
        head, body = m.group(1), m.group(2)
        start = text.rfind("fn ", 0, m.start())
        sig = text[max(start, 0) : m.start()]

        def at(k):
            x, when = k.group(1), k.group(2)
            mut = re.search(r"\b%s: &(?:'\w+ )?mut\b|&(?:'\w+ )?mut %s\b" % (x, x), sig)
            return x + (".new" if when == "exit" else ".old" if mut else ".now")

        body = body.replace("\u231c ", "").replace(" \u231d", "")
        b = re.match(r"\s*\u03bb (\w+)\. ", body)
        if b:
            body = " " + re.sub(r"(?<![\w'.-])%s(?![\w'-])" % b.group(1), "result", body[b.end() :])
        body = re.sub(r"\(now \((\w+) \.(entry|exit)\)\)", at, body)
        body = re.sub(r"(?<![\w.])now \((\w+) \.(entry|exit)\)", at, body)
        body = re.sub(r"\(now (\w+)\)", r"\1.now", body)
        body = re.sub(r"(?<![\w.])now (\w+)", r"\1.now", body)
        return head + "{" + tight(body) + "}"

    return re.sub(r"((?:requires|ensures) )\{((?:[^{}]|\{[^{}]*\})*)\}", one, text)


def newer_form(path, text):
    text = paths(text)
    if path.endswith(".rt"):
        return clauses(text)
    return tight(text)


# ---- alignment


def line_key(ts):
    return " ".join(plain(t[0]) for t in ts if t[3] in ("id", "num", "str", "chr", "mix") and t[0] not in ("now", "entry", "exit"))


def by_line(text):
    """The tokens of a text, and of each line the range of them and its key."""
    ts = tokens(text)
    lines, k, pos = [], 0, 0
    for line in text.split("\n"):
        end = pos + len(line)
        a = k
        while k < len(ts) and ts[k][1] < end:
            k += 1
        lines.append((a, k, line_key(ts[a:k])))
        pos = end + 1
    return ts, lines


def match_tokens(xs, ys, a, b, c, d, same, renamed):
    if a == b or c == d:
        return
    p = [plain(t[0]) for t in xs[a:b]]
    q = [plain(t[0]) for t in ys[c:d]]
    for op, i, j, k, l in difflib.SequenceMatcher(None, p, q, False).get_opcodes():
        if op == "equal":
            for n in range(j - i):
                same[a + i + n] = c + k + n
        elif op == "replace" and j - i == l - k:
            for n in range(j - i):
                if xs[a + i + n][3] == ys[c + k + n][3] and xs[a + i + n][3] in ("id", "mix"):
                    renamed.append((a + i + n, c + k + n))


def align(old, new):
    """Of two texts the tokens, which token of the first stands as which of the second, and the pairs that only may be one."""
    xs, xl = by_line(old)
    ys, yl = by_line(new)
    same, renamed = {}, []
    for op, i, j, k, l in difflib.SequenceMatcher(None, [t[2] for t in xl], [t[2] for t in yl], False).get_opcodes():
        if op == "equal":
            for n in range(j - i):
                match_tokens(xs, ys, xl[i + n][0], xl[i + n][1], yl[k + n][0], yl[k + n][1], same, renamed)
        elif i < j and k < l:
            # line by line where as many lines stand on both sides and are alike, else all at once
            alike = j - i == l - k and all(difflib.SequenceMatcher(None, xl[i + n][2].split(), yl[k + n][2].split(), False).ratio() > 0.5 for n in range(j - i))
            if alike:
                for n in range(j - i):
                    match_tokens(xs, ys, xl[i + n][0], xl[i + n][1], yl[k + n][0], yl[k + n][1], same, renamed)
            else:
                match_tokens(xs, ys, xl[i][0], xl[j - 1][1], yl[k][0], yl[l - 1][1], same, renamed)
    return xs, ys, same, renamed


def read(path):
    with open(path, encoding="utf-8", newline="") as f:
        return f.read()


def sources(root):
    for folder, dirs, files in os.walk(os.path.join(root, "crates")):
        dirs[:] = sorted(d for d in dirs if d not in ("out", "must-fail", "data"))
        for f in sorted(files):
            if f.endswith((".rt", ".antt")):
                yield os.path.relpath(os.path.join(folder, f), root)


def no_comments(text):
    return re.sub(r"(?m)^\s*(--|//).*$", "", text)


class Trees:
    def __init__(self, old, new):
        self.old, self.new = old, new
        self.maps = {}  # file -> word -> Counter of spellings
        self.crate = collections.defaultdict(lambda: collections.defaultdict(collections.Counter))
        self.all = collections.defaultdict(collections.Counter)
        self.words = collections.defaultdict(set)  # crate -> words of NEW, '' for all
        self.aligned = {}
        for path in sources(new):
            c = path.split(os.sep)[1]
            found = {t[0] for t in tokens(no_comments(read(os.path.join(new, path)))) if t[3] in ("id", "mix")}
            self.words[c] |= found
            self.words[""] |= found
            self.words[path] = found
        self.olds = set()
        for path in sources(old):
            self.olds |= {t[0] for t in tokens(no_comments(read(os.path.join(old, path)))) if t[3] in ("id", "mix")}
            if not os.path.isfile(os.path.join(new, path)):
                continue
            a, b = newer_form(path, read(os.path.join(old, path))), read(os.path.join(new, path))
            self.aligned[path] = (a, b, align(a, b))
            self.learn(path)

    def learn(self, path):
        _, _, (xs, ys, same, renamed) = self.aligned[path]
        c = path.split(os.sep)[1]
        m = collections.defaultdict(collections.Counter)
        for i, j in list(same.items()) + renamed:
            if xs[i][3] in ("id", "mix"):
                m[xs[i][0]][ys[j][0]] += 1
        self.maps[path] = m
        for w, n in m.items():
            self.crate[c][w].update(n)
            self.all[w].update(n)

    def word(self, path, w, before="", here=frozenset(), imported=False):
        """How NEW spells a word of OLD in that file, and whether that is certain: it stands there, or behind a path or a value somewhere, or in an import from somewhere."""
        c = path.split(os.sep)[1]
        there = self.words[path] | here | (self.words[""] if before in (".", "::") or imported else set())
        for known in (self.maps.get(path, {}), self.crate[c], self.all):
            n = known.get(w)
            if n:
                (best, k), total = n.most_common(1)[0], sum(n.values())
                if k * 10 >= total * 7:
                    return best, best in there
        if w in there:
            return w, True
        like = sorted(x for x in self.words[c] if plain(x) == plain(w)) if w in self.olds else ()
        if len(like) == 1:
            return like[0], like[0] in there
        return w, False

    def respell(self, path, text, before="", here=frozenset(), imported=False):
        """The text with each word in NEW's spelling, and the words that have none for certain."""
        out, pos, unsure, bound = [], 0, [], set()
        for t, a, b, kind in tokens(text):
            out.append(text[pos:a])
            pos = b
            if kind in ("id", "mix") and t not in KEYWORDS:
                made, sure = self.word(path, t, before, here, imported)
                if before == "let":
                    bound.add(made)
                if not sure and made not in bound:
                    unsure.append(made)
                before, t = t, made
            else:
                before = t
                if kind == "op" and t not in here and path.endswith(".antt"):
                    unsure.append(t)
            out.append(t)
        return "".join(out) + text[pos:], unsure


# ---- edits


def parse(text):
    """An edit's lines: ('file', PATH), ('pair', OLD, NEW), ('other', LINE)."""
    out, old = [], None
    for line in text.split("\n"):
        if line.startswith("file: "):
            out.append(("file", line[6:].strip()))
        elif line.startswith("old: "):
            old = line[5:]
        elif line.startswith("new:"):
            new = line[4:]
            out.append(("pair", old, new[1:] if new[:1] == " " else new))
        else:
            out.append(("other", line))
    return out


def show(parts):
    out = []
    for p in parts:
        if p[0] == "file":
            out.append("file: " + p[1])
        elif p[0] == "pair":
            out += ["old: " + p[1], "new: " + p[2] if p[2] else "new:"]
        else:
            out.append(p[1])
    return "\n".join(out)


def balanced(ts):
    depth = 0
    for t in ts:
        if t[0] in OPEN and len(t[0]) == 1:
            depth += 1
        elif t[0] in CLOSE and len(t[0]) == 1:
            depth -= 1
            if depth < 0:
                return False
    return depth == 0


def hunk(xs, zs):
    n = min(len(xs), len(zs))
    i = 0
    while i < n and xs[i][0] == zs[i][0]:
        i += 1
    k = 0
    while k < n - i and xs[len(xs) - 1 - k][0] == zs[len(zs) - 1 - k][0]:
        k += 1
    return i, len(xs) - k, len(zs) - k


def turn_pair(trees, path, a_raw, g, old, new):
    """Of OLD's text, NEW's text and a pair for the first: the pair for the second, doubts, OLD's text behind it."""
    if a_raw.count(old) != 1:
        return None, [f"stands {a_raw.count(old)} times in OLD"], a_raw
    z_raw = a_raw.replace(old, new)
    # the words and signs that stand there, outside comments
    here = frozenset(t[0] for t in tokens(no_comments(g)) if t[3] in ("id", "mix", "op"))
    # a line that is the same in both trees, and words that are spelled the same: nothing to turn
    at = a_raw.index(old)
    line = a_raw[a_raw.rfind("\n", 0, at) + 1 : (a_raw + "\n").index("\n", at)]
    if g.count(old) == 1 and ("\n" + g + "\n").count("\n" + line + "\n") == 1 and newer_form(path, new) == new:
        # the lines of a text of code that goes on over lines are bytes, not names
        if path.endswith(".rt") and line.endswith("\\"):
            return (old, new), [], z_raw
        if trees.respell(path, old, "", here)[0] == old and trees.respell(path, new, "", here) == (new, []):
            return (old, new), [], z_raw
    a, z = newer_form(path, a_raw), newer_form(path, z_raw)
    known = trees.aligned.get(path)
    if known and known[0] == a and known[1] == g:
        xs, ys, same, _ = known[2]
    else:
        xs, ys, same, _ = align(a, g)
    zs = tokens(z)
    i, j, l = hunk(xs, zs)
    if i == j and i == l:
        return None, ["changes nothing in the newer form"], z_raw
    # grown until the tokens beside it are found in NEW, and its brackets are closed
    for _ in range(400):
        left = i == 0 or i - 1 in same
        right = j == len(xs) or j in same
        if not left:
            i -= 1
            continue
        if not right:
            j, l = j + 1, l + 1
            continue
        if i == j or i == l:
            # what is put in or taken out takes the token in front along, if that is on its line
            one, ts, k = (z, zs, i) if i == j else (a, xs, i)
            if i > 0 and (j == len(xs) or "\n" not in one[ts[k - 1][2] : ts[k][1]]):
                i -= 1
            else:
                j, l = j + 1, l + 1
            continue
        lo = same[i - 1] + 1 if i else 0
        hi = same[j] if j < len(xs) else len(ys)
        if not (balanced(xs[i:j]) and balanced(zs[i:l]) and balanced(ys[lo:hi])) or lo >= hi:
            depth, need_left = 0, False
            for ts in (xs[i:j], zs[i:l], ys[lo:hi]):
                d = 0
                for t in ts:
                    d += (t[0] in "([{" ) - (t[0] in ")]}")
                    need_left |= d < 0
            if (need_left or lo >= hi) and i > 0:
                i -= 1
            else:
                j, l = j + 1, l + 1
            if j > len(xs):
                return None, ["brackets"], z_raw
            continue
        break
    else:
        return None, ["no place found"], z_raw
    doubts = []
    was, _ = trees.respell(path, a[xs[i][1] : xs[j - 1][2]])
    line = a[a.rfind("\n", 0, xs[i][1]) + 1 :]
    imported = line.startswith(("use ", "pub use ", "ghost use "))
    become, unsure = trees.respell(path, z[zs[i][1] : zs[l - 1][2]], zs[i - 1][0] if i else "", here, imported)
    s, e = ys[lo][1], ys[hi - 1][2]
    now = g[s:e]
    if [t[0] for t in tokens(was)] != [t[0] for t in tokens(now)]:
        doubts.append(f"OLD's {was!r} is NEW's {now!r}")
    # a word that is not changed by the pair needs no care
    kept = {t[0] for t in ys[lo:hi]}
    unsure = [w for w in unsure if w not in kept]
    if unsure:
        doubts.append("no spelling for " + ", ".join(unsure))
    become = re.sub(r"\s*\n\s*", " ", become)
    # grown to what the older edit said, then until it stands once
    line_s, line_e = g.rfind("\n", 0, s) + 1, g.find("\n", e)
    line_e = len(g) if line_e < 0 else line_e
    if "\n" in now:
        return None, doubts + [f"goes over lines: {now!r} -> {become!r}"], z_raw
    o, w = tokens(old), tokens(new)
    cp = 0
    while cp < min(len(o), len(w)) and o[cp][0] == w[cp][0]:
        cp += 1
    cs = 0
    while cs < min(len(o), len(w)) - cp and o[-1 - cs][0] == w[-1 - cs][0]:
        cs += 1
    first, last = lo, hi - 1
    while lo - first < cp and first > 0 and ys[first - 1][1] >= line_s:
        first -= 1
    while last - hi + 1 < cs and last + 1 < len(ys) and ys[last + 1][2] <= line_e:
        last += 1
    while g.count(g[ys[first][1] : ys[last][2]]) != 1:
        more_right = last + 1 < len(ys) and ys[last + 1][2] <= line_e
        more_left = first > 0 and ys[first - 1][1] >= line_s
        if more_right:
            last += 1
        elif more_left:
            first -= 1
        else:
            break
    p, q = ys[first][1], ys[last][2]
    if g.count(g[p:q]) != 1:
        p, q = line_s, line_e
    text = g[p:q]
    made = g[p:s] + become + g[e:q]
    if g.count(text) != 1:
        # a line that stands more than once: no text of one line can name it
        return None, doubts + [f"{text!r} stands {g.count(text)} times in NEW"], z_raw
    if text == made:
        doubts.append("changes nothing")
    return (text, made), doubts, z_raw


def turn_edit(trees, crate, text):
    parts, doubts, path = [], [], None
    olds, news = {}, {}
    for p in parse(text):
        if p[0] == "file":
            path = os.path.join("crates", crate, p[1])
            if path not in olds:
                if not os.path.isfile(os.path.join(trees.new, path)):
                    return None, [f"NEW has no {path}"]
                olds[path] = read(os.path.join(trees.old, path))
                news[path] = read(os.path.join(trees.new, path))
            parts.append(p)
        elif p[0] == "pair":
            pair, more, olds[path] = turn_pair(trees, path, olds[path], news[path], p[1], p[2])
            doubts += more
            if pair is None:
                return None, doubts
            news[path] = news[path].replace(pair[0], pair[1])
            parts.append(("pair",) + pair)
        else:
            parts.append(p)
    return show(parts), doubts


def apply(root, crate, text):
    """What is wrong with an edit in a tree, and the texts that it makes."""
    texts, path, wrong = {}, None, []
    for p in parse(text):
        if p[0] == "file":
            path = os.path.join("crates", crate, p[1])
            if path not in texts:
                if not os.path.isfile(os.path.join(root, path)):
                    return [f"no file {path}"], {}
                texts[path] = read(os.path.join(root, path))
        elif p[0] == "pair":
            if path is None or not p[1]:
                wrong.append("a pair without a file or an 'old:'")
                continue
            n = texts[path].count(p[1])
            if n != 1:
                wrong.append(f"{p[1]!r} stands {n} times in {path}")
            if p[1] == p[2]:
                wrong.append(f"{p[1]!r} is not changed")
            texts[path] = texts[path].replace(p[1], p[2])
    return wrong, texts


def edits(root, only=()):
    for crate in sorted(os.listdir(os.path.join(root, "crates"))):
        folder = os.path.join(root, "crates", crate, "must-fail")
        for f in sorted(os.listdir(folder)) if os.path.isdir(folder) else ():
            if f.endswith(".edit") and (not only or f"{crate}/{f}" in only or f"{crate}/{f[:-5]}" in only):
                yield crate, f, os.path.join(folder, f)


def by_hand():
    """The table: of each edit ('checked', WHY) or ('text', LINES)."""
    out, name = {}, None
    if os.path.isfile(BY_HAND):
        for line in read(BY_HAND).split("\n"):
            if line.startswith("edit: "):
                name = line[6:].strip()
                out[name] = []
            elif name and line.startswith(("file: ", "old: ", "new:", "checked: ", "newer:")):
                out[name].append(line)
    return out


def turn(old, new, only, write):
    trees, hand = Trees(old, new), by_hand()
    turned, handed, look, left = 0, 0, [], []
    for crate, f, path in edits(old, only):
        name = f"{crate}/{f}"
        text = read(path)
        made, doubts = None, []
        entry = hand.get(name)
        checked = entry and any(l.startswith("checked: ") for l in entry)
        lines = [l for l in entry or () if not l.startswith("checked: ")]
        head = [p[1] for p in parse(text) if p[0] == "other" and p[1]]
        if lines and not any(l.startswith("newer:") for l in entry):
            text = "\n".join(head + lines) + "\n"
        if lines and any(l.startswith("newer:") for l in entry):
            lines = [l for l in lines if not l.startswith("newer:")]
            home = os.path.join("crates", crate, next(l[6:] for l in lines if l.startswith("file: ")))

            def spelled(m):
                w, sure = trees.word(home, m.group(1))
                if not sure:
                    doubts.append(f"no spelling for {w}")
                return w

            made = "\n".join(head + [re.sub(r"\{\{([^{}]+)\}\}", spelled, l) for l in lines]) + "\n"
            handed += 1
        else:
            made, doubts = turn_edit(trees, crate, text)
            if entry and made is not None:
                handed += 1
                doubts = [d for d in doubts if not checked or d.startswith("changes nothing")]
            elif not doubts:
                turned += 1
        wrong = apply(new, crate, made)[0] if made else []
        if made is None:
            left.append((name, doubts))
        elif doubts or wrong:
            look.append((name, doubts + wrong))
        if made is not None and write:
            target = os.path.join(new, "crates", crate, "must-fail", f)
            os.makedirs(os.path.dirname(target), exist_ok=True)
            with open(target, "w", encoding="utf-8", newline="") as out:
                out.write(made)
        if not write and only:
            print(f"=== {name}\n{text}---\n{made}\n")
    for name, why in look:
        print(f"look: {name}: " + "; ".join(why))
    for name, why in left:
        print(f"left: {name}: " + "; ".join(why))
    print(f"{turned} turned, {handed} by hand, {len(look)} to look at, {len(left)} left")
    return 1 if look or left else 0


def verify(new):
    seen, bad, n = {}, 0, 0
    for crate, f, path in edits(new):
        n += 1
        wrong, texts = apply(new, crate, read(path))
        if not wrong:
            what = tuple(sorted(texts.items()))
            if what in seen:
                wrong.append(f"makes the same as {seen[what]}")
            seen[what] = f"{crate}/{f}"
        for w in wrong:
            print(f"bad: {crate}/{f}: {w}")
        bad += bool(wrong)
    print(f"{n} edits, {bad} bad")
    return 1 if bad else 0


def main(argv):
    if len(argv) >= 3 and argv[0] in ("turn", "look"):
        return turn(argv[1], argv[2], argv[3:], argv[0] == "turn")
    if len(argv) == 2 and argv[0] == "verify":
        return verify(argv[1])
    print(__doc__)
    return 2


if __name__ == "__main__":
    raise SystemExit(main(sys.argv[1:]))
