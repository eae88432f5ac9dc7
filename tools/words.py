#!/usr/bin/env python3
"""Writes what follows from the word list in crates/words/specs (Keyword, Word, Symbol), in crates/word_table:

    src/rows.rt             the table, and where its sections begin
    proofs/Listed           how many of each there are, and the row at which each section begins
    proofs/Sections         one law a section, which ties the rows to the list

Run it from the repository's root after a change of the list; `words.py --check` only says whether the files are what it would write. Two words with one slot are an
error: `words.py --slot` then looks for other factors, in a minute; they stand here, in word_table's specs/Slot and in crates/names. Nothing here is trusted: the check proves all of it against the list."""
import itertools
import re
import sys

LISTS, CRATE = 'crates/words/', 'crates/word_table/'
# as word_table's specs/Table and specs/Slot have them; so are the factors of short and of long texts, and where the sum of a long one starts
WIDEST, SLOTS, SHORT = 23, 512, 8
FACTORS, LONG_FACTORS, LONG_START = (16, 1, 2, 4, 32, 8), (1, 8, 1, 8, 64), 204


# ---- the list

def spec(name):
    return open(LISTS + 'specs/' + name + '.antt', encoding='utf-8').read()


def listed(file, name):
    """The entries of the list `name`. (A comment may stand between them.)"""
    body = re.sub(r'--.*', '', re.search(r'^%s =(.*?)\[\]' % name, spec(file), re.M | re.S).group(1))
    return [entry.strip().strip('"') for entry in body.split('∷') if entry.strip()]


def text_of(file, function):
    """What `function` maps each constructor to."""
    return {m.group(1).strip('()'): m.group(2) for m in re.finditer(r'^%s (.*) = "(.*)"$' % function, spec(file), re.M)}


# name in code and in laws, file of specs, list, the type of its entries, what makes a text of one (nothing: it is one)
SECTIONS = [('type', 'Keyword', 'type_keywords', 'String', ''),
            ('qualifier', 'Word', 'qualifier_words', 'Word', 'word_text'),
            ('jump', 'Word', 'jump_words', 'Word', 'word_text'),
            ('bool', 'Word', 'bool_words', 'Word', 'word_text'),
            ('lone', 'Word', 'lone_words', 'Word', 'word_text'),
            ('unary', 'Symbol', 'unary_operators', 'Symbol', 'symbol_text'),
            ('binary', 'Symbol', 'binary_operators', 'Symbol', 'symbol_text'),
            ('assignment', 'Symbol', 'assignment_operators', 'Symbol', 'symbol_text')]

rows, starts, sizes, words_count = [], {}, {}, 0
for name, file, entries, kind, function in SECTIONS:
    starts[name], sizes[name] = len(rows), len(listed(file, entries))
    rows += [text_of(file, function)[e] if function else e for e in listed(file, entries)]
    if file != 'Symbol':
        words_count = len(rows)
words = rows[:words_count]

# what a definition must unfold for all texts to be seen
TEXTS = ('texts fixed_words type_keywords other_words qualifier_words jump_words bool_words lone_words word_text'
         ' operators symbol_text unary_operators binary_operators assignment_operators')


# ---- what follows from it

def is_long(word):
    return len(word) > SHORT


def slot_bytes(word):
    """The bytes that a word's slot goes by. Of a short one the first and the fourth to eighth (or the last, where there are fewer); of a long one the first, the
    second, the eighth, the seventh from its end and the last but one."""
    byte = word.encode()
    if is_long(word):
        return byte[0], byte[1], byte[7], byte[-7], byte[-2]
    return [byte[min(i, len(byte) - 1)] for i in (0, 3, 4, 5, 6, 7)]


def slot(word, factors):
    return sum(factor * byte for factor, byte in zip(factors, slot_bytes(word))) % SLOTS


def apart(long, factors):
    """The slots of the short words, or of the long ones, with these factors; nothing if two have one."""
    taken = [slot(word, factors) for word in words if is_long(word) == long]
    return set(taken) if len(set(taken)) == len(taken) else None


def free_starts(short, long):
    """Where the slots of long words may start and meet none of the short words' slots."""
    return [start for start in range(SLOTS) if not any((start + at) % SLOTS in short for at in long)]


if sys.argv[1:] == ['--slot']:
    powers = [1 << k for k in range(9)]
    longs = [(factors, taken) for factors in itertools.product(powers, repeat=5) if (taken := apart(True, factors))]
    for factors in itertools.product(powers, repeat=6):
        if short := apart(False, factors):
            for long_factors, long in longs:
                for start in free_starts(short, long):
                    print(factors, long_factors, start)
    sys.exit()
slot_of = {word: (LONG_START + slot(word, LONG_FACTORS)) % SLOTS if is_long(word) else slot(word, FACTORS) for word in words}
row_of = {slot_of[word]: row for row, word in enumerate(words)}
if len(row_of) < len(words):
    sys.exit('two fixed words have one slot')
slots = [row_of.get(at, rows.index('+')) for at in range(SLOTS)]
flaws = [0 if re.fullmatch('[A-Za-z0-9_]', chr(byte)) else 1 for byte in range(256)]


# ---- the files

def write(name, text):
    """Writes the file; with `--check` only says whether it is what would be written."""
    if sys.argv[1:] != ['--check']:
        open(CRATE + name, 'w', encoding='utf-8').write(text)
    elif open(CRATE + name, encoding='utf-8').read() != text:
        sys.exit(CRATE + name + ' is not what tools/words.py writes')


def constants():
    plural = {'type': 'TYPES', 'qualifier': 'QUALIFIERS', 'jump': 'JUMPS', 'bool': 'BOOLS'}
    named = [(plural.get(n, n.upper()), at) for n, at in starts.items() if n != 'lone'] + [('ROWS', len(rows))]
    return '\n\n'.join('pub const %s: usize = %d;' % c for c in sorted(named, key=lambda c: c[1]))


def table():
    return '\\\n'.join('    %s\\x%02x' % (row.ljust(WIDEST), len(row)) for row in rows)


def numbers(ns, width=32):
    return '\\\n'.join('    ' + ''.join('\\x%02x' % n for n in ns[k:k + width]) for k in range(0, len(ns), width))


first_slot = len(rows) * (WIDEST + 1)
write('src/rows.rt', f'''// The table's bytes, and where its sections begin. Written by tools/words.py from the word list in crates/words/specs.
pub type Words = [u8; {first_slot + SLOTS + 256}];

// The row at which each section begins, by variant from there on, and the number of rows. (The lone words between them are looked for, and written as they are.)
{constants()}

// Where the rows of the slots stand, and the flaws of the bytes.
pub const SLOTS: usize = {first_slot};

pub const FLAWS: usize = {first_slot + SLOTS};

// A row a line: the text, blanks, and the text's length. Then the row for each slot, and the flaws of each byte.
pub static TABLE: Words = *b"\\
{table()}\\
{numbers(slots)}\\
{numbers(flaws)}";
''')


def number(name, says, n):
    return f'-- {says}\nabbrev pub {name} : ℕ\n{name} = {n}\n'


write('proofs/Listed.antt', '\n'.join([
    '-- How much there is of each, and the row at which each section begins. Written by tools/words.py. Assumes nothing.\nuse Prim.Native.Nat.{ℕ}\n',
    number('types_count', 'how many type keywords there are', sizes['type']),
    number('words_count', 'how many fixed words there are, these included', words_count),
    number('rows_count', 'how many rows the table has', len(rows)),
    number('first_slot', 'how many bytes these are, so where the slots begin', first_slot),
    number('first_flaw', 'and where the flaws of the bytes begin', first_slot + SLOTS),
    *(number(f'first_{name}', f'the section {entries}', starts[name]) for name, _, entries, _, _ in SECTIONS if name != 'type')]))


def row_law(name, file, entries, kind, function):
    """What stands in the rows of a section, by variant."""
    n, at = sizes[name], starts[name]
    if not function:
        return (f'pub {name}_row : (v : ℕ) → v < {n} → text_at v ≡ bytes (get_or {entries} v "")\nunfolding {TEXTS}\n'
                f'{name}_row v h = ap text_at (sym (zero-add v)) ∙ section_text 0 {n} {entries} refl v h\n')
    return (f'pub {name}_row : (v : ℕ) → v < {n} → (d : {kind}) → text_at ({at} + v) ≡ bytes ({function} (get_or {entries} v d))\nunfolding {TEXTS}\n'
            f'{name}_row v h d = section {function} {at} {entries} refl v h d\n')


def apart_law(name, entries, kind, function):
    """No two rows of a section have one text."""
    n, at = sizes[name], starts[name]
    return (f'pub {name}_apart : (j k : ℕ) → j < {n} → k < {n} → text_at ({at} + j) ≡ text_at ({at} + k) → j ≡ k\n'
            f'unfolding different one_of same {TEXTS}\n{name}_apart = rows_apart {at} (map {function} {entries}) refl tt\n')


write('proofs/Sections.antt', '\n'.join([
    '''-- The rows by what they hold: a law for each section, over the variant; and that no two rows of a section have one text. Written by
-- tools/words.py. Assumes nothing.
use mathlib.Core.Path.{◌≡◌, refl, sym, ◌∙◌, ap}
use mathlib.Core.List.{map}
use Prim.Native.Nat.{ℕ, ◌+◌, ◌<◌}
use native.Mathlib.Nat.{zero-add}
use lib.ListN.{get_or}
use Rattle.words.specs.Bytes.{bytes}
use Rattle.words.specs.Word.{Word, word_text, qualifier_words, jump_words, bool_words, lone_words, other_words}
use Rattle.words.specs.Symbol.{Symbol, symbol_text, unary_operators, binary_operators, assignment_operators}
use Rattle.words.specs.Keyword.{type_keywords, fixed_words}
use Rattle.words.specs.Form.{same, one_of}
use Rattle.word_table.specs.Table.{operators, texts, text_at}
use Rattle.word_table.proofs.Places.{section_text, section}
use Rattle.word_table.proofs.Rule.{different, words_different, rows_apart}
''',
    *(row_law(*s) for s in SECTIONS),
    f'''pub word_apart : (j k : ℕ) → j < {words_count} → k < {words_count} → text_at j ≡ text_at k → j ≡ k
unfolding {TEXTS}
word_apart j k hj hk e = rows_apart 0 fixed_words refl words_different j k hj hk (ap text_at (zero-add j) ∙ e ∙ ap text_at (sym (zero-add k)))
''',
    *(apart_law(name, entries, kind, function) for name, file, entries, kind, function in SECTIONS if file == 'Symbol')]))
