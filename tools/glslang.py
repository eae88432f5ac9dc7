#!/usr/bin/env python3
"""glslang.py [SEED [CASES]]: asks an outside reader, glslangValidator, how it reads what the program `print` (crates/print) writes. Without arguments: 1 and 5000.

Outside the gate: it needs Debian's glslang-tools besides the kit. Three parts; the first two have so many expressions each, grown from the seed alone:

    sound   any sound expressions (document 01); glslang must find no syntax error. It checks types and names too, and these are of no type: such errors are counted.
    typed   sound expressions over int and bool; they must compile, and the tree that glslang shows must be the tree that was grown.
    types   a uniform of each type word but void (document 01; document 02, #102); they must compile, and glslang must show each with its type. Words that stay names
            (some of Vulkan's, and two that the Rust module misspells) are names of uniforms there.

Expressions stand in the main functions of units, which are printed under OPEN and two other settings with spaces around binary operators. Then these two parts come
again, with settings that ask for needed spaces (byte 21; document 02, #106): EXPORT, OPEN with that byte, and two others. There minus over Dec, plus over Inc and Dot
over an IntConst are sound too. The uniforms are printed in OPEN, TIGHT and EXPORT. Each part first tries a case that must fail. Ends with 1 if anything failed, 2 if
there is no glslangValidator."""
import collections
import os
import random
import re
import shutil
import subprocess
import sys
from typing import NamedTuple

import print_runs
import records

READER = "glslangValidator"

OPEN = bytes([2, 4, 1, 1, 1, 1, 1, 1, 2, 2, 2, 2, 1, 2, 2, 0, 1, 1, 1, 1, 1])
GREATEST = bytes([2, 16, 1, 1, 1, 1, 1, 1, 2, 2, 2, 2, 1, 2, 2, 1, 1, 1, 1, 1, 1])
OPERATOR_SPACES = 12
# A byte 21 of 1 asks for needed spaces. EXPORT is TIGHT with it.
NEEDED_SPACES = b"\1"
EXPORT = print_runs.TIGHT + NEEDED_SPACES

VARIABLE, INT, UINT, BOOL, FLOAT, DOUBLE, UNARY, BINARY, TERNARY, ASSIGNMENT, BRACKET, CALL, DOT, POST_INC, POST_DEC, COMMA = range(1, 17)
TYPE, KEYWORD, TYPE_NAME, ARRAY, DIMENSION = 20, 21, 22, 24, 25
UNARY_OPERATORS, BINARY_OPERATORS, ASSIGNMENT_OPERATORS = range(6), range(19), range(11)
INC, DEC, PLUS, MINUS, NOT, COMPLEMENT = UNARY_OPERATORS
ADD, SUBTRACT = 14, 15
# Unary operators over one another that are sound only with needed spaces.
ONLY_SPACED = {(MINUS, DEC), (PLUS, INC)}


def type_words():
    """The type keywords by variant, off the list that the program's table is proved against."""
    with open(os.path.join(print_runs.ROOT, "crates/words/specs/Keyword.antt"), encoding="utf-8") as file:
        listed = re.search(r"^type_keywords =(.*?)\[\]", file.read(), re.M | re.S)[1]
    return re.findall(r'"(\w+)"', re.sub("--.*", "", listed))


TYPE_WORDS = type_words()


class Node(NamedTuple):
    """A record and its children; a field that its kind has not is left as it is."""

    kind: int
    variant: int = 0
    children: tuple = ()
    text: str = ""
    number: int = 0


def variable(name):
    return Node(VARIABLE, text=name)


def constant(number):
    return Node(INT, number=number)


def type_of(word, *dimensions):
    """The type of a keyword or of a struct's name, with dimensions or without; None for an unsized one."""
    bare = Node(KEYWORD, TYPE_WORDS.index(word)) if word in TYPE_WORDS else Node(TYPE_NAME, text=word)
    if not dimensions:
        return Node(TYPE, children=(bare,))
    sizes = tuple(Node(DIMENSION) if size is None else Node(DIMENSION, 1, (size,)) for size in dimensions)
    return Node(TYPE, 1, (bare, Node(ARRAY, children=sizes)))


def depth(node):
    """How many records stand above each other."""
    return 1 + max(map(depth, node.children), default=0)


def lines(node):
    """A node's records, as tools/records.py reads them."""
    count = {CALL: len(node.children) - 1, ARRAY: len(node.children)}.get(node.kind, 0)
    field = f'"{node.text}"' if node.text else node.number
    return [f"{node.kind} {node.variant} {count} {field}"] + [line for child in node.children for line in lines(child)]


# Units


def declared_variable(name, word, *dimensions):
    return ["47 1", "42", f'43 1 0 "{name}"', "31", *lines(type_of(word, *dimensions))]


def declared_struct(name, fields):
    written = [line for field, word in fields.items() for line in ["26 0 1", *lines(type_of(word)), f'27 0 0 "{field}"']]
    return ["47 1", "42", "43", "31", "20", f'23 1 {len(fields)} "{name}"', *written]


def declared_function(name, word, *words):
    parameters = [line for parameter in words for line in ["41", *lines(type_of(parameter))]]
    return ["47", f'40 0 {len(words)} "{name}"', "31", *lines(type_of(word)), *parameters]


def unit(declarations, expressions):
    """The records of a unit: declarations, and a main function with a statement for each expression."""
    written = [f"80 0 {len(declarations) + 1}"] + sum(declarations, [])
    written += ["81", '40 0 0 "main"', "31", *lines(type_of("void")), f"60 0 {len(expressions)}"]
    for expression in expressions:
        written += ["61 1", *lines(expression)]
    return "\n".join(written)


def printed(program, declarations, expressions, settings):
    """The unit's text, as the program writes it."""
    tree_rec, names_txt = records.read(unit(declarations, expressions))
    text = print_runs.written(program, {"tree_rec": tree_rec, "names_txt": names_txt, "settings_rec": settings}).decode()
    if re.match(r"refused|status", text):
        sys.exit(f"glslang: the program does not print a unit: {text}")
    return text


def statements(text):
    """The expressions' texts in a unit printed under OPEN."""
    body = text[text.index("void main() {\n") :].split("\n")[1:]
    return [line.strip()[:-1] for line in body[: body.index("}")]]


def filled(grow, declarations, most):
    """So many expressions as a unit has room for, at most `most`. Texts are guessed: all names and ten bytes a record; where that falls short the program refuses."""
    expressions, names = [], set()
    records_left, room = print_runs.MOST_RECORDS - len(unit(declarations, []).split("\n")) - 10, print_runs.ROOM - 2000
    while len(expressions) < most:
        expression = grow()
        written = lines(expression)
        texts = [match for line in written for match in re.findall(r'"(.*)"', line)]
        names.update(texts)
        records_left -= len(written) + 1
        room -= sum(map(len, texts)) + 10 * len(written) + 20
        if records_left < 0 or room < 0 or sum(map(len, names)) > print_runs.MOST_NAMES - 1000:
            break
        expressions.append(expression)
    return expressions


def settings_of_run(dice, spaced):
    """OPEN, and two others with spaces around binary operators; or EXPORT, OPEN and two others, all with needed spaces."""
    others = [bytearray(dice.randint(0, greatest) for greatest in GREATEST) for _ in range(2)]
    if spaced:
        return [EXPORT, *(bytes(settings) + NEEDED_SPACES for settings in [OPEN, *others])]
    for other in others:
        other[OPERATOR_SPACES] = 1
    return [OPEN, *map(bytes, others)]


def open_settings(spaced):
    """OPEN, with needed spaces or without."""
    return OPEN + NEEDED_SPACES if spaced else OPEN


def asked(text, *options):
    """What glslang says of a text."""
    run = subprocess.run([READER, *options, "--stdin", "-S", "frag"], input="#version 460\n" + text, capture_output=True, text=True, check=False)
    return run.stdout + run.stderr + (f"\nended by signal {-run.returncode}" if run.returncode < 0 else "")


class Grower:
    """What both growers have: dice, whether texts will have needed spaces, and trees that are at times as deep as they can be."""

    def __init__(self, dice, spaced):
        self.dice, self.spaced, self.deep = dice, spaced, False

    def case(self):
        """An expression that fits into a statement of main, which is at depth 4. The number of its nodes is only aimed at."""
        while True:
            self.deep = self.dice.random() < 0.05
            expression = self.grown(self.dice.randint(20, 400) if self.deep else 1 + min(100, int(self.dice.expovariate(1 / 12))))
            if depth(expression) <= print_runs.DEEPEST - print_runs.STATEMENT:
                return expression

    def unary_operator(self, operators, operand):
        """One of the operators that a sound expression may have over an operand. With needed spaces all may be, and those that only these allow are preferred."""
        below = operand.variant if operand.kind == UNARY else None
        only_spaced = [operator for operator in operators if (operator, below) in ONLY_SPACED]
        if self.spaced:
            return self.dice.choice(only_spaced or operators)
        return self.dice.choice([operator for operator in operators if operator not in only_spaced])

    def sizes(self, total, parts):
        """Random sizes of so many parts, each at least 1, of a total."""
        cuts = sorted(self.dice.sample(range(1, total), parts - 1))
        if self.deep:
            first = self.dice.randrange(parts)
            cuts = [*range(1, first + 1), *range(total - parts + first + 1, total)]
        return [end - start for start, end in zip([0, *cuts], [*cuts, total])]


def only_spaced(node):
    """How many parts of an expression only needed spaces allow."""
    child = node.children[0] if node.children else node
    here = node.kind == UNARY and child.kind == UNARY and (node.variant, child.variant) in ONLY_SPACED or node.kind == DOT and child.kind == INT
    return here + sum(map(only_spaced, node.children))


def pick(dice, usual, rare):
    """One of the usual, now and then one of the rare."""
    return dice.choice(rare if dice.random() < 0.02 else usual)


# Part 1: any sound expressions

STRUCTS = {"T": {"i": "int", "q": "float"}, "Struct_2": {"T": "T", "v": "vec3"}}
DECLARED = [declared_struct(name, fields) for name, fields in STRUCTS.items()] + [
    declared_variable("a", "int"),
    declared_variable("b", "uint"),
    declared_variable("x", "float"),
    declared_variable("p", "bool"),
    declared_variable("v", "vec4"),
    declared_variable("m", "mat3"),
    declared_variable("s", "T"),
    declared_variable("A", "int", constant(4)),
    declared_function("f", "int", "int"),
    declared_function("g", "float", "vec3", "bool"),
    declared_function("h", "void"),
]
# Type words of extensions, which are names in 4.60.
EXTENSION_WORDS = ["int64_t", "float16_t"]
# Declared, built in and unknown names, and some that begin or end like numbers, words and suffixes. None that the preprocessor replaces: by document 01
# `a.__LINE__` is sound, but by 3.3 it reads as `a.2`; GL_core_profile and the names of extensions likewise.
NAMES = "a b x p v m s A f g h sin texture gl_FragCoord undeclared _ _1 u lf e5 x1 If int_ structure truefalse length T_ main0".split() + EXTENSION_WORDS
LONG_NAMES = ["x" * print_runs.MOST_LETTERS]
FIELDS = NAMES + ["i", "q", "xyz", "rgba", *STRUCTS]
NUMBERS = [0, 1, 7, 8, 10, 2**31 - 1]
FLOATS = ["0", "1", "10", "0.5", "0.001", "12.25", "3.14159"]
LONG_FLOATS = ["4" * 400, "0." + "0" * 397 + "7", "9" * 200 + "." + "1" * 199]

LEAVES = range(VARIABLE, UNARY)
# The fewest nodes of an expression of each other kind, and how often it is taken.
FEWEST = {UNARY: 2, BINARY: 3, TERNARY: 4, ASSIGNMENT: 3, BRACKET: 3, CALL: 2, DOT: 2, POST_INC: 2, POST_DEC: 2, COMMA: 3}
WEIGHT = {UNARY: 3, BINARY: 5, TERNARY: 2, ASSIGNMENT: 2, BRACKET: 2, CALL: 3, DOT: 1, POST_INC: 1, POST_DEC: 1, COMMA: 1}
# What a sound expression may not have there (document 01): as a Dot's operand, without needed spaces and with them, as an assignment's target, as a sized
# dimension, as an argument.
NO_OPERAND_OF_DOT = {INT, UINT, FLOAT, DOUBLE}, {UINT, FLOAT, DOUBLE}
NO_TARGET = {BINARY, TERNARY, ASSIGNMENT, COMMA}
NO_DIMENSION = {ASSIGNMENT, COMMA}
NO_ARGUMENT = {COMMA}


class Sound(Grower):
    """Grows sound expressions of any kind."""

    def grown(self, size):
        return self.expression(size)

    def expression(self, size, without=()):
        if size == 1:
            return self.leaf(self.dice.choice([kind for kind in LEAVES if kind not in without]))
        kinds = [kind for kind, fewest in FEWEST.items() if fewest <= size and kind not in without]
        kind = self.dice.choices(kinds, [WEIGHT[kind] for kind in kinds])[0]
        if kind == CALL:
            return self.call(size)
        if kind == UNARY:
            operand = self.expression(size - 1)
            return Node(UNARY, self.unary_operator(UNARY_OPERATORS, operand), (operand,))
        if kind in (DOT, POST_INC, POST_DEC):
            operand = self.expression(size - 1, NO_OPERAND_OF_DOT[self.spaced] if kind == DOT else ())
            return Node(kind, 0, (operand,), self.dice.choice(FIELDS) if kind == DOT else "")
        parts = self.sizes(size - 1, 3 if kind == TERNARY else 2)
        children = tuple(self.expression(part, NO_TARGET if kind == ASSIGNMENT and i == 0 else ()) for i, part in enumerate(parts))
        return Node(kind, self.dice.choice({BINARY: BINARY_OPERATORS, ASSIGNMENT: ASSIGNMENT_OPERATORS}.get(kind, [0])), children)

    def leaf(self, kind):
        if kind == VARIABLE:
            return variable(pick(self.dice, NAMES, LONG_NAMES))
        if kind == BOOL:
            return Node(BOOL, self.dice.randrange(2))
        if kind in (FLOAT, DOUBLE):
            return Node(kind, text=pick(self.dice, FLOATS, LONG_FLOATS))
        return Node(kind, number=self.dice.choice(NUMBERS + [2**32 - 1] * (kind == UINT)))

    def call(self, size):
        """A call of a name, a struct's name or a type. Variables get no structs' names elsewhere: glslang goes by what is declared."""
        parts = self.sizes(size - 1, self.dice.randint(1, min(4, size - 1)))
        word, dimensions = self.dice.choice([self.dice.choice(TYPE_WORDS), *STRUCTS]), []
        if self.dice.random() < 0.3:
            dimensions = [self.dice.choice([None, self.expression(part, NO_DIMENSION)]) for part in parts[: self.dice.randint(1, len(parts))]]
        callee = type_of(word, *dimensions)
        if not dimensions and self.dice.random() < 0.5:
            callee = variable(self.dice.choice([*NAMES, *STRUCTS]))
        parts = [] if size == 2 else parts[len(dimensions) :]
        return Node(CALL, 0, (callee, *(self.expression(part, NO_ARGUMENT) for part in parts)))


def unsized(text):
    """Whether one of the dimensions that a text begins with is unsized."""
    level = 0
    for at, letter in enumerate(text):
        level += {"[": 1, "]": -1}.get(letter, 0)
        if level == 1 and text[at : at + 2] == "[]":
            return True
        if level == 0 and letter != "]":
            return False
    return False


def misread(text):
    """Whether glslang's scanner is known to misread an expression. Behind a type word but atomic_uint, up to the next `(`, `)`, `,` or `=`, it takes a struct's name for
    an identifier, which can't have an unsized dimension: "syntax error, unexpected RIGHT_BRACKET". The smallest such texts are `int[T[]()]()` and, since type
    words of extensions count, even as fields, `int64_t * T[]()` and `a.int64_t * T[]()`. Chapter 9 reads all of them."""
    behind_type = False
    for match in re.finditer(r"(\.?)\b([A-Za-z_]\w*)|[(),]| = ", text):
        field, word = match.groups()
        if word in STRUCTS and not field:
            if behind_type and unsized(text[match.end() :]):
                return True
            behind_type = True
        elif word in TYPE_WORDS + EXTENSION_WORDS and word != "atomic_uint":
            behind_type = True
        elif word is None:
            behind_type = False
    return False


REACHED = variable("reached")


def flaw(program, expressions, settings):
    """How glslang fails to read expressions (nothing if it does), and how many other errors it finds. With -C it reads on behind those, up to an unknown name."""
    said = asked(printed(program, DECLARED, [*expressions, REACHED], settings), "-C")
    errors = [line for line in said.split("\n") if line.startswith("ERROR: 0:")]
    wrong = [line for line in errors if "syntax error" in line] + re.findall("ended by signal .*", said)
    if not wrong and not any("'reached' : undeclared identifier" in line for line in errors):
        wrong = ["the end of the unit was not reached"]
    return "; ".join(wrong), len(errors) - 1


def blame(program, expressions, settings, wrong):
    """Writes the first expression of a unit that glslang fails to read."""
    print(f"glslang: sound: settings {settings.hex()}: {wrong}")
    for expression in expressions:
        if flaw(program, [expression], settings)[0]:
            print(f"    {statements(printed(program, DECLARED, [expression], OPEN))[0]}")
            break


def without_misread(program, grown, settings):
    """The expressions without those that glslang's scanner misreads. Each of these must be a syntax error to it, so that no other is left out."""
    kept = []
    for expression, text in zip(grown, statements(printed(program, DECLARED, grown, settings))):
        if not misread(text):
            kept.append(expression)
        elif "syntax error" not in flaw(program, [expression], settings)[0]:
            sys.exit(f"glslang: sound: left out without need: {text}")
    return kept


def plant(program, expressions, settings):
    """Ends the program unless glslang finds a syntax error behind expressions, whose errors must not end the reading."""
    planted = Node(ASSIGNMENT, 0, (Node(BINARY, ADD, (variable("a"), variable("b"))), variable("a")))
    if "syntax error" not in flaw(program, [*expressions, planted], settings)[0]:
        sys.exit("glslang: sound: the planted syntax error `a + b = a` was not found")
    dot = Node(DOT, 0, (constant(1),), "x")
    if "syntax error" not in flaw(program, [dot], OPEN)[0] or flaw(program, [dot], EXPORT)[0]:
        sys.exit("glslang: sound: the Dot over 1 must be a syntax error under OPEN, `1.x`, and none under EXPORT, `1 .x`")


def part_sound(program, seed, cases, spaced):
    """Part 1; whether all went well."""
    dice, count = random.Random(f"{seed} sound"), collections.Counter()
    grower = Sound(dice, spaced)
    while count["expressions"] < cases:
        grown = filled(grower.case, DECLARED, cases - count["expressions"])
        expressions = without_misread(program, grown, open_settings(spaced))
        if not count["shaders"]:
            plant(program, expressions, open_settings(spaced))
        for settings in settings_of_run(dice, spaced):
            wrong, errors = flaw(program, expressions, settings)
            count.update({"shaders": 1, "flaws": bool(wrong), "errors": errors})
            if wrong:
                blame(program, expressions, settings, wrong)
        count.update({"expressions": len(expressions), "left out": len(grown) - len(expressions), "only spaced": sum(map(bool, map(only_spaced, expressions)))})
    print(
        f"glslang: sound{manner(spaced)}: {count['expressions']} expressions{told(count, spaced)} in {count['shaders']} shaders, {count['flaws']} syntax errors, "
        f"{count['errors']} errors of types and names; {count['left out']} left out, which glslang's scanner misreads"
    )
    return not count["flaws"]


def manner(spaced):
    return " with needed spaces" if spaced else ""


def told(count, spaced):
    """How many expressions only needed spaces allow."""
    return f", {count['only spaced']} of them sound only so," if spaced else ""


# Part 2: typed expressions, and the trees that glslang shows

# Results and parameters. The type of an array is written as that of its elements, and an s.
FUNCTIONS = {"f": ("int", ["int"]), "g": ("int", ["bool", "Pair", "int"]), "h": ("int", []), "test": ("bool", ["int"]), "both": ("bool", ["bool", "bool"])}
VARIABLES = {"int": ["n", "k", "m"], "bool": ["p", "q"], "ints": ["list"], "bools": ["flags"], "Pair": ["pair"]}
WHOLES = ["ints", "bools", "Pair"]
FIELD = {"int": "number", "bool": "flag"}
PAIR = {name: word for word, name in FIELD.items()}
LENGTH = 4
TYPED_DECLARED = [
    declared_struct("Pair", PAIR),
    *(declared_variable(name, word) for word in ("int", "bool", "Pair") for name in VARIABLES[word]),
    *(declared_variable(name, word[:-1], constant(LENGTH)) for word in ("ints", "bools") for name in VARIABLES[word]),
    *(declared_function(name, word, *words) for name, (word, words) in FUNCTIONS.items()),
]
LOGICAL, BITWISE, EQUALITY, ORDER, ARITHMETIC = range(0, 3), range(3, 6), range(6, 8), range(8, 12), range(12, 19)
# What glslang calls the operators in its trees.
UNARY_NAMES = ["Pre-Increment", "Pre-Decrement", "", "Negate value", "Negate conditional", "Bitwise not"]
BINARY_NAMES = ["logical-or", "logical-xor", "logical-and", "inclusive-or", "exclusive-or", "bitwise and", "Compare Equal", "Compare Not Equal", "Compare Less Than"]
BINARY_NAMES += ["Compare Greater Than", "Compare Less Than or Equal", "Compare Greater Than or Equal", "left-shift", "right-shift", "add", "subtract"]
BINARY_NAMES += ["component-wise multiply", "divide", "mod"]
ASSIGNMENT_NAMES = ["move second child to first child"]
ASSIGNMENT_NAMES += [name + " second child into first child" for name in "multiply,divide,mod,add,subtract,left shift,right shift,and,exclusive or,or".split(",")]
OTHER_NAMES = {TERNARY: "Test condition and select", POST_INC: "Post-Increment", POST_DEC: "Post-Decrement", COMMA: "Comma"}


def without_trace(node):
    """Whether glslang leaves a node out: a unary plus, and the field of an int, which is that int."""
    return node.kind == UNARY and node.variant == PLUS or node.kind == DOT and node.children[0].kind == INT


def folded(node):
    """Whether glslang sees a constant: a literal, also below what it leaves out."""
    return node.kind in (INT, BOOL) or without_trace(node) and folded(node.children[0])


class Typed(Grower):
    """Grows sound expressions over int and bool that need no conversion, with arrays and structs of these below. No operator but plus and comma has only constants
    below it: glslang would put the value in its place."""

    def grown(self, size):
        return self.expression(self.dice.choice(["int", "bool"]), size)

    def expression(self, word, size, without=()):
        if size < 2:
            return self.leaf(word)
        ways = [self.ternary, self.assignment] + [self.comma] * (COMMA not in without)
        if word in WHOLES:
            return self.dice.choice([self.leaf] * (not self.deep) + [self.made, *ways])(word, size)
        few = [self.unary, self.step, self.binary]
        return self.dice.choice(few if size < 4 else few + ways + [self.binary, self.element, self.field, self.call])(word, size)

    def leaf(self, word, _size=1):
        if word in WHOLES or self.dice.random() < 0.7:
            return variable(self.dice.choice(VARIABLES[word]))
        if word == "bool":
            return Node(BOOL, self.dice.randrange(2))
        number = constant(self.dice.choice(NUMBERS))
        return Node(DOT, 0, (number,), "x") if self.spaced and self.dice.random() < 0.5 else number

    def operands(self, size, words, without=()):
        """Operands of these types, not all of them constant."""
        grown = [self.expression(word, part, without) for word, part in zip(words, self.sizes(max(size - 1, len(words)), len(words)))]
        if all(map(folded, grown)):
            grown[0] = variable(self.dice.choice(VARIABLES[words[0]]))
        return tuple(grown)

    def target(self, word, size):
        """What can be assigned to: a variable, an element of one, a field of one."""
        way = "element" if self.deep else self.dice.choice(["variable", "element", "field"])
        if way == "variable" or size < 3 or word in WHOLES:
            return variable(self.dice.choice(VARIABLES[word]))
        if way == "element":
            return self.indexed(variable(VARIABLES[word + "s"][0]), size - 2)
        return Node(DOT, 0, (variable(VARIABLES["Pair"][0]),), FIELD[word])

    def indexed(self, array, size):
        """An element; a constant index must be in range."""
        index = self.expression("int", size)
        return Node(BRACKET, 0, (array, constant(self.dice.randrange(LENGTH)) if folded(index) else index))

    def unary(self, word, size):
        if word == "bool":
            return Node(UNARY, NOT, self.operands(size, ["bool"]))
        operand = self.expression("int", size - 1)
        return Node(UNARY, self.unary_operator([PLUS] if folded(operand) else [PLUS, MINUS, COMPLEMENT], operand), (operand,))

    def step(self, word, size):
        """One of the four ways to count up or down; bools can't."""
        if word == "bool":
            return self.binary(word, size)
        kind, operator = self.dice.choice([(UNARY, INC), (UNARY, DEC), (POST_INC, 0), (POST_DEC, 0)])
        return Node(kind, operator, (self.target("int", size - 1),))

    def binary(self, word, size):
        if word == "int":
            return Node(BINARY, self.dice.choice([*BITWISE, *ARITHMETIC]), self.operands(size, ["int", "int"]))
        operator = self.dice.choice([*LOGICAL, *EQUALITY, *ORDER])
        below = "bool" if operator in LOGICAL else "int" if operator in ORDER else self.dice.choice([*VARIABLES])
        return Node(BINARY, operator, self.operands(size, [below, below]))

    def ternary(self, word, size):
        return Node(TERNARY, 0, self.operands(size, ["bool", word, word]))

    def assignment(self, word, size):
        left, right = self.sizes(max(2, size - 1), 2)
        return Node(ASSIGNMENT, self.dice.choice(ASSIGNMENT_OPERATORS) if word == "int" else 0, (self.target(word, left), self.expression(word, right)))

    def comma(self, word, size):
        left, right = self.sizes(max(2, size - 1), 2)
        return Node(COMMA, 0, (self.expression(self.dice.choice([*VARIABLES]), left), self.expression(word, right)))

    def element(self, word, size):
        left, right = self.sizes(size - 1, 2)
        return self.indexed(self.expression(word + "s", left), right)

    def field(self, word, size):
        return Node(DOT, 0, (self.expression("Pair", size - 1),), FIELD[word])

    def made(self, word, size):
        """A struct that is made of its fields, by its name as a type's or as a function's; or an array of its elements."""
        if word == "Pair":
            return self.called(self.dice.choice([type_of(word), variable(word)]), size, [*PAIR.values()])
        return self.called(type_of(word[:-1], self.dice.choice([None, constant(LENGTH)])), size, [word[:-1]] * LENGTH)

    def call(self, word, size):
        name, words = self.dice.choice([(name, words) for name, (result, words) in FUNCTIONS.items() if result == word])
        return self.called(variable(name), size, words)

    def called(self, callee, size, words):
        """A call with arguments of these types."""
        return Node(CALL, 0, (callee, *(self.operands(size, words, NO_ARGUMENT) if words else ())))


def tree_grown(node):
    """The tree that glslang must show: names with lists of children."""
    if without_trace(node):
        return tree_grown(node.children[0])
    if node.kind == VARIABLE:
        return f"'{node.text}'", []
    if node.kind in (INT, BOOL):
        return "Constant:", [(str(node.number) if node.kind == INT else ["false", "true"][node.variant], [])]
    if node.kind == CALL:
        return name_of_call(node.children[0]), list(map(tree_grown, node.children[1:]))
    children = list(map(tree_grown, node.children))
    if node.kind == BRACKET:
        return "direct index" if folded(node.children[1]) else "indirect index", children
    if node.kind == DOT:
        return f"{node.text}: direct index for structure", [*children, tree_grown(constant([*PAIR].index(node.text)))]
    names = {UNARY: UNARY_NAMES, BINARY: BINARY_NAMES, ASSIGNMENT: ASSIGNMENT_NAMES}.get(node.kind)
    return names[node.variant] if names else OTHER_NAMES[node.kind], children


def name_of_call(callee):
    """What glslang calls a call of a function, a struct's name or an array's type."""
    named = callee if callee.kind == VARIABLE else callee.children[0]
    if named.text in FUNCTIONS:
        return "Function Call: " + named.text
    return "Construct " + ("structure" if named.text else TYPE_WORDS[named.variant])


def trees_shown(said):
    """The trees of main's statements in what glslang says. A line's indent is its depth; what stands in brackets behind a name is a type."""
    path = [("", [])]
    for line in said.split("\n"):
        match = re.match(r"\d+:(?:\d+|\? )((?:  )*)(\S.*)", line)
        if match and match[2] not in ("Condition", "true case", "false case"):
            level, node = len(match[1]) // 2 + 1, (match[2].split("(")[0].strip(), [])
            path[level - 1][1].append(node)
            path[level:] = [node]
    functions = [children for _, roots in path[0][1] for name, children in roots if name == "Function Definition: main"]
    return functions[0][-1][1] if functions else []


def drawn(tree):
    """A tree on one line."""
    name, children = tree
    return name + (f" ({', '.join(map(drawn, children))})" if children else "")


def differences(program, expressions, settings):
    """How glslang's reading of typed expressions differs from them, a text for each difference; and how many trees are equal. If they don't compile, the first that
    doesn't by itself is all that is told."""
    said = asked(printed(program, TYPED_DECLARED, expressions, settings), "-i")
    texts = statements(printed(program, TYPED_DECLARED, expressions, OPEN))
    wrong = re.findall("ERROR: .*|ended by signal .*", said)
    found = [] if wrong else trees_shown(said)
    if len(found) != len(expressions):
        alone = (differences(program, [expression], settings)[0] for expression in expressions if len(expressions) > 1)
        return next(filter(None, alone), [f"{texts[0]}\n        {wrong or 'no tree'}"]), 0
    pairs = zip(texts, map(tree_grown, expressions), found)
    different = [f"{text}\n        grown {drawn(grown)}\n        shown {drawn(shown)}" for text, grown, shown in pairs if grown != shown]
    return different, len(expressions) - len(different)


def try_joined(program):
    """Ends the program unless expressions that are joined are misread without needed spaces, and only then."""
    decrement = Node(UNARY, DEC, (variable("k"),))
    binary, unary = Node(BINARY, SUBTRACT, (variable("n"), decrement)), Node(UNARY, MINUS, (decrement,))
    tight = "".join(differences(program, [binary], print_runs.TIGHT)[0])
    if "shown subtract (Post-Decrement ('n'), 'k')" not in tight or differences(program, [binary], OPEN) != ([], 1):
        sys.exit("glslang: typed: n minus (--k) must be read as it is under OPEN, and under TIGHT, `n---k`, as (n--) minus k")
    if not differences(program, [unary], OPEN)[0] or differences(program, [binary, unary], EXPORT) != ([], 2):
        sys.exit("glslang: typed: minus over --k must not be read as it is under OPEN, `---k`, but under EXPORT, `- --k`, as n minus (--k) must")


def part_typed(program, seed, cases, spaced):
    """Part 2; whether all went well."""
    try_joined(program)
    dice, count = random.Random(f"{seed} typed"), collections.Counter()
    grower = Typed(dice, spaced)
    while count["expressions"] < cases:
        expressions = filled(grower.case, TYPED_DECLARED, cases - count["expressions"])
        for settings in settings_of_run(dice, spaced):
            different, equal = differences(program, expressions, settings)
            count.update({"shaders": 1, "equal": equal, "different": len(different)})
            for line in different[:3]:
                print(f"glslang: typed: settings {settings.hex()}: {line}")
        count.update({"expressions": len(expressions), "only spaced": sum(map(bool, map(only_spaced, expressions)))})
    print(
        f"glslang: typed{manner(spaced)}: {count['expressions']} expressions{told(count, spaced)} in {count['shaders']} shaders, {count['equal']} trees equal, "
        f"{count['different']} different"
    )
    return not count["different"]


# Part 3: a uniform of each type

STORAGE_UNIFORM = "29 7"
# The format that an image has: GLSL asks for one where the image may be read.
FORMATS = {"": "rgba8", "i": "r32i", "u": "r32ui"}
# How the Rust module misspells isampler2DMS and usampler2DMSArray.
MISSPELT = ["isampler2MS", "usamplerDMSArray"]
# Words for Vulkan alone.
VULKAN_WORDS = ["texture2D", "utextureBuffer", "sampler", "samplerShadow", "subpassInput"]
# What vectors and matrices are of, by their first letter.
COMPONENTS = {"": "float", "d": "double", "b": "bool", "i": "int", "u": "uint"}


def layout_of(word):
    """The records of the layout that a uniform of this type must have, if there is one."""
    image = re.match("([iu]?)image", word)
    if image:
        return ["29 18 1", f'30 0 0 "{FORMATS[image[1]]}"']
    return ["29 18 1", '30 1 0 "binding"', *lines(constant(0))] if word == "atomic_uint" else []


def declared_uniform(name, word):
    layout = layout_of(word)
    return ["47 1", "42", f'43 1 0 "{name}"', "31 1", f"28 0 {1 + bool(layout)}", *layout, STORAGE_UNIFORM, *lines(type_of(word))]


def type_shown(word):
    """What glslang calls a type in its trees."""
    vector, matrix = re.fullmatch("(.?)vec(.)", word), re.fullmatch("(.?)mat(.)x?(.?)", word)
    if vector:
        return f"{vector[2]}-component vector of {COMPONENTS[vector[1]]}"
    if matrix:
        return f"{matrix[2]}X{matrix[3] or matrix[2]} matrix of {COMPONENTS[matrix[1]]}"
    return word


def uniforms_shown(program, uniforms, settings):
    """The types of uniforms by name, as glslang shows them, and what it finds wrong. Words of types by name are given."""
    declarations = [declared_uniform(name, word) for name, word in uniforms.items()]
    said = asked(printed(program, declarations, [], settings), "-i")
    return dict(re.findall(r"'(\w+)' \(.*?uniform (.*)\)$", said, re.M)), re.findall("ERROR: .*|ended by signal .*", said)


def try_misspelt(program):
    """Ends the program unless glslang refuses the misspelt words as types. (The program prints them: they are names.)"""
    for word in MISSPELT:
        if not uniforms_shown(program, {"u": word}, OPEN)[1]:
            sys.exit(f"glslang: types: {word} must be no type")


def part_types(program):
    """Part 3; whether all went well."""
    try_misspelt(program)
    uniforms = {f"u{variant}": word for variant, word in enumerate(TYPE_WORDS) if word != "void"}
    uniforms.update(dict.fromkeys([*MISSPELT, *VULKAN_WORDS], "int"))
    must_be, count = {name: type_shown(word) for name, word in uniforms.items()}, collections.Counter()
    for settings in (OPEN, print_runs.TIGHT, EXPORT):
        shown, wrong = uniforms_shown(program, uniforms, settings)
        different = [f"{name}, {word}: shown as {shown.get(name)}" for name, word in uniforms.items() if shown.get(name) != must_be[name]]
        count.update({"shaders": 1, "equal": len(uniforms) - len(different), "different": len(different), "errors": len(wrong)})
        for line in [*wrong[:3], *different[:3]]:
            print(f"glslang: types: settings {settings.hex()}: {line}")
    print(
        f"glslang: types: uniforms of {len(set(uniforms.values()))} types in {count['shaders']} shaders, {count['errors']} errors, {count['equal']} types equal, "
        f"{count['different']} different"
    )
    return not count["errors"] and not count["different"]


def main():
    if len(sys.argv) > 3 or not all(argument.isdigit() for argument in sys.argv[1:]):
        sys.exit(__doc__)
    seed, cases = map(int, [*sys.argv[1:], *["1", "5000"][len(sys.argv) - 1 :]])
    if not shutil.which(READER):
        print(f"glslang: {READER} is not there; Debian has it in glslang-tools", file=sys.stderr)
        sys.exit(2)
    version = subprocess.run([READER, "--version"], capture_output=True, text=True, check=True).stdout.split("\n")[0]
    print(f"glslang: {version}; seed {seed}")
    program = print_runs.built()
    went_well = [part(program, seed, cases, spaced) for spaced in (False, True) for part in (part_sound, part_typed)]
    sys.exit(not all([*went_well, part_types(program)]))


if __name__ == "__main__":
    main()
