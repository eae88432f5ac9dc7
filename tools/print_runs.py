#!/usr/bin/env python3
"""print_runs.py [PROGRAM]: runs the program `print` (crates/print) in a folder of its own for each line of the tables below, and compares all that it writes.

Without PROGRAM it is the one that tools/program.sh has at hand or proves and builds, and ./shader is run too, with its exit status. The texts and refusals are document 01's ("Calls", "Texts to match")
and those of requests #102, #105 and #106; none is taken from the program."""
import os
import subprocess
import sys
import tempfile

import records
from records import record

ROOT = os.path.dirname(os.path.dirname(os.path.abspath(__file__)))

# Document 01's limits.
MOST_RECORDS, MOST_NAMES, MOST_LETTERS, DEEPEST, ROOM = 4096, 32768, 255, 200, 65536

# Settings: document 01's, and TIGHT with byte 21 at 1 (02, #106).
TIGHT, EXPORT = bytes(21), bytes(21) + b"\1"
OPEN = bytes([2, 4, 1, 1, 1, 1, 1, 1, 2, 2, 2, 2, 1, 2, 2, 0, 1, 1, 1, 1, 1])

VOID = "31 \n 20 \n 21 \n"
# A variable of a name, and of a type by its record.
VARIABLE = '80 0 1 \n 47 1 \n 42 \n 43 1 0 "{}" \n 31 \n 20 \n {}'
INT_X = VARIABLE.format("x", "21 2")
# A function of a name, whose body is not there yet.
HEAD = '80 0 1 \n 81 \n 40 0 0 "{}" \n' + VOID
FUNCTION = HEAD.format("f")
RETURN = FUNCTION + "60 0 1 \n 68 4 \n"
RETURN_MINUS_A = RETURN + '7 3 \n 1 0 0 "a"'
# Returned are n - --k, minus over --a, and the field x of 1.
RETURN_BINARY = RETURN + '8 15 \n 1 0 0 "n" \n 7 1 \n 1 0 0 "k"'
RETURN_UNARY = RETURN + '7 3 \n 7 1 \n 1 0 0 "a"'
RETURN_FIELD = RETURN + '13 0 0 "x" \n 2 0 0 1'
# Declared is a name: of a function in a prototype and in a definition, of a parameter of a function f, of a struct.
PROTOTYPE = '80 0 1 \n 47 \n 40 0 0 "{}" \n' + VOID
DEFINITION = HEAD + "60"
PARAMETER = '80 0 1 \n 47 \n 40 0 1 "f" \n' + VOID + '41 1 \n 20 \n 21 2 \n 27 0 0 "{}"'
STRUCT = '80 0 1 \n 47 1 \n 42 \n 43 \n 31 \n 20 \n 23 1 0 "{}"'
# gl_Position is assigned in a function f; it is a field of a block gl_PerVertex.
ASSIGNED = FUNCTION + '60 0 1 \n 61 1 \n 10 \n 1 0 0 "gl_Position" \n 1 0 0 "p"'
BLOCK = '80 0 1 \n 47 3 \n 46 0 1 "gl_PerVertex" \n 28 0 1 \n 29 3 \n 26 0 1 \n 20 \n 21 8 \n 27 0 0 "gl_Position"'
# A function's body holds statements at depth 4.
BODY, STATEMENT, EMPTY = "60 0 1 \n", 4, "61"


def tree(text, **files):
    """The files of a tree, and others or other bytes in their place; None for a file that is not there."""
    tree_rec, names_txt = records.read(text)
    return {"tree_rec": tree_rec, "names_txt": names_txt, **files}


def nested(depth):
    """A function whose innermost statement, an empty one, is at a depth."""
    return FUNCTION + BODY * (depth - STATEMENT + 1) + EMPTY


def invariant(*lengths):
    """A unit of `invariant` declarations of names with so many letters, all of them the front of one name."""
    tree_rec = record(80, 0, len(lengths)) + b"".join(record(47, 4, 0, 0, length) for length in lengths)
    return {"tree_rec": tree_rec, "names_txt": b"x" * max(lengths), "settings_rec": TIGHT}


def empty_statements(count):
    """A unit of so many records: a function with empty statements."""
    front = records.read(FUNCTION)[0]
    statements = count - len(front) // 12 - 1
    return {"tree_rec": front + record(60, 0, statements) + record(61) * statements, "names_txt": b"f", "settings_rec": TIGHT}


def changed(bytes_, at, value):
    return bytes_[:at] + bytes([value]) + bytes_[at + 1 :]


def text_of(letters):
    """The text of a unit of `invariant` declarations."""
    return "".join("invariant " + "x" * length + ";" for length in letters)


# So many declarations of the longest names fill the room but for a rest, which one more name takes.
LINE = len("invariant ;")
FULL = [MOST_LETTERS] * (ROOM // (LINE + MOST_LETTERS) - 1)
REST = ROOM - len(text_of(FULL))
LAST = [REST // 2 - LINE, REST - REST // 2 - LINE]

# A newline behind a statement and nowhere else, and the widest indent, in spaces: a line as far in as depth allows.
WIDE = changed(bytes([2, 16]) + TIGHT[2:], 13, 2)
COMPOUNDS = DEEPEST - STATEMENT + 1
WIDE_TEXT = "void f(){" + "{" * (COMPOUNDS - 1) + ";\n" + " " * 16 * (COMPOUNDS - 1) + "}" * COMPOUNDS

RUNS = [
    ("int x", tree(INT_X), "int x;"),
    ("a unit of no declarations", tree("80"), ""),
    ("void f in TIGHT", tree(RETURN_MINUS_A, settings_rec=TIGHT), "void f(){return -a;}"),
    ("void f in OPEN", tree(RETURN_MINUS_A), "void f() {\n    return -a;\n}\n"),
    # The needed spaces of request #106, and texts without them.
    ("n - --k in TIGHT", tree(RETURN_BINARY, settings_rec=TIGHT), "void f(){return n---k;}"),
    ("n - --k in EXPORT", tree(RETURN_BINARY, settings_rec=EXPORT), "void f(){return n- --k;}"),
    ("n - --k in OPEN with byte 21", tree(RETURN_BINARY, settings_rec=OPEN + b"\1"), "void f() {\n    return n - --k;\n}\n"),
    ("minus over --a in EXPORT", tree(RETURN_UNARY, settings_rec=EXPORT), "void f(){return - --a;}"),
    ("minus over --a in OPEN", tree(RETURN_UNARY, settings_rec=OPEN), "void f() {\n    return ---a;\n}\n"),
    ("minus over --a in OPEN with byte 21", tree(RETURN_UNARY, settings_rec=OPEN + b"\1"), "void f() {\n    return - --a;\n}\n"),
    ("a field of 1 in EXPORT", tree(RETURN_FIELD, settings_rec=EXPORT), "void f(){return 1 .x;}"),
    # The type words of request #102. The Rust module writes isampler2MS for isampler2DMS; here that is a name.
    ("image2D x", tree(VARIABLE.format("x", "21 92")), "image2D x;"),
    ("isampler2DMS isampler2MS", tree(VARIABLE.format("isampler2MS", "21 69")), "isampler2DMS isampler2MS;"),
    ("the last type word", tree(VARIABLE.format("x", "21 118")), "uimageBuffer x;"),
    # Names that GLSL keeps for itself (request #105) are printed where they are used, and those near them everywhere.
    ("gl_Position assigned", tree(ASSIGNED, settings_rec=TIGHT), "void f(){gl_Position=p;}"),
    ("gl_Position in a block", tree(BLOCK, settings_rec=TIGHT), "out gl_PerVertex{vec4 gl_Position;};"),
    ("invariant gl_Position", tree('80 0 1 \n 47 4 0 "gl_Position"'), "invariant gl_Position;"),
    ("a variable gl_x", tree(VARIABLE.format("gl_x", "21 2")), "int gl_x;"),
    ("a function GL_x", tree(PROTOTYPE.format("GL_x")), "void GL_x();"),
    ("a parameter gl", tree(PARAMETER.format("gl")), "void f(int gl);"),
    ("a struct glx", tree(STRUCT.format("glx"), settings_rec=TIGHT), "struct glx{};"),
    # Files that are missing, or empty.
    ("no file", {}, "refused 2 at 0\n"),
    ("no tree.rec", tree(INT_X, tree_rec=None), "refused 2 at 0\n"),
    ("an empty tree.rec", tree(INT_X, tree_rec=b""), "refused 2 at 0\n"),
    ("no names.txt", tree(INT_X, names_txt=None), "refused 10 at 3\n"),
    ("no names.txt, and none needed", tree("80", names_txt=None), ""),
    ("an empty settings.rec", tree(INT_X, settings_rec=b""), "refused 1 at 0\n"),
    # A byte more than each file may have; the greatest that it may have.
    ("settings of 20 bytes", tree(INT_X, settings_rec=TIGHT[1:]), "refused 1 at 0\n"),
    ("settings of 22 bytes", tree(RETURN_BINARY, settings_rec=TIGHT + b"\0"), "void f(){return n---k;}"),
    ("settings of 23 bytes", tree(INT_X, settings_rec=TIGHT + b"\0\0"), "refused 1 at 0\n"),
    ("settings of 24 bytes", tree(INT_X, settings_rec=TIGHT + b"\0\0\0"), "refused 1 at 0\n"),
    ("settings of 65,536 bytes", tree(INT_X, settings_rec=bytes(65536)), "refused 1 at 0\n"),
    ("4,096 records", empty_statements(MOST_RECORDS), "void f(){" + ";" * (MOST_RECORDS - 7) + "}"),
    ("4,096 records and a byte", {**empty_statements(MOST_RECORDS), "tree_rec": empty_statements(MOST_RECORDS)["tree_rec"] + b"\0"}, "refused 2 at 0\n"),
    ("4,097 records", empty_statements(MOST_RECORDS + 1), "refused 2 at 0\n"),
    ("8,192 records", empty_statements(2 * MOST_RECORDS), "refused 2 at 0\n"),
    ("32,768 bytes of names", tree(INT_X, names_txt=b"x" * MOST_NAMES), "int x;"),
    ("32,769 bytes of names", tree(INT_X, names_txt=b"x" * (MOST_NAMES + 1)), "refused 3 at 0\n"),
    ("65,536 bytes of names", tree(INT_X, names_txt=b"x" * (2 * MOST_NAMES)), "refused 3 at 0\n"),
    # Each refusal, in the documents' order.
    ("1: a byte out of range", tree(INT_X, settings_rec=changed(TIGHT, 1, 17)), "refused 1 at 0\n"),
    ("1: byte 21 out of range", tree(INT_X, settings_rec=TIGHT + b"\2"), "refused 1 at 0\n"),
    ("1: another byte out of range, of 22", tree(INT_X, settings_rec=changed(EXPORT, 1, 17)), "refused 1 at 0\n"),
    ("1 before 2", {"settings_rec": b"\3" + TIGHT[1:]}, "refused 1 at 0\n"),
    ("2: records that are not whole", tree(INT_X, tree_rec=records.read(INT_X)[0][:-1]), "refused 2 at 0\n"),
    ("2 before 3", {"names_txt": b"x" * (MOST_NAMES + 1)}, "refused 2 at 0\n"),
    ("4: no record left", tree('80 0 2 \n 47 4 0 "x"'), "refused 4 at 2\n"),
    ("5: an expression in a unit", tree('80 0 1 \n 1 0 0 "x"'), "refused 5 at 1\n"),
    ("5: an expression as root", tree('1 0 0 "x"'), "refused 5 at 0\n"),
    ("7: a declaration's variant", tree('80 0 1 \n 47 6 0 "x"'), "refused 7 at 1\n"),
    ("7: one behind the last type word", tree(VARIABLE.format("x", "21 119")), "refused 7 at 6\n"),
    ("8: a qualifier of nothing", tree("80 0 1 \n 47 5 \n 28"), "refused 8 at 2\n"),
    ("9: an unused count", tree('80 0 1 \n 47 4 1 "x"'), "refused 9 at 1\n"),
    ("10: a text beyond the names", tree("80 0 1 \n 47 4 0 0 2", names_txt=b"x"), "refused 10 at 1\n"),
    ("11: a digit first", tree('80 0 1 \n 47 4 0 "1x"'), "refused 11 at 1\n"),
    ("11: a fixed word", tree('80 0 1 \n 47 4 0 "if"'), "refused 11 at 1\n"),
    # These two were printed before request #102.
    ("11: a type word as a variable's name", tree(VARIABLE.format("image2D", "21 2")), "refused 11 at 3\n"),
    ("11: a type word as a type's name", tree(VARIABLE.format("x", '22 0 0 "image2D"')), "refused 11 at 6\n"),
    # The first five were printed before request #105.
    ("15: a function in a prototype", tree(PROTOTYPE.format("gl_f")), "refused 15 at 2\n"),
    ("15: a function in a definition", tree(DEFINITION.format("gl_f")), "refused 15 at 2\n"),
    ("15: a parameter", tree(PARAMETER.format("gl_p")), "refused 15 at 9\n"),
    ("15: a struct", tree(STRUCT.format("gl_S")), "refused 15 at 6\n"),
    ("15: the least reserved name", tree(STRUCT.format("gl_")), "refused 15 at 6\n"),
    ("11 before 15", tree(STRUCT.format("gl_-")), "refused 11 at 6\n"),
    ("15 before 12", tree(STRUCT.format("gl_S") + "\n 80"), "refused 15 at 6\n"),
    ("12: records left over", tree(INT_X + "\n 80 \n 80"), "refused 12 at 7\n"),
    # Limits of depth, names and room.
    ("depth 200", tree(nested(DEEPEST), settings_rec=TIGHT), "void f()" + "{" * COMPOUNDS + ";" + "}" * COMPOUNDS),
    ("depth 201", tree(nested(DEEPEST + 1), settings_rec=TIGHT), f"refused 6 at {COMPOUNDS + 7}\n"),
    ("the widest indent", tree(nested(DEEPEST), settings_rec=WIDE), WIDE_TEXT),
    ("255 letters", invariant(MOST_LETTERS), text_of([MOST_LETTERS])),
    ("256 letters", invariant(MOST_LETTERS + 1), "refused 11 at 1\n"),
    ("a text of 65,536 bytes", invariant(*FULL, *LAST), text_of(FULL + LAST)),
    ("a text of 65,537 bytes", invariant(*FULL, LAST[0], LAST[1] + 1), f"refused 13 at {ROOM + 1}\n"),
    ("a text far above the room", invariant(*[MOST_LETTERS] * 4000), f"refused 13 at {4000 * (LINE + MOST_LETTERS)}\n"),
]

# What ./shader is given: options, and a folder with these files if there are any; its exit status; what it writes to stdout, of help the first line. A text may begin
# with the name `refused`. FOLDER in an option is that folder.
USAGE = "usage: ./shader [--tight | --export | --settings RECORD] [FILE or FOLDER]\n"
REFUSED_AT = '80 0 1 \n 47 1 \n 42 \n 43 1 0 "at" \n 31 \n 20 \n 22 0 0 "refused"'
OTHER = ["--settings", "FOLDER/other.rec"]
SHADER_RUNS = [
    ("a folder", [], tree(RETURN_MINUS_A), 0, "void f() {\n    return -a;\n}\n"),
    ("a folder that is refused", [], tree('80 0 1 \n 1 0 0 "x"'), 1, "refused 5 at 1\n"),
    ("a folder with a reserved name", [], tree(STRUCT.format("gl_S")), 1, "refused 15 at 6\n"),
    ("an empty folder", [], {}, 1, ""),
    ("a text that begins as a refusal does", [], tree(REFUSED_AT), 0, "refused at;"),
    ("a text of nothing", [], tree("80"), 0, ""),
    ("a folder with settings", [], tree(RETURN_BINARY, settings_rec=EXPORT), 0, "void f(){return n- --k;}"),
    ("a folder, tight", ["--tight"], tree(RETURN_BINARY), 0, "void f(){return n---k;}"),
    ("a folder, as an export", ["--export"], tree(RETURN_BINARY), 0, "void f(){return n- --k;}"),
    ("a folder with settings, others asked for", ["--tight"], tree(RETURN_BINARY, settings_rec=EXPORT), 0, "void f(){return n---k;}"),
    ("a folder without names, tight", ["--tight"], tree("80", names_txt=None), 0, ""),
    ("a folder and settings of another file", OTHER, tree(RETURN_UNARY, other_rec=OPEN + b"\1"), 0, "void f() {\n    return - --a;\n}\n"),
    ("a folder and bad settings", OTHER, tree(RETURN_UNARY, other_rec=TIGHT + b"\2"), 1, "refused 1 at 0\n"),
    ("a folder and settings of no file", OTHER, tree(RETURN_UNARY), 1, ""),
    ("an empty folder, tight", ["--tight"], {}, 1, ""),
    ("settings without a file", ["--settings"], None, 2, ""),
    ("two options for settings", ["--tight", "--export"], tree(INT_X), 2, ""),
    ("two options for settings, one of a file", ["--export", *OTHER], tree(INT_X, other_rec=TIGHT), 2, ""),
    ("two folders", ["FOLDER"], tree(INT_X), 2, ""),
    ("help", ["--help"], None, 0, USAGE),
    ("help, in short", ["-h"], None, 0, USAGE),
    ("an option that there is not", ["--none"], None, 2, ""),
]


def fill(folder, files):
    """Writes the files of a tree."""
    for name, data in files.items():
        if data is not None:
            with open(os.path.join(folder, name.replace("_", ".")), "wb") as file:
                file.write(data)


def written(program, files):
    """All that the program writes in a folder with these files."""
    with tempfile.TemporaryDirectory() as folder:
        fill(folder, files)
        run = subprocess.run([program], cwd=folder, stdin=subprocess.DEVNULL, capture_output=True, check=False)
        return run.stdout if run.returncode == 0 and not run.stderr else f"status {run.returncode}: {run.stderr!r}".encode()


def shader(options, files):
    """The exit status of ./shader and what it writes to stdout; of help the first line. The folder must stay as it was."""
    with tempfile.TemporaryDirectory() as folder:
        fill(folder, files or {})
        before = listing(folder)
        arguments = [option.replace("FOLDER", folder) for option in options] + ([folder] if files is not None else [])
        run = subprocess.run([os.path.join(ROOT, "shader"), *arguments], stdin=subprocess.DEVNULL, capture_output=True, check=False)
        text = run.stdout.decode() if listing(folder) == before else "the folder was altered"
        return run.returncode, text if files is not None else text[: len(USAGE)]


def listing(folder):
    """The names and bytes of a folder's files."""
    found = {}
    for name in os.listdir(folder):
        with open(os.path.join(folder, name), "rb") as file:
            found[name] = file.read()
    return found


def shown(data):
    return repr(data) if len(data) <= 120 else f"{data[:60]!r} .. {data[-40:]!r}, {len(data)} bytes"


def built():
    """The program's file; it is proved before it is built, unless it is at hand."""
    return subprocess.run([os.path.join(ROOT, "tools/program.sh")], stdout=subprocess.PIPE, text=True, check=True).stdout.strip()


def main():
    program = os.path.abspath(sys.argv[1]) if sys.argv[1:] else built()
    failed = 0
    for name, files, text in RUNS:
        found, expected = written(program, files), text.encode()
        if found != expected:
            failed += 1
            print(f"print_runs: {name}\n    expected {shown(expected)}\n    found    {shown(found)}")
    print(f"print_runs: {len(RUNS) - failed} of {len(RUNS)} runs of the program wrote what they must")
    if not sys.argv[1:]:
        failed += shader_runs()
    sys.exit(failed > 0)


def shader_runs():
    """Runs ./shader; answers how many runs failed."""
    failed = 0
    for name, options, files, status, text in SHADER_RUNS:
        found = shader(options, files)
        if found != (status, text):
            failed += 1
            print(f"print_runs: ./shader, {name}\n    expected {(status, text)}\n    found    {found}")
    print(f"print_runs: {len(SHADER_RUNS) - failed} of {len(SHADER_RUNS)} runs of ./shader ended as they must")
    return failed


if __name__ == "__main__":
    main()
