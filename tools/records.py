"""Raw records as text, for the scripts here that make trees (print_runs.py, glslang.py). Trees for people are read and written by rust/tree.

A line is a record: kind, variant, count, a, b (document 01, "Tree records"). Numbers that are left out at its end are 0. A quoted text stands for a and b: it is
put behind the names, once, and its offset and length are written. Spaces in front show the tree to a reader; what follows a # is a comment."""
import re
import struct
import sys

FIELD = re.compile(r'"([^"]*)"|(\d+)')


def record(kind, variant=0, count=0, a=0, b=0):
    """The twelve bytes of a record."""
    return struct.pack("<BBHII", kind, variant, count, a, b)


def read(text):
    """The bytes of tree.rec and of names.txt for a text of records."""
    records, names, places = [], b"", {}
    for number, line in enumerate(text.split("\n"), 1):
        line = line.split("#")[0].strip()
        if not line:
            continue
        if FIELD.sub("", line).strip():
            sys.exit(f"line {number}: numbers and quoted texts are expected: {line}")
        fields = []
        for quoted, digits in FIELD.findall(line):
            if digits:
                fields.append(int(digits))
                continue
            word = quoted.encode()
            if word not in places:
                places[word] = len(names)
                names += word
            fields += [0] * (3 - len(fields)) + [places[word], len(word)]
        if len(fields) > 5:
            sys.exit(f"line {number}: a record has five fields: {line}")
        records.append(record(*fields))
    return b"".join(records), names
