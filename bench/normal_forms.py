#!/usr/bin/env python3
"""Writes the rows of the kind `ustring` of `text_cases` that say what normal forms are: 200 lines of Unicode's own conformance test.

Of each part of NormalizationTest.txt (Debian's package unicode-data) lines are taken at even distances. A line has five
fields, code points in hexadecimal: a text, and its normal forms C, D, KC and KD.

    bench/normal_forms.py [--write]     prints the rows, or writes them into the crate's table
"""
import bz2

from written import give_rows

FROM = "/usr/share/unicode/NormalizationTest.txt.bz2"
COUNTS = {"@Part0": 24, "@Part1": 96, "@Part2": 50, "@Part3": 30}


def parts_of_the_test():
    parts, name = {}, None
    for line in bz2.open(FROM, "rt", encoding="utf-8"):
        if line.startswith("@"):
            name = line.split()[0]
        elif name and line.strip() and not line.startswith("#"):
            fields = line.split("#")[0].strip().rstrip(";").split(";")
            parts.setdefault(name, []).append(";".join(fields))
    return parts


def lines():
    parts, chosen = parts_of_the_test(), []
    for name, count in COUNTS.items():
        of_part = parts[name]
        count = min(count, len(of_part))
        chosen += [of_part[k * len(of_part) // count] for k in range(count)]
    return chosen


def row(line):
    text, c, d, kc, kd = line.split(";")
    return f"ustring\tforms\t{text}\t=> C {c} D {d} KC {kc} KD {kd}"


give_rows("# ustring: normal forms, lines of Unicode's conformance test, written by bench/normal_forms.py", [row(it) for it in lines()])
