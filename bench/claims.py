#!/usr/bin/env python3
"""Whether the functions and files that docs/CLAIMS.md names are there: each function in a file, or below a folder, of its row.

  bench/claims.py

The status is 1 where one isn't. What a contract says is not read.
"""
import os
import re
import sys

TOP = os.path.dirname(os.path.dirname(os.path.abspath(__file__)))
DOCUMENT = os.path.join(TOP, "docs", "CLAIMS.md")
NAMED = re.compile(r"`([^`]+)`")


def text_below(path):
    """The text of a file, or of all files below a folder."""
    files = [path] if os.path.isfile(path) else [os.path.join(at, name) for at, _, names in os.walk(path) for name in names]
    return "".join(open(file, encoding="utf-8").read() for file in files)


def lacking(row):
    """What a row names that isn't there."""
    claim, functions, places = row
    files = NAMED.findall(places)
    texts = "".join(text_below(os.path.join(TOP, it)) for it in files)
    for it in files + [it for it in NAMED.findall(claim) if it.startswith("crates/")]:
        if not os.path.exists(os.path.join(TOP, it)):
            yield it
    for it in NAMED.findall(functions):
        name = it.split("::")[-1]
        if not os.path.isdir(os.path.join(TOP, "crates", name)) and not re.search(rf"\b{re.escape(name)}\b", texts):
            yield f"{it} in {', '.join(files)}"


def main():
    with open(DOCUMENT, encoding="utf-8") as file:
        lines = [[it.strip() for it in line.strip().strip("|").split(" | ")] for line in file if line.startswith("| ")]
    rows = [line for line in lines if len(line) == 3 and line[0] not in ("claim", "---")]
    told = [it for row in rows for it in lacking(row)]
    print("".join(f"not there: {it}\n" for it in told), end="")
    print(f"{len(rows)} claims, {len(told)} names that are not there")
    return bool(told)


if __name__ == "__main__":
    sys.exit(main())
