#!/usr/bin/env python3
"""Compares `wikifmt lint` with the globals that Lua's own compiler tells.

    lint_luac.py PROGRAM [FOLDER ..]    over each module of examples/, and of the folders, alone in a folder, so that nothing is reached from it

`luac5.1 -l` lists each read and write of a global; the names that the program prints must be those, each once and in the order of their bytes.
Where it can't tell, `_G` or `require` must be among them. Texts that one of the two refuses are passed over. The status is 1 where they differ.
"""
import glob
import os
import re
import subprocess
import sys
import tempfile

TOP = os.path.dirname(os.path.dirname(os.path.abspath(__file__)))
GLOBAL = re.compile(rb"\t[GS]ETGLOBAL\s.*; (.*)")


def by_luac(file):
    """The names of a text's globals, or None where luac refuses it."""
    ran = subprocess.run(["luac5.1", "-l", "-l", "-p", file], stdout=subprocess.PIPE, stderr=subprocess.DEVNULL, check=False)
    return None if ran.returncode else sorted({found[1] for found in map(GLOBAL.search, ran.stdout.split(b"\n")) if found})


def differs(program, file):
    """What differs for a module, or None; and whether it was compared at all."""
    wanted = by_luac(file)
    with tempfile.TemporaryDirectory(prefix="lint-") as room:
        with open(file, "rb") as source, open(os.path.join(room, "Module:M.lua"), "wb") as copy:
            copy.write(source.read())
        ran = subprocess.run([program, "lint", room, "M"], stdin=subprocess.DEVNULL, stdout=subprocess.PIPE, stderr=subprocess.PIPE, check=False)
    if wanted is None or ran.returncode == 8:
        return None, False
    if ran.returncode == 10:
        return (None if {b"_G", b"require"} & set(wanted) else f"{file}: {ran.stderr!r}, where luac names {wanted!r}"), True
    found = ran.stdout.split(b"\n")[:-1]
    return (None if ran.returncode == 0 and found == wanted else f"{file}: status {ran.returncode}, {found!r}, where luac names {wanted!r}"), True


def main(program, *folders):
    compared = wrong = 0
    for folder in (os.path.join(TOP, "examples"), *folders):
        for file in sorted(glob.glob(os.path.join(folder, "**", "*.lua"), recursive=True)):
            said, was = differs(os.path.abspath(program), file)
            compared += was
            if said:
                wrong += 1
                print(said)
    print(f"{compared} compared, {wrong} differ")
    return 1 if wrong or not compared else 0


if __name__ == "__main__":
    sys.exit(main(*sys.argv[1:]) if len(sys.argv) > 1 else __doc__)
