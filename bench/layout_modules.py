#!/usr/bin/env python3
"""Lays out the modules of the examples and of the machine's cases, each twice, and expands their pages with the modules as they stand and laid out.

    layout_modules.py WIKIFMT               a layout that is laid out again must give the same bytes
    layout_modules.py WIKIFMT WIKIEXPAND    and each page of examples/, and an invocation of each case, must give the same bytes; but for the
                                            lines that messages name, which move where a text had more than two line breaks in a row
    layout_modules.py WIKIFMT WIKIEXPAND N  every Nth of the cases alone

The cases are those of `machine_rows.py`. A module that is no Lua is left as it stands.
"""
import glob
import os
import re
import shutil
import subprocess
import sys
import tempfile
import urllib.parse

import machine_rows

TOP = os.path.dirname(os.path.dirname(os.path.abspath(__file__)))
LINES = re.compile(rb"(Module:[^:\n]*):\d+:")


def ran(*words):
    told = subprocess.run(words, stdin=subprocess.DEVNULL, capture_output=True, check=False)
    return told.returncode, told.stdout, told.stderr


def laid_out(program, folder, name):
    """The layout of a module, and what is wrong with it; None where it is no Lua."""
    title = urllib.parse.unquote(name.removesuffix(".lua"), encoding="latin-1")
    status, text, said = ran(program, "print", folder, title)
    if status == 8:
        return None, None
    return text, None if status == 0 else f"{folder}/{name}: status {status} {said!r}"


def twin(program, folder, out):
    """Copies a folder, with its modules laid out, and tells what is wrong: a layout that is laid out again gives other bytes."""
    shutil.copytree(folder, out)
    for name in sorted(it for it in os.listdir(folder) if it.startswith("Module:") and it.endswith(".lua")):
        text, wrong = laid_out(program, folder, name)
        if wrong:
            yield wrong
        if text is None:
            continue
        with open(os.path.join(out, name), "wb") as file:
            file.write(text)
        again, wrong = laid_out(program, out, name)
        if wrong or again != text:
            yield wrong or f"{folder}/{name}: its layout changes when it is laid out again: {text!r}"


def case_folder(room, modules, invoked, args, parent):
    """A folder with a case's modules, and with page P, which invokes one of them as the case does."""
    os.makedirs(room)
    named = "".join(f"|{key}={value}" for key, value in args)
    call = "{{#invoke:" + invoked + "|f" + named + "}}"
    pages = [("P.wiki", "{{T|p|n=q}}" if parent else call)] + [("Template:T.wiki", call)] * parent
    for name, text in [(f"Module:{name.replace('/', '%2F')}.lua", text) for name, text in modules] + pages:
        with open(os.path.join(room, name), "w", encoding="latin-1", newline="") as file:
            file.write(text)
    return room


def cases():
    """Modules, the one that is invoked, arguments, and whether a template stands between."""
    for it in machine_rows.examples():
        yield it.modules, it.invoked, it.args, it.parent
    for hand in machine_rows.hands():
        yield hand["modules"], hand["modules"][0][0], hand["args"], hand["parent"]


def folders(room, each):
    """The folders of the examples and of every so many-th case, with the words that expand all that is compared."""
    for folder in sorted(glob.glob(os.path.join(TOP, "examples", "*"))):
        yield folder, ["--all"]
    for number, case in list(enumerate(cases()))[::each]:
        yield case_folder(os.path.join(room, f"case{number}"), *case), ["P"]


def differs(expand, folder, out, words):
    """What pages become of the two folders, where that is not the same."""
    found, other = (ran(expand, "expand", it, *words) for it in (folder, out))
    if LINES.sub(rb"\1:", found[1] + found[2]) != LINES.sub(rb"\1:", other[1] + other[2]) or found[0] != other[0]:
        yield f"{folder}: {found!r}\n  becomes {other!r}"


def main(program, expand=None, each="1"):
    wrong, count = [], 0
    with tempfile.TemporaryDirectory(prefix="layout-modules-") as room:
        for folder, words in folders(room, int(each)):
            out = os.path.join(room, "out")
            wrong += twin(program, folder, out)
            count += len(glob.glob(os.path.join(glob.escape(folder), "Module:*.lua")))
            if expand:
                wrong += differs(expand, folder, out, words)
            shutil.rmtree(out)
    print("\n".join(wrong) or f"{count} modules: all as they should be")
    return 1 if wrong else 0


if __name__ == "__main__":
    sys.exit(main(*sys.argv[1:]) if len(sys.argv) in (2, 3, 4) else __doc__)
