#!/usr/bin/env python3
"""Times pages that include long texts again and again, of which few bytes can be paid, and switches of many names, by the built program.

  bench/attack_inclusions.py crates/wikiexpand/out/wikiexpand

Each row is a small wiki whose page calls a template of one or two million bytes very often. The least processor time of three runs is
told (the program has one thread, so on an idle machine that is the time it takes), and the printed text is compared with
one that this script makes by itself.
"""
import os
import sys
import tempfile

from timing import best

ROUNDS = 3
LONG = 2_000_000
SIZE = '<span class="error">Include size exceeded</span>'


def rows():
    """name, pages, options, wanted text"""
    text = "x" * LONG
    few = ["--nodes", "4000000", "--bytes", "100"]
    yield "a template of 2 MB, 40,000 times", {"T": text, "P": "{{T}}" * 40_000}, [], text + SIZE * 39_999
    yield "the same, 300,000 times", {"T": text, "P": "{{T}}" * 300_000}, [], text + SIZE * 299_999
    yield "the same, no byte ever paid", {"T": text, "P": "{{T}}" * 300_000}, few, SIZE * 300_000
    half = "x" * (LONG // 2)
    yield ("two texts of 1 MB and a construct between them, 300,000 times", {"T": half + "{{!}}" + half, "P": "{{T}}" * 300_000},
           few, SIZE * 300_000)
    yield ("a branch of 2 MB, 300,000 times", {"T": "{{#if:x|" + text + "}}", "P": "{{T}}" * 300_000}, few, SIZE * 300_000)
    yield ("a last part of a switch of 2 MB, 300,000 times", {"T": "{{#switch:x|" + text + "}}", "P": "{{T}}" * 300_000}, few,
           SIZE * 300_000)
    yield ("a default of 2 MB, 300,000 times", {"T": "{{{a|" + text + "}}}", "P": "{{T}}" * 300_000}, few, SIZE * 300_000)
    yield ("an argument of 1 MB, 200,000 times in a template", {"T": "{{{1}}}" * 200_000, "P": "{{T|" + half + "}}"}, few, SIZE)
    yield ("as written, 2 MB, 300,000 times", {"T": "{{subst:|" + text + "}}", "P": "{{T}}" * 300_000}, few, SIZE * 300_000)
    yield from switches("".join(f"|n{n}={n}" for n in range(100_000)))


def switches(names):
    """the same of switches"""
    switch = "{{#switch:{{{1|}}}"
    called = range(5, 100_000, 10)
    yield ("a switch of 100,000 names, 10,000 times", {"T": switch + names + "}}", "P": "".join("{{T|n%d}}" % n for n in called)}, [],
           "".join(str(n) for n in called))
    yield "the same, a name that it hasn't", {"T": switch + names + "}}", "P": "{{T|n}}" * 10_000}, [], ""
    yield ("the same, behind 100,000 names without a value",
           {"T": switch + names.replace("=", "|") + "|end=z}}", "P": "{{T|n0}}" * 10_000}, [], "z" * 10_000)
    half = names[:names.index("|n50000=")]
    yield ("690,000 parts of one name, 400,000 times", {"T": "{{#switch:x" + "|ab" * 690_000 + "}}", "P": "{{T}}" * 400_000}, [], "ab" * 400_000)
    yield ("50,000, a part with a construct, and 50,000, 10,000 times",
           {"T": switch + half + "|{{{2|}}}=y" + half.replace("n", "m") + "}}", "P": "{{T|m49999}}" * 10_000}, [], "49999" * 10_000)


def main():
    program = os.path.abspath(sys.argv[1])
    for name, pages, options, wanted in rows():
        with tempfile.TemporaryDirectory() as folder:
            for title, text in pages.items():
                file = "P" if title == "P" else "Template:" + title
                with open(os.path.join(folder, file + ".wiki"), "w", encoding="utf-8") as page:
                    page.write(text)
            least = best(ROUNDS, [program, "expand", *options, folder, "P"], wanted=wanted.encode()).processor
        print(f"{name}: {least:.2f} s", flush=True)


if __name__ == "__main__":
    main()
