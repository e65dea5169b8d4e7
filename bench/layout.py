#!/usr/bin/env python3
"""Times the formatter and linter of modules on long texts.

  bench/layout.py crates/text_cases/out/text_cases crates/wikifmt/out/wikifmt

For each text: its bytes, the seconds of processor time of its parsing alone (a row of `text_cases`), and then of its layout (`wikifmt print`)
and of its globals (`wikifmt lint`), both with the folder that is read and what is printed: how much longer each takes, and the most memory
for a byte of the text. Of each the best of some rounds counts, and what a program takes for an empty text is taken off.
"""
import os
import sys
import tempfile

from long_texts import module, row
from timing import best

ROUNDS, START_ROUNDS, LARGE = 7, 40, 2_000_000
TEXTS = {
    "a module": module(LARGE),
    "a=b;": "a=b;" * (LARGE // 4),
    "one line of fields": "return {" + "x = 1, " * (LARGE // 7) + "}",
    "comments": "-- a comment\n" * (LARGE // 13),
    "names": "".join(f"n{number % 100_000}=m{number % 1000}\n" for number in range(LARGE // 13)),
}


def main():
    rows, program = sys.argv[1:3]
    print(f"{'text':20} {'bytes':>8} {'parsing':>8}" + f" {'layout':>8} {'':7} {'bytes a byte':>12}" + f" {'globals':>8} {'':7} {'bytes a byte':>12}")
    with tempfile.TemporaryDirectory() as folder:
        names = ["Empty", *(f"Text {number}" for number in range(len(TEXTS)))]
        for name, text in zip(names, ["", *TEXTS.values()]):
            os.makedirs(f"{folder}/{name}")
            with open(f"{folder}/{name}/Module:Text.lua", "w", encoding="utf-8") as file:
                file.write(text)
        start = {verb: best(START_ROUNDS, [program, verb, f"{folder}/Empty", "Text"]) for verb in ("print", "lint")}
        for name, (title, text) in zip(names[1:], TEXTS.items()):
            # (a row that is read only takes the program's start and the reading)
            read = best(ROUNDS, [rows], row("read", text, "no such kind")).processor
            parsing = best(ROUNDS, [rows], row("chunk", text, "chunk")).processor - read
            line = f"{title:20} {len(text):8} {parsing:7.3f}s"
            for verb, before in start.items():
                took = best(ROUNDS, [program, verb, f"{folder}/{name}", "Text"])
                seconds = took.processor - before.processor
                memory = (took.memory - before.memory) / len(text)
                line += f" {seconds:7.3f}s {seconds / parsing:6.2f}x {memory:12.0f}"
            print(line, flush=True)


main()
