#!/usr/bin/env python3
"""Times the lexing, the parsing and the resolving of long Lua texts.

  bench/parser.py crates/text_cases/out/text_cases crates/lua_machine_cases/out/lua_machine_cases

For each text: its bytes, the seconds of processor time of its lexing alone and of its parsing (which lexes it first), how much longer the
parsing takes, and what resolving its names takes beside the parsing, as a part of that. A row of `text_cases` lexes the text, or parses
it; the machine's program parses and resolves the text of a module that it has no step to run. Of each the best of some rounds counts, so
that other work on the machine disturbs little. What a program takes for an empty text is taken off.
"""
import sys

from long_texts import CAPTURING, escaped, module, row
from timing import best

ROUNDS, START_ROUNDS, LARGE = 7, 40, 1 << 21

TEXTS = {
    "a module, 128 KiB": module(LARGE >> 4),
    "a module, 2 MiB": module(LARGE),
    "captures, 2 MiB": module(LARGE, CAPTURING),
    "20,000 statements": "x = 1\n" * 20000,
    "200,000 statements": "x = 1\n" * 200000,
    "20,000 fields": "return {" + "x = 1, " * 20000 + "}",
    "200,000 fields": "return {" + "x = 1, " * 200000 + "}",
    "200,000 arguments": "f(1" + ", 1" * 199999 + ")",
    "200,000 deep": "x = " + "(" * 200000,
    "200,000 locals": "".join(f"local v{n} = 1\n" for n in range(200000)),
    "one name, 200,000": "local x = x\n" * 200000,
    "60 functions deep": "local x = 1\n" + "return function()\n" * 60 + "x = x + 1\n" * 100000 + "end\n" * 60,
    "200,000 operators": "x = 1" + " + 1" * 200000,
}


# Texts with a fault: they nest too deeply.
DEEP = ("200,000 deep", "200,000 operators")


def module_of(text):
    return f"case\tX\nmodule\tX\t{escaped(text)}\ninvoke\tX\tf\nrun\t0\t1\n".encode()


def seconds(program, given):
    return best(ROUNDS, [program], given).processor


def main():
    rows, machine = sys.argv[1:3]
    start = {kind: best(START_ROUNDS, [rows], row(kind, "", answer)).processor for kind, answer in (("levels", "0 0"), ("chunk", "chunk"))}
    machine_start = best(START_ROUNDS, [machine], module_of("")).processor
    print(f"{'text':20} {'bytes':>8} {'lexing':>8} {'parsing':>8} {'':7} {'resolving':>9}")
    for name, text in TEXTS.items():
        answer = "fault 7 line 1" if name in DEEP else "chunk"
        # (reading the row takes as long for both)
        read = seconds(rows, row("read", text, "no such kind")) - start["levels"]
        lexing = seconds(rows, row("levels", text, "0 0")) - start["levels"] - read
        parsing = seconds(rows, row("chunk", text, answer)) - start["chunk"] - read
        resolving = seconds(machine, module_of(text)) - machine_start - read - parsing
        print(f"{name:20} {len(text):8} {lexing:7.3f}s {parsing:7.3f}s {parsing / lexing:6.2f}x {resolving:8.3f}s {resolving / parsing:5.2f}", flush=True)


main()
