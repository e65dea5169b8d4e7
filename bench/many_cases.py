#!/usr/bin/env python3
"""Times the test runner on generated test modules.

  bench/many_cases.py crates/wikitest/out/wikitest

1,000 cases that do nothing, in modules of 1, 10, 100 and 1,000 cases: a module's text runs anew for each of its cases, so many cases in one module
cost more. Then 200 cases of some 100,000 steps each, with one job and with four by turns, and how many times as many cases a second four give.
For each the least processor and wall time of some runs, and the most memory.
"""
import os
import shutil
import subprocess
import sys
import tempfile
import time

from timing import best

ROUNDS = 5
CASES = 1000
LONG = 200
# A turn of an empty loop is a step.
TURNS = 100_000


def module(names, body):
    return "local p = {}\n" + "".join(f"function p.test{name}() {body} end\n" for name in names) + "return p\n"


def make(folder, modules, names, body):
    """So many test modules, each with cases of these names."""
    os.makedirs(folder)
    for number in range(modules):
        with open(os.path.join(folder, f"Module:M{number}%2Ftestcases.lua"), "w", encoding="utf-8") as file:
            file.write(module(names, body))


def wall(words):
    """The wall time of a run that prints nothing here."""
    began = time.perf_counter()
    subprocess.run(words, stdout=subprocess.DEVNULL, check=True)
    return time.perf_counter() - began


def row(name, cases, took):
    print(f"{name:48} {took.processor:9.2f} {took.wall:8.2f} {cases / took.wall:9.0f} {took.memory / (1 << 20):6.0f}")


def main():
    program = os.path.abspath(sys.argv[1])
    base = tempfile.mkdtemp(prefix="many-cases-")
    folder = os.path.join(base, "folder")
    print(f"{'folder':48} {'processor':>9} {'wall':>8} {'cases/s':>9} {'MiB':>6}")
    for each in (1, 10, 100, 1000):
        make(folder, CASES // each, range(each), "")
        row(f"{CASES} cases that do nothing, {each} a module", CASES, best(ROUNDS, [program, folder]))
        shutil.rmtree(folder)
    make(folder, 1, range(LONG), f"for i = 1, {TURNS} do end")
    one, four = [program, folder], [program, folder, "--jobs", "4"]
    row(f"{LONG} cases of {TURNS:,} steps", LONG, best(ROUNDS, one))
    row(f"{LONG} cases of {TURNS:,} steps, 4 jobs", LONG, best(ROUNDS, four))
    rounds = [(wall(one), wall(four)) for _ in range(ROUNDS)]
    shutil.rmtree(base)
    print(f"4 jobs: {min(it[0] for it in rounds) / min(it[1] for it in rounds):.2f} times as many cases a second as with 1")


if __name__ == "__main__":
    main()
