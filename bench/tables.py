#!/usr/bin/env python3
"""Times tables and texts of a store through the machine of Lua, and says how much memory each takes; and a copy of tables one inside the
other.

  bench/tables.py crates/lua_machine_cases/out/lua_machine_cases

Seconds of processor time, less those of the same module without the work, and the greatest memory of a run for each entry, text or
table, less that module's. Of each the best of some rounds counts, so that other work on the machine disturbs little.
"""
import sys

from machine_reference import shown
from timing import best

ROUNDS, STEPS, CALLS = 3, 10 ** 12, 200_000
LOOP = "return {f=function() local t={} for i=1,%d do %s end %s return 'done' end}"
WALK = "local n=0 for k in next,t do n=n+1 end"

# What is done, how often, the work of a turn and what follows the loop; and what both stand for where the work is left out.
WORKS = {
    "dense": (2_000_000, ("t[i]=i", ""), ("", "")),
    "walk dense": (2_000_000, ("t[i]=i", WALK), ("t[i]=i", "")),
    "hashed": (1_000_000, ("t[-i]=i", ""), ("", "")),
    "walk hashed": (1_000_000, ("t[-i]=i", WALK), ("t[-i]=i", "")),
    "texts": (1_000_000, ("local s='x'..i", ""), ("", "")),
    "copied": (100_000, ("t={t}", "mw.clone(t)"), ("t={t}", "")),
}

def used(program, count, work):
    text = shown((LOOP % (count, *work)).encode())
    given = f"case\tX\nmodule\tX\t{text}\ninvoke\tX\tf\nrun\t{STEPS}\t{CALLS}\n"
    return best(ROUNDS, [program], given.encode(), b"X: gives done\n")


def main():
    program = sys.argv[1]
    print(f"{'work':12} {'how many':>10} {'seconds':>8} {'bytes each':>11}")
    for name, (count, work, plain) in WORKS.items():
        took, without = used(program, count, work), used(program, count, plain)
        print(f"{name:12} {count:10,} {took.processor - without.processor:8.2f} {(took.memory - without.memory) / count:11.1f}", flush=True)


main()
