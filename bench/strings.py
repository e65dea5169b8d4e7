#!/usr/bin/env python3
"""Times calls of `string.format`, `rep`, `sub` and plain `find` over a text of 2 MiB, beside those of lua5.1.

  bench/strings.py crates/text_cases/out/text_cases

Milliseconds of processor time for one call, less those of a run that only reads the texts (here), or without a call (`lua5.1`).
Of each the best of some rounds counts.
"""
import sys

from timing import LONG, answer_time, best, copies

ROUNDS = 3
COUNT = 20
LUA = """
local work, count = io.read("*l"):match("^(%a+) (%d+)$")
count = tonumber(count)
local text = string.rep("a", 2097152) .. "b"
local calls = {
  format = function() return string.format("<%s>%5d", text, 7) end,
  plain = function() return string.format(text) end,
  rep = function() return string.rep("abcd", 524288) end,
  sub = function() return string.sub(text, 2, -2) end,
  find = function() return string.find(text, "aab", 1, true) end,
}
local first, last
for _ = 1, count do first, last = calls[work]() end
if last then first = first .. " " .. last .. ", 0 tries" end
print(count == 0 and 0 or #first)
"""
TEXT = copies("a", LONG) + "b"
READ = f"string\tlen\t{TEXT}"

# A call's name, the case that makes it, and one that reads the same texts and does nothing with them.
CALLS = [
    ("format", f"format\t<%s>%5d\t'{TEXT}\t7", f"format\t\t'{TEXT}\t7"),
    ("plain", f"format\t{TEXT}", READ),
    ("rep", f"string\trep\tabcd\t{LONG // 4}", "string\tlen\tabcd"),
    ("sub", f"string\tsub\t{TEXT}\t2\t-2", READ),
    ("find", f"string\tfind\t{TEXT}\taab\t1\tplain", READ),
]


def lua(work):
    command = ["lua5.1", "-e", LUA]
    start = best(ROUNDS, command, f"{work} 0\n".encode()).processor
    took = best(ROUNDS, command, f"{work} {COUNT}\n".encode())
    return 1000 * (took.processor - start) / COUNT, int(took.printed)


def main():
    print(f"{'call':8} {'ours':>8} {'lua5.1':>8} {'times':>6}")
    for work, case, reading in CALLS:
        theirs, length = lua(work)
        ours = answer_time(ROUNDS, sys.argv[1], COUNT, case, reading, length)
        print(f"{work:8} {ours:8.2f} {theirs:8.2f} {ours / max(theirs, 0.001):6.2f}")


main()
