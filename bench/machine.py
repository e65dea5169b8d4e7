#!/usr/bin/env python3
"""Times the machine of Lua beside `lua5.1` on the same texts.

  bench/machine.py crates/lua_machine_cases/out/lua_machine_cases

For each text: the seconds of processor time of the machine and of `lua5.1` (the best of some rounds each, and what the programs take to
start is taken off), how much longer the machine takes, the steps that it takes, millions of steps a second, and the most memory of both in MiB. Then
calls of the library, without the loop around them; what a start with its fresh environment takes, in one store and in a store of its own;
and texts that are made to take long, at two sizes: how much longer the larger one takes, which is twice as large.
"""
import re
import shutil
import sys

from machine_reference import shown
from timing import best, run

ROUNDS, LIBRARY_ROUNDS, START_ROUNDS, STEPS, CALLS = 3, 9, 20, 10 ** 12, 200_000

TEXTS = {
    "fib(30)": "local function fib(n) if n<2 then return n end return fib(n-1)+fib(n-2) end return {f=function() return fib(30) end}",
    "20,000,000 turns": "return {f=function() local s=0 for i=1,20000000 do s=s+i end return s%1000003 end}",
    "2,000,000 sets and gets": "return {f=function() local t={} for i=1,2000000 do t[i]=i end local s=0 for i=1,2000000 do s=s+t[i] end return s%1000003 end}",
    "the same, hashed": "return {f=function() local t={} for i=1,2000000 do t[-i*7]=i end local s=0 for i=1,2000000 do s=s+t[-i*7] end return s%1000003 end}",
    "1,000,000 closures": "return {f=function() local n=0 for i=1,1000000 do local g=function() n=n+i end g() end return n%1000003 end}",
    "300,000 joined texts": "return {f=function() local s for i=1,300000 do s='k'..i end return s end}",
    "300,000 appended": "return {f=function() local n=0 for i=1,3000 do local s='' for j=1,100 do s=s..'x' end n=n+#s end return n end}",
    "1,000,000 method calls": "local o={n=0} o.__index=o function o:inc() self.n=self.n+1 end return {f=function() local p=setmetatable({},o) for i=1,1000000 do p:inc() end return p.n end}",
    "500,000 protected calls": "return {f=function() local n=0 for i=1,500000 do local ok,v=pcall(function() return i end) n=n+v end return n%1000003 end}",
    "2,000,000 entries walked": "return {f=function() local t={} for i=1,200000 do t[i]=1 end local n=0 for k=1,10 do for i,v in pairs(t) do n=n+v end end return n end}",
}

# Texts that are made to take long, for a size; and the size.
ATTACKS = {
    "a chain of __call on itself": ("return {f=function() local t={} t.__call=t setmetatable(t,t) return pcall(function() return t() end) end}", 100000, True),
    "arguments that grow": ("return {f=function() local function g(n,...) if n==0 then return select('#',...) end return g(n-1,n,...) end return g(%d) end}", 2000, False),
    "locals in a row": ("return {f=function() local n=0 for i=1,%d do local a,b,c,d,e,f,g,h=1,2,3,4,5,6,7,8 n=n+a end return n end}", 200000, False),
    "errors in deep calls": ("return {f=function() local function g(n) if n==0 then error('x') end g(n-1) end return #select(2,pcall(g,%d)) end}", 50000, False),
    "a text that doubles": ("return {f=function() local s='x' for i=1,%d do s=(s..s..'y') if #s>1000000 then s='x' end end return #s end}", 400, False),
    "a long constant": ("return {f=function() local n=0 for i=1,%d do local s='" + "x" * 100000 + "' n=n+#s end return n end}", 5000, False),
    "keys cleared and walked": ("return {f=function() local t={} for i=1,%d do t[i..'']=1 end for k in pairs(t) do t[k]=nil end local n=0 for i=1,20 do if next(t)==nil then n=n+1 end end return n end}", 50000, False),
}

# Calls of the library, and the same text without the call, whose time is taken off.
LOOP = "return {f=function() local n=0 for i=1,%d do %s end return n end}"
FILLED = "return {f=function() local t={} for i=1,1000000 do t[i]=%s end %s end}"
LIBRARY = {
    "300,000 gsub, a statement": (LOOP % (300000, "string.gsub('hello world','o','0')"), LOOP % (300000, "")),
    "300,000 format, a statement": (LOOP % (300000, "string.format('%d %s %05d',i,'x',i)"), LOOP % (300000, "")),
    "1,000,000 sub, a statement": (LOOP % (1000000, "local s='hello world' s:sub(3,7)"), LOOP % (1000000, "local s='hello world'")),
    "300,000 gsub": (LOOP % (300000, "local s,k=string.gsub('hello world','o','0') n=n+k"), LOOP % (300000, "local s,k='hello world',2 n=n+k")),
    "300,000 format": (LOOP % (300000, "n=n+#string.format('%d %s %05d',i,'x',i)"), LOOP % (300000, "n=n+#'1 x 00001'")),
    "1,000,000 sub": (LOOP % (1000000, "local s='hello world' n=n+#s:sub(3,7)"), LOOP % (1000000, "local s='hello world' n=n+#s")),
    "1,000,000 sub, declared": (LOOP % (1000000, "local s='hello world' local c=s:sub(3,7) n=n+#c"), LOOP % (1000000, "local s='hello world' local c=s n=n+#c")),
    "concat of 1,000,000": (FILLED % ("'x'", "return #table.concat(t,',')"), FILLED % ("'x'", "return #t")),
    "sort of 1,000,000": (FILLED % ("i*7919%1000003", "table.sort(t) return t[500000]"), FILLED % ("i*7919%1000003", "return t[500000]")),
}

LUA = "local m=loadstring(io.read('*a'),'=Module:X')() io.write(tostring((m.f({}))))"


def case(text, line):
    """A table of one case, whose module has this text, and what is done with it."""
    return f"case\tX\nmodule\tX\t{shown(text.encode())}\ninvoke\tX\tf\n{line}\n".encode()


def given(text, steps=STEPS):
    return case(text, f"took\t{steps}\t{CALLS}")


def ended(printed):
    """What a run gave, and the steps that it took."""
    found = re.fullmatch(r"X: gives (.*), (\d+) taken\n", printed.decode())
    if not found:
        sys.exit(f"printed {printed[:80]!r}")
    return found[1], int(found[2])


def beside_lua(program):
    lua = shutil.which("lua5.1")
    start = best(START_ROUNDS, [program]).processor
    lua_start = best(START_ROUNDS, [lua, "-e", "io.read('*a')"]).processor if lua else 0
    print(f"{'text':26} {'machine':>8} {'lua5.1':>8} {'ratio':>6} {'steps':>12} {'M/s':>6} {'MiB':>5} {'MiB':>5}")
    for name, text in TEXTS.items():
        mine = best(ROUNDS, [program], given(text))
        gave, steps = ended(mine.printed)
        took = mine.processor - start
        line = f"{name:26} {took:7.2f}s "
        if lua:
            other = best(ROUNDS, [lua, "-e", LUA], text.encode())
            if other.printed.decode() != gave:
                sys.exit(f"{name}: {gave} here, {other.printed.decode()} in lua5.1")
            theirs = max(other.processor - lua_start, 1e-3)
            print(f"{line}{theirs:7.2f}s {took / theirs:5.1f}x {steps:12} {steps / took / 1e6:6.1f} {mine.memory / 2 ** 20:5.0f} {other.memory / 2 ** 20:5.0f}", flush=True)
        else:
            print(f"{line}{'':8} {'':6} {steps:12} {steps / took / 1e6:6.1f} {mine.memory / 2 ** 20:5.0f}", flush=True)


def library(program):
    """What the calls take by themselves. All programs run by turns, so that a machine whose speed changes disturbs each of them alike."""
    lua = shutil.which("lua5.1")
    print(f"\n{'calls of the library':28} {'machine':>8} {'lua5.1':>8} {'ratio':>6}")
    for name, texts in LIBRARY.items():
        columns = [([program], given(text)) for text in texts] + [([lua, "-e", LUA], text.encode()) for text in texts if lua]
        rounds = [[run(*column) for column in columns] for _ in range(LIBRARY_ROUNDS)]
        least = [min(it.processor for it in column) for column in zip(*rounds)]
        took = least[0] - least[1]
        line = f"{name:28} {took:7.3f}s "
        if lua:
            gave, other = ended(rounds[0][0].printed)[0], rounds[0][2].printed.decode()
            if gave != other:
                sys.exit(f"{name}: {gave} here, {other} in lua5.1")
            theirs = max(least[2] - least[3], 1e-3)
            line += f"{theirs:7.3f}s {took / theirs:5.1f}x"
        print(line, flush=True)


def starts(program):
    print(f"\n{'starts':26} {'each':>10} {'MiB':>5}")
    for name, word in (("in one store", "starts"), ("in stores of their own", "stores")):
        few, many = (best(ROUNDS, [program], case("return {}", f"{word}\t{count}"), b"X: started\n") for count in (1, 20001))
        print(f"{name:26} {(many.processor - few.processor) / 20000 * 1e6:7.1f} us {many.memory / 2 ** 20:5.0f}")


def attacks(program):
    start = best(START_ROUNDS, [program]).processor
    print(f"\n{'made to take long':30} {'once':>8} {'twice':>8} {'ratio':>6}")
    for name, (text, size, in_steps) in ATTACKS.items():
        took = []
        for n in (size, 2 * size):
            spent = given(text, n) if in_steps else given(text % n)
            took.append(best(ROUNDS, [program], spent).processor - start)
        print(f"{name:30} {took[0]:7.3f}s {took[1]:7.3f}s {took[1] / max(took[0], 1e-4):5.1f}x")


def main():
    program = sys.argv[1]
    run([program])
    beside_lua(program)
    library(program)
    starts(program)
    attacks(program)


main()
