#!/usr/bin/env python3
"""The layout of a module's text, written from docs/RULES.md, to which `wikifmt` is compared.

    layout_reference.py                       lays out a text from standard input, or prints its fault
    layout_reference.py rows                  the worked rows, against this file alone
    layout_reference.py PROGRAM [N [SEED]]    compares the program with it: the worked rows, each module of examples/, and N texts (2,000) of
                                              random statements with random white space and comments between their tokens, some of them cut
                                              short; lays out each answer again, which must change nothing; the faults are those of
                                              `lua_reference.py`
"""
import glob
import os
import random
import re
import subprocess
import sys
import tempfile

import lua_reference

sys.setrecursionlimit(20000)

TOP = os.path.dirname(os.path.dirname(os.path.abspath(__file__)))
WHITE = re.compile(r"[ \t\v\f\r\n]+")
OPENING = {"do", "then", "repeat", "function", "{"}
CLOSING = {"end", "until", "elseif", "}"}
FAULTS = {
    1: "unfinished string", 2: "unfinished long bracket", 3: "escape out of range", 4: "unexpected byte", 5: "unexpected token",
    6: "numeral is not a whole number in range", 7: "nested too deeply", 8: "break outside a loop", 9: "call on a new line",
    10: "... outside a vararg function",
}


# ---------------------------------------------------------------- the rules

def items(text):
    """The tokens and comments of a text that has no fault: kind, bytes, and how many line breaks stand before."""
    found, at, breaks = [], 0, 0
    for token in lua_reference.tokens(text):
        while at < token.start:
            white = WHITE.match(text, at)
            if white:
                breaks, at = breaks + len(lua_reference.BREAK.findall(white.group())), white.end()
                continue
            bracket = lua_reference.long_bracket(text, at + 2)
            end = bracket[1] if bracket else re.compile(r"[^\r\n]*").match(text, at).end()
            found.append(("comment", text[at:end], breaks))
            at, breaks = end, 0
        if token.kind != "end":
            found.append((token.kind, text[token.start:token.end], breaks))
            at, breaks = token.end, 0
    return found


def is_tight(before, item):
    """Whether no space stands between two items on one line."""
    mark_before = before[1] if before[0] == "mark" else ""
    mark = item[1] if item[0] == "mark" else ""
    return (
        mark in (",", ";", ")", "]", ".", ":")
        or mark_before in ("(", "#", ".", ":")
        or (mark_before == "[" and not item[1].startswith("["))
        or ((before[0] == "name" or mark_before in (")", "]")) and mark in ("(", "["))
        or (mark_before == "{" and mark == "}")
    )


def layout(text):
    made, opened, closed, before = [], 0, 0, None
    for item in items(text):
        mark = item[1] if item[0] == "mark" else ""
        level = max(0, max(0, opened - closed) - (mark in CLOSING or mark == "else"))
        if before is None:
            pass
        elif item[2] == 0:
            made.append("" if is_tight(before, item) else " ")
        else:
            made.append("\n" * min(item[2], 2) + "  " * level)
        made.append(item[1])
        opened, closed, before = opened + (mark in OPENING), closed + (mark in CLOSING), item
    return "".join(made) + ("\n" if made else "")


def answer(text):
    """The layout, or the fault's number and line."""
    said = lua_reference.answer(text)
    fault = re.fullmatch(r"fault (\d+) line (\d+)", said)
    return (int(fault[1]), int(fault[2])) if fault else layout(text)


# ---------------------------------------------------------------- rows

ROWS = [
    ("local p={}\n\n  function p.f (x)\nif x then return x [ 1 ] end -- c\nend\nreturn p\n",
     "local p = {}\n\nfunction p.f(x)\n  if x then return x[1] end -- c\nend\nreturn p\n"),
    ("return t[ [[k]] ], - - 1", "return t[ [[k]]], - - 1\n"),
    ("return f(", (5, 1)),
    ("", ""),
    (" \n\t", ""),
    ("-- only\n\n\n\n--[[ these\n  two ]]", "-- only\n\n--[[ these\n  two ]]\n"),
    ("if a then\nf {  }\nelseif b then\ng'x' . y : z ( # t )\n\n\n\nelse h()\nend\n", "if a then\n  f {}\nelseif b then\n  g 'x'.y:z(#t)\n\nelse h()\nend\n"),
    (" --[[a]]x.--[=[b]=]y=1--c\n    --d\n", "--[[a]] x.--[=[b]=] y = 1 --c\n--d\n"),
    ("a=1\r\nb=2\n\rc=3\r\rd=4", "a = 1\nb = 2\nc = 3\n\nd = 4\n"),
    ("f\n(x)", (9, 2)),
    ("x=f(a)[1]{2}'c'(d):m()", "x = f(a)[1] { 2 } 'c' (d):m()\n"),
    ("return function(...)return...end", "return function (...) return ... end\n"),
    ("x=1 ..2", "x = 1 .. 2\n"),
    ("x=\"\\\n\\z\"", "x = \"\\\n\\z\"\n"),
    ("repeat\nlocal x=a\nuntil x", "repeat\n  local x = a\nuntil x\n"),
    ("while a do\nfor i=1,2 do\nbreak;\nend\nend", "while a do\n  for i = 1, 2 do\n    break;\n  end\nend\n"),
    ("x={\n1,\n[2]=3;\n}\n", "x = {\n  1,\n  [2] = 3;\n}\n"),
    ("x='a", (1, 1)), ("x=[[a", (2, 1)), ("\nx='\\256'", (3, 2)), ("x=1\n\n$", (4, 3)), ("x=0.5", (6, 1)), ("\nbreak", (8, 2)),
    ("function f()\nreturn ...\nend", (10, 2)),
    ("x=" + "(" * 250 + "1" + ")" * 250, (7, 1)),
]


# ---------------------------------------------------------------- random texts

class Random:
    def __init__(self, seed):
        self.chance = random.Random(seed)

    def pick(self, *ways):
        return self.chance.choice(ways)

    def name(self):
        return self.pick("a", "b", "_x", "end1", "Do", "x9")

    def names(self):
        return [self.name()] + [it for _ in range(self.chance.randrange(2)) for it in (",", self.name())]

    def string(self):
        return self.pick("'a'", '"b\\"c"', "[[k]]", "[==[ ]] ]=] ]==]", "'\\065\\n'", '"\\\r\n"', "[[\n\n]]")

    def one(self, *ways):
        """What one of these functions gives."""
        return self.chance.choice(ways)()

    def call(self, deep):
        return self.one(lambda: ["(", ")"], lambda: ["(", *self.exps(deep), ")"], lambda: [self.string()], lambda: self.table(deep))

    def suffix(self, deep):
        return self.one(
            lambda: [".", self.name()], lambda: ["[", *self.exp(deep), "]"], lambda: self.call(deep), lambda: [":", self.name(), *self.call(deep)])

    def prefix(self, deep):
        made = [self.name()] if deep <= 0 or self.chance.random() < 0.7 else ["(", *self.exp(deep - 1), ")"]
        for _ in range(self.chance.randrange(3)):
            made += self.suffix(deep - 1)
        return made

    def field(self, deep):
        return self.one(lambda: self.exp(deep), lambda: [self.name(), "=", *self.exp(deep)], lambda: ["[", *self.exp(deep), "]", "=", *self.exp(deep)])

    def table(self, deep):
        made = ["{"]
        for _ in range(self.chance.randrange(3) if deep > 0 else 0):
            made += [*self.field(deep - 1), self.pick(",", ";")]
        return made + ["}"]

    def function(self, deep):
        params = self.one(list, lambda: ["..."], self.names, lambda: [*self.names(), ",", "..."])
        return ["(", *params, ")", *self.block(deep - 1), "end"]

    def exp(self, deep):
        simple = [self.pick("nil", "true", "1", "0x1F", "3e2", self.string(), self.name())]
        if deep <= 0 or self.chance.random() < 0.4:
            return simple
        operator = self.pick("+", "-", "*", "/", "%", "^", "..", "==", "~=", "<", "<=", ">", ">=", "and", "or")
        return self.one(
            lambda: self.prefix(deep), lambda: self.table(deep), lambda: ["function", *self.function(deep)],
            lambda: [*self.exp(deep - 1), operator, *self.exp(deep - 1)], lambda: [self.pick("-", "not", "#"), *self.exp(deep - 1)])

    def exps(self, deep):
        return self.exp(deep) + [it for _ in range(self.chance.randrange(2)) for it in [",", *self.exp(deep)]]

    def variable(self, deep):
        return self.one(lambda: [self.name()], lambda: [self.name(), ".", self.name()], lambda: [self.name(), "[", *self.exp(deep - 1), "]"])

    def simple(self, deep):
        return self.one(
            lambda: [*self.variable(deep), "=", *self.exps(deep)], lambda: ["local", *self.names()], lambda: ["local", *self.names(), "=", *self.exps(deep)],
            lambda: [self.name(), *self.call(deep)], lambda: [self.name(), ":", self.name(), *self.call(deep)])

    def branches(self, deep):
        arms = [it for _ in range(self.chance.randrange(2)) for it in ["elseif", *self.exp(deep), "then", *self.block(deep)]]
        other = ["else", *self.block(deep)] if self.chance.random() < 0.5 else []
        return ["if", *self.exp(deep), "then", *self.block(deep), *arms, *other, "end"]

    def statement(self, deep):
        if deep <= 0 or self.chance.random() < 0.4:
            return self.simple(deep)
        below = deep - 1
        return self.one(
            lambda: ["do", *self.block(below), "end"], lambda: ["while", *self.exp(below), "do", *self.block(below), "end"],
            lambda: ["repeat", *self.block(below), "until", *self.exp(below)], lambda: self.branches(below),
            lambda: ["for", self.name(), "=", *self.exp(below), ",", *self.exp(below), "do", *self.block(below), "end"],
            lambda: ["for", *self.names(), "in", *self.exps(below), "do", *self.block(below), "end"],
            lambda: ["function", self.name(), *self.pick([], [".", self.name()], [":", self.name()]), *self.function(deep)],
            lambda: ["local", "function", self.name(), *self.function(deep)])

    def block(self, deep):
        made = []
        for _ in range(self.chance.randrange(3)):
            made += self.statement(deep) + self.pick([], [";"])
        return made + self.one(list, list, lambda: ["return"], lambda: ["return", *self.exps(deep)])

    def gap(self, before, behind):
        """White space and comments between two tokens that they keep apart."""
        made = ""
        for _ in range(self.chance.choice([0, 0, 1, 1, 2])):
            made += self.pick(" ", "\t", "\n", "\r\n", "\n\r", "\n\n\n", "--c\n", "--[[d]]", "--[=[\ne]=]", "  ", "--\r")
        joined = before[-1:] + made[:1] if made else before[-1:] + behind[:1]
        fuses = re.fullmatch(r"[\w.][\w.]|--|\[\[|\[=|[=<>~]=|[0-9][+-]", joined) or (made == "" and before.endswith("[") and behind[:1] in "[=")
        return (" " if fuses else "") + made

    def text(self):
        words = self.block(3)
        made = self.gap(" ", "")
        for before, behind in zip([" "] + words, words):
            made += (self.gap(before, behind) if before != " " else "") + behind
        made += self.gap(words[-1] if words else " ", "")
        if self.chance.random() < 0.2:
            made = made[:self.chance.randrange(len(made) + 1)]
        return made


# ---------------------------------------------------------------- the comparison

def run(program, text):
    with tempfile.TemporaryDirectory(prefix="layout-") as room:
        with open(os.path.join(room, "Module:M.lua"), "w", encoding="latin-1", newline="") as file:
            file.write(text)
        ran = subprocess.run([program, "print", room, "M"], stdin=subprocess.DEVNULL, capture_output=True, check=False)
    if ran.returncode == 8:
        return re.fullmatch(r"Module:M:(\d+): (.*)\n", ran.stderr.decode("latin-1")).groups()
    if ran.returncode or ran.stderr:
        sys.exit(f"{program}: status {ran.returncode} {ran.stderr!r}")
    return ran.stdout.decode("latin-1")


def differs(program, text, right):
    """What the program makes of a text, where that is not right."""
    made = run(program, text)
    wanted = (str(right[1]), FAULTS[right[0]]) if isinstance(right, tuple) else right
    if made != wanted:
        return f"{text!r}\n  gives   {made!r}\n  and not {wanted!r}"
    if isinstance(made, str) and made != text and run(program, made) != made:
        return f"{made!r}\n  changes when it is laid out again"
    return None


def texts(count, seed):
    yield from ROWS
    for name in sorted(glob.glob(os.path.join(TOP, "examples", "*", "Module:*.lua"))):
        with open(name, encoding="latin-1", newline="") as file:
            text = file.read()
        yield text, answer(text)
    makes = Random(seed)
    for _ in range(count):
        text = makes.text()
        yield text, answer(text)


def main():
    if sys.argv[1:] == ["rows"]:
        wrong = [f"{text!r}\n  gives {answer(text)!r}" for text, right in ROWS if answer(text) != right]
        wrong += [f"{text!r} changes when it is laid out again" for text, right in texts(500, 1) if isinstance(right, str) and layout(right) != right]
    elif len(sys.argv) in (2, 3, 4):
        numbers = [int(it) for it in sys.argv[2:]] + [2000, 1][len(sys.argv) - 2:]
        wrong = [it for it in (differs(sys.argv[1], text, right) for text, right in texts(*numbers)) if it]
    else:
        made = answer(sys.stdin.buffer.read().decode("latin-1"))
        sys.stdout.buffer.write((made if isinstance(made, str) else f"{made[1]}: {FAULTS[made[0]]}\n").encode("latin-1"))
        return 0
    print("\n".join(wrong) or "all as they should be")
    return 1 if wrong else 0


if __name__ == "__main__":
    sys.exit(main())
