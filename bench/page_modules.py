#!/usr/bin/env python3
"""Writes the modules of the worked pages of `page_meaning`: its file specs/Modules.antt.

    page_modules.py    writes the file, next to this checkout's crates; `rt fmt` there lays it out

Each module has a name, its text and what it is for; the file holds the text, its length and its tree (by lua_trees.py).
"""
import pathlib

from lua_examples import comment, needed
from lua_trees import tree

FILE = pathlib.Path(__file__).resolve().parent.parent / "crates" / "page_meaning" / "specs" / "Modules.antt"

MODULES = [
    ("C", "It counts its calls in a global variable.", "n=0 local p={} function p.f() n=n+1 return n end return p"),
    ("D", "Data.", "return {x='v'}"),
    ("M", "It reads a datum.", "return {f=function() return mw.loadData('Module:D').x end}"),
    ("N", "Data that reads data.", "return {y=mw.loadData('Module:D').x}"),
    ("O", "It reads both.", "return {f=function() return mw.loadData('Module:N').y..mw.loadData('Module:D').x end}"),
    ("Own", "Data that loads itself.", "return mw.loadData('Module:Own')"),
    ("L", "It never ends, whatever is caught.", "local p={} function p.f() while true do pcall(p.f) end end return p"),
    ("DE", "Data that fails.", "error('x')"),
    ("DF", "A table that is no data.", "return {f=function() end}"),
    ("Try", "It catches what is raised by a load of the module that it is told.",
     "return {f=function(frame) local ok,e=pcall(mw.loadData,frame.args[1]) return tostring(ok)..e end}"),
    ("Pre", "It has a text expanded in its frame.", "return {f=function(frame) return frame:preprocess('{{{1}}}{{T}}') end}"),
    ("X", "It has a template expanded with arguments.",
     "return {f=function(frame) return frame:expandTemplate{title='A', args={'p', n='q'}} end}"),
    ("Nope", "The template is not there.", "return {f=function(frame) return frame:expandTemplate{title='Nope'} end}"),
    ("Self", "It has an invocation of itself expanded.",
     "local p={} x=1 function p.g() x=2 return 'g' end "
     "function p.f(frame) local s=frame:preprocess('{{#invoke:Self|g}}') return s..x end return p"),
    ("Braces", "It gives what looks like a template.", "return {f=function() return '{{T}}' end}"),
    ("Bad", "It fails.", "return {f=function() error('a<b') end}"),
]

HEAD = """-- THE MODULES of the worked pages: of each its text in Lua, and its tree. Written by bench/page_modules.py.
use Rattle.std.specs.Prelude.{◌≡◌, pos, true, false, [], ◌∷◌, codes}
use Rattle.lua_syntax.specs.declared.BinaryOp.TheVariants as op
use Rattle.lua_syntax.specs.declared.UnaryOp.TheVariants as sign
use Rattle.lua_syntax.specs.Tree.{NilE, TrueE, FalseE, NumberE, TextE, DotsE, FunctionE, NameE, IndexE, CallE, MethodE, TableE, BinaryE, UnaryE, ParenE}
use Rattle.lua_syntax.specs.Tree.{NoExp, NoField, Item, Pair, Lambda, Block, NoStat, Arm}
use Rattle.lua_syntax.specs.Tree.{AssignS, CallS, DoS, WhileS, RepeatS, IfS, IfElseS, CountS, CountByS, EachS, LocalFunctionS, LocalS, ReturnS, BreakS}
use Rattle.lua_syntax.specs.View.{exps_of, fields_of, arms_of, stats_of}
use Rattle.lua_meaning.specs.Trial.{ModuleText, module_text}
"""


def written():
    parts = []
    for name, said, text in MODULES:
        word = name.lower() + "_module"
        size = len(text.encode())
        parts.append(f"-- {said}\n{comment(text)}\nabbrev pub {word} : ModuleText\n{word} = module_text (codes \"{name}\") {size} ({tree(text)})\n")
    body = "\n".join(parts)
    return needed(HEAD, body) + "\n" + body


if __name__ == "__main__":
    FILE.write_text(written())
