#!/usr/bin/env python3
"""Writes the crate `lua_flat_cases`: small modules with their resolved code and their flat code, by the maker of flat_examples.py.

    flat_cases.py           writes the files of specs/ and of proofs/ of crates/lua_flat_cases

A module is given by the body of its function `f`. The reader here knows what these texts need of Lua's grammar, and no more.
"""
import pathlib
import re

import flat_examples
from flat_examples import Maker, shown

CRATE = pathlib.Path(__file__).resolve().parent.parent / "crates" / "lua_flat_cases"
KEYWORDS = "and break do else elseif end false for function if in local nil not or repeat return then true until while".split()
TOKEN = re.compile(r"\s*(?:(\d+)|([A-Za-z_]\w*)|'((?:[^'\\]|\\.)*)'|(\.\.\.|\.\.|==|~=|<=|>=|[-+*/%^#<>=(){}\[\];:,.]))")
BINARY = [["or"], ["and"], ["<", ">", "<=", ">=", "~=", "=="], [".."], ["+", "-"], ["*", "/", "%"]]
NAMES = {"<": "Less", ">": "Greater", "<=": "AtMost", ">=": "AtLeast", "~=": "Unequal", "==": "Equal", "..": "Concatenate",
         "+": ("Calculate", "Add"), "-": ("Calculate", "Sub"), "*": ("Calculate", "Mul"), "/": ("Calculate", "Div"), "%": ("Calculate", "Mod"), "^": ("Calculate", "Pow")}


class Variable:
    """A local variable: its name, its function, and whether an inner function keeps it."""
    def __init__(self, name, function):
        self.name, self.function, self.boxed = name, function, False


class Function:
    def __init__(self, outer, parameters, dots):
        self.outer, self.dots = outer, dots
        self.open, self.captured = [], []
        self.parameters = [self.declare(name) for name in parameters]

    def declare(self, name):
        variable = Variable(name, self)
        self.open.append(variable)
        return variable


class Reader:
    """Reads a text into a tree whose variables are objects; `Resolved` makes places of them."""
    def __init__(self, text):
        self.tokens, self.at, line = [], 0, 1
        place = 0
        text = text.rstrip()
        while place < len(text):
            match = TOKEN.match(text, place)
            assert match, text[place:]
            line += text[place:match.start(match.lastindex)].count("\n")
            kind = ["number", "name", "text", "mark"][match.lastindex - 1]
            word = match.group(match.lastindex)
            self.tokens.append(("keyword" if kind == "name" and word in KEYWORDS else kind, word, line))
            place = match.end()
        self.tokens.append(("end", "", line))
        self.function = None

    def peek(self):
        return self.tokens[self.at][1] if self.tokens[self.at][0] in ("keyword", "mark") else None

    def next(self):
        self.at += 1
        return self.tokens[self.at - 1]

    def take(self, word):
        if self.peek() == word:
            self.at += 1
            return True
        return False

    def want(self, word):
        assert self.take(word), (word, self.tokens[self.at])

    def line(self):
        return self.tokens[self.at][2]

    def name(self):
        kind, word, line = self.next()
        assert kind == "name", word
        return word

    # names

    def find(self, name):
        function = self.function
        while function:
            for variable in reversed(function.open):
                if variable.name == name:
                    if function is not self.function:
                        variable.boxed = True
                    return variable
            function = function.outer
        return None

    # expressions

    def expression(self, level=0):
        if level == len(BINARY):
            return self.unary()
        left = self.expression(level + 1)
        while self.peek() in BINARY[level]:
            line = self.line()
            mark = self.next()[1]
            right = self.expression(level if mark == ".." else level + 1)
            if mark == "and":
                left = ("AndC", left, right)
            elif mark == "or":
                left = ("OrC", left, right)
            else:
                left = ("OperateC", NAMES[mark], left, right, line)
        return left

    def unary(self):
        line = self.line()
        for mark, sign in (("not", "sign.Not"), ("-", "sign.Minus"), ("#", "sign.Len")):
            if self.take(mark):
                return ("UnaryC", sign, self.unary(), line)
        base = self.simple()
        if self.peek() == "^":
            line = self.line()
            self.next()
            return ("OperateC", NAMES["^"], base, self.unary(), line)
        return base

    def simple(self):
        kind, word, line = self.tokens[self.at]
        if kind == "number":
            self.next()
            return ("ConstantC", ("Number", ("pos", int(word))))
        if kind == "text":
            self.next()
            return ("Text", word.replace("\\n", "\n"))
        for name, value in (("nil", "Nil"), ("true", ("Truth", "true")), ("false", ("Truth", "false"))):
            if self.take(name):
                return ("ConstantC", value)
        if self.take("..."):
            return "DotsC"
        if self.take("function"):
            return self.function_body([])
        if self.peek() == "{":
            return self.table()
        return self.suffixed()

    def suffixed(self):
        line = self.line()
        if self.take("("):
            e = ("ParenC", self.expression())
            self.want(")")
        else:
            name = self.name()
            variable = self.find(name)
            e = ("Local", variable, self.function) if variable else ("Global", name, line)
        while True:
            line = self.line()
            if self.take("."):
                e = ("IndexC", e, ("Text", self.name()), line)
            elif self.take("["):
                e = ("IndexC", e, self.expression(), line)
                self.want("]")
            elif self.take(":"):
                name = self.name()
                e = ("Method", e, name, self.arguments(), line)
            elif self.peek() in ("(", "{") or self.tokens[self.at][0] == "text":
                e = ("CallC", e, self.arguments(), line)
            else:
                return e

    def arguments(self):
        if self.tokens[self.at][0] == "text":
            return [("Text", self.next()[1])]
        if self.peek() == "{":
            return [self.table()]
        self.want("(")
        es = [] if self.peek() == ")" else self.expressions()
        self.want(")")
        return es

    def expressions(self):
        es = [self.expression()]
        while self.take(","):
            es.append(self.expression())
        return es

    def table(self):
        line = self.line()
        self.want("{")
        fields = []
        while not self.take("}"):
            if self.take("["):
                key = self.expression()
                self.want("]")
                self.want("=")
                fields.append((key, self.expression()))
            elif self.tokens[self.at][0] == "name" and self.tokens[self.at + 1][1] == "=" and self.tokens[self.at + 1][0] == "mark":
                key = ("Text", self.name())
                self.want("=")
                fields.append((key, self.expression()))
            else:
                fields.append((None, self.expression()))
            if not (self.take(",") or self.take(";")):
                self.want("}")
                break
        return ("Table", fields, line)

    def function_body(self, first):
        self.want("(")
        names, dots = list(first), False
        while not self.take(")"):
            if self.take("..."):
                dots = True
            else:
                names.append(self.name())
            self.take(",")
        self.function = Function(self.function, names, dots)
        function = self.function
        body = self.block()
        self.want("end")
        self.function = function.outer
        return ("Function", function, body)

    # statements

    def block(self):
        depth = len(self.function.open)
        statements = []
        while self.tokens[self.at][0] != "end" and self.peek() not in ("end", "else", "elseif", "until"):
            statements.append(self.statement())
            self.take(";")
        if self.peek() != "until":
            del self.function.open[depth:]
        return statements

    def statement(self):
        line = self.line()
        if self.take("local"):
            if self.take("function"):
                variable = self.function.declare(self.name())
                return ("LocalFunction", variable, self.function_body([]))
            names = [self.name()]
            while self.take(","):
                names.append(self.name())
            es = self.expressions() if self.take("=") else []
            return ("Declare", [self.function.declare(name) for name in names], es)
        if self.take("function"):
            target = ("Local", self.find(self.peek_name()), self.function) if self.find(self.peek_name()) else None
            name = self.name()
            target = target or ("Global", name, line)
            first = []
            while self.peek() in (".", ":"):
                mark = self.next()[1]
                target = ("IndexC", target, ("Text", self.name()), line)
                first = ["self"] if mark == ":" else []
            return ("Assign", [target], [self.function_body(first)])
        if self.take("do"):
            body = self.block()
            self.want("end")
            return ("Do", body)
        if self.take("while"):
            test = self.expression()
            self.want("do")
            body = self.block()
            self.want("end")
            return ("While", test, body)
        if self.take("repeat"):
            depth = len(self.function.open)
            body = self.block()
            self.want("until")
            test = self.expression()
            del self.function.open[depth:]
            return ("Repeat", body, test)
        if self.take("if"):
            arms, other = [], None
            while True:
                test = self.expression()
                self.want("then")
                arms.append((test, self.block()))
                if self.take("elseif"):
                    continue
                if self.take("else"):
                    other = self.block()
                self.want("end")
                return ("If", arms, other)
        if self.take("for"):
            names = [self.name()]
            if self.take("="):
                es = self.expressions()
                self.want("do")
                depth = len(self.function.open)
                variables = [self.function.declare(names[0])]
                body = self.block()
                self.want("end")
                del self.function.open[depth:]
                return ("Count", variables[0], es, body, line)
            while self.take(","):
                names.append(self.name())
            self.want("in")
            es = self.expressions()
            self.want("do")
            depth = len(self.function.open)
            variables = [self.function.declare(name) for name in names]
            body = self.block()
            self.want("end")
            del self.function.open[depth:]
            return ("Each", variables, es, body, line)
        if self.take("return"):
            stop = self.peek() in ("end", "else", "elseif", "until", ";") or self.tokens[self.at][0] == "end"
            return ("Return", [] if stop else self.expressions())
        if self.take("break"):
            return ("Break",)
        e = self.suffixed()
        if self.peek() in ("=", ","):
            targets = [e]
            while self.take(","):
                targets.append(self.suffixed())
            self.want("=")
            return ("Assign", targets, self.expressions())
        return ("Call", e)

    def peek_name(self):
        return self.tokens[self.at][1]


class Resolved:
    """Resolved code of a text: constants, and functions by their numbers."""
    def __init__(self, text):
        reader = Reader(text)
        reader.function = Function(None, [], False)
        body = reader.block()
        self.constants, self.protos = [], []
        self.function(reader.function, body)

    def constant(self, text):
        if text not in self.constants:
            self.constants.append(text)
        return self.constants.index(text)

    def function(self, function, body):
        number = len(self.protos)
        self.protos.append(None)
        self.open = getattr(self, "open", {})
        self.open[function] = list(function.parameters)
        code = self.block(function, body)
        flags = ["true" if v.boxed else "false" for v in function.parameters]
        self.protos[number] = (flags, "true" if function.dots else "false", code)
        return number

    def place(self, variable, function):
        if variable.function is function:
            n = list(reversed(self.open[function])).index(variable)
            return ("Box" if variable.boxed else "Reg", n)
        if variable not in function.captured:
            function.captured.append(variable)
        return ("Up", function.captured.index(variable))

    def e(self, e, f):
        kind = e if isinstance(e, str) else e[0]
        if kind == "DotsC" or kind == "ConstantC":
            return e
        if kind == "Text":
            return ("TextC", self.constant(e[1]))
        if kind == "Local":
            return ("LocalC", self.place(e[1], f))
        if kind == "Global":
            return ("GlobalC", self.constant(e[1]), e[2])
        if kind == "IndexC":
            return ("IndexC", self.e(e[1], f), self.e(e[2], f), e[3])
        if kind == "CallC":
            return ("CallC", self.e(e[1], f), self.es(e[2], f), e[3])
        if kind == "Method":
            of = self.e(e[1], f)
            return ("MethodC", of, self.constant(e[2]), self.es(e[3], f), e[4])
        if kind in ("AndC", "OrC"):
            return (kind, self.e(e[1], f), self.e(e[2], f))
        if kind == "OperateC":
            return ("OperateC", e[1], self.e(e[2], f), self.e(e[3], f), e[4])
        if kind == "UnaryC":
            return ("UnaryC", e[1], self.e(e[2], f), e[3])
        if kind == "ParenC":
            return ("ParenC", self.e(e[1], f))
        if kind == "Table":
            fields = "NoFieldC"
            made = [(self.e(k, f) if k else None, self.e(v, f)) for k, v in e[1]]
            for k, v in reversed(made):
                fields = ("PairC", k, v, fields) if k else ("ItemC", v, fields)
            return ("TableC", fields, e[2])
        assert kind == "Function", e
        return ("FunctionC",) + self.closure(e, f)

    def closure(self, e, f):
        number = self.function(e[1], e[2])
        places = "[]"
        for variable in reversed(e[1].captured):
            places = ("∷", self.place(variable, f), places)
        # (outer functions capture what this one does; their places are known now)
        return number, places

    def es(self, es, f):
        made = [self.e(e, f) for e in es]
        code = "NoC"
        for e in reversed(made):
            code = ("MoreC", e, code)
        return code

    def flags(self, variables):
        code = "[]"
        for variable in reversed(variables):
            code = ("∷", "true" if variable.boxed else "false", code)
        return code

    def target(self, e, f):
        if e[0] == "Local":
            return ("PlaceC", self.place(e[1], f))
        if e[0] == "Global":
            return ("GlobalTargetC", self.constant(e[1]), e[2])
        if e[0] == "IndexC":
            return ("EntryC", self.e(e[1], f), self.e(e[2], f), e[3])
        return "RefusedC"

    def block(self, f, statements):
        depth = len(self.open[f])
        parts = []
        for s in statements:
            parts.append(self.statement(s, f))
        self.at_end = list(self.open[f])
        del self.open[f][depth:]
        code = "EndC"
        for part in reversed(parts):
            code = part(code)
        return code

    def statement(self, s, f):
        kind = s[0]
        if kind == "Declare":
            values = self.es(s[2], f)
            self.open[f] += s[1]
            return lambda rest: ("DeclareC", self.flags(s[1]), values, rest)
        if kind == "LocalFunction":
            self.open[f].append(s[1])
            number, places = self.closure(s[2], f)
            return lambda rest: ("LocalFunctionC", "true" if s[1].boxed else "false", number, places, rest)
        code = self.plain(s, f)
        return lambda rest: ("ThenC", code, rest)

    def plain(self, s, f):
        kind = s[0]
        if kind == "Assign":
            targets = [self.target(t, f) for t in s[1]]
            code = "[]"
            for t in reversed(targets):
                code = ("∷", t, code)
            return ("AssignC", code, self.es(s[2], f))
        if kind == "Call":
            return ("CallStatC", self.e(s[1], f))
        if kind == "Do":
            return ("DoC", self.block(f, s[1]))
        if kind == "While":
            test = self.e(s[1], f)
            return ("WhileC", test, self.block(f, s[2]))
        if kind == "Repeat":
            depth = len(self.open[f])
            body = self.block(f, s[1])
            self.open[f] = list(self.at_end)
            test = self.e(s[2], f)
            del self.open[f][depth:]
            return ("RepeatC", body, test)
        if kind == "If":
            made = [(self.e(test, f), self.block(f, body)) for test, body in s[1]]
            other = self.block(f, s[2]) if s[2] is not None else None
            arms = "NoArmC"
            for test, body in reversed(made):
                arms = ("ArmC", test, body, arms)
            return ("IfElseC", arms, other) if other is not None else ("IfC", arms)
        if kind == "Count":
            es = [self.e(e, f) for e in s[2]]
            self.open[f].append(s[1])
            body = self.block(f, s[3])
            self.open[f].pop()
            boxed = "true" if s[1].boxed else "false"
            if len(es) == 3:
                return ("CountByC", boxed, es[0], es[1], es[2], body, s[4])
            return ("CountC", boxed, es[0], es[1], body, s[4])
        if kind == "Each":
            es = self.es(s[2], f)
            self.open[f] += s[1]
            body = self.block(f, s[3])
            del self.open[f][-len(s[1]):]
            return ("EachC", self.flags(s[1]), es, body, s[4])
        if kind == "Return":
            return ("ReturnC", self.es(s[1], f))
        assert kind == "Break", s
        return "BreakC"


CASES = [
    ("while_break", "A loop that is left.", "local n=0 while true do n=n+1 if n>4 then break end end return n"),
    ("nested_breaks", "A `break` leaves the loop around it alone.", "local s='' for i=1,3 do for j=1,5 do if j>i then break end s=s..j end s=s..';' end return s"),
    ("count_down", "A step, and one that is negative; an empty loop.", "local s='' for i=6,1,-2 do s=s..i end for i=3,1 do s=s..'x' end for i='1','3' do s=s..i end return s"),
    ("no_numbers", "What a counting loop can't count.", "local function try(a,b,c) return select(2,pcall(function() for i=a,b,c do end end)) end\nreturn try('x',1,1)..try(1,{},1)..try(1,2,'y')"),
    ("pairs_loop", "`pairs` and `ipairs`.", "local t={10,20,x='y'} local s='' for k,v in pairs(t) do s=s..tostring(k)..tostring(v) end for i,v in ipairs(t) do s=s..i..v end return s"),
    ("own_iterator", "An iterator that is a function of Lua, with cells for its variables.", "local function upto(n) local i=0 return function() i=i+1 if i<=n then return i,i*i end end end\nlocal fs={} for i,q in upto(3) do fs[i]=function() q=q+i return q end end return fs[1]()..fs[2]()..fs[2]()..fs[3]()"),
    ("dots", "Values of `...`.", "local function count(...) return select('#',...) end\nlocal function both(...) local a,b=... return b,a,... end\nreturn count(),count(nil,nil),count(both(1,2,3)),(both(7,8))"),
    ("adjusted", "Lists are adjusted.", "local function three() return 1,2,3 end\nlocal a,b,c,d=three() local e,f=three(),4 local g=three(),5 local h,i,j=0,(three()) return a,b,c,tostring(d),e,f,g,h,i,tostring(j)"),
    ("swap", "Several targets, from the last to the first.", "local a,b=1,2 a,b=b,a local t={1,2} local i=1 i,t[i]=2,7 t[1],t[2],i=t[2],t[1] return a,b,t[1],t[2],tostring(i)"),
    ("methods", "Methods by an `__index` table.", "local P={} P.__index=P function P.new(x) return setmetatable({x=x},P) end function P:add(n) self.x=self.x+n return self end\nreturn P.new(3):add(4):add(5).x"),
    ("index_function", "An `__index` and a `__newindex` that are functions.", "local log='' local t=setmetatable({},{__index=function(t,k) return k..'!' end,__newindex=function(t,k,v) log=log..k..v rawset(t,k,v) end})\nt.a=1 t.a=2 t.b=3 return t.a,t.b,t.c,log"),
    ("comparisons", "Handlers of comparisons, as values and in tests.", "local m={} m.__lt=function(a,b) return a.n<b.n end m.__le=function(a,b) return a.n<=b.n end m.__eq=function(a,b) return a.n==b.n end\nlocal function v(n) return setmetatable({n=n},m) end local a,b,c=v(1),v(2),v(1)\nlocal s='' if a<b then s=s..'l' end if not (b<=a) then s=s..'n' end if a==c and a~=b then s=s..'e' end return s,tostring(a>b),tostring(a>=c)"),
    ("tests", "Tests by `and`, `or` and `not`.", "local function t(a,b) local s='' if a and b then s=s..'1' end if a or b then s=s..'2' end if not a and not b or a==b then s=s..'3' end while not (a or b) do a=1 s=s..'4' end return s end\nreturn t(true,true),t(true,false),t(false,nil),t(nil,1)"),
    ("choices", "`and` and `or` as values.", "local function c(x) return x and x.y or 'none' end return c(nil),c({}),c({y=1}),(nil or false) and 1 or 2,1 and nil"),
    ("error_levels", "The line and the level of an error.", "local function e(l) error('m',l) end\nlocal function g(l)\ne(l)\nend\nlocal function r(l)\nreturn select(2,pcall(g,l))\nend\nreturn r(0)..r(1)..r(2)..r(3)"),
    ("error_values", "Errors that are no texts, and errors of operators.", "local function m(f,...) return select(2,pcall(f,...)) end\nlocal t={} return tostring(m(error,t)==t),m(function() return t.x.y end),m(function(a) return a+1 end,'z'),m(function() return #nil end),m(function() t() end)"),
    ("nested_pcall", "Protected calls in one another.", "local ok,a,b=pcall(function(x) local ok2,e=pcall(error,x) return e,ok2 end,'k') return tostring(ok),a,tostring(b),tostring(pcall(pcall)),tostring(xpcall(function() error('q',0) end,function(e) return e..'h' end))"),
    ("fib", "A function that calls itself.", "local function fib(n) if n<2 then return n end return fib(n-1)+fib(n-2) end return fib(5)"),
    ("counters", "Cells that two functions share.", "local function make() local n=0 return function() n=n+1 return n end,function() n=n-1 return n end end\nlocal up,down=make() local other=make() return up()..up()..down()..other()"),
    ("shared_cells", "A variable is kept by functions two levels down.", "local x=1 local function a() local y=x+1 return function() x=x+y y=y+1 return x end end\nlocal f=a() return f()..f()..x"),
    ("repeat_sees", "The test of `repeat` sees a variable that has a cell.", "local fs={} local i=0 repeat local k=i fs[#fs+1]=function() return k end i=i+1 until k>=2 return fs[1]()..fs[2]()..fs[3]()"),
    ("constructor", "Constructors, in order, with a last item that gives several values.", "local function two() return 1,2 end local t={two(),two(),[9]='n',x='f',(two()),two()} return #t,t[1],t[2],t[3],t[4],t[5],t[9],t.x"),
    ("globals", "Global variables, and one that is not there.", "g=1 g=g+1 local function set(v) g=v return g end return g,set(5),g,tostring(h)"),
    ("blocks", "Blocks, and names that are hidden.", "local x=1 do local x=2 do local x=3 end x=x+10 end local x=x+100 do end return x"),
    ("strings", "Functions of strings, by their methods.", "local s='hello' return s:upper(),s:sub(2,3),s:len(),('x'):rep(3),s:byte(1),(s:gsub('l','L'))"),
    ("replaced", "A function and a table that replace matches.", "local n=0 local s=('abc'):gsub('.',function(c) n=n+1 if c~='b' then return c..n end end) return s,(('key val'):gsub('%a+',{key='k'}))"),
    ("joins", "Joins, of numbers too.", "local a,b='x',2 return a..b..3,1 ..2,(a..b):len()"),
    ("sorted", "`table` functions that call none.", "local t={} for i=1,4 do table.insert(t,i*i) end table.remove(t,1) return table.concat(t,','),#t"),
    ("early_return", "A `return` out of loops.", "local function find(t,x) for i,row in ipairs(t) do for j=1,#row do if row[j]==x then return i,j end end end return 0 end\nlocal a,b=find({{1,2},{3,4}},3) return a,b,(find({},1))"),
    ("elseif_chain", "A choice among many, without a last block.", "local function k(n) if n==1 then return 'a' elseif n==2 then return 'b' elseif n>9 then n=n-9 end return 'z'..n end return k(1)..k(2)..k(3)..k(12)"),
]

TITLE = "X"


def head_uses(body, extra):
    lines = flat_examples.uses(body)
    words = set(re.findall(r"[^\s(){};,]+", body))
    for module, names in extra.items():
        have = [n for n in names if n in words]
        if have:
            lines.append(f"use {module}.{{{', '.join(have)}}}")
    return lines


CODE = {"Rattle.lua_slots.specs.Code": "Reg Box Up ConstantC TextC DotsC FunctionC LocalC GlobalC IndexC CallC MethodC TableC AndC OrC OperateC UnaryC ParenC NoC MoreC NoFieldC ItemC PairC PlaceC GlobalTargetC EntryC RefusedC AssignC CallStatC DoC WhileC RepeatC IfC IfElseC CountC CountByC EachC ReturnC BreakC EndC DeclareC LocalFunctionC ThenC NoArmC ArmC CProto Protos".split(),
        "Rattle.lua_slots.specs.Trial": ["code_with"],
        "Rattle.lua_flat.specs.IsStatement": ["IsFlatFunction"],
        "Rattle.lua_flat.specs.Trial": ["flat_invoke"]}


def write(module, subject, cases):
    body, found = "", []
    for name, what, text in cases:
        whole = f"return {{f=function(...)\n{text}\nend}}"
        code = Resolved(whole)
        size = len(whole.encode())
        body += f"-- {what}\n" + "".join(f"--     {line}\n" for line in whole.split("\n"))
        makers = []
        for n, (flags, dots, block) in enumerate(code.protos):
            body += f"abbrev pub {name}_{n} : CProto\n{name}_{n} = record {{ flags = {shown(flags)}; dots = {dots}; body = {shown(block)} }}\n\n"
            makers.append(Maker(flags, dots, block))
        texts = " ∷ ".join([f"codes \"{c}\"".replace("\n", "\\n") for c in code.constants] + ["[]"])
        protos = " ∷ ".join([f"{name}_{n}" for n in range(len(makers))] + ["[]"])
        body += f"abbrev pub {name}_code : Protos\n{name}_code = code_with ({texts}) ({protos})\n\n"
        for n, maker in enumerate(makers):
            body += maker.said(f"{name}_flat_{n}") + "\n"
        camel = "".join(part.capitalize() for part in name.split("_"))
        flats = " ∷ ".join([f"{name}_flat_{n}" for n in range(len(makers))] + ["[]"])
        body += f"abbrev pub {camel}FlatAlike : Type 0\n{camel}FlatAlike = flat_invoke (codes \"{TITLE}\") {size} {name}_code ({flats}) 20000 ≡ run.invoke_module (codes \"{TITLE}\") {size} {name}_code 20000\n\n"
        body += f"abbrev pub {camel}IsFlat : Type 0\n{camel}IsFlat = {' × '.join(f'IsFlatFunction {name}_{n} {name}_flat_{n}' for n in range(len(makers)))}\n\n"
        found.append((camel, TITLE, size, name, 20000, makers))
    body += f"-- all of these\nabbrev pub All{module} : Type 0\nAll{module} = {' × '.join(it[0] + 'FlatAlike' for it in found)}\n\n"
    body += f"abbrev pub AllFlat{module} : Type 0\nAllFlat{module} = {' × '.join(it[0] + 'IsFlat' for it in found)}\n"
    lines = [f"-- {subject}"] + head_uses(body, CODE) + ["use Rattle.lua_slots.specs.Trial as run"]
    (CRATE / "specs").mkdir(parents=True, exist_ok=True)
    (CRATE / "proofs").mkdir(parents=True, exist_ok=True)
    (CRATE / "specs" / f"{module}.antt").write_text("\n".join(lines) + "\n\n" + body, encoding="utf-8")
    return found


# the files, each with six modules but for those that stand in `lua_flat`
FILES = ["Loops", "Lists", "Tests", "Cells", "Texts"]
LEVELS = ["error_levels", "blocks"]


def main():
    for n, module in enumerate(FILES):
        cases = [case for case in CASES[6 * n:6 * n + 6] if case[0] not in LEVELS]
        found = write(module, "FLAT CODE OF SMALL MODULES, beside their resolved code: both end alike, with the same steps.", cases)
        flat_examples.write_proofs(module, "Flat code of small modules: the runs compute.", found, "lua_flat_cases")


if __name__ == "__main__":
    main()
