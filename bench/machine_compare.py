#!/usr/bin/env python3
"""Random programs in the machine of Lua, in `lua5.1`, and in `machine_reference.py`.

    machine_compare.py PROGRAM [SEED [COUNT]]    runs COUNT programs (500) in all three; PROGRAM is that of lua_machine_cases
    machine_compare.py - [SEED [COUNT]]          without the machine
    machine_compare.py show SEED [NUMBER]        prints one program

The ends have to be the same everywhere, and the steps those of `machine_reference.py`. Each difference is told with its program.

The programs keep to what docs/DIFFERENCES.md leaves the same: numbers are whole and small, and none that is seen is a negative zero
(each is a remainder, less a number); no text of a message is seen but that of `error`; what `pairs` gives is summed; no table or function
is written as a text; a list has no holes; what a call changes is not read beside it in one expression, since Lua 5.1 reads a variable
where the operator is done.
"""
import random
import subprocess
import sys

from lua_reference import answer
from machine_reference import in_thread, shown
from machine_rows import AMPLE, CALLS, Case, lua_end

TEXTS = ["", "a", "ab", "b", "z9", "A", "-", "a b"]


class Maker:
    """Writes one program. What is in scope stands in lists by kind; a block takes out what it declared."""

    def __init__(self, seed):
        self.random, self.lines, self.depth, self.count = random.Random(seed), [], 1, 0
        self.kinds = dict(number=[], text=[], list=[], record=[], pure=[], counter=[], object=[])
        self.frozen = set()

    # ---- names and lines
    def fresh(self, kind, word=None):
        self.count += 1
        name = f"{word or kind[0]}{self.count}"
        self.kinds[kind].append(name)
        return name

    def line(self, text):
        self.lines.append("  " * self.depth + text)

    def one(self, kind):
        return self.random.choice(self.kinds[kind]) if self.kinds[kind] else None

    def block(self, opening, inside, closing="end"):
        self.line(opening)
        kept = {kind: list(names) for kind, names in self.kinds.items()}
        self.depth += 1
        inside()
        self.depth -= 1
        self.kinds = kept
        self.line(closing)

    # ---- expressions
    def number(self, depth=2):
        """A small whole number, which is no negative zero."""
        r = self.random
        leaf = depth == 0 or r.random() < 0.3
        if leaf:
            return self.one("number") if self.kinds["number"] and r.random() < 0.7 else str(r.randint(0, 20))
        a, b = self.number(depth - 1), self.number(depth - 1)
        choices = [f"({a}+{b})%97", f"({a}-{b})%50", f"({a}*{b})%101-30", f"({a}*3-{b})%41", f"#{self.text(depth - 1)}", f"(-({a}))%13", f"({a}*{r.randint(1, 9)}*2)/2%89",
                   f"({b}%5+1)^2%60", f"({self.test(depth - 1)} and {a} or {b})", f"(({a})..'')%61", f"({a}+'{r.randint(0, 30)}')%59", f"(-{r.randint(1, 9)}*3+{a})%23-7"]
        if self.kinds["list"]:
            t = self.one("list")
            choices += [f"#{t}", f"({t}[{a}%4+1] or {b})", f"({t}[#{t}] or {r.randint(0, 5)})"]
        if self.kinds["record"]:
            choices += [f"({self.one('record')}.{r.choice('xyz')} or {a})", f"({self.one('record')}['{r.choice('xyz')}'] or {b})"]
        if self.kinds["pure"]:
            choices += [f"{self.one('pure')}({a},{b})"] * 2
        return f"({r.choice(choices)})"

    def text(self, depth=2):
        r = self.random
        if depth == 0 or r.random() < 0.35:
            return self.one("text") if self.kinds["text"] and r.random() < 0.6 else f"'{r.choice(TEXTS)}'" if r.random() < 0.7 else f"(({self.number(0)})..'')"
        a, b = self.text(depth - 1), self.text(depth - 1)
        return r.choice([f"({a}..{b})", f"({a}..({self.number(depth - 1)}))", f"tostring({self.number(depth - 1)})", f"tostring({self.test(depth - 1)})",
                         f"({self.test(depth - 1)} and {a} or {b})", f"type({r.choice([a, 'nil', self.number(0), 'error', '{}', 'true'])})", f"(({a}))"])

    def test(self, depth=2):
        r = self.random
        a, b = self.number(max(depth - 1, 0)), self.number(max(depth - 1, 0))
        s, t = self.text(max(depth - 1, 0)), self.text(max(depth - 1, 0))
        choices = [f"{a}{op}{b}" for op in ("<", "<=", ">", ">=", "==", "~=")] + [f"{s}{op}{t}" for op in ("<", "<=", "==", "~=", ">")] + [f"not ({a}=={b})", f"{a}=={s}", "true", "nil==false"]
        if depth > 0:
            choices += [f"({self.test(depth - 1)} and {self.test(depth - 1)})", f"({self.test(depth - 1)} or {self.test(depth - 1)})", f"not ({self.test(depth - 1)})"]
        return f"({r.choice(choices)})"

    def seen(self):
        return self.random.choice([lambda: f"({self.number()})", self.text, lambda: f"tostring({self.test()})"])()

    # ---- statements
    def out(self):
        self.line(f"out=out..{self.seen()}..';'")

    def declare(self):
        r = self.random
        kind = r.choice(["number", "number", "text", "list", "record"])
        value = {"number": self.number, "text": self.text, "list": lambda: "{" + ",".join(self.number(1) for _ in range(r.randint(0, 4))) + "}",
                 "record": lambda: "{" + ",".join(f"{k}={self.number(1)}" for k in r.sample("xyz", r.randint(0, 3))) + "}"}[kind]()
        self.line(f"local {self.fresh(kind)}={value}")

    def declare_two(self):
        a, b = self.number(1), self.text(1)
        self.line(f"local {self.fresh('number')},{self.fresh('text')}={a},{b}")

    def assign(self):
        r = self.random
        name = self.one("number")
        if name in self.frozen or name is None:
            return self.out()
        choices = [lambda: self.line(f"{name}={self.number()}"), lambda: self.line(f"{name}={self.number()}")]
        other = self.one("number")
        if other not in self.frozen and other != name:
            choices.append(lambda: self.line(f"{name},{other}={other},{name}"))
        if self.kinds["record"]:
            record = self.one("record")
            choices.append(lambda: self.line(f"{record}.{r.choice('xyz')},{name}={self.number(1)},{self.number(1)}"))
        return r.choice(choices)()

    def text_grows(self):
        name = self.one("text")
        self.line(f"{name}=#{name}<40 and {name}..{self.text(1)} or ''" if name and name not in self.frozen else f"out=out..{self.text(1)}")

    def table(self):
        r = self.random
        if self.kinds["list"] and r.random() < 0.6:
            t = self.one("list")
            self.line(r.choice([f"if #{t}<12 then {t}[#{t}+1]={self.number(1)} end", f"{t}[#{t}]=nil", f"if #{t}>0 then {t}[1]={self.number(1)} end"]))
        elif self.kinds["record"]:
            self.line(f"{self.one('record')}.{r.choice('xyz')}={r.choice([self.number(1), 'nil'])}")
        else:
            self.declare()

    def branches(self, budget):
        r = self.random
        self.block(f"if {self.test()} then", lambda: self.body(budget), "--")
        self.lines.pop()
        if r.random() < 0.4:
            self.block(f"elseif {self.test()} then", lambda: self.body(budget), "--")
            self.lines.pop()
        if r.random() < 0.6:
            self.block("else", lambda: self.body(budget), "--")
            self.lines.pop()
        self.line("end")

    def loop(self, budget):
        r = self.random
        kind = r.choice(["count", "count", "down", "while", "repeat", "ipairs", "pairs", "own"])
        leave = (lambda: self.line(f"if {self.test(1)} then break end")) if r.random() < 0.3 else (lambda: None)

        def inside(name=None):
            def run():
                if name:
                    self.kinds["number"].append(name)
                    self.frozen.add(name)
                self.body(budget)
                leave()
            return run
        self.count += 1
        i = f"i{self.count}"
        if kind == "count":
            self.block(f"for {i}={r.randint(-2, 3)},{r.randint(0, 5)} do", inside(i))
        elif kind == "down":
            self.block(f"for {i}={self.number(1)}%6,0,-{r.randint(1, 3)} do", inside(i))
        elif kind == "while":
            self.line(f"local {i}=0")
            self.frozen.add(i)
            self.block(f"while {i}<{r.randint(0, 4)} do", lambda: (self.line(f"{i}={i}+1"), inside(i)()))
        elif kind == "repeat":
            self.line(f"local {i}=0")
            self.block("repeat", lambda: (self.line(f"{i}={i}+1"), self.line(f"local d{i}={i}>={r.randint(0, 4)}"), inside()()), f"until d{i}")
        elif kind == "ipairs" and self.kinds["list"]:
            self.block(f"for {i},v{i} in ipairs({self.one('list')}) do", lambda: (self.kinds["number"].append(f"v{i}"), self.frozen.add(f"v{i}"), self.line(f"if {i}>6 then break end"), inside(i)()))
        elif kind == "pairs" and self.kinds["record"]:
            self.line(f"local s{i}=0")
            self.block(f"for k,v in pairs({self.one('record')}) do", lambda: self.line(f"s{i}=s{i}+v+#k"))
            self.line(f"out=out..s{i}..';'")
        else:
            self.block(f"for {i} in function(n,k) if k<n then return k+1 end end,{r.randint(0, 4)},0 do", inside(i))

    def pure(self):
        """A function that changes nothing outside."""
        name, r = self.fresh("pure", "f"), self.random
        self.kinds["pure"].pop()

        def inside():
            self.kinds["number"] += ["a", "b"]
            self.frozen -= {"a", "b"}
            self.line(f"if a>{r.randint(3, 30)} then return {self.number(1)} end")
            if r.random() < 0.5:
                self.line(f"if b>0 then return ({name}(a,b%5-1)+{r.randint(1, 9)})%71 end")
            self.line(f"local c={self.number()}")
            self.kinds["number"].append("c")
            self.line(f"return {self.number()}")
        self.block(f"local function {name}(a,b)", inside)
        self.kinds["pure"].append(name)

    def counters(self):
        """Functions that count in variables which they keep, one for each turn of a loop."""
        r, t = self.random, f"t{self.count + 1}"
        name = self.fresh("counter", "c")
        self.line(f"local {t}={{}}")
        self.line(r.choice([f"for i=1,3 do local n=i*{r.randint(1, 5)} {t}[i]=function() n=n+i i=i+1 return n end end",
                            f"local i=0 while i<3 do i=i+1 local n=i {t}[i]=function(x) n=n*2%50+(x or 1) return n end end",
                            f"local i=0 repeat i=i+1 local n=i {t}[i]=function() n=n+{r.randint(1, 4)} return n end until i==3",
                            f"for i,n in ipairs({{{r.randint(1, 9)},{r.randint(1, 9)},7}}) do {t}[i]=function() n=n+i return n end end"]))
        self.line(f"local {name}={t}[{r.randint(1, 3)}]")
        self.line(f"out=out..{t}[1]()..{t}[2]()..{t}[1]()..{t}[3]()..';'")

    def count_one(self):
        if not self.kinds["counter"]:
            return self.counters()
        name = self.fresh("number")
        self.kinds["number"].pop()
        self.line(f"local {name}={self.one('counter')}()")
        self.kinds["number"].append(name)
        return None

    def varargs(self):
        r, name = self.random, f"g{self.count + 1}"
        self.count += 1
        self.line(f"local function {name}(a,...) local x,y=... return select('#',...),(select({r.randint(1, 2)},...,0)) or 'z',#{{...}},a,x or 'n',y or 'n',... end")
        given = ",".join(self.number(1) for _ in range(r.randint(1, 4)))
        self.line(f"do local t={{{name}({given})}} for i=1,#t do out=out..tostring(t[i])..',' end end")
        self.line(f"out=out..select('#',{name}({given}),{name}({given}))..({name}({given}))..';'")

    def errors(self):
        r = self.random
        self.count += 1
        raised = r.choice([f"error({self.text(1)},0)", "error({},0)", "error()", "local x=nil x.y=1", "local x={} x()", "return {}+1", "return 1 ..{}", "return #5", "return {}<{}", f"error('m{self.count}')",
                           "return 1<'1'", "for i={},1 do end", "next({},5)", "setmetatable(1,{})", f"error('two{self.count}',2)", "local t={} t[nil]=1", "rawset(1,2,3)", f"return {self.number(1)},'fine'"])
        self.line("do")
        self.depth += 1
        self.line("local reached=0")
        self.line("local function h()")
        self.line(f"  reached=reached+1 if {self.test(1)} then return 5 end")
        self.line(f"  {raised}")
        self.line("end")
        self.line("local ok,v=pcall(function()")
        self.line("  local w=h()")
        self.line("  return w")
        self.line("end)")
        shows = "v" if "error('" in raised else "type(v)"
        self.line(f"out=out..tostring(ok)..reached..(ok and type(v) or {shows})..';'")
        if r.random() < 0.4:
            self.line("local ok2,v2=xpcall(h,function(m) return type(m)..'!' end)")
            self.line("out=out..tostring(ok2)..(ok2 and '' or v2)..';'")
        self.depth -= 1
        self.line("end")

    def objects(self):
        r = self.random
        self.count += 1
        m, o, q = f"m{self.count}", f"o{self.count}", f"q{self.count}"
        self.line(f"local {m}={{n={r.randint(1, 9)}}}")
        parts = r.sample([
            f"{m}.__index={m}", f"{m}.__index=function(t,k) return #k+{r.randint(0, 5)} end", f"{m}.__add=function(a,b) return {r.randint(1, 9)} end", f"{m}.__sub=function(a,b) return type(a)..type(b) end",
            f"{m}.__concat=function(a,b) return type(a)..'.'..type(b) end", f"{m}.__call=function(s,x,...) return x+{r.randint(1, 9)},select('#',...) end", f"{m}.__unm=function(a) return 'm' end",
            f"{m}.__eq=function(a,b) return {r.choice(['true', 'false', 'a.k==b.k'])} end", f"{m}.__lt=function(a,b) return rawget(a,'k')<rawget(b,'k') end", f"{m}.__tostring=function(t) return 'T'..(rawget(t,'k') or 0) end",
            f"{m}.__newindex=function(t,k,v) rawset(t,k,v*2) end", f"{m}.__mul=function(a,b) return (tonumber(a) or 2)*(tonumber(b) or 3) end"], 7)
        for part in parts:
            self.line(part)
        self.line(f"local {o},{q}=setmetatable({{k=1}},{m}),setmetatable({{k={r.randint(0, 2)}}},{m})")
        tries = [f"{o}+{q}", f"{o}+1", f"1+{o}", f"{o}-1", f"1-{q}", f"{o}..'x'", f"'x'..{o}", f"{o}..{q}", f"{o}(3,1,1)", f"-{o}", f"{o}=={q}", f"{o}~={q}", f"{o}<{q}", f"{o}<={q}", f"{o}>{q}", f"{o}*2", f"2*{q}",
                 f"{o}.zz", f"{o}.n", f"{o}[1]", f"rawget({o},'zz')", f"rawequal({o},{q})", f"#{o}", f"{o}.k"]
        self.line(f"{o}.new=5 {q}.k={r.randint(1, 3)}")
        for tried in r.sample(tries, 8):
            self.line(f"do local ok,v,w=pcall(function() return {tried} end) out=out..tostring(ok)..(ok and (type(v)=='table' and 't' or tostring(v))..type(w) or type(v))..';' end")
        if any("__tostring" in part for part in parts):
            self.line(f"out=out..tostring({o})..';'")
        self.line(f"out=out..tostring(rawget({o},'new'))..';'")

    def methods(self):
        r = self.random
        self.count += 1
        o = f"o{self.count}"
        self.line(f"local {o}={{n={r.randint(1, 9)}}}")
        self.line(f"function {o}:add(k) self.n=(self.n+k)%77 return self end")
        self.line(f"function {o}.get(s,...) return s.n,select('#',...) end")
        self.line(f"out=out..({o}:add({self.number(1)}):add(2):get(1,2))..select(2,{o}:get(nil,1))..';'")

    def recursion(self):
        r = self.random
        self.count += 1
        f = f"r{self.count}"
        self.line(r.choice([
            f"local function {f}(n) if n<2 then return n end return {f}(n-1)+{f}(n-2) end out=out..{f}({r.randint(0, 9)})..';'",
            f"local even,odd function even(n) if n==0 then return true end return odd(n-1) end function odd(n) if n==0 then return false end return even(n-1) end out=out..tostring(even({r.randint(0, 30)}))..';'",
            f"local function {f}(n,...) if n==0 then return ... end return {f}(n-1,n,...) end out=out..select('#',{f}({r.randint(0, 8)}))..(({f}({r.randint(1, 5)},'x')))..';'",
            f"local function {f}(t) local s=0 for i,v in ipairs(t) do if type(v)=='table' then s=s+{f}(v) else s=s+v end end return s end out=out..{f}({{1,{{2,3,{{4}}}},{{}},{r.randint(0, 9)}}})..';'"]))

    def unpacks(self):
        t = self.one("list")
        if t:
            self.line(f"do local a,b,c=unpack({t}) out=out..tostring(a)..tostring(b)..tostring(c)..select('#',unpack({t},1,#{t}))..';' end")
        else:
            self.declare()

    def body(self, budget):
        r = self.random
        for _ in range(r.randint(1, 3)):
            if budget > 0 and r.random() < 0.4:
                r.choice([self.loop, self.branches])(budget - 1)
            else:
                r.choice([self.declare, self.declare_two, self.assign, self.assign, self.text_grows, self.table, self.out, self.count_one])()

    def program(self):
        r = self.random
        self.line("local out=''")
        for _ in range(r.randint(6, 14)):
            r.choice([self.declare, self.declare_two, self.assign, self.table, self.out, self.pure, self.counters, self.count_one, self.varargs, self.errors, self.objects, self.methods, self.recursion,
                      self.unpacks, lambda: self.loop(2), lambda: self.branches(2), lambda: self.loop(1)])()
        self.out()
        self.line(f"return out,{self.number()},{self.text()}")
        return "return {f=function(frame)\n" + "\n".join(self.lines) + "\nend}"


def made(seed, number):
    return Maker(f"{seed}/{number}").program()


def machine_lines(program, cases):
    table = "\n".join("\n".join(case.lines()) for case in cases) + "\n"
    return subprocess.run([program], input=table.encode(), capture_output=True, check=True).stdout.decode().splitlines()


def compare(program, seed, count):
    cases = []
    for number in range(count):
        case = Case(f"r{number}", [("X", made(seed, number))])
        case.runs.append(("took", AMPLE, CALLS, [], None))
        cases.append(case)
    printed = machine_lines(program, cases) if program != "-" else [None] * count
    wrong = steps = 0
    for case, mine in zip(cases, printed):
        fault = answer(case.modules[0][1])
        end = case.reference()
        said = f"{case.name}: {end.words()}, {end.taken} taken"
        lua = shown(lua_end(case))
        steps += end.taken
        other = end.words().replace("fails Lua error: ", "fails ")
        if lua != other or mine not in (None, said) or fault.startswith("fault"):
            wrong += 1
            print(f"{case.modules[0][1]}\n-- {case.name} of {seed}\n-- machine:   {mine}\n-- reference: {said}\n-- lua5.1:    {lua}\n")
    if len(printed) != count:
        wrong += 1
        print(f"the machine printed {len(printed)} lines for {count} programs")
    print(f"{count} random programs, {steps} steps, {'machine, ' if program != '-' else ''}machine_reference.py and lua5.1: {wrong} differ")
    return wrong > 0


def main():
    words = sys.argv[1:]
    if words[:1] == ["show"]:
        print(made(words[1], int((words + ["0"])[2])))
        return 0
    if not words:
        print(__doc__)
        return 2
    return compare(words[0], (words + ["1"])[1], int((words + ["1", "500"])[2] if len(words) < 3 else words[2]))


if __name__ == "__main__":
    sys.exit(in_thread(main))
