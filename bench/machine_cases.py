"""Cases of the machine of Lua by hand, for `machine_rows.py`: modules whose ends were worked out from Lua's manual and from
docs/RULES.md. A case has a name, what it shows, its modules (the first one's function `f` is invoked), and its runs: a word of the
table (`run`, `exact`, `took`), steps, calls, replies, and the end. `profile` marks what Lua 5.1 does otherwise."""

AMPLE, CALLS = 10_000_000, 20000
CASES = []


def hand(name, said, text, end, steps=AMPLE, calls=CALLS, levels=True, every=False, runs_at_each=True, others=(), args=(), parent=False, replies=(),
         profile=False, in_lua=None, runs=None):
    """One case. The least number of calls is looked for where it is small, unless `levels` is false; every number of steps is tried where they
    are few, and with `every` also where they are not. Where `runs_at_each` is false none are tried: it is run once, and the steps are told.
    `in_lua` is how Lua 5.1 ends, where a case that is marked `profile` is compared with it all the same."""
    CASES.append(dict(name=name, said=said, modules=[("X", text), *others], args=list(args), parent=parent, profile=profile, in_lua=in_lua,
                      levels=levels, every=every, runs_at_each=runs_at_each, runs=runs or [("run", steps, calls, list(replies), end)]))


def body(name, said, text, gives=None, fails=None, **more):
    """What the body of `f` gives; it begins on line 2."""
    end = f"gives {gives}" if gives is not None else f"fails {fails}" if fails is not None else None
    hand(name, said, "return {f=function(frame)\n" + text + "\nend}", end, **more)


def deep(name, said, text, height, gives="end", profile=True, steps=AMPLE):
    """A recursion that has so many calls in progress: with one fewer it is spent."""
    whole = "return {f=function(frame)\n" + text + "\nend}"
    hand(name, said, whole, None, profile=profile, levels=False, runs=[
        ("run", steps, height, [], f"gives {gives}"), ("run", steps, height - 1, [], "spends calls"), ("run", steps, CALLS, [], f"gives {gives}")])


def down(name, said, text, each, top, gives="end"):
    """A recursion through `~` levels of so many calls each, with others at its top: through some, and through as many as 20,000 calls let be."""
    few = 18 // each
    for levels, ending in ((few, ""), ((CALLS - top) // each, "_to_the_last")):
        deep(name + ending, said, text.replace("~", str(levels)), each * levels + top, gives.replace("~", str(levels)))


# ---- recursion to the last call, and beyond it. `f` itself is one call; then come those of the recursion.
DOWN = "if n==0 then return 'end' end "
down("deep_function", "A function that calls itself: itself, and its calls.", "local function g(n) " + DOWN + "return g(n-1) end\nreturn g(~)", 1, 2)
hand("deep_beyond", "One call beyond the last of 20,000.", "return {f=function(frame)\nlocal function g(n) " + DOWN + "return g(n-1) end\nreturn g(19999)\nend}",
     "spends calls", levels=False, profile=True)
down("deep_sum", "A call that is no tail call takes no more.", "local function g(n) if n==0 then return 0 end return 1+g(n-1) end\nreturn g(~)", 1, 2, gives="~")
down("deep_mutual", "Two functions that call each other.", "local odd\nlocal function even(n) if n==0 then return 'end' end return odd(n-1) end\nfunction odd(n) return even(n-1) end\nreturn even(~)", 1, 2)
down("deep_method", "A method.", "local o={}\nfunction o:g(n) " + DOWN + "return self:g(n-1) end\nreturn o:g(~)", 1, 2)
down("deep_index", "A handler of `__index` that indexes.", "local t=setmetatable({},{__index=function(t,n) " + DOWN + "return t[n-1] end})\nreturn t[~]", 1, 2)
down("deep_set_index", "A handler of `__newindex` that assigns.", "local t=setmetatable({},{__newindex=function(t,n,v) if n>0 then t[n-1]=v end end})\nt[~]=1\nreturn 'end'", 1, 2)
down("deep_call", "A handler of `__call` that calls its object.", "local t=setmetatable({},{__call=function(t,n) " + DOWN + "return t(n-1) end})\nreturn t(~)", 1, 2)
for event, expression in (("add", "t+(n-1)"), ("sub", "t-(n-1)"), ("mul", "t*(n-1)"), ("div", "t/(n-1)"), ("mod", "t%(n-1)"), ("pow", "t^(n-1)"), ("concat", "t..(n-1)")):
    start = expression.replace("(n-1)", "(~)")
    down(f"deep_{event}", f"A handler of `__{event}` that has its operator.", f"local m={{}}\nlocal t=setmetatable({{}},m)\nm.__{event}=function(t,n) {DOWN}return {expression} end\nreturn {start}", 1, 2)
down("deep_minus", "A handler of `__unm`.", "local n=~\nlocal m={}\nlocal t=setmetatable({},m)\nm.__unm=function(t) if n==0 then return 'end' end n=n-1 return -t end\nreturn -t", 1, 2)
for event, sign in (("eq", "=="), ("lt", "<"), ("le", "<=")):
    down(f"deep_{event}", f"A handler of `__{event}`.", f"local n=~\nlocal m={{}}\nlocal a,b=setmetatable({{}},m),setmetatable({{}},m)\nm.__{event}=function(a,b) if n==0 then return true end n=n-1 return a{sign}b end\nreturn tostring(a{sign}b)", 1, 2, gives="true")
down("deep_pcall", "`pcall` is a call too.", "local function g(n) " + DOWN + "local ok,v=pcall(g,n-1) return v end\nreturn g(~)", 2, 2)
down("deep_xpcall", "So is `xpcall`; its handler is called once the calls inside are given back. The last call is that of `error`.",
     "local n=~\nlocal function g() if n==0 then error('end',0) end n=n-1 local ok,v=xpcall(g,function(m) return m end) return v end\nreturn g()", 2, 3)
down("deep_tostring", "`tostring` and a handler of `__tostring`.", "local n=~\nlocal t=setmetatable({},{__tostring=function(t) if n==0 then return 'end' end n=n-1 return tostring(t) end})\nreturn (tostring(t))", 2, 3)
down("deep_iterator", "An iterator whose function has a loop with it.", "local function g(n) " + DOWN + "for v in function() return g(n-1) end do return v end end\nreturn g(~)", 2, 2)
down("deep_pairs", "`pairs` and a handler of `__pairs` that walks: `pairs` is two calls a level.", "local n=~\nlocal t=setmetatable({},{__pairs=function(t) if n==0 then return function() return nil end end n=n-1 return pairs(t) end})\nfor k in pairs(t) do end\nreturn 'end'", 2, 3)
down("deep_xpcall_handler", "A handler of `xpcall` that has an `xpcall` of its own.",
     "local n=~\nlocal function h(m) if n==0 then return 'end' end n=n-1 return select(2,xpcall(error,h)) end\nreturn select(2,xpcall(error,h))", 2, 3)
body("no_pcall_of_calls", "`pcall` doesn't catch that calls are spent.", "local function g() return g() end\nreturn pcall(g)", steps=AMPLE, levels=False, profile=True,
     runs=[("run", AMPLE, 100, [], "spends calls")])
hand("deep_require", "Modules that require one another: each is the call of `require` and that of its text.",
     "return {f=function(frame)\nreturn require('Module:A')\nend}", None, levels=False, others=[("A", "return require('Module:B')"), ("B", "return require('Module:C')"), ("C", "return 'end'")], profile=True,
     runs=[("run", AMPLE, 7, [], "gives end"), ("run", AMPLE, 6, [], "spends calls")])
hand("no_calls", "Without a call the text of the module can't begin.", "return {f=function() return 1 end}", None, levels=False, profile=True,
     runs=[("run", AMPLE, 0, [], "spends calls"), ("run", AMPLE, 1, [], "gives 1")])


# ---- 200 nodes above a node, and one more. `return`, the constructor, the function and its `return` stand above what is nested.
def nested(name, said, opening, inside, closing, most, gives, head="return ", **more):
    for count, end in ((most, f"gives {gives}"), (most + 1, "fails Lua error: Module:X:1: nested too deeply")):
        hand(f"{name}_{count}", said, "return {f=function(frame) " + head + opening * count + inside + closing * count + " end}", end, levels=False, profile=True, **more)


nested("parentheses", "196 parentheses round a number, which has 200 nodes above it.", "(", "1", ")", 196, "1")
nested("unary", "196 signs.", "not ", "nil", "", 196, "false")
nested("minus_signs", "196 signs of numbers.", "- ", "7", "", 196, "7")
nested("joined_right", "`..` groups to the right: the last operand has 200 nodes above it.", "1 ..", "1", "", 196, "1" * 197)
nested("powers", "`^` groups to the right.", "1^", "1", "", 196, "1")
nested("tables", "196 constructors; the answer is the kind of the first.", "{", "1", "}", 196, "table")
nested("blocks", "197 blocks round a `return`, and its number.", "do ", "return 1", " end", 196, "1", head="")
nested("conditions", "The same with `if`, whose tests are not deeper.", "if 1 then ", "return 1", " end", 196, "1", head="")
nested("whiles", "The same with `while`.", "while 1 do ", "return 1", " end", 196, "1", head="")
nested("repeats", "The same with `repeat`.", "repeat ", "return 1", " until 1", 196, "1", head="")
nested("counts", "The same with counting loops.", "for i=1,1 do ", "return 1", " end", 196, "1", head="")
nested("eaches", "The same with generic loops; the item of the last constructor has 200 nodes above it.", "for v in next,{1} do ", "return 1", " end", 196, "1", head="")
nested("functions", "Functions in one another: `return` and the function are two nodes; the last `return` has a number.", "return (function() ", "return 1", " end)()", 49, "1", head="")
for name, count, text, end in (
        ("sums", 196, "1" + "+1" * 196, "gives 197"), ("sums", 197, "1" + "+1" * 197, "fails Lua error: Module:X:1: nested too deeply"),
        ("comparisons", 196, "1" + "==1" * 196, "gives false"), ("comparisons", 197, "1" + "==1" * 197, "fails Lua error: Module:X:1: nested too deeply"),
        ("fields", 196, "t" + ".t" * 196, "gives table"), ("fields", 197, "t" + ".t" * 197, "fails Lua error: Module:X:1: nested too deeply"),
        ("calls", 196, "g" + "()" * 196, "gives function"), ("calls", 197, "g" + "()" * 197, "fails Lua error: Module:X:1: nested too deeply"),
        ("methods", 196, "t" + ":m()" * 196, "gives table"), ("methods", 197, "t" + ":m()" * 197, "fails Lua error: Module:X:1: nested too deeply")):
    hand(f"{name}_in_a_row_{count}", "A chain to the left: its first operand has 200 nodes above it.",
         "local t={} t.t=t function t:m() return self end local function g() return g end return {f=function(frame) return " + text + " end}",
         end, levels=False, profile=True)
for name, said, opening, closing in (("arguments", "Calls as arguments of calls.", "g(", ")"), ("brackets", "Indices in brackets of indices.", "t[", "]")):
    for count, end in ((196, "gives 1"), (197, "fails Lua error: Module:X:1: nested too deeply")):
        hand(f"{name}_{count}", said, "local t={1} local function g(x) return x end return {f=function(frame) return " + opening * count + "1" + closing * count + " end}", end, levels=False, profile=True)
for word, first in (("and", "1"), ("or", "nil")):
    for count, end in ((196, "gives 1"), (197, "fails Lua error: Module:X:1: nested too deeply")):
        hand(f"{word}_in_a_row_{count}", f"`{word}` groups to the left.", "return {f=function(frame) return " + f"{first} {word} " * count + "1 end}", end, levels=False, profile=True)
hand("wide", "10,000 statements in a row are no nesting.", "return {f=function(frame) local n=0 " + "n=n+1 " * 10000 + "return n end}", "gives 10000", levels=False)
hand("many_items", "A constructor of 2,000 items, and its length.", "return {f=function(frame) return #{" + "1," * 2000 + "} end}", "gives 2000", levels=False)
hand("many_arguments_given", "250 arguments.", "return {f=function(frame) return select('#'" + ",nil" * 250 + ") end}", "gives 250", levels=False, profile=True)


# ---- a table as its own metatable
body("own_index", "A table that is its own metatable and its own `__index`: an absent key is looked for without end.",
     "local t={} t.__index=t setmetatable(t,t) return t.x", levels=False, profile=True, runs=[("exact", 5000, CALLS, [], "spends steps, 0 left")])
hand("own_handler", "The text of a module that indexes a table which is the handler of its metatable.", "local t={} setmetatable(t,{__index=t}) return t.x", None, levels=False, profile=True,
     runs=[("exact", 5000, CALLS, [], "spends steps, 0 left"), ("exact", 200000, CALLS, [], "spends steps, 0 left")])
body("own_index_there", "A key that is there is found at once.", "local t={x=5} t.__index=t setmetatable(t,t) return t.x", "5")
body("own_new_index", "Its own `__newindex`: a new key has no place.", "local t={} t.__newindex=t setmetatable(t,t) t.x=1", levels=False, profile=True,
     runs=[("exact", 5000, CALLS, [], "spends steps, 0 left")])
body("own_call", "Its own `__call`: a call gets one more argument with each link.", "local t={} t.__call=t setmetatable(t,t) return t()", levels=False, profile=True,
     runs=[("exact", 5000, CALLS, [], "spends steps, 0 left")])
body("own_functions", "Its own handlers, as functions.",
     "local t={n=3}\nsetmetatable(t,t)\nt.__index=function(s,k) return k..'?' end\nt.__call=function(s,x) return x+s.n end\nt.__tostring=function(s) return 'T'..s.n end\nt.__unm=function(s) return -s.n end\nreturn t.zz,t(4),tostring(t),-t",
     "zz?7T3-3")
body("own_metatable_is_seen", "It is its own metatable.", "local t=setmetatable({},{})\nsetmetatable(t,t)\nreturn tostring(getmetatable(t)==t)", "true")
body("two_in_a_ring", "Two tables that are each other's `__index`.", "local a,b={},{}\na.__index=a b.__index=b\nsetmetatable(a,b) setmetatable(b,a)\nreturn a.x", levels=False, profile=True,
     runs=[("exact", 5000, CALLS, [], "spends steps, 0 left")])
body("globals_as_own", "The globals as their own metatable.", "_G.__index=function(t,k) return k..k end\nsetmetatable(_G,_G)\nreturn abc,x", "abcabcxx")
body("metatable_of_itself_as_key", "A table as a key of itself.", "local t={} t[t]=t\nlocal n=0\nfor k,v in pairs(t) do if k==t and v==t then n=n+1 end end\nreturn n,tostring(t[t][t]==t)", "1true")


# ---- errors of each kind, at each place. KINDS: a statement on one line, and its message; `~` stands for the place.
NUMBER, INDEX, CALL, CALC, JOIN = "number", "attempt to index a {} value", "attempt to call a {} value", "attempt to perform arithmetic on a {} value", "attempt to concatenate a {} value"
KINDS = [
    ("index_nil", "local x=nil return x.y", INDEX.format("nil")), ("index_number", "local x=5 return x.y", INDEX.format("number")),
    ("index_truth", "local x=true return x[1]", INDEX.format("boolean")), ("index_function", "return error.y", INDEX.format("function")),
    ("set_nil", "local x=nil x.y=1", INDEX.format("nil")), ("set_text", "local x='a' x.y=1", INDEX.format("string")),
    ("call_nil", "local x=nil x()", CALL.format("nil")), ("call_text", "local x='a' x()", CALL.format("string")),
    ("call_table", "local x={} x()", CALL.format("table")), ("call_method", "local x={} x:m()", CALL.format("nil")),
    ("add_nil", "return nil+1", CALC.format("nil")), ("add_text", "return 1+'x'", CALC.format("string")),
    ("subtract_table", "return {}-1", CALC.format("table")), ("times_truth", "return 2*true", CALC.format("boolean")),
    ("minus_table", "return -{}", CALC.format("table")), ("power_function", "return error^2", CALC.format("function")),
    ("join_nil", "return 'a'..nil", JOIN.format("nil")), ("join_truth", "return true ..'a'", JOIN.format("boolean")),
    ("length_nil", "return #nil", "attempt to get length of a nil value"), ("length_number", "return #5", "attempt to get length of a number value"),
    ("less_kinds", "return 1<'1'", "attempt to compare number with string"), ("less_tables", "return {}<{}", "attempt to compare two table values"),
    ("at_most_nils", "return nil<=nil", "attempt to compare two nil values"), ("greater_kinds", "return {}>1", "attempt to compare number with table"),
    ("sum_range", "return 9223372036854775807+1", "number out of range"), ("difference_range", "return -9223372036854775807-2", "number out of range"),
    ("product_range", "return 4294967296*4294967296", "number out of range"), ("power_range", "return 2^63", "number out of range"),
    ("minus_range", "return -(-9223372036854775807-1)", "number out of range"), ("least_by_minus_one", "return (-9223372036854775807-1)/-1", "number out of range"),
    ("not_whole", "return 7/2", "quotient is not whole"), ("negative_power", "return 2^-1", "quotient is not whole"),
    ("by_zero", "return 7/0", "division by zero"), ("remainder_by_zero", "return 7%0", "division by zero"), ("zero_to_minus_one", "return 0^-1", "division by zero"),
    ("nil_key", "local t={} t[nil]=1", "table index is nil"), ("nil_key_in_table", "return {[nil]=1}", "table index is nil"),
    ("for_initial", "for i=nil,2 do end", "'for' initial value must be a number"), ("for_limit", "for i=1,{} do end", "'for' limit must be a number"),
    ("for_step", "for i=1,2,'x' do end", "'for' step must be a number"), ("for_iterator", "for x in 5 do end", CALL.format("number")),
    ("invalid_key", "next({},1)", "invalid key to 'next'"), ("bad_argument", "setmetatable(1,{})", "bad argument #1 to 'setmetatable' (table expected, got number)"),
    ("no_argument", "rawset()", "bad argument #1 to 'rawset' (table expected, got no value)"), ("select_range", "select(0)", "bad argument #1 to 'select' (out of range)"),
    ("base_range", "tonumber('1',1)", "bad argument #2 to 'tonumber' (out of range)"), ("no_text", "tonumber({},2)", "bad argument #1 to 'tonumber' (string expected, got table)"),
    ("pairs_nil", "pairs(nil)", "bad argument #1 to 'pairs' (table expected, got nil)"), ("ipairs_nothing", "ipairs()", "bad argument #1 to 'ipairs' (table expected, got no value)"),
    ("protected", "setmetatable(setmetatable({},{__metatable=1}),{})", "cannot change a protected metatable"),
    ("own_error", "error('m')", "m"), ("no_text_given", "tostring(setmetatable({},{__tostring=function() end}))", "'tostring' must return a string"),
    ("not_found", "require('Module:Z')", "module 'Module:Z' not found"), ("unpack_nil", "unpack(nil)", "bad argument #1 to 'unpack' (table expected, got nil)"),
]
# SETTINGS: the text round a statement that stands on its line, the line, and how the message comes out
SETTINGS = [
    ("caught", "return {f=function(frame)\nlocal ok,v=pcall(function()\n%s\nend)\nreturn tostring(ok),v\nend}", 3, "gives false{}"),
    ("uncaught", "return {f=function(frame)\n%s\nend}", 2, "fails Lua error: {}"),
    ("in_text", "local p={}\n\nlocal function g()\n%s\nend\ng()\nreturn p", 4, "fails Lua error: {}"),
    ("in_handler", "return {f=function(frame)\nlocal t=setmetatable({},{__index=function(t,k)\n%s\nend})\nreturn t.x\nend}", 3, "fails Lua error: {}"),
    ("in_tostring", "return {f=function(frame)\nreturn setmetatable({},{__tostring=function()\n%s\nend})\nend}", 3, "fails Lua error: {}"),
    ("in_iterator", "return {f=function(frame)\nfor v in function()\n%s\nend do end\nend}", 3, "fails Lua error: {}"),
    ("in_xpcall", "return {f=function(frame)\nlocal ok,v=xpcall(function()\n%s\nend,function(m) return '<'..m..'>' end)\nreturn v\nend}", 3, "gives <{}>"),
    ("in_xpcall_handler", "return {f=function(frame)\nlocal ok,v=xpcall(error,function()\n%s\nend)\nreturn v\nend}", 3, "gives error in error handling"),
]
for kind, statement, message in KINDS:
    for setting, text, line, form in SETTINGS:
        html = message if form.startswith("gives") else message.replace("&", "&amp;").replace("<", "&lt;").replace(">", "&gt;")
        # a `return` of a library's call gives what it gives, and stands at the same line
        hand(f"{kind}_{setting}", f"The error of `{statement}`, {setting.replace('_', ' ')}.", text % statement, form.format(f"Module:X:{line}: {html}"), profile=True, levels=False)
for level, place in ((0, ""), (1, "Module:X:3: "), (2, "Module:X:6: "), (3, "Module:X:9: "), (4, ""), (9, ""), (-1, "")):
    hand(f"error_level_{level}".replace("-", "minus_"), "`error` with a level: the place of `error`, of the call of its function, of the call of that one's, or none.",
         f"return {{f=function(frame)\nlocal function a()\nerror('m',{level})\nend\nlocal function b()\na()\nend\nlocal ok,v=pcall(function()\nb()\nend)\nreturn v\nend}}", f"gives {place}m", profile=True)
for level, place in ((1, "Module:X:4: "), (2, "Module:X:7: "), (3, "")):
    hand(f"level_{level}_through_handler", "An operator with a handler is a place that calls.",
         f"return {{f=function(frame)\nlocal t=setmetatable({{}},{{\n__add=function(a,b)\nerror('m',{level})\nend}})\nlocal ok,v=pcall(function()\nreturn t+1\nend)\nreturn v\nend}}", f"gives {place}m", profile=True)
for level, place in ((1, "Module:X:4: "), (2, "Module:X:6: "), (3, "Module:X:9: ")):
    hand(f"level_{level}_in_iterator", "A generic loop is the place that calls its iterator.",
         f"return {{f=function(frame)\nlocal function g()\nlocal function step()\nerror('m',{level})\nend\nfor v in step do end\nend\nlocal ok,v=pcall(function()\ng()\nend)\nreturn v\nend}}", f"gives {place}m", profile=True)
body("levels_of_values", "A place is put before a text alone: other values stay themselves at each level.",
     "local s=''\nfor l=-1,4 do for _,v in ipairs({true,false,42,{},error}) do local ok,e=pcall(function() error(v,l) end) s=s..tostring(e==v) end end\nreturn s", "true" * 30, profile=True)
body("levels_at_the_ends", "There is no place at the ends of the numbers.", "local s=''\nfor _,l in ipairs({9223372036854775807,-9223372036854775807-1}) do local ok,e=pcall(function() error('m',l) end) s=s..e end\nreturn s", "mm", profile=True)
hand("levels_through_tail_call", "A tail call keeps its places.", "return {f=function(frame)\nlocal function a() error('m',2) end\nlocal function b()\nreturn a()\nend\nlocal ok,v=pcall(function()\nreturn b()\nend)\nreturn v\nend}",
     "gives Module:X:4: m", profile=True)
for value, said in (("nil", "nil"), ("true", "boolean"), ("{}", "table"), ("error", "function")):
    body(f"uncaught_{said}", "An error that is no text has its kind told.", f"error({value})", fails=f"Lua error: the error is a {said} value", profile=True)
body("uncaught_number", "A number has its digits.", "error(42)", fails="Lua error: 42", profile=True)
body("uncaught_with_marks", "Marks of HTML are written out in a failure.", "error('<b>&</b>',0)", fails="Lua error: &lt;b&gt;&amp;&lt;/b&gt;", profile=True)
body("caught_with_marks", "A text that is given has them as they are.", "return '<b>&</b>'", "<b>&</b>")
hand("no_byte_of_lua", "Bytes that begin no token: 255, 0 and 254.", "\xff\0\xfe", "fails Lua error: Module:X:1: unexpected byte", profile=True)
for fault, text, line, message in ((1, "return {\n'x", 2, "unfinished string"), (2, "\n\nlocal x = [[", 3, "unfinished long bracket"), (3, "return '\\300'", 1, "escape out of range"),
                                   (4, "return $", 1, "unexpected byte"), (5, "return {\nf=", 2, "unexpected token"), (6, "return 1.5", 1, "numeral is not a whole number in range"),
                                   (8, "do\nbreak\nend", 2, "break outside a loop"), (9, "local f=error\nf\n(1)", 3, "call on a new line"), (10, "return {f=function()\nreturn ...\nend}", 2, "... outside a vararg function")):
    hand(f"fault_{fault}", "A text that is no chunk fails where it would begin.", text, f"fails Lua error: Module:X:{line}: {message}", profile=True)
    hand(f"fault_{fault}_required", "So does a module that is required; `pcall` catches it.", "return {f=function() return select(2,pcall(require,'Module:B')) end}", f"gives Module:B:{line}: {message}",
         others=[("B", text)], profile=True, levels=False)


# ---- closures of loops: a cell for each turn
def loops(name, said, text, gives):
    body(name, said, "local fs={}\n" + text, gives)


loops("cells_of_count", "Each turn of a counting loop has its own index.", "for i=1,3 do fs[i]=function() i=i+10 return i end end\nreturn fs[1]()..fs[1]()..fs[2]()..fs[3]()", "11211213")
loops("cells_of_two", "Two functions of one turn share its variables.", "for i=1,2 do local j=i*10 fs[i]={function() j=j+i return j end,function() return j end} end\nreturn fs[1][1](),fs[1][2](),fs[2][1](),fs[2][1](),fs[1][2]()", "1111222411")
loops("cells_of_each", "So has each turn of a generic loop.", "for k,v in ipairs({'a','b','c'}) do fs[k]=function() v=v..k return v end end\nreturn fs[1](),fs[3](),fs[1](),fs[2]()", "a1c3a11b2")
loops("cells_of_while", "A local variable of `while`.", "local i=0\nwhile i<3 do i=i+1 local j=i fs[i]=function() j=j+1 return j..i end end\nreturn fs[1](),fs[1](),fs[2](),fs[3]()", "23333343")
loops("cells_of_repeat", "A local variable of `repeat`, which its test sees.", "local i=0\nrepeat i=i+1 local j=i fs[i]=function() j=j*2 return j end until fs[i]()>=6\nreturn i,fs[1](),fs[2](),fs[3]()", "34812")
loops("cell_of_test", "A function in the test of `repeat` keeps the variable of the body.", "local n=0\nrepeat n=n+1 local m=n until (function() m=m+1 fs[n]=function() return m end return m>2 end)()\nreturn n,fs[1](),fs[2]()", "223")
loops("cells_after_break", "A turn that ends in `break` keeps its variables.", "for i=1,9 do local j=i fs[1]=function() j=j+1 return j end if i==4 then break end end\nreturn fs[1](),fs[1]()", "56")
loops("index_outside", "The index that a body changes is a copy.", "local n=0\nfor i=1,3 do n=n+i i=100 fs[n]=i end\nreturn n,fs[1],fs[3],fs[6]", "6100100100")
loops("nested_cells", "Loops in loops.", "for i=1,2 do for j=1,2 do fs[#fs+1]=function() i=i+1 j=j+10 return i..','..j..' ' end end end\nreturn fs[1](),fs[2](),fs[3](),fs[1]()", "2,11 3,12 3,11 4,21 ")
loops("cells_through_functions", "A variable that is captured through a function that doesn't use it.", "for i=1,2 do fs[i]=function() return function() i=i+1 return i end end end\nlocal a,b=fs[1](),fs[1]()\nreturn a(),b(),fs[2]()()", "233")
loops("parameters_captured", "Parameters, and those of a second call.", "local function make(a,b) return function() a=a+b return a end end\nlocal x,y=make(1,2),make(10,5)\nreturn x(),x(),y(),x()", "35157")
loops("dots_are_kept", "`...` is no variable: a table keeps it.", "local function make(...) local t={...} return function() t[1]=t[1]+#t return t[1] end end\nlocal x=make(1,9,9)\nreturn x(),x()", "47")
loops("self_captured", "`self` of a method.", "local o={n=0}\nfunction o:inc() return function() self.n=self.n+1 return self.n end end\nlocal i=o:inc()\nreturn i(),i(),o.n", "122")
loops("local_function_captures_itself", "A local function has its own name, and a later variable of that name is another.", "local function g(n) if n==0 then return 'z' end return g(n-1) end\nlocal h=g\nlocal g=nil\nreturn h(2)", "z")
loops("shadowed_captures", "Variables of one name in a row.", "local x=1 fs[1]=function() x=x+1 return x end\nlocal x=10 fs[2]=function() x=x+1 return x end\nreturn fs[1](),fs[2](),fs[1](),x", "211311")
loops("assigned_through", "An assignment to a captured variable is seen outside, and in the right order.", "local a,b=1,2\nlocal function swap() a,b=b,a end\nswap() a=a+5\nreturn a,b", "71")
loops("captured_by_many", "A hundred functions share a variable.", "local n=0\nfor i=1,100 do fs[i]=function() n=n+i end end\nfor i=1,100 do fs[i]() end\nreturn n", "5050")
loops("counter_of_calls", "A function that makes functions that make functions.", "local function a() local n=0 return function() n=n+1 local m=n return function() m=m+n return m end end end\nlocal f=a()\nlocal g,h=f(),f()\nreturn g(),h(),g()", "345")


# ---- `__call` in chains
def chain(links, end):
    text = "local seen={}\nlocal t=" + end + "\n" + f"for i=1,{links} do t=setmetatable({{}},{{__call=t}}) end\n"
    return text + "return t('a','b')"


for links in (1, 2, 7, 50):
    body(f"call_chain_{links}", "Each link puts its object in front.", chain(links, "function(...) return select('#',...),select(-1,...) end"), f"{links + 2}b", profile=True)
body("call_chain_to_nil", "A chain that ends in a table without a handler.", chain(3, "{}"), fails="Lua error: Module:X:5: attempt to call a table value", profile=True)
body("call_chain_to_number", "And in a number.", chain(3, "5"), fails="Lua error: Module:X:5: attempt to call a number value", profile=True)
body("call_chain_to_library", "And in a function of the library.", chain(2, "select"), fails="Lua error: Module:X:5: bad argument #1 to 'select' (number expected, got table)", profile=True)
body("call_chain_of_handlers", "A link of a chain of `__index` and of `__call` in one expression.",
     "local a=setmetatable({},{__call=function(s,x) return x..x end})\nlocal t=setmetatable({},{__index=setmetatable({},{__index=function(t,k) return a end})})\nreturn t.anything('z'),t:m()", fails="Lua error: Module:X:2: attempt to concatenate a table value", profile=True)
body("index_chain_long", "A chain of 90 tables.", "local t={x='end'}\nfor i=1,90 do t=setmetatable({},{__index=t}) end\nreturn t.x,tostring(t.y)", "endnil")
body("new_index_chain_long", "The same for assignments: the last table gets the key.", "local last={}\nlocal t=last\nfor i=1,90 do t=setmetatable({},{__newindex=t}) end\nt.x=5\nreturn last.x,tostring(rawget(t,'x'))", "5nil")
body("index_of_call", "`__index` that is a table with `__call` is indexed, not called.", "local h=setmetatable({k='v'},{__call=function() return 'called' end})\nreturn setmetatable({},{__index=h}).k", "v")
body("index_by_library", "`__index` that is a function of the library.", "return setmetatable({},{__index=rawequal}).x and 1 or 2", "2")
body("new_index_by_rawset", "`__newindex` that is `rawset`.", "local t=setmetatable({},{__newindex=rawset})\nt.x=3\nreturn t.x", "3")
body("false_index", "`__index` that is false is asked, and can't be indexed.", "return setmetatable({},{__index=false}).x", fails="Lua error: Module:X:2: attempt to index a boolean value", profile=True)


# ---- `unpack` and other ranges
for name, call in (("all", "-9223372036854775807-1,9223372036854775807"), ("upper", "1,9223372036854775807"), ("lower", "-9223372036854775807-1,0"), ("long", "1,1000000000")):
    body(f"unpack_{name}", "So many values can't be paid.", f"return unpack({{}},{call})", levels=False, profile=True, runs=[("exact", AMPLE, CALLS, [], "spends steps, 0 left")])
body("unpack_nothing", "From 2 to 1 there is nothing.", "return select('#',unpack({1,2,3},2,1)),select('#',unpack({})),select('#',unpack({1},9223372036854775807,-9223372036854775807))", "000", profile=True)
body("unpack_at_the_end", "The last numbers.", "return select('#',unpack({},9223372036854775806,9223372036854775807))", "2", profile=True)
body("unpack_backwards", "Places below 1.", "local t={[0]='z',[-1]='y',n=1}\nreturn unpack(t,-1,0)", "yz")
body("unpack_many", "5,000 values.", "local t={}\nfor i=1,5000 do t[i]=i end\nlocal a={unpack(t)}\nreturn #a,select('#',unpack(t)),(select(5000,unpack(t)))", "500050005000", levels=False)
body("select_ends", "Places of `select`.", "return select('#'),select('#',nil),select(3,1,2),select(2,1,2),select(-2,1,2)", "01nil212")


# ---- numbers
for n, (expression, value) in enumerate([
        ("9223372036854775807", "9223372036854775807"), ("-9223372036854775807-1", "-9223372036854775808"), ("9223372036854775806+1", "9223372036854775807"),
        ("-9223372036854775807+-1", "-9223372036854775808"), ("(-9223372036854775807-1)%-1", "0"), ("(-9223372036854775807-1)/1", "-9223372036854775808"),
        ("3037000499*3037000499", "9223372030926249001"), ("2^62", "4611686018427387904"), ("(-2)^63", "-9223372036854775808"), ("(-1)^-3", "-1"), ("1^-5", "1"),
        ("0^0", "1"), ("-2^2", "-4"), ("2^2^3", "256"), ("-7%3", "2"), ("7%-3", "-2"), ("-7%-3", "-1"), ("-6/3", "-2"), ("6/-3", "-2"), ("0x7fffffffffffffff", "9223372036854775807"),
        ("'10'+'0x10'", "26"), ("' 7 '*2", "14"), ("'-8'/2", "-4"), ("10 ..20", "1020"), ("-'5'", "-5"), ("1e3+.5e1", "1005"), ("5%3^2", "5"), ("2*3%4", "2"), ("-0", "0")]):
    body(f"number_{n}", f"`{expression}`.", f"return ({expression})", value, profile=True, levels=False)
for n, (test, value) in enumerate([("1<2", "true"), ("2<=2", "true"), ("-1<-2", "false"), ("'a'<'b'", "true"), ("'a'<'A'", "false"), ("''<'a'", "true"), ("'a'<''", "false"), ("'ab'<='aa'", "false"),
                                   ("'10'<'9'", "true"), ("1==1", "true"), ("1=='1'", "false"), ("nil==false", "false"), ("{}=={}", "false"), ("'a\\0b'<'a\\0c'", "true"), ("'\\200'>'z'", "true"),
                                   ("not nil==true", "true"), ("1<2==true", "true")]):
    body(f"order_{n}", f"`{test}`.", f"return tostring({test})", value, levels=False)
for n, (text, value) in enumerate([("12", "12"), (" 0x1F ", "31"), ("1e2", "100"), ("1.0", "1"), ("-5", "-5"), ("", "nil"), ("1 2", "nil"), ("0x", "nil"), ("9223372036854775807", "9223372036854775807"),
                                   ("9223372036854775808", "nil"), ("-9223372036854775808", "-9223372036854775808"), ("1.5", "nil"), ("abc", "nil"), ("1e", "nil"), ("--1", "nil"), ("+3", "3")]):
    body(f"to_number_{n}", f"`tonumber` of '{text}'.", f"return tostring(tonumber('{text}'))", value, profile=True, levels=False)
for n, (call, value) in enumerate([("'ff',16", "255"), ("'FF',16", "255"), ("'0xff',16", "255"), ("'zz',36", "1295"), ("'102',2", "nil"), ("'-101',2", "-5"), ("'7fffffffffffffff',16", "9223372036854775807"),
                                   ("'8000000000000000',16", "nil"), ("'-8000000000000000',16", "-9223372036854775808"), ("10,10", "10"), ("'10','10'", "10"), ("10,2", "2")]):
    body(f"to_number_in_base_{n}", f"`tonumber({call})`.", f"return tostring(tonumber({call}))", value, profile=True, levels=False)


# ---- statements, in the order in which things happen
LOG = "local log=''\nlocal function l(x,v) log=log..x return v end\n"
body("order_of_assignment", "Tables and keys of all targets, then the values, then the targets from the last.",
     LOG + "local t=setmetatable({},{__newindex=function(t,k,v) log=log..'='..k end})\nl('a',t)[l('b','k1')],l('c',t)[l('d','k2')]=l('e',1),l('f',2)\nreturn log", "abcdef=k2=k1")
body("order_of_call", "The function, its arguments, the call.", LOG + "l('a',l)(l('b','c'),l('d'))\nreturn log", "abdc")
body("order_of_method", "The object, the method, the arguments.", LOG + "local o=setmetatable({},{__index=function(o,k) log=log..k return function() log=log..'!' end end})\nl('a',o):m(l('b'))\nreturn log", "amb!")
body("order_of_constructor", "Each field in turn, the key before the value.", LOG + "local t={l('a'),[l('b',1)]=l('c'),x=l('d'),l('e',5)}\nreturn log,t[1] or 'nil',t[2]", "abcdenil5")
body("order_of_operands", "From left to right, also where a handler swaps.", LOG + "return l('a',1)+l('b',2)*l('c',3),l('d',1)>l('e',2) and 1 or 0,log", "70abcde")
body("order_of_count", "The three numbers of a loop.", LOG + "for i=l('a',1),l('b',2),l('c',1) do log=log..i end\nreturn log", "abc12")
body("count_once", "They are evaluated once.", "local n,m=3,0\nfor i=1,n do n=10 m=m+1 end\nreturn m", "3")
body("each_once", "So are the three of a generic loop.", "local t={1,2,3}\nlocal m=0\nfor i,v in ipairs(t) do t={} m=m+v end\nreturn m", "6")
body("local_sees_outer", "`local x = x`.", "local x=1\nlocal x=x+1\ndo local x=x+1 x=x+1 end\nreturn x", "2")
body("same_name_twice", "Two variables of one name: the second is seen.", "local a,a=1,2\nreturn a", "2")
body("parameters_of_one_name", "And parameters.", "return (function(a,a) return a end)(1,2)", "2")
body("too_many_values", "Values beyond the names are dropped, but evaluated.", LOG + "local a=l('a',1),l('b',2),l('c',3)\nreturn a,log", "1abc")
body("too_few_values", "Names beyond the values are nil.", "local a,b,c=1\nreturn a,tostring(b),tostring(c)", "1nilnil")
body("call_fills_the_rest", "A call at the end fills all names.", "local function g() return 1,2,3 end\nlocal a,b,c,d=0,g()\nreturn a,b,c,d", "0123")
body("call_in_the_middle", "One in the middle gives one value.", "local function g() return 1,2,3 end\nlocal t={g(),g()}\nreturn #t,g(),(g())", "411")
body("nothing_in_the_middle", "A function that gives nothing is nil in the middle, and nothing at the end.", "local function g() end\nlocal t={g(),g()}\nreturn #t,select('#',g(),g()),select('#',g())", "010")
body("return_nothing", "An empty answer.", "return", "")
body("return_nil", "nil as an answer.", "return nil", "nil")
body("return_many", "The values of an answer stand one after another.", "return 1,true,nil,'x',{}", "1truenilxtable", profile=True)
body("break_inner", "`break` leaves the inner loop.", "local s=''\nfor i=1,3 do while true do s=s..i break end if i==2 then break end end\nreturn s", "12")
body("return_from_loop", "`return` out of loops, blocks and a protected call.", "local function g() for i=1,3 do repeat do if i==2 then return i,'r' end end until true end end\nreturn select(2,pcall(g))", "2r")
body("empty_loops", "Loops without a turn.", "local n=0\nfor i=1,0 do n=1 end\nfor i=0,1,-1 do n=1 end\nwhile false do n=1 end\nfor k in pairs({}) do n=1 end\nreturn n", "0")
body("count_of_texts", "Texts that read as numbers are taken.", "local n=0\nfor i='1','3','1' do n=n+i end\nreturn n", "6")
body("count_down", "Down by twos.", "local s=''\nfor i=5,0,-2 do s=s..i end\nreturn s", "531")
body("count_at_the_ends", "Loops at both ends of the numbers.", "local n=0\nfor i=9223372036854775806,9223372036854775807 do n=n+1 end\nfor i=-9223372036854775807,-9223372036854775807-1,-1 do n=n+1 end\nreturn n", "4", profile=True)
body("count_by_zero", "A step of 0 counts down: no turn where it would go up.", "local n=0\nfor i=1,2,0 do n=n+1 if n>3 then break end end\nfor i=2,1,0 do n=n+10 if n>30 then break end end\nreturn n", "40")
body("while_changes", "The test is made anew.", "local n,s=3,''\nwhile n>0 do s=s..n n=n-1 end\nreturn s", "321")
body("repeat_once", "`repeat` runs once at least.", "local n=0\nrepeat n=n+1 until true\nreturn n", "1")
body("and_or_values", "`and` and `or` give operands.", "return nil and 1 or 2,false or nil or 'x',1 and 2 and 3,(nil or false)==false and 'f' or 't'", "2x3f")
body("lazy", "What isn't needed is not evaluated.", LOG + "local x=l('a',false) and l('b'),l('c',1) or l('d')\nreturn log", "ac")
body("dots", "`...` at places of its list.", "local function g(...) local a,b=... return select('#',...),a,tostring(b),(...),... end\nreturn g(1),g(1,2,3)", "13121123")
body("dots_of_text", "The text of a module takes `...`, which is empty.", "return 1", "1")
hand("module_dots", "The text of a module takes `...`, and gets nothing.", "local n=select('#',...) return {f=function() return n end}", "gives 0", profile=True)
hand("module_value_indexed", "The function is looked up with handlers.", "return setmetatable({},{__index=function(t,k) return function() return k end end})", "gives f")
hand("module_function_called", "A table with `__call` is no function.", "return {f=setmetatable({},{__call=function() return 1 end})}", "fails Script error: The function \"f\" does not exist.", profile=True)
hand("module_library_function", "A function of the library is one.", "return {f=type}", "gives table")
hand("module_globals", "What a module's text sets, its function sees.", "x=5 function g() return x end return {f=function() x=x+1 return g() end}", "gives 6")
body("long_texts", "Long strings, and escapes.", "return [[a\n]b]]..[==[]]]==]..'\\65\\066\\n\\\\'..\"'\"", "a\\n]b]]AB\\n\\\\'")
body("comments", "Comments of both kinds.", "-- one\nlocal x=1 --[[ two\nlines ]] local y=2 --[==[ ]] ]==]\nreturn x+y", "3")
body("fields_and_items", "Fields, items and expressions in one constructor.", "local t={1,x=2,[3]=3,4;[1]='no'}\nreturn t[1],t[2],t[3],t.x,#t", "no4323", profile=True)
body("length_of_cleared", "A border once the last is cleared.", "local t={1,2,3}\nt[3]=nil t[4]=4\nreturn #t", "2", profile=True)
body("walk_in_order", "Entries come in order of first insertion; a cleared one that is set again keeps its place.", "local t={}\nt.b=1 t.a=2 t[1]=3 t.b=nil t.c=4 t.b=5\nlocal s=''\nfor k,v in pairs(t) do s=s..k..v end\nreturn s", "b5a213c4", profile=True)
body("clearing_while_walking", "Entries may be cleared during a walk.", "local t={a=1,b=2,c=3,d=4}\nlocal n=0\nfor k,v in pairs(t) do t[k]=nil n=n+v end\nreturn n,tostring(next(t))", "10nil")
body("next_by_hand", "`next` step by step.", "local t={5,6}\nlocal k,v=next(t)\nlocal k2,v2=next(t,k)\nreturn k,v,k2,v2,tostring(next(t,k2))", "1526nil")
body("globals_are_entries", "`_G`.", "x=1 _G.y=2 _G['z']=x+y\nreturn z,_G.x,rawget(_G,'y'),tostring(_G._G==_G)", "312true")
body("equal_handler_kinds", "`__eq` needs one handler of both, and two tables.", "local e=function() return true end\nlocal a,b,c=setmetatable({},{__eq=e}),setmetatable({},{__eq=e}),setmetatable({},{__eq=function() return true end})\nreturn tostring(a==b),tostring(a==c),tostring(a==1),tostring(a~=b)", "truefalsefalsefalse")
body("length_asks_nobody", "`#` of a table asks no handler.", "return #setmetatable({1,2},{__len=function() return 9 end})", "2")
body("pcall_of_values", "Values of `pcall`.", "return select('#',pcall(function() end)),select('#',pcall(function() return nil,nil end)),tostring((pcall(error)))", "13false")
body("nested_pcall", "An error that is raised again.", "local ok,v=pcall(function() local ok,v=pcall(error,'a',0) error(v..'b',0) end)\nreturn v", "ab")
body("error_keeps_value", "A table as an error is that table.", "local t={}\nlocal ok,v=pcall(error,t)\nreturn tostring(v==t)", "true")
body("error_from_pcall", "What is done before an error stays.", "local t={}\npcall(function() t.x=1 error('m') t.y=2 end)\nreturn t.x,tostring(t.y)", "1nil")
body("concat_kinds", "Numbers and texts are joined.", "return 1 ..2,'a'..1,-1 ..'',''..''", "12a1-1")
body("raw_functions", "`rawget`, `rawset`, `rawequal`.", "local t=setmetatable({},{__index=function() return 'i' end,__newindex=function() end})\nt.x=1\nrawset(t,'y',2)\nreturn tostring(rawget(t,'x')),t.x,t.y,tostring(rawequal(t,t)),tostring(rawequal(1,'1'))", "nili2truefalse")
body("long_loop", "A hundred thousand turns.", "local n=0\nfor i=1,100000 do n=n+i end\nreturn n", "5000050000", levels=False)
body("endless_while", "A loop without end.", "while true do end", levels=False, profile=True, runs=[("exact", 200000, CALLS, [], "spends steps, 0 left"), ("exact", 0, CALLS, [], "spends steps, 0 left"), ("exact", 999, CALLS, [], "spends steps, 0 left")])
body("endless_repeat", "And `repeat`.", "repeat until nil", levels=False, profile=True, runs=[("exact", 100000, CALLS, [], "spends steps, 0 left")])
body("endless_each", "A generic loop without end.", "for i in function() return 1 end do end", levels=False, profile=True, runs=[("exact", 100000, CALLS, [], "spends steps, 0 left")])
body("endless_joins", "Texts that double.", "local s='x' while true do s=s..s end", levels=False, profile=True, runs=[("exact", AMPLE, CALLS, [], "spends steps, 0 left")])


# ---- questions, answered by hand
ASKS = "local s=''\nfor i=1,3 do s=s..frame:preprocess('{{{'..i..'}}}') end\nreturn s"
body("asks_in_a_loop", "Three questions, each of which takes steps.", ASKS, "abcd", replies=[(("text", "a"), "-5"), (("text", "bc"), "-0"), (("text", "d"), "-7")], parent=True, profile=True, levels=False)
body("first_question", "Without a reply it stands at the first.", ASKS, parent=True, profile=True, levels=False, runs=[("run", AMPLE, CALLS, [], "asks preprocess {{{1}}} in Module:X under Template:T")])
body("second_question", "With one at the second.", ASKS, parent=True, profile=True, levels=False, runs=[("run", AMPLE, CALLS, [(("text", "a"), "-5")], "asks preprocess {{{2}}} in Module:X under Template:T")])
hand("another_invocation", "What another invocation of the module does to its globals and to `string` is not seen.",
     "local p={} x=1 function p.g() x=2 string.len=nil return 'g' end function p.f(frame) local s=frame:preprocess('{{#invoke:Self|g}}') return s..x..string.len('ab') end return p",
     "gives g12", replies=[(("text", "g"), "-0")], profile=True)
body("answer_takes_all", "An answer that takes more than there is.", ASKS, parent=True, profile=True, levels=False, runs=[("exact", 5000, CALLS, [(("text", "a"), "-9999")], "spends steps, 0 left")])
body("answer_leaves_none", "An answer that leaves no steps.", ASKS, parent=True, profile=True, levels=False, runs=[("exact", 5000, CALLS, [(("text", "a"), "0")], "spends steps, 0 left")])
body("asked_in_a_handler", "A question out of a handler, in a protected call.", "local t=setmetatable({},{__index=function(t,k) return frame:preprocess(k) end})\nlocal ok,v=pcall(function() return t.a..t.b end)\nreturn tostring(ok),v", "truexy",
     replies=[(("text", "x"), "-1"), (("text", "y"), "-1")], parent=True, profile=True, levels=False)
body("asked_in_tostring", "A question out of `__tostring` in the answer.", "return setmetatable({},{__tostring=function() return frame:preprocess('q') end})", "x", replies=[(("text", "x"), "-1")], parent=True, profile=True, levels=False)
body("asked_in_an_iterator", "And out of an iterator.", "local n,s=0,''\nfor v in function() n=n+1 if n<3 then return frame:preprocess('q'..n) end end do s=s..v end\nreturn s", "xy", replies=[(("text", "x"), "-1"), (("text", "y"), "-1")], parent=True, profile=True, levels=False)
body("template_with_arguments", "A template with arguments of each kind.", "return frame:expandTemplate{title='U',args={'a',x='b',y=1,z=true,w=false}}", parent=True, profile=True, args=[("1", "own")], levels=False,
     runs=[("run", AMPLE, CALLS, [], "asks template Template:U|1=a|x=b|y=1|z=1|w= in Module:X|1=own under Template:T"), ("run", AMPLE, CALLS, [(("text", "t"), "-3")], "gives t"),
           ("run", AMPLE, CALLS, [(("none",), "-3")], "fails Lua error: Module:X:2: template 'U' does not exist")])
body("template_caught", "That there is no template is caught.", "local ok,v=pcall(function() return frame:expandTemplate{title='U'} end)\nreturn v", "Module:X:2: template 'U' does not exist", replies=[(("none",), "-1")], parent=True, profile=True, levels=False)
body("data_once", "A data module is asked for once.", "local a,b=mw.loadData('Module:D'),mw.loadData('Module:D')\nreturn a.x,tostring(a==b),a.me.me.n", "vtrue7",
     replies=[(("table", [("x", "v"), ("n", "#7"), ("me", "@")]), "-20")], parent=True, profile=True, levels=False)
body("data_is_read_only", "It can't be written, not by `rawset` and not in what it holds.", "local d=mw.loadData('Module:D')\nlocal function e(f,...) return select(2,pcall(f,...))..';' end\nreturn e(function() d.x=1 end),e(rawset,d,'y',1),e(setmetatable,d,{}),d.x",
     "Module:X:4: table from mw.loadData is read-only;table from mw.loadData is read-only;table from mw.loadData is read-only;v", replies=[(("table", [("x", "v")]), "-2")], parent=True, profile=True, levels=False)
body("data_fails", "A load that fails, and one that works then.", "local ok,v=pcall(mw.loadData,'Module:D')\nreturn v,mw.loadData('Module:D').x", "mv", replies=[(("failed", "m"), "-4"), (("table", [("x", "v")]), "-2")], parent=True, profile=True, levels=False)
