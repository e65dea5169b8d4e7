"""The worked examples of `lua_meaning`. An example has a name, the name of its module, its text, what it shows, the steps that
it is given, and what is seen at those. `profile` marks what Lua 5.1 does otherwise."""


def chunk(name, said, text, gives=None, fails=None, module="X", steps=6000, seen=None, profile=False, calls=None, args=None, how="invoke_module", fault=None, others=None, cases=False, invoked=None, block=None):
    """An example. `block` names its tree, where that isn't named as the example is; a line break in `said` breaks the comment."""
    if seen is None:
        seen = [("Gives", gives) if gives is not None else ("Fails", fails)]
    if not isinstance(steps, list):
        steps = [steps]
    return dict(name=name, said=said, text=text, module=module, steps=steps, seen=seen, profile=profile, calls=calls,
                args=args, how=how, fault=fault, others=others, cases=cases, invoked=invoked, block=block or name)


def quoted(text):
    escaped = text.replace("\\", "\\\\").replace('"', '\\"').replace("\n", "\\n")
    return f'(codes "{escaped}")' if text else "[]"


def pairs(args):
    return "(" + " ∷ ".join([f"arg {quoted(k)} {quoted(v)}" for k, v in args] + ["[]"]) + ")" if args else "[]"


def template(title, args, module="X", own=()):
    return f"Template (own_scene {quoted(module)} {pairs(own)}) (template_title {quoted(title)}) {pairs(args)}"


def preprocess(text, module="X", own=()):
    return f"Preprocess (own_scene {quoted(module)} {pairs(own)}) {quoted(text)}"


def data(title):
    return f"Data (module_title {quoted(title)})"


def text(answer, left):
    return f"reply (Expanded {quoted(answer)}) {left}"


def asking(name, said, source, *cases, module="X", args=None, others=None, invoked=None):
    """Several runs of one text in the body of template T: of each its steps, the replies that it gets, and what is seen."""
    return chunk(name, said, source, module=module, args=args, others=others, cases=True, profile=True, invoked=invoked,
                 steps=[(steps, list(replies)) for steps, replies, _ in cases], seen=[end for _, _, end in cases])


def body(name, said, text, gives=None, fails=None, **more):
    return chunk(name, said, "return {f=function(...)\n" + text + "\nend}", gives, fails, **more)


def loaded_x(left):
    """The tables of `return {x='v'}`."""
    return f"reply (Loaded (((Text (codes \"x\"), Text (codes \"v\")) ∷ []) ∷ [])) {left}"


# 1,000; the arguments; the text; the chunk; then `f` entered, the `local`, the nodes of the `return` with a link and a function
# entered among them, three texts that `..` gives, and the answer
ARGUMENTS = 1000 + 2 * (4 + 1 + 1) + 78 + (1 + 1 + 1 + 8 + 1 + 1 + 8 + 4) + 1 + 4 + 17 + (2 + 3 + 4) + 4

CHARGES = [
    chunk("smallest", "1,000 for the start, 36 for the text, and 29 for what it does.",
          "return {f=function() return 'a' end}", module="A", steps=[1065, 1064], seen=[("Gives", "a", 0), ("Spends", "Steps", 0)]),
    asking("start", "1,083 for the start, the text and the chunk; then `f` asks after 9 steps more. The load takes 1,031, and 2 are left to read the "
           "field and to answer.",
           "return {f=function() return mw.loadData('Module:D').x end}",
           (2125, [], ("Asks", data("D"), 1033)), (2125, [loaded_x(2)], ("Gives", "v", 0)), (2124, [loaded_x(1)], ("Spends", "Steps", 0)),
           (1092, [], ("Asks", data("D"), 0)), (1091, [], ("Spends", "Steps", 0)), module="M"),
    chunk("data_start", "The load of a data module: 1,000 for the start, 14 for the text, and 17 for what it does.",
          "return {x='v'}", module="D", how="load_module", steps=[1031, 1030], seen=[("Loads", 0), ("Spends", "Steps", 0)], profile=True),
    chunk("arguments", "Arguments cost 4 each, and the bytes of their names and values. A name that is a place is a number.",
          "return {f=function(frame) local a=frame.args return a[1]..a['1']..a.k..#a end}", module="G", args=[("1", "x"), ("k", "v")],
          steps=[ARGUMENTS, ARGUMENTS - 1], seen=[("Gives", "xxv1", 0), ("Spends", "Steps", 0)], profile=True),
    chunk("nodes", "Counted are two functions entered, seven nodes, and three turns of the loop.",
          "return {f=function() for i=1,3 do end end}", how="count_nodes", seen=[("Counts", 2 + 7 + 3)], profile=True),
    chunk("names_are_noted", "The global variables that a text names are noted, each where it is read or written; local ones and keys are not.",
          "return {f=function()\n x=y local y=1 y=x\n function g() end\n _G.z=y\n x,y=x,1\n return g and x\nend}", how="notes_of", profile=True,
          seen=[("Notes", [("Module:X", name) for name in "y x x g _G x x g x".split()], "nil")]),
    chunk("counter", "A global variable lives as long as its invocation: in each one the counter gives 1.",
          "n=0 local p={} function p.f() n=n+1 return n end return p", "1", module="C"),
    chunk("holds_itself", "A table holds itself.",
          "local p={} function p.f() local t={} t.t=t return t.t.t.t==t and 'y' end return p", "y", module="K"),
    chunk("catches_all", "Nothing catches spent steps.",
          "local p={} function p.f() while true do pcall(p.f) end end return p", module="L", steps=[3000], seen=[("Spends", "Steps", 0)], profile=True),
    chunk("nests", "A tail call nests too, until no call is left: 1,081 for the start and the chunk, 1 for the first call, and 6 for each of 50.",
          "local p={} function p.f() return p.f() end return p", module="H", steps=[3000], calls=50, seen=[("Spends", "Calls", 3000 - 1081 - 1 - 50 * 6)], profile=True),
    chunk("joins", "What `..` gives is charged.",
          "local a = 'x' return {f = function() local b = a .. 'y' return b .. a end}", "xyx", module="Hi"),
    chunk("no_markup", "The answer is a text, and is not expanded here.",
          "return {f = function() return '{{T}}' end}", "{{T}}", module="V"),
    chunk("cells", "Each turn of a loop has variables of its own, which closures keep.",
          "local p={} function p.f() local fs={} for i=1,3 do fs[i]=function() i=i+10 return i end end return fs[1]()..fs[1]()..fs[2]() end return p",
          "112112", module="Slots"),
    chunk("handlers", "Handlers of indexing, of order and of calls.",
          "local p={} function p.f() local m={__index=function(t,k) return k..k end,__lt=function(a,b) return a.n<b.n end,__call=function(s,x) return x+s.n end} local a=setmetatable({n=1},m) local b=setmetatable({n=2},m) return a.zz..tostring(b<=a)..a(6) end return p",
          "zzzzfalse7", module="Meta"),
    chunk("out_of_range", "Results that are no whole number in range are errors.",
          "local p={} function p.f() local function e(f) local ok,v=pcall(f) return tostring(v) end return e(function() return 9223372036854775807+1 end)..';'..e(function() return 7/2 end)..';'..6/2 ..';'..-7%3 ..';'..1e3 end return p",
          "Module:N:1: number out of range;Module:N:1: quotient is not whole;3;2;1000", module="N", profile=True),
    chunk("second_level", "An error with level 2 is at the place that called.",
          "local p = {}\nlocal function check(x) if not x then error('bad', 2) end end\nfunction p.f() check(false) end\nreturn p",
          fails="Lua error: Module:E:3: bad", module="E"),
    chunk("no_function", "The module has no function of that name.", "return {g=function() end}",
          fails='Script error: The function "f" does not exist.', module="C", profile=True),
    chunk("no_table", "The module gives no table.", "return 1", fails="Script error: The module returned no table.", profile=True),
    chunk("data_no_table", "A data module must give a table.", "return 1", fails="data module returned no table", how="load_module", profile=True),
    chunk("data_error", "The message of an error in a data module stands alone.", "error('x')", fails="Module:DE:1: x", module="DE", how="load_module", profile=True),
    chunk("faulty", "A text that is no chunk fails where it would begin.", "local p = {}\nfunction p.f()\n  return 1 + end\nreturn p",
          fails="Lua error: Module:Y:3: unexpected token", module="Y", fault=(5, 3), profile=True),
    chunk("unfinished", "The numbers of the faults are those of the lexis and of the grammar.", 'return "',
          fails="Lua error: Module:U:1: unfinished string", module="U", fault=(1, 1), profile=True),
    chunk("too_large", "A numeral beyond 64 bits is a fault.", "return 9223372036854775808",
          fails="Lua error: Module:B:1: numeral is not a whole number in range", module="B", fault=(6, 1), profile=True),
    chunk("table_error", "An error that is no string has no message.", "return {f=function() error({}) end}",
          fails="Lua error: the error is a table value", module="Z", profile=True),
    chunk("written_out", "The text of a failure is written without marks of HTML.", "return {f=function() error('a<b>&c', 0) end}",
          fails="Lua error: a&lt;b&gt;&amp;c", profile=True),
]

def cost(name, said, text, parts, answer="", profile=False):
    """What `f` does costs these parts. Before it 1,000, the text, 25 for the chunk, and 1 for `f` entered; then its answer."""
    whole = "return {f=function(...)\n" + text + "\nend}"
    steps = 1000 + len(whole) + 25 + 1 + sum(parts) + len(answer)
    return chunk(name, said, whole, steps=[steps, steps - 1], seen=[("Gives", answer, 0), ("Spends", "Steps", 0)], profile=profile)


COSTS = [
    cost("nothing", "A function that does nothing.", "", []),
    cost("dots_cost", "`...` costs a step more for each value: here it has one, the frame.", "return ...", [1, 1 + 1], "table", profile=True),
    cost("while_costs", "`while`: three tests, and two turns.", "local i=0 while i<2 do i=i+1 end", [2, 1, 3 * 3, 2 * (1 + 4)]),
    cost("repeat_costs", "`repeat`: two turns, each with its test.", "local i=0 repeat i=i+1 until i>=2", [2, 1, 2 * (1 + 4 + 3)]),
    cost("for_costs", "A counting loop: its numbers, and a step for each turn.", "for i=1,2 do end", [1 + 2, 2]),
    cost("each_costs", "A generic loop: the function is entered three times, and there are two turns.", "for k in next,{1,2} do end",
         [1, 1, 9 + 2 * (1 + 4), 3 + 2]),
    cost("cleared_costs", "`next` passes a cleared entry; a key that is cleared is no new entry.", "local t={1,2} t[1]=nil return next(t)",
         [1 + 9 + 2 * (1 + 4), 1 + 3 + 1, 1 + 3, 1 + 1], "22"),
    cost("joins_cost", "`..` costs the length of what it gives.", "return 'ab'..'c'", [1 + 3, 3], "abc"),
    cost("order_costs", "The order of two texts costs the length of the shorter one.", "return 'abc'<'abde'", [1 + 3, 3], "true"),
    cost("equality_is_free", "Their equality costs nothing.", "return 'abc'=='abc'", [1 + 3], "true"),
    cost("text_costs", "`tostring` costs the length of the text.", "return tostring('abc')", [1 + 3, 1 + 3], "abc"),
    cost("unpack_costs", "`unpack` costs a step for each entry.", "return unpack({1,2})", [1 + 2, 9 + 2 * (1 + 4), 1 + 2], "12"),
    cost("link_costs", "A link to a table costs a step.", "return setmetatable({},{__index={x=1}}).x",
         [1, 2, 2, 9, 9 + 1 + 9 + 1 + 1 + 4 + 4, 1, 1], "1"),
    cost("call_link_costs", "A link to a function costs a step, and the function's entry another.",
         "return setmetatable({},{__call=function() return 1 end})()", [1, 1, 2, 9, 9 + 1 + 9 + 4, 1, 1 + 1 + 2], "1"),
    cost("message_costs", "A message costs its length with its place.", "return pcall(function() error('m') end)",
         [1 + 2 + 9, 1 + 1, 1 + 3 + 1, len("Module:X:2: m")], "falseModule:X:2: m"),
    cost("method_costs", "A method's name costs nothing.", "local o={m=function(s) return 1 end} return o:m()", [1 + 9 + 1 + 9 + 4, 1 + 2, 1 + 2], "1"),
    cost("local_function_costs", "A local function is a statement, and a closure.", "local function g() end g()", [1 + 8, 1 + 2 + 1]),
    cost("global_costs", "A global variable that is new is a new entry, and a name as a target costs nothing.", "x=1 x=2", [2 + 4, 2]),
    cost("choices_cost", "What is not evaluated costs nothing.", "return nil and error() or 'a'", [1 + 2 + 1 + 1], "a"),
    cost("branches_cost", "Of a condition the tests that are made.", "if nil then elseif 1 then elseif 2 then end", [1 + 2]),
    cost("targets_cost", "Targets that are indices are nodes; nil makes no entry.", "local t={} t.a,t.b=1", [1 + 9, 1 + 2 * 3 + 1, 4]),
]

VALUES = [
    body("constants", "Constants, and their texts.", "return nil, true, false, 12, 'a b', 0x1F", "niltruefalse12a b31"),
    body("adjusted", "Lists are adjusted: a call gives all its values only as the last of a list.",
         "local function g() return 1,2,3 end\nlocal a,b,c,d,e = g(),g()\nreturn a,b,c,d,e", "1123nil"),
    body("parentheses", "In parentheses there is one value.", "local function g() return 1,2 end\nreturn (g()),g()", "112"),
    body("many_arguments", "Of the arguments too, the last gives all.",
         "local function g(...) return select('#',...),... end\nlocal function two() return 7,8 end\nreturn g(two(),two())", "3778"),
    body("varargs", "`...` gives all its values as the last of a list.", "local function g(a,...) return a,(...),... end\nreturn g(1,2,3)", "1223"),
    body("no_values", "A function without `return` gives none.", "local function g() end\nreturn select('#',g()),g()", "0"),
    body("and_or", "`and` and `or` give an operand.",
         "return tostring(nil and 1), tostring(false or nil), 1 and 2, nil or 3, false and error('x') or 'y'", "nilnil23y"),
    body("precedence", "Operators bind as the manual says.",
         "return 2^3^2, -2^2, 1+2*3-4, 2*3%4, not 1==2, 1 ..2 ..3, -3%5, 'a'..1+2", "512-432false1232a3"),
    body("remainders", "`%` has the sign of its second operand.", "return 7%3, -7%3, 7%-3, -7%-3, 6/3, -6/3", "12-2-12-2"),
    body("texts_in_arithmetic", "A text that reads as a number is one in arithmetic.",
         "return '10'+5, ' 0x10 '*2, -'3', '2'^'3', 10 .. 20", "1532-381020"),
    body("order", "Numbers are in order, and texts byte by byte.",
         "return tostring(1<2), tostring('a'<'b'), tostring('Z'<'a'), tostring(''<'a'), tostring('ab'<'a'), tostring('a'<='a'), tostring(2>=3), tostring('b'>'a'), tostring(3<=3)",
         "truetruetruetruefalsetruefalsetruetrue"),
    body("equality", "Equality converts nothing.", "local t={}\nreturn tostring(1=='1'), tostring('a'=='a'), tostring(t=={}), tostring(t==t), tostring(nil~=false), tostring(0==-0)",
         "falsetruefalsetruetruetrue"),
    body("lengths", "The length of a text is in bytes, that of a table its border.", "return #'', #'abc', #{}, #{5,6,7}, #{n=1}", "03030"),
    body("least_border", "The border is the least one.", "return #{1,2,nil,4}", "2", profile=True),
    body("types", "Kinds of values.", "return type(nil),type(1),type('1'),type({}),type(type),type(function() end),type(true)",
         "nilnumberstringtablefunctionfunctionboolean"),
    body("to_numbers", "`tonumber`.", "return tostring(tonumber('x')), tonumber(' 12 '), tonumber('-7'), tonumber('ff',16), tonumber('11',2), tonumber('z',36), tostring(tonumber('8',8)), tonumber(9)",
         "nil12-7255335nil9"),
    body("selecting", "`select` counts from the front, or from the end.", "return select(2,'a','b','c'), select(-1,'x','y'), select('#',nil,nil)", "by2"),
    body("unpacking", "`unpack` reads the entries of a list.", "return select('#',unpack({1,2,nil},1,3)), unpack({4,5,6},2)", "356"),
    body("assertions", "`assert` gives its arguments, or raises its message.",
         "local ok,e = pcall(assert,false,'no')\nlocal ok2,e2 = pcall(assert,nil)\nreturn assert(1,2), e, e2", "1noassertion failed!"),
]

STATEMENTS = [
    body("swap", "The right sides are evaluated before any target is assigned.", "local a,b = 1,2\na,b = b,a\nreturn a,b", "21"),
    body("keys_first", "The keys of the targets are evaluated before the right sides.", "local i=1\nlocal t={}\ni,t[i] = i+1,20\nreturn i,t[1],t[2]", "220nil"),
    body("last_first", "The last target is assigned first.", "local a\na,a,a = 1,2,3\nreturn a", "1"),
    body("more_targets", "Targets without a value get nil.", "local a,b,c = 1\nb = 5\na,b = 7\nreturn a,b,c", "7nilnil"),
    body("shadowed", "A local variable is seen from the next statement on, to the end of its block.",
         "local x=1\ndo local x=x+1 x=x+1 end\nlocal x=x..'!'\nreturn x", "1!"),
    body("local_functions", "The name of a local function is seen in its body.",
         "local function fact(n) if n<=1 then return 1 end return n*fact(n-1) end\nreturn fact(5)", "120"),
    body("global_functions", "A function that is assigned to a local name sees the global one.",
         "local g = function() return g end\nreturn tostring(g())", "nil"),
    body("branches", "The first branch whose test is true.",
         "local function sign(n) if n<0 then return 'neg' elseif n==0 then return 'zero' else return 'pos' end end\nreturn sign(-1),sign(0),sign(1)", "negzeropos"),
    body("while_loop", "`while`, and `break` out of the inner loop alone.",
         "local s=''\nlocal i=0\nwhile i<3 do i=i+1 local j=0 while true do j=j+1 if j>i then break end s=s..j end end\nreturn s", "112123"),
    body("repeat_loop", "The test of `repeat` sees the variables of the body.", "local n=0\nrepeat local done = n>=2 n=n+1 until done\nreturn n", "3"),
    body("repeat_break", "A `break` in `repeat` passes the test over.", "local n=0\nrepeat n=n+1 if n==2 then break end until error('no', 0) or n==1\nreturn n",
         fails="Lua error: no"),
    body("counting", "The index counts up or down, and its copy in the body may change.",
         "local s=''\nfor i=1,3 do s=s..i i=10 end\nfor i=3,1,-1 do s=s..i end\nfor i=1,0 do s=s..'x' end\nfor i='1','2' do s=s..i end\nreturn s", "12332112"),
    body("counting_to_the_end", "Where the next index is out of range the loop ends.",
         "local n=0\nfor i=9223372036854775806,9223372036854775807 do n=n+1 end\nreturn n", "2", profile=True),
    body("step_of_zero", "A step of 0 counts as a negative one.", "local n=0\nfor i=1,2,0 do n=n+1 end\nfor i=2,1,0 do n=n+1 if n==3 then break end end\nreturn n", "3"),
    body("generic", "`ipairs` stops at the first nil, and `pairs` goes through all in order.",
         "local s=''\nfor i,v in ipairs({'a','b',nil,'d'}) do s=s..i..v end\nfor k,v in pairs({'x','y',z='w'}) do s=s..k..v end\nreturn s", "1a2b1x2yzw"),
    body("own_iterator", "Any function is an iterator.",
         "local function to(n,i) if i<n then return i+1,i*i end end\nlocal s=''\nfor i,q in to,3,0 do s=s..i..q end\nreturn s", "102134"),
    body("cleared", "A cleared key keeps its place, and a walk passes it.",
         "local t={a=1,b=2,c=3}\nt.b=nil\nlocal s=''\nfor k,v in pairs(t) do s=s..k..v t[k]=nil end\nreturn s,tostring(next(t))", "a1c3nil"),
    body("loop_messages", "Messages of loops.",
         "local function e(f) local ok,v = pcall(f) return v..';' end\nreturn e(function() for i={},1 do end end),e(function() for i=1,'x' do end end),e(function() for i=1,2,{} do end end),e(function() for x in nil do end end)",
         "Module:X:3: 'for' initial value must be a number;Module:X:3: 'for' limit must be a number;Module:X:3: 'for' step must be a number;Module:X:3: attempt to call a nil value;"),
    body("walk_handlers", "`pairs` and `ipairs` ask `__pairs` and `__ipairs`.",
         "local t=setmetatable({},{__pairs=function(t) return next,{k='v'} end,__ipairs=function() return function(s,i) if i<2 then return i+1,i end end,nil,0 end})\nlocal s=''\nfor k,v in pairs(t) do s=s..k..v end\nfor i,v in ipairs(t) do s=s..i..v end\nreturn s",
         "kv1021", profile=True),
    body("last_place", "After the last number `ipairs` gives nil.", "local step=ipairs({})\nreturn tostring(step({},9223372036854775807))", "nil", profile=True),
    body("return_from_loops", "A `return` leaves all loops.", "for i=1,3 do for j=1,3 do if i*j==4 then return i..j end end end", "22"),
    body("constructors", "A constructor sets its fields in order, and its last item gives all its values.",
         "local function two() return 'p','q' end\nlocal t={two(),two(),['k']=1,x=2;two()}\nreturn #t,t[1],t[2],t[3],t[4],t.k,t.x", "4pppq12"),
    body("methods", "A method gets its object first.",
         "local o={n=3}\nfunction o:add(k) self.n=self.n+k return self end\nfunction o.get(x) return x.n end\nreturn o:add(4):get()", "7"),
]

FUNCTIONS = [
    body("counters", "Closures share the variables around them.",
         "local function make() local n=0 return function() n=n+1 return n end,function() return n end end\nlocal inc,get = make()\nlocal other = make()\ninc() inc() other()\nreturn get()", "2"),
    body("while_cells", "A loop with `while` has fresh variables in each turn too.",
         "local fs={}\nlocal i=1\nwhile i<=2 do local j=i fs[i]=function() j=j+1 return j end i=i+1 end\nreturn fs[1](),fs[1](),fs[2]()", "233"),
    body("protected", "`pcall` gives false and the error, or true and the values.",
         "return tostring(pcall(error,'m')), select(2,pcall(error,'m')), pcall(function(...) return ... end,1,2)", "falsemtrue12"),
    body("values_as_errors", "An error may be any value, and keeps it.",
         "local t={}\nlocal ok,e = pcall(error,t)\nlocal ok2,e2 = pcall(error,42)\nreturn tostring(e==t), type(e2), tostring(select(2,pcall(error)))", "truenumbernil", profile=True),
    body("places", "Level 1 is the place that called `error`, level 2 that which called its function; 0 has none.",
         "local function g(n) error('m',n) end\nlocal function e(n)\n  local ok,v = pcall(function()\n    g(n)\n    return 1\n  end)\n  return v..';'\nend\nreturn e(1),e(2),e(0),e(4)",
         "Module:X:2: m;Module:X:5: m;m;m;", profile=True),
    body("failing", "Messages of operators, with their places.",
         "local function e(f) local ok,v = pcall(f) return v..';' end\nlocal t={}\nreturn e(function() return t.x.y end),e(function() t() end),e(function() return 1+t end),e(function() return 'a'..t end),\n e(function() return 1<'2' end),e(function() return t<t end),e(function() return #nil end),e(function() t[nil]=1 end),e(function() return 'x'+1 end)",
         "Module:X:4: attempt to index a nil value;Module:X:4: attempt to call a table value;Module:X:4: attempt to perform arithmetic on a table value;Module:X:4: attempt to concatenate a table value;"
         "Module:X:5: attempt to compare number with string;Module:X:5: attempt to compare two table values;Module:X:5: attempt to get length of a nil value;Module:X:5: table index is nil;Module:X:5: attempt to perform arithmetic on a string value;", profile=True),
    body("bad_arguments", "Messages of the library's functions are at the place that called; under `pcall` there is none.",
         "local function e(f,...) local ok,v = pcall(f,...) return v..';' end\nreturn e(setmetatable,1),e(function() rawget() end),e(next,{},'k'),e(select,0)",
         "bad argument #1 to 'setmetatable' (table expected, got number);Module:X:3: bad argument #1 to 'rawget' (table expected, got no value);invalid key to 'next';bad argument #1 to 'select' (out of range);", profile=True),
    body("error_handlers", "`xpcall` gives the error to its handler.",
         "local function h(m) return 'h('..m..')' end\nlocal ok,v = xpcall(function() error('x',0) end,h)\nlocal ok2,v2 = xpcall(function() return 5 end,h)\nreturn tostring(ok),v,tostring(ok2),v2", "falseh(x)true5"),
    body("failing_handlers", "A handler that fails has a message of its own.",
         "local ok,v = xpcall(function() error('x',0) end,function() error('y') end)\nreturn tostring(ok),v", "falseerror in error handling", profile=True),
    body("index_chain", "Where a key is absent the handler is asked, along a chain of tables.",
         "local a={x=1}\nlocal b=setmetatable({y=2},{__index=a})\nlocal c=setmetatable({},{__index=b})\nreturn c.x,c.y,tostring(c.z),tostring(rawget(c,'x'))", "12nilnil"),
    body("new_index", "An assignment to an absent key asks `__newindex`.",
         "local log=''\nlocal store={}\nlocal a=setmetatable({old=1},{__newindex=function(t,k,v) log=log..k rawset(t,k,v) end})\nlocal b=setmetatable({},{__newindex=store})\na.old=2 a.new=3 a.new=4 b.k=5\nreturn log,a.old,a.new,tostring(rawget(b,'k')),store.k", "new24nil5"),
    body("arithmetic_handlers", "The first operand's handler, or else the second's.",
         "local m={__add=function(a,b) return 'add' end,__concat=function(a,b) return type(a)..type(b) end,__unm=function(a,b) return tostring(a==b) end}\nlocal t=setmetatable({},m)\nreturn t+1,1+t,t..'x','x'..t,-t", "addaddtablestringstringtabletrue"),
    body("first_handler", "Where both operands have a handler, the first one's is asked.",
         "local function made(name) return setmetatable({},{__add=function() return name end,__concat=function() return name end}) end\nlocal a,b = made('a'),made('b')\nreturn a+b,b+a,a..b", "aba"),
    body("equal_handlers", "`__eq` is asked for two tables that have the same handler.",
         "local eq=function() return 1 end\nlocal a=setmetatable({},{__eq=eq})\nlocal b=setmetatable({},{__eq=eq})\nlocal c=setmetatable({},{__eq=function() return 1 end})\nreturn tostring(a==b),tostring(a~=b),tostring(a==c),tostring(a==1)", "truefalsefalsefalse"),
    body("call_handlers", "A table with `__call` is called with itself first.",
         "local t=setmetatable({n=2},{__call=function(self,a,b) return self.n+a+b end})\nreturn t(3,4),pcall(t,1,1)", "9true4"),
    body("to_text", "`__tostring` gives the text of a table.", "local t=setmetatable({},{__tostring=function() return 'T' end})\nreturn tostring(t)..'!',t", "T!T"),
    body("no_text", "What `__tostring` gives must be a string.",
         "local t=setmetatable({},{__tostring=function() return {} end})\nlocal ok,e = pcall(tostring,t)\nreturn e..';',select(2,pcall(function() return tostring(t) end))",
         "'tostring' must return a string;Module:X:4: 'tostring' must return a string", profile=True),
    body("methods_of_strings", "A string is indexed in the table `string`.",
         "string.twice=function(s) return s..s end\nreturn ('ab'):twice(),tostring(('x').none)", "ababnil"),
    body("protected_metatables", "A metatable may be protected.",
         "local t=setmetatable({},{__metatable='no'})\nlocal ok,e=pcall(setmetatable,t,{})\nreturn getmetatable(t),tostring(ok),e", "nofalsecannot change a protected metatable"),
    body("global_handlers", "Global variables are entries of a table, whose metatable is asked too.",
         "setmetatable(_G,{__index=function(t,k) return k..'?' end})\nx=1\nreturn x,_G.x,y", "11y?"),
    body("raw_equality", "`rawequal` and `next` ask no handlers.",
         "local t=setmetatable({},{__eq=function() return true end})\nreturn tostring(rawequal(t,setmetatable({},getmetatable(t)))),tostring(next({})),next({7})", "falsenil17"),
    body("tail_values", "A call at the end gives all the values of the function that it calls.",
         "local function g(n) if n==0 then return 'x','y' end return g(n-1) end\nreturn g(3)", "xy"),
]

def framed(name, said, source, gives=None, fails=None, module="X", args=None, others=None, replies=()):
    """A function of a frame, in the body of template T, with steps in plenty."""
    end = ("Gives", gives) if gives is not None else ("Fails", fails)
    return asking(name, said, "return {f=function(frame)\n" + source + "\nend}", (6000, list(replies), end), module=module, args=args, others=others)


def framed_cost(name, said, source, parts, answer="", args=None):
    """What `f` does with its frame costs these parts. Before it 1,000, the arguments, the text, 25 for the chunk, and 1 for `f` entered."""
    whole = "return {f=function(frame)\n" + source + "\nend}"
    steps = 1000 + sum(4 + len(k) + len(v) for k, v in args or []) + len(whole) + 25 + 1 + sum(parts) + len(answer)
    return asking(name, said, whole, (steps, [], ("Gives", answer, 0)), (steps - 1, [], ("Spends", "Steps", 0)), args=args)


def used(source):
    """What is used when `f` of `return {f=function(frame) .. end}` is entered."""
    return 1000 + len(source) + 25 + 1


COSTS += [
    cost("set_link_costs", "A link of an assignment costs a step.", "setmetatable({},{__newindex={}}).x=1",
         [1 + 1, 2 + 9, 9 + 1 + 9 + 4, 1, 1, 1, 1, 4]),
    cost("rawset_costs", "`rawset` of a new key costs an entry.", "local t={} rawset(t,1,2) rawset(t,1,3)", [1 + 9, 6 + 1 + 4, 6 + 1]),
    cost("at_most_costs", "`<=` on texts costs the shorter one too.", "return 'abc'<='abde'", [1 + 3, 3], "true"),
    cost("end_costs", "`next` pays for the cleared entries that it passes at the end.", "local t={1,2} t[2]=nil return next(t,1)",
         [1 + 9 + 2 * (1 + 4), 1 + 3 + 1, 1 + 4, 1 + 1], "nil"),
    cost("handler_makes_no_text", "What a handler of `..` gives costs nothing beyond its call.",
         "local t=setmetatable({},{__concat=function() return 'abcdef' end}) return #(t..t)",
         [1, 2 + 9, 9 + 1 + 9 + 4, 1, 1 + 1 + 1 + 3, 1 + 1 + 1], "6"),
    cost("handler_of_text_costs", "What `__tostring` gives costs its length.",
         "local t=setmetatable({},{__tostring=function() return 'abcdef' end}) return #tostring(t)",
         [1, 2 + 9, 9 + 1 + 9 + 4, 1, 1 + 1 + 3, 1, 1 + 1 + 1, 6], "6", profile=True),
    cost("answer_asks_handlers", "In the answer `__tostring` costs what it does, and its text nothing more.",
         "return setmetatable({},{__tostring=function() return 'abc' end})", [1 + 2 + 9, 9 + 1 + 9 + 4, 1, 1 + 1 + 1], "abc"),
    cost("no_levels_in_handlers", "The handler of `xpcall` is called by the library, so level 2 has no place in it: its message costs nothing.",
         "return xpcall(function() error('x',0) end,function() error('m',2) end)",
         [1 + 2 + 9 + 9, 1, 1 + 1 + 4 + 1, 1 + 1 + 4 + 1], "falseerror in error handling", profile=True),
    cost("require_costs", "`strict` costs a table with two entries.", "return require('strict')", [1 + 3, 1, 8 + 2 * 4], "true", profile=True),
]

HANDLERS = [
    body("at_most_handler", "`__le` is asked before `__lt`.",
         "local m={__le=function(a,b) return a.n end,__lt=function() error('no') end}\nlocal a,b=setmetatable({n=1},m),setmetatable({n=false},m)\nreturn tostring(a<=b),tostring(b<=a),tostring(a>=b)", "truefalsefalse"),
    body("nil_is_not_less", "Where `__lt` stands in for `__le`, nil from it is false.",
         "local m={__lt=function() end}\nlocal a,b=setmetatable({},m),setmetatable({},m)\nreturn tostring(a<=b),tostring(a<b)", "truefalse"),
    body("greater", "`a > b` is `b < a` for tables too.",
         "local m={__lt=function(x,y) return x.n<y.n end}\nlocal a,b=setmetatable({n=1},m),setmetatable({n=2},m)\nreturn tostring(a>b),tostring(b>a)", "falsetrue"),
    body("call_chain", "`__call` may be a table that has `__call`: each link puts its object in front.",
         "local u=setmetatable({},{__call=function(...) return select('#',...),select(3,...) end})\nlocal t=setmetatable({},{__call=u})\nreturn t('a','b')", "4ab", profile=True),
    body("false_protects", "`__metatable` may be false.",
         "local t=setmetatable({},{__metatable=false})\nreturn tostring(getmetatable(t)),select(2,pcall(setmetatable,t,{}))", "falsecannot change a protected metatable"),
    body("levels_through_handlers", "An operator that calls a handler is the place that called it.",
         "local function bad() error('m',2) end\nlocal t=setmetatable({},{__add=bad,__index=bad,__newindex=bad,__call=bad})\nlocal function e(f) return select(2,pcall(f))..';' end\nreturn e(function()\n return t+1 end),e(function()\n return t.x end),e(function()\n t.x=1 end),e(function()\n t() end)",
         "Module:X:6: m;Module:X:7: m;Module:X:8: m;Module:X:9: m;"),
    body("levels_in_tostring", "What the library calls has no place above it.",
         "local t=setmetatable({},{__tostring=function() error('m',2) end})\nreturn select(2,pcall(function() return tostring(t) end))", "m"),
    body("one_value_of_handlers", "`xpcall` gives one value of its handler.",
         "return select('#',xpcall(error,function() return 1,2 end)),xpcall(error,function() return 1,2 end)", "2false1"),
    body("number_as_text", "`__tostring` may give a number.", "return type(tostring(setmetatable({},{__tostring=function() return 12 end}))),setmetatable({},{__tostring=function() return 7 end})",
         "string7", profile=True),
    body("method_first", "A method is looked up before the arguments are evaluated.",
         "local log=''\nlocal o=setmetatable({},{__index=function(t,k) log=log..k return function() end end})\no:m((function() log=log..'!' end)())\nreturn log", "m!"),
    body("library_calls_nothing", "A function of the library that calls what is no function raises without a place.",
         "local function e(f,...) return select(2,pcall(f,...))..';' end\nreturn e(1),e(nil),e(function() return tostring(setmetatable({},{__tostring=1})) end)",
         "attempt to call a number value;attempt to call a nil value;attempt to call a number value;", profile=True),
    body("absent_is_nil", "An absent argument where any value may stand is nil, also for `setmetatable`.",
         "local t=setmetatable({},{})\nreturn tostring(getmetatable(setmetatable(t))),tostring(rawequal()),tostring(rawget({})),type()", "niltruenilnil", profile=True),
    body("kept_tables", "Strings and global variables are looked up in the tables that the run has kept.",
         "string.twice=function(s) return s..s end\nstring=nil\nx=5\n_G={x=6}\nreturn ('ab'):twice(),x", "abab5"),
    body("false_goes_on", "Only nil ends a generic loop.",
         "local n=0\nfor v in function() n=n+1 if n<4 then return false end end do end\nreturn n", "4"),
    body("assert_has_no_place", "`assert` raises its message without a place.", "return select(2,pcall(function() assert(nil,'no') end)),select(2,pcall(function() assert(false) end))",
         "noassertion failed!", profile=True),
    body("pairs_handler_arguments", "`__pairs` and `__ipairs` get the table alone, and three values are taken.",
         "local function h(...) return select('#',...),2,3,4 end\nlocal t=setmetatable({},{__pairs=h,__ipairs=h})\nreturn select('#',pairs(t,1,2)),pairs(t,1),ipairs(t,1,2)", "31123", profile=True),
    body("any_chain", "A chain ends at a value that is no table, and a handler on a string is indexed in turn.",
         "local t=setmetatable({},{__index='abc'})\nstring.name='s'\nreturn t.name,select(2,pcall(function() return setmetatable({},{__index=1}).x end))", "sModule:X:4: attempt to index a number value", profile=True),
    body("failing_answer", "A handler that gives no text for the answer fails, without a place.",
         "return setmetatable({},{__tostring=function() return {} end})", fails="Lua error: 'tostring' must return a string", profile=True),
    body("left_out", "What is left out is absent.", "return type(coroutine),type(print),type(loadstring),type(mw.site)", "nilnilnilnil", profile=True),
]

SELF = "local p={} x=1 function p.f(frame) local s=frame:preprocess('{{#invoke:Self|g}}') return s..x end return p"
PRE = "return {f=function(frame) return frame:preprocess('{{{1}}}{{T}}') end}"
EXPAND = "return {f=function(frame) return frame:expandTemplate{title='T', args={'p', n='q'}} end}"
TWICE = "return {f=function(frame) return frame:expandTemplate{title=' foo_bar ',args={a=true,['1']=2,[1]=false}} end}"
# before the question: 44 for what `f` does, 10 for the title, and 4 for the arguments
EXPANDING = used(EXPAND) + 44 + 10 + 4

FRAMES = [
    asking("expands", "A question costs the title's text and the arguments; its answer costs its bytes.", EXPAND,
           (EXPANDING + 30, [], ("Asks", template("T", [("1", "p"), ("n", "q")]), 30)),
           (EXPANDING + 30, [text("[p|q]", 10)], ("Gives", "[p|q]", 0)), (EXPANDING + 30, [text("[p|q]", 9)], ("Spends", "Steps", 0)),
           (EXPANDING - 1, [], ("Spends", "Steps", 0))),
    asking("merges", "Of two arguments with one name the last counts, at the place of the first; all are charged. True is 1, and false is empty.", TWICE,
           (6000, [], ("Asks", template("Foo bar", [("a", "1"), ("1", "")]),
                       6000 - used(TWICE) - (3 + 9 + 2 + 4 + 1 + 9 + 3 * (2 + 4) + 4) - 1 - 16 - 2 - 2 - 1))),
    asking("preprocesses", "`preprocess` asks in the scene of its frame.", PRE,
           (6000, [], ("Asks", preprocess("{{{1}}}{{T}}", own=[("1", "a")]), 6000 - used(PRE) - 6 - 4 - 1 - 12)),
           (6000, [text("at", 4)], ("Gives", "at", 0)), (6000, ["exhausts Steps"], ("Spends", "Steps", 0)), (6000, ["exhausts Calls"], ("Spends", "Calls", 0)),
           args=[("1", "a")]),
    asking("own_globals", "What an invocation inside does is not seen.", SELF,
           (6000, [text("g", 1000)], ("Gives", "g1")), module="Self"),
    asking("no_such_template", "That there is no such template is an error at the place that called.",
           "return {f=function(frame) return frame:expandTemplate{title='Nope'} end}",
           (6000, ["reply NoPage 1000"], ("Fails", "Lua error: Module:X:1: template 'Nope' does not exist"))),
    asking("wrong_answers", "An answer that does not belong to its question is refused.", PRE,
           (6000, ["reply NoPage 1000"], ("Fails", "Lua error: the answer does not belong to the question")),
           (6000, [loaded_x(1000)], ("Fails", "Lua error: the answer does not belong to the question")),
           (6000, ["reply (LoadFailed (codes \"m\")) 1000"], ("Fails", "Lua error: the answer does not belong to the question"))),
    framed("requests_fail", "The errors of a request.",
           "local function e(t) return select(2,pcall(frame.expandTemplate,frame,t))..';' end\nreturn e(),e{title={}},e{title='T',args=1},e{title='a|b',args={[true]=1}},e{title='T',args={a={}}},e{title='T',args={[true]=1}}",
           "bad template arguments;bad template arguments;bad template arguments;invalid title 'a|b';bad template arguments;bad template arguments;"),
    framed("parents", "The parent is the frame of the template; it is made once, and has none.",
           "local p=frame:getParent()\nreturn p:getTitle(),p.args[1],p.args.n,tostring(p==frame:getParent()),tostring(p:getParent()),frame:getTitle()",
           "Template:TpqtruenilModule:X"),
    framed_cost("parent_costs", "The first `getParent` costs 16, and the arguments.", "frame:getParent() frame:getParent()", [1 + 2 + 1 + 16 + 2 * (4 + 2), 1 + 2 + 1]),
    framed("children", "A child has its own arguments and this frame as parent; without a title it has this frame's.",
           "local c=frame:newChild{title='a b',args={x=1,'y',['1']='z'}}\nlocal d=c:newChild{}\nreturn c:getTitle(),c.args[1],c.args.x,tostring(c:getParent()==frame),d:getTitle(),tostring(d:getParent()==c),tostring(next(d.args))",
           "A bz1trueA btruenil"),
    framed_cost("child_costs", "`newChild` costs 16, and each entry that is read.", "frame:newChild{args={1,['1']='ab'}}",
                [1 + 2, 9 + 1 + 4, 9 + 1 + 4 + 2 + 4, 1, 16 + 6 + 7]),
    asking("child_asks", "A question of a child has its title, its arguments and the chain of its parent.",
           "return {f=function(frame) return frame:newChild{title='Q',args={'z'}}:preprocess{text='{{{1}}}'} end}",
           (6000, [], ("Asks", "Preprocess (scene_in_template (record { ns = Main; name = codes \"Q\" }) (arg (codes \"1\") (codes \"z\") ∷ [])) (codes \"{{{1}}}\")",
                       6000 - used("return {f=function(frame) return frame:newChild{title='Q',args={'z'}}:preprocess{text='{{{1}}}'} end}")
                       - (1 + 1 + 2) - (9 + 2 + 4 + 1 + 9 + 5 + 4) - 1 - (16 + 6) - (9 + 2 + 4) - 1 - 7))),
    framed("child_errors", "Its errors are those of `expandTemplate`.",
           "local function e(t) return select(2,pcall(frame.newChild,frame,t))..';' end\nreturn e(),e{title={}},e{args=1},e{title='a|b',args={[true]=1}},e{args={[true]=1}},frame:newChild{title=1,args={}}:getTitle()",
           "bad template arguments;bad template arguments;bad template arguments;invalid title 'a|b';bad template arguments;1"),
    framed("single_arguments", "`getArgument` gives nil, or a table with `expand` and `value`.",
           "local a=frame:getArgument('n')\nlocal s=''\nfor k in next,a do s=s..k end\nreturn s,a.value,a:expand(),tostring(frame:getArgument('m')),frame:getArgument{name=1}.value,a.expand({value=5})",
           "expandvalueqqnilx5", args=[("1", "x"), ("n", "q")]),
    framed_cost("argument_costs", "It costs a table with two entries.", "frame:getArgument('n')", [1 + 2 + 1, 1, 8 + 2 * 4], args=[("n", "q")]),
    framed("walks_arguments", "`argumentPairs` is `pairs` of `args`.",
           "local s=''\nfor k,v in frame:argumentPairs() do s=s..type(k)..k..v end\nframe.args=nil\nreturn s,#(frame:newChild{args={5,6,7}}).args,select(2,pcall(frame.argumentPairs,frame))",
           "stringnqnumber1x3bad argument #1 to 'pairs' (table expected, got nil)", args=[("n", "q"), ("1", "x")]),
    framed("long_names", "A name of 18 digits is a number, one of 19 or with a zero in front is none.",
           "local a=frame.args\nreturn a[123456789012345678],a['123456789012345678'],tostring(a[1234567890123456789]),a['1234567890123456789'],tostring(a[1]),a['01'],tostring(a['1'])",
           "xxnilynilznil", args=[("123456789012345678", "x"), ("1234567890123456789", "y"), ("01", "z")]),
    framed("frames_keep_arguments", "A write changes what Lua reads, and not the frame.",
           "frame.args.n='z'\nlocal kept=frame:getArgument('n').value\nframe.getTitle=nil\nreturn frame.args.n,kept,mw.getCurrentFrame().args.n", "zqz", args=[("n", "q")]),
    asking("questions_keep_arguments", "A question has the arguments with which the frame was made.",
           "return {f=function(frame) frame.args[1]='z' return frame:preprocess('x') end}",
           (6000, [], ("Asks", preprocess("x", own=[("1", "a")]),
                       6000 - used("return {f=function(frame) frame.args[1]='z' return frame:preprocess('x') end}") - 6 - (1 + 5 + 1) - (1 + 3) - 1 - 1)),
           args=[("1", "a")]),
    framed("numbered_frames", "A frame is known by the number in its metatable.",
           "local copy=setmetatable({},{0})\nreturn frame.getTitle(copy),tostring(frame==mw.getCurrentFrame()),tostring(getmetatable(frame)),tostring(getmetatable(frame.args))",
           "Module:Xtruefalsefalse"),
    framed("copied_frames", "A copy of a frame is that frame, and a copy of read-only data can be written.",
           "local c=mw.clone(frame)\nlocal d=mw.clone(mw.loadData('Module:D'))\nd.x='w'\nlocal t={}\nt.a=t\nlocal e=mw.clone(t)\nreturn c:getTitle(),tostring(c==frame),c.args[1],c.args['1'],d.x,tostring(e.a==e),tostring(e==t),mw.clone(5)",
           "Module:Xfalseaawtruefalse5", args=[("1", "a")], replies=[loaded_x(3000)]),
    framed_cost("clone_costs", "`mw.clone` costs 8 for each table, metatables included, and 4 for each entry.",
                "mw.clone(setmetatable({{}},{__len=1}))", [1 + 1 + 3, 2, 9 + 9 + 4, 9 + 1 + 1 + 4, 1, 1, 3 * 8 + 2 * 4]),
    framed("no_frame", "What is no frame of the run is refused.",
           "local function e(f,...) return select(2,pcall(f,...))..';' end\nreturn e(frame.getTitle,{}),e(frame.getParent),e(frame.preprocess,setmetatable({},{1}),'x'),e(frame.preprocess,frame,{}),e(frame.getArgument,frame)",
           "bad argument #1 to 'getTitle' (frame expected, got table);bad argument #1 to 'getParent' (frame expected, got no value);bad argument #1 to 'preprocess' (frame expected, got table);"
           "bad argument #2 to 'preprocess' (string expected, got nil);bad argument #2 to 'getArgument' (string expected, got no value);"),
    framed("tags", "`extensionTag` is `mw.text.tag`: a text, false or nil follows the attributes.",
           "return frame:extensionTag('b','t',{x=1,y='a<\"b',z=true,w=false}),frame:extensionTag{name='i',content=5},frame:extensionTag('br'),frame:extensionTag('hr',false)",
           "<b x=\"1\" y=\"a&lt;&quot;b\" z>t</b><i>5</i><br><hr />"),
    framed("bad_tags", "Its errors are worded as of `tag`.",
           "local function e(...) return select(2,pcall(frame.extensionTag,frame,...))..';' end\nreturn e(),e('b','t',1),e('b','t',{[true]=1}),e('b','t',{a={}}),e('b',true)",
           "bad argument #1 to 'tag' (string expected, got no value);bad argument #2 to 'tag' (table expected, got number);bad argument #2 to 'tag' (string expected, got boolean);"
           "bad argument #2 to 'tag' (string expected, got table);bad argument #3 to 'tag' (string expected, got boolean);"),
    framed_cost("tag_costs", "A tag costs the bytes of the arguments that are strings, and its own.", "frame:extensionTag('b','tt')", [1 + 2 + 2, 1, 3, len("<b>tt</b>")]),
    framed("current_title", "`getCurrentTitle` gives the texts of the page's title.",
           "local s=''\nfor k,v in pairs(mw.title.getCurrentTitle()) do s=s..k..'='..v..';' end\nmw.log(s)\nreturn s", "text=P;nsText=;prefixedText=P;"),
    framed_cost("cleared_costs", "A cleared entry that is passed costs a step: by `extensionTag` and `newChild`.", "local t={x=1} t.x=nil\nframe:extensionTag('b','',t) frame:newChild{args=t}",
                [1 + 9 + 2 + 4, 1 + 3 + 1, 1 + 2 + 3 + 1, 1, 1, len("<b></b>"), 1 + 2 + 9 + 2 + 4, 1, 16, 1]),
    framed_cost("cleared_before_a_fault", "A wrong entry ends the walk: what is behind it is not passed.",
                "local t={x=1,[true]=1,y=1} t.x=nil t.y=nil\npcall(frame.newChild,frame,{args=t})", [1 + 9 + 3 * (2 + 4), 2 * (1 + 3 + 1), 1 + 1 + 1 + 3 + 1 + 9 + 2 + 4, 1 + 1, 1]),
    framed_cost("title_costs", "It costs a table with three entries.", "mw.title.getCurrentTitle()", [1 + 1 + 5, 1, 8 + 3 * 4]),
]

ROOT = "local d=mw.loadData('Module:D') local ok,e=pcall(function() d.v=6 end) return d.me.me.v..' '..tostring(ok)..' '..e"
ROW = "local p={} function p.f() " + ROOT + " end return p"
RING = "reply (Loaded (((Text (codes \"v\"), Number (pos 5)) ∷ (Text (codes \"me\"), Table 0) ∷ []) ∷ [])) 3000"

MODULES = [
    framed("requires_once", "A module runs once, and its value is kept.",
           "return require('Module:Y').n,require('Module: Y').n,tostring(require('Module:Y')==require(' module:y '))", "11true",
           others={"Y": "n=(n or 0)+1 return {n=n}"}),
    framed("false_is_kept", "False is a value; nil and no value are true.",
           "return tostring(require('Module:Y')),tostring(require('Module:Y')),n,tostring(require('Module:Z'))", "falsefalse1true",
           others={"Y": "n=(n or 0)+1 return false", "Z": "n=n return nil,2"}),
    asking("requires_itself", "The invoked module runs as `require` would run it: later its value is there.",
           "local p={} function p.f() return tostring(require('Module:X')==p) end return p", (6000, [], ("Gives", "true"))),
    asking("loops", "While it runs, to require it is an error.", "return require('Module:X')",
           (6000, [], ("Fails", "Lua error: Module:X:1: loop in require of 'Module:X'"))),
    framed("loops_through", "So it is through another module, which may be asked for again.",
           "local ok,e=pcall(require,'Module:Y')\nreturn e,tostring(done),tostring(select(2,pcall(require,'Module:Y'))==e)", "Module:Z:1: loop in require of 'Module:Y'niltrue",
           others={"Y": "require('Module:Z') done=1", "Z": "require('Module:Y')"}),
    framed("runs_again", "A module whose run failed is run again.",
           "pcall(require,'Module:Y')\nlocal ok,e=pcall(require,'Module:Y')\nreturn tries,e", "2m", others={"Y": "tries=(tries or 0)+1 error('m',0)"}),
    framed("no_module", "What is no held module is not found.",
           "local function e(x) return select(2,pcall(require,x))..';' end\nreturn e('Y'),e('Module:Z'),e('Module:'),e(12),select(2,pcall(require))",
           "module 'Y' not found;module 'Module:Z' not found;module 'Module:' not found;module '12' not found;bad argument #1 to 'require' (string expected, got no value)",
           others={"Y": "return 1"}),
    framed_cost("quotes_cost", "A message that quotes what the call was given costs its bytes at no place too; one that quotes nothing is free.",
                "pcall(require,'Y') pcall(mw.loadData,'[') pcall(frame.newChild,frame,{title='['}) pcall(require)",
                [1 + 1 + 1 + 2, 1 + 1, len("module 'Y' not found"), 1 + 1 + 1 + 3 + 1, 1 + 1, len("data module '[' not found"),
                 1 + 1 + 1 + 3 + 1 + 9 + 2 + 4, 1 + 1, len("invalid title '['"), 1 + 1 + 1 + 1, 1 + 1]),
    framed("module_levels", "The text of a module that is required has no place above it.",
           "return select(2,pcall(function() require('Module:Y') end)),select(2,pcall(function() require('Module:Z') end))", "Module:Y:2: mm",
           others={"Y": "local x\nerror('m')", "Z": "error('m',2)"}),
    asking("module_costs", "A module that is required costs its text and its run, and later the call alone.",
           "return {f=function(frame) require('Module:Y') require('Module:Y') return 'a' end}",
           *[(used("return {f=function(frame) require('Module:Y') require('Module:Y') return 'a' end}") + (4 + 1) + 8 + 1 + 2 + (4 + 1) + 2 + 1 - less, [], end)
             for less, end in ((0, ("Gives", "a", 0)), (1, ("Spends", "Steps", 0)))], others={"Y": "return 1"}),
    framed("strict", "`strict` makes absent global variables errors, with the place of the name.",
           "local function e(f) return select(2,pcall(f))..';' end\nx=1\nlocal given=require('strict')\nx=2\nreturn tostring(given),x,e(function()\n return y end),e(function()\n y=1 end),e(function() return _G[{}] end),tostring(rawget(_G,'y'))",
           "true2Module:X:7: variable 'y' is not declared;Module:X:8: assign to undeclared variable 'y';Module:X:8: variable 'table' is not declared;nil"),
    framed("strict_anew", "Each call sets a new metatable, in place of any that is there.",
           "require('strict')\nlocal m=getmetatable(_G)\nrequire('strict')\nsetmetatable(_G,{__metatable=1,__index=function() return 3 end})\nlocal y3=y\nrequire('strict')\nreturn tostring(m==getmetatable(_G)),y3,select(2,pcall(function() return y end))",
           "false3Module:X:8: variable 'y' is not declared"),
    asking("loads_once", "A data module is asked for once; its tables are read-only and may be cyclic.", ROW,
           (6000, [RING], ("Gives", "5 false Module:R:1: table from mw.loadData is read-only")), module="R"),
    framed("loaded_again", "Further loads give the same table, for the call alone.",
           "local a=mw.loadData('Module:D')\nreturn tostring(a==mw.loadData('module: d ')),a.x,#a,tostring(next(a))", "truev0x", replies=[loaded_x(3000)]),
    framed("load_fails", "The message of a load that failed is raised as it is, and the next load is a first one.",
           "local ok,e=pcall(mw.loadData,'Module:D')\nlocal ok2,e2=pcall(mw.loadData,'Module:D')\nreturn e,tostring(ok2),e2.x", "data module holds a functiontruev",
           replies=["reply (LoadFailed (codes \"data module holds a function\")) 3000", loaded_x(2000)]),
    framed("no_data", "What is no held module is not found, at the place that called.",
           "return select(2,pcall(mw.loadData,'Module:')),select(2,pcall(function()\n mw.loadData('D') end))", "data module 'Module:' not foundModule:X:3: data module 'D' not found",
           replies=["reply NoPage 3000"]),
    framed("wrong_data", "A text is no answer to a load.", "return mw.loadData('Module:D')", fails="Lua error: the answer does not belong to the question", replies=[text("x", 3000)]),
    chunk("data_has_no_frame", "A data module has no frame.", "if mw.getCurrentFrame()==nil then return {} end", how="load_module", steps=[1000 + 47 + 1 + 1 + (1 + 1 + 3 + 1 + 1) + 1 + 9],
          seen=[("Loads", 0)], profile=True),
    asking("module_is_no_table", "A module must give a table.", "return true", (6000, [], ("Fails", "Script error: The module returned no table."))),
    asking("module_is_not_held", "A module that is not held fails as in `require`.", "return 1",
           (6000, [], ("Fails", "Lua error: module 'Module:Y' not found")), invoked="Y"),
]


LIBRARIES = [
    cost("rep_costs", "A text that is made costs its bytes.", "return ('x'):rep(3)", [1 + 1 + 1 + 1 + 1, 1 + 3], "xxx"),
    cost("format_costs", "`string.format` costs the bytes of its arguments that are strings, and of what it gives.", "return string.format('%s-%d','a',5)",
         [1 + 1 + 3 + 3, 1 + 5 + 1 + 3], "a-5"),
    cost("concat_costs", "`table.concat` costs a step for each entry, and what it gives.", "return table.concat({1,2,3},',')",
         [1 + 1 + 3, 9 + 3 * (1 + 4), 1, 1 + 3 + 5], "1,2,3"),
    cost("max_costs", "Functions of `math` cost nothing but their call.", "return math.max(3,7,5)", [1 + 1 + 3 + 3, 1], "7"),
    cost("split_costs", "`mw.text.split`: five bytes are given, one is read, the comma is compared four times; a table, three entries, and their two bytes.",
         "return mw.text.split('a,b,',',')[2]", [1 + 1 + 1 + 5 + 2 + 1, 1 + 5 + 1 + 4 + 8 + 3 * 4 + 2], "b", profile=True),
    cost("gmatch_costs", "An iterator costs as a closure. A step of `gmatch` costs the bytes of the pattern, a try at `a` and one at `1`, and the byte that it gives.",
         "return ('a1'):gmatch('%d')()", [1 + 1 + 1 + 1 + 1 + 1, 1 + 8, 1 + 2 + 2 + 1], "1"),
    cost("gsplit_costs", "`mw.text.gsplit` costs first the bytes of its arguments; a step of it the pattern's, the tries, and the part's.",
         "return mw.text.gsplit('ab,c',',')()", [1 + 1 + 1 + 5 + 2, 1 + 5 + 8, 1 + 1 + 3 + 2], "ab", profile=True),
    body("methods_of_texts", "Functions of `string` are the methods of texts.",
         "local s='aBc'\nreturn s:upper():reverse():sub(1,2),s:lower(),s:len(),s:byte(2),string.char(72,105)", "CBabc366Hi"),
    body("searches_of_texts", "`find` gives places, `match` gives captures, and nil where there is none.",
         "return ('hello'):find('l+'),('a.b'):find('.',2,true),('key=val'):match('(%w+)=(%w+)'),tostring(('x'):match('y'))", "32keynil"),
    body("all_of_a_search", "The last one of a list gives all that it finds.", "return ('hello'):find('(l)(l)')", "34ll"),
    body("iterators", "`gmatch` gives the captures of one match after another.",
         "local n='' for k,v in ('a=1,b=2'):gmatch('(%w)=(%w)') do n=n..k..v..';' end\nreturn n,(('x'):gmatch('y'))()==nil", "a1;b2;true"),
    body("iterators_of_code_points", "Iterators of `mw.ustring` and `mw.text`.",
         "local s,n=mw.ustring.char(233,97),''\nfor c in mw.ustring.gcodepoint(s) do n=n..c..' ' end\nfor p,c in mw.ustring.gmatch(s,'()(.)') do n=n..p..#c..' ' end\n"
         "for p in mw.text.gsplit('x,y',',') do n=n..p..' ' end\nreturn n", "233 97 12 21 x y ", profile=True),
    body("formats", "Directives of `string.format`.", "return ('%05d|%-3s|%x|%q|%%'):format(42,'a',255,'b')", '00042|a  |ff|"b"|%'),
    body("tables_are_changed", "`insert`, `remove`, `sort` and `maxn`.",
         "local t={3,1}\ntable.insert(t,2) table.sort(t)\ntable.insert(t,1,'x')\nreturn table.remove(t),#t,table.concat(t,'.'),table.maxn({1,[9]=2})", "33x.1.29"),
    body("whole_numbers", "Functions of `math`, over whole numbers.",
         "return math.abs(-5),math.floor(7),math.ceil(7),math.fmod(-7,3),math.max(1,3),math.min(2,1),math.pow(2,10)", "577-1311024"),
    body("code_points", "`mw.ustring` counts code points, `#` counts bytes.",
         "local u=mw.ustring\nlocal s=u.char(233,8364,97)\nreturn #s,u.len(s),u.codepoint(s,2),u.sub(s,3),u.byteoffset(s,3),u.find(s,'a'),u.match(s,'.$'),tostring(u.isutf8(u.sub(s,1,1)))",
         "638364a63atrue", profile=True),
    body("texts_of_pages", "Functions of `mw.text`.",
         "local t=mw.text\nreturn t.trim(' x '),t.encode('<b>'),t.decode('&lt;'),t.nowiki('['),t.listToText({1,2,3}),t.truncate('abcdef',3),t.tag('i',{id=1},'y')",
         'x&lt;b&gt;<&#91;1, 2 and 3abc...<i id="1">y</i>', profile=True),
    body("wrong_arguments", "A wrong argument is told with its place.",
         "return select(2,pcall(function() local s=string.rep('x') end)),';',select(2,pcall(function() local n=math.max() end)),';',select(2,pcall(function() local n=table.concat({1,{}}) end))",
         "Module:X:2: bad argument #2 to 'rep' (number expected, got no value);Module:X:2: bad argument #1 to 'max' (number expected, got no value);"
         "Module:X:2: invalid value (at index 2) in table for 'concat'", profile=True),
    body("names_in_order", "`next` goes through the names of a library in this order.",
         "local n='' for k in pairs(math) do n=n..k..' ' end\nreturn n", "abs ceil floor fmod max min pow ", profile=True),
]

# 1,026 and the text of the module, up to `f` entered; then its nodes, functions entered, the bytes of arguments that are strings, and the
# renderings: 9 of `<b>x</b>`, 8 of `<b></b>`, 201 + 603 of what is inside itself; and the bytes of the answer.
MARKUP = [
    body("rendering_costs", "`node` costs the bytes that it is given, and `create` nothing; a rendering a step for the object and for each byte.",
         "return tostring(mw.html.create('b'):node('x'))", steps=[1134, 1133], seen=[("Gives", "<b>x</b>", 0), ("Spends", "Steps", 0)], profile=True),
    body("answer_costs", "In an answer an object costs its rendering too.",
         "return mw.html.create('b'),'y'", steps=[1111, 1110], seen=[("Gives", "<b></b>y", 0), ("Spends", "Steps", 0)], profile=True),
    body("answer_inside_itself", "An object inside itself gives no answer: 201 objects are begun, each with three bytes.",
         "local a=mw.html.create('b')\nreturn a:node(a)", steps=[1917, 1916],
         seen=[("Fails", "Lua error: html tree nested too deeply", 0), ("Spends", "Steps", 0)], profile=True),
    body("inside_itself", "Nor is it a text: the error has the place of the call of `tostring`.",
         "local a=mw.html.create('b')\na:node(a)\nreturn select(2,pcall(function()\n local s=tostring(a) end)),select(2,pcall(tostring,a))",
         "Module:X:5: html tree nested too deeplyhtml tree nested too deeply", profile=True),
    body("a_tree", "A method gives the object, but `tag` the new one. Attributes stand in the order in which they were set, styles behind them.",
         "local b=mw.html.create('div'):addClass('box'):css('width','20em')\nb:attr{title='x<'}:tag('p'):wikitext('a',1):done():newline()\nreturn b",
         "<div class=\"box\" title=\"x&lt;\" style=\"width:20em\"><p>a1</p>\n</div>", profile=True),
    body("up_and_down", "`done` gives the parent, `allDone` the root.",
         "local r=mw.html.create()\nlocal i=r:tag('p'):tag('i')\nreturn tostring(i:allDone()==r),i:done(),r:node(mw.html.create('br'))",
         "true<p><i></i></p><p><i></i></p><br />", profile=True),
    body("closed", "A tag closes itself by its name, or since it is made so; none of its children is given.",
         "return mw.html.create('br'):node('x'),mw.html.create('b',{selfClosing=true}):tag('i',{}):allDone()", "<br /><b />", profile=True),
    body("set_and_asked", "An attribute is set, asked for, and removed.",
         "local b=mw.html.create('b'):attr('id',7)\nlocal was=b:getAttr('id')\nreturn was,tostring(b),tostring(b:attr('id',nil):getAttr('id')),b",
         "7<b id=\"7\"></b>nil<b></b>", profile=True),
    body("as_values", "An object is a table for `type`, equal to itself alone. Its fields are its methods, and are not written; it has no metatable.",
         "local b=mw.html.create('b')\nlocal function e(f) return select(2,pcall(f))..';' end\n"
         "return type(b),b==mw.clone(b),b==mw.html.create('b'),b.node==mw.html.create('i').node,type(b.tag),b.create==nil,b[1]==nil,getmetatable(b)==nil,e(function()\n"
         " b.x=1 end),e(function()\n local n=#b end)",
         "tabletruefalsetruefunctiontruetruetrueModule:X:5: attempt to index a table value;Module:X:6: attempt to get length of a table value;", profile=True),
    body("no_styles", "`cssText` adds nothing for nil, also where nothing is given.",
         "local b=mw.html.create('b')\nreturn b:cssText(nil):cssText():cssText('a:b'):cssText(nil)", "<b style=\"a:b\"></b>", profile=True),
    body("bad_styles", "What is no text is no style.",
         "local function e(x) return select(2,pcall(mw.html.create('b').cssText,mw.html.create('b'),x))..';' end\nreturn e(true),e({})",
         "bad argument #2 to 'cssText' (string expected, got boolean);bad argument #2 to 'cssText' (string expected, got table);", profile=True),
    body("bad_names", "A name that is none, and what is no object.",
         "local function e(f,...) return select(2,pcall(f,...))..';' end\nlocal b=mw.html.create('b')\n"
         "return e(mw.html.create,'1'),e(b.attr,b,'a b','x'),e(b.node,1),e(function()\n b.tag('i') end)",
         "bad html name;bad html name;bad argument #1 to 'node' (table expected, got number);Module:X:5: bad argument #1 to 'tag' (table expected, got string);", profile=True),
    body("names_of_mw", "The names of `mw` in their order, `html` last; it has one function.",
         "local n='' for k in pairs(mw) do n=n..k..' ' end\nfor k in pairs(mw.html) do n=n..k end\nreturn n",
         "clone log title loadData getCurrentFrame ustring text html create", profile=True),
]

# `gsub`: behind its entry the bytes of the pattern, for each search the tries, and the bytes of the text piece by piece. With a table or a
# function these are charged when they come: those before a match with its search, those of a replacement when it is known, and the rest in
# the end; what a handler or a function does is between them.
REPLACING = [
    cost("gsub_by_text_costs", "The pattern has a byte; two tries, and three bytes for the piece with the match; one try more, and one byte of the rest.",
         "return ('abc'):gsub('b','%0x')", [1 + 1 + 1 + 1 + 2, 1 + 1, 2 + 3, 1 + 1], "abxc1"),
    cost("gsub_by_function_costs", "A try for each letter, and a call that joins two bytes; in the end the four bytes.",
         "return ('ab'):gsub('%w',function(c) return c..c end)", [1 + 1 + 1 + 1 + 1 + 9, 1 + 2, 2 * (1 + 1 + 4 + 2), 4], "aabb2"),
    cost("gsub_by_table_costs", "An entry that is there costs nothing: one try, then two, as the space is none.",
         "return ('a b'):gsub('%w',{a='x',b=false})", [1 + 1 + 1 + 1 + 1, 9 + 2 * (1 + 1 + 4), 1 + 2, 1 + 2, 3], "x b2"),
    cost("gsub_by_handler_costs", "One that is absent is asked for by a link and a call.",
         "return ('ab'):gsub('%w',setmetatable({a='A'},{__index=function(t,k) return k..k end}))",
         [1 + 1 + 1 + 1 + 1, 1 + 1 + 9 + 6 + 9 + 1 + 9 + 4 + 1, 1 + 2, 1, 1 + 1 + 1 + 4 + 2, 3], "Abb2"),
    cost("gsub_of_nothing_costs", "A search for the empty text costs no try.", "return ('ab'):gsub('',{['']='-'})", [1 + 1 + 1 + 1 + 1, 9 + 1 + 1 + 4, 1, 5], "-a-b-3"),
    body("gsub_is_paid_by_pieces", "A replacement is paid before the next match is looked for: its three bytes, then a try, then the 49 bytes of the error. 1128 steps are\n"
         "one too few for its three bytes.", "return ('ab'):gsub('%w',{a='xyz',b=true})", steps=[1179, 1128], block="gsub_by_pieces",
         seen=[("Fails", "Lua error: Module:X:2: invalid replacement value (a boolean)", 0), ("Spends", "Steps", 0)]),
    body("texts_with_captures", "`%0` is the whole match, `%1` and `%2` are captures, `%%` is `%`.", "return ('x=1, y=2'):gsub('(%w)=(%w)','%2=%1(%0)%%')", "1=x(x=1)%, 2=y(y=2)%2"),
    body("functions_with_captures", "A function gets the captures; where it gives nothing, nil or false, the match stays; a number is its digits.",
         "return ('k=v'):gsub('(%w)=(%w)',function(a,b,c) return b..a..tostring(c) end),(('abcd'):gsub('%w',function(c) if c=='b' then return 7 end if c=='c' then return false end end))", "vknila7cd"),
    body("tables_with_captures", "A table is asked for the first capture, which may be a place.",
         "return ('abc'):gsub('()',{'x','y',[4]='z'})", "xaybcz4"),
    body("tables_with_handlers", "And by its handlers: a function, and a table behind a table.",
         "local t=setmetatable({},{__index={b='B'}})\nreturn (('ab'):gsub('%w',t)),(('ab'):gsub('(%w)',setmetatable({},{__index=function(t,k) return '<'..k..'>' end})))", "aB<a><b>"),
    body("anchors_and_limits", "`^` matches at the start alone. No more matches are replaced than are asked for; below 1 there are none.",
         "return ('aaa'):gsub('^a',{a='x'}),(('aaa'):gsub('a',{a='x'},2)),('aaa'):gsub('a',error,0)", "xaaxxaaaa0"),
    body("empty_matches", "An empty match behind another counts.", "return ('abc'):gsub('b*',function(s) return '['..s..']' end)", "[]a[b][]c[]4"),
    body("gsub_in_gsub", "A function may call `gsub` itself.", "return ('a.b'):gsub('%w',function(c) return (('xx'):gsub('x',c)) end)", "aa.bb2"),
    body("errors_of_functions", "An error of the function, or of a handler, goes through `gsub` to `pcall`.",
         "local function no(c) error('no '..c,0) end\nlocal t=setmetatable({},{__index=function(t,k) no(k) end})\n"
         "local a,b=pcall(string.gsub,'ab','%w',no)\nlocal c,d=pcall(string.gsub,'ab','b',t)\nreturn tostring(a),b,tostring(c),d", "falseno afalseno b"),
    body("invalid_replacements", "Other values are errors, with the place of the call.",
         "return select(2,pcall(function() local s=('a'):gsub('a',function() return {} end) end)),';',select(2,pcall(string.gsub,'a','a',{a=true}))",
         "Module:X:2: invalid replacement value (a table);invalid replacement value (a boolean)"),
    body("wrong_arguments_of_gsub", "The fault of a replacement text comes at a match, that of a pattern at once.",
         "return (('abc'):gsub('x','%2')),select(2,pcall(string.gsub,'abc','b','%2')),select(2,pcall(string.gsub,'a','%',{})),select(2,pcall(string.gsub,'a','a'))",
         "abcmalformed pattern (7)malformed pattern (1)bad argument #3 to 'gsub' (string expected, got no value)", profile=True),
    body("replaced_code_points", "`mw.ustring.gsub` goes by code points, and counts places in them.",
         "local u=mw.ustring\nlocal s=u.char(228,98)\nreturn (u.gsub(s,'.',function(c) return #c end)),#(u.gsub(s,'()',{'x','y','z'})),(u.gsub('ab','.','%0%0')),select(2,u.gsub(s,'[^b]',{}))", "216aabb1", profile=True),
]

FILES = [
    ("ExampleCharges", "EXAMPLES of charges, and of how runs end.", CHARGES),
    ("ExampleCosts", "EXAMPLES of single charges, worked out by hand.", COSTS),
    ("ExampleValues", "EXAMPLES of values, lists and operators.", VALUES),
    ("ExampleStatements", "EXAMPLES of statements, loops and constructors.", STATEMENTS),
    ("ExampleFunctions", "EXAMPLES of functions, errors and handlers.", FUNCTIONS),
    ("ExampleHandlers", "EXAMPLES of handlers, levels, and what is absent.", HANDLERS),
    ("ExampleFrames", "EXAMPLES of frames and their questions, in the body of template T.", FRAMES),
    ("ExampleModules", "EXAMPLES of modules that ask for modules, and of data modules.", MODULES),
    ("ExampleLibraries", "EXAMPLES of the libraries `string`, `table`, `math`, `mw.ustring` and `mw.text`.", LIBRARIES),
    ("ExampleReplacing", "EXAMPLES of `gsub` in modules.", REPLACING),
    ("ExampleMarkup", "EXAMPLES of `mw.html`, as modules use it.", MARKUP),
]
