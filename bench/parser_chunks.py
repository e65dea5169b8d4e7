"""Chunks of Lua for the tests of `lua_parser`, in the order of the manual's sections; then texts that are no chunks."""

CHUNKS = [
    # Blocks and chunks (manual 2.4.1, 2.4.2)
    "", " ", "-- nothing\n", "--[[ nothing\n]]", "f()", "f();", "f() g()", "f(); g();", "f()\ng()", "f()\n;g()",
    "do end", "do end;", "do f() end", "do do end do end end", "do\n  local x\n  x = 1\nend", "do return end", "do return 1; end f()",
    # Assignment (manual 2.4.3)
    "x = 1", "x = y", "x, y = 1", "x, y = y, x", "x, y, z = 1, 2, 3;", "x\n=\n1", "a.b = 1", "a.b.c = 1", "a[1] = 2", "a[b][c] = d",
    "a[b.c].d, e = f()", "f().x = 1", "f().x, g()[1] = 1, 2", "(f).x = 1", "(f())[1] = 2", "a:b().c = 3", "a.b, c[1], d = ...",
    "'x' = 1", "x = function() end", "x, y = function() return 1 end, 2",
    # Control structures (manual 2.4.4)
    "while x do end", "while x do f() end", "while true do break end", "while x do if y then break end end", "while x do f() break; end",
    "repeat until x", "repeat f() until x", "repeat local x = f() until x", "repeat break until x", "repeat if x then break end until y",
    "if x then end", "if x then f() end", "if x then else end", "if x then f() else g() end", "if x then elseif y then end",
    "if x then f() elseif y then g() else h() end", "if a then elseif b then elseif c then else end",
    "if x then\n  return 1\nelseif y then\n  return 2\nelse\n  return 3\nend", "if x then if y then end else end", "if x then return end f()",
    "if x then return; else return end",
    "return", "return;", "return 1", "return 1;", "return 1, 2", "return\n1", "return ...", "return (f())", "return f, nil, true, false",
    "return {}", "return function() end", "return not x",
    # The for statement (manual 2.4.5)
    "for i = 1, 10 do end", "for i = 1, 10, 2 do f(i) end", "for i = a, #b, -1 do break end", "for i = f(), g() do end",
    "for k in f do end", "for k, v in pairs(t) do f(k, v) end", "for a, b, c in x, y, z do end", "for k in a, b do break end",
    "for\ni\n=\n1\n,\n2\ndo\nend", "for i = 1, 2 do for j = 1, 2 do break end break end",
    # Function calls as statements (manual 2.4.6) and local declarations (manual 2.4.7)
    "f{}", "f'a'", "f[[a]]", "f.g()", "f[1]()", "f:g()", "f:g{}", "f:g'a'", "f()()", "f().g()", "f():g()", "f{}{}", "f'a''b'", "(f)()",
    "(f or g)(1)", "('x'):rep(2)", "({})[1]()", "(function() end)()", "(function(...) return ... end)(1, 2)",
    "local x", "local x, y", "local x = 1", "local x, y = 1", "local x, y = f()", "local x = 1, 2", "local x = x", "local x;",
    "local\nx\n=\n1", "local function f() end", "local function f(x) return x end", "local function f(...) return ... end",
    "local function f() return f() end", "local f = function() return f end",
    # Expressions (manual 2.5)
    "return nil", "return true, false", "return 0", "return 12", "return 9223372036854775807", "return 0x0", "return 0xFf", "return 0X10",
    "return 0x7fffffffffffffff", "return 1e3", "return 1E+2", "return 1.0", "return 1.", "return .0", "return 15e-1 * 0", "return 120e-1",
    "return 1.5e1", "return 0e99", "return 00012", "return 0.0e-5", "return 100e-2",
    "return ''", "return \"a'b\", 'a\"b'", "return 'a\\nb\\tc\\\\'", "return '\\065\\1\\0'", "return '\\q'", "return 'a\\\nb'", "return [[a]]",
    "return [[\na\nb]]", "return [==[a]=]b]==]", "return [[\n\n]]\n, x", "return 'a\\\nb', c", "return x --[[\n\n]] + y",
    "return x, -- a\n  y -- b\n",
    # Arithmetic, relational and logical operators, concatenation and length (manual 2.5.1 to 2.5.5)
    "return 1 + 2", "return 1 - 2", "return 1 * 2", "return 1 / 2", "return 1 % 2", "return 1 ^ 2", "return -1", "return - -1", "return not x",
    "return #x", "return x == y", "return x ~= y", "return x < y", "return x <= y", "return x > y", "return x >= y", "return x and y",
    "return x or y", "return x .. y", "return 1 ..2", "return -x.y", "return #t[1]", "return -f()", "return not not x", "return - - -x",
    "return #-x", "return -#x", "return not #x == 0",
    # Precedence (manual 2.5.6)
    "return 1 + 2 + 3", "return 1 - 2 - 3", "return 1 * 2 / 3 % 4", "return 1 ^ 2 ^ 3", "return a .. b .. c", "return a < b < c",
    "return a == b == c", "return a and b and c", "return a or b or c", "return 1 + 2 * 3", "return 1 * 2 + 3", "return (1 + 2) * 3",
    "return -2 ^ 2", "return 2 ^ -2", "return 2 ^ -3 ^ 4", "return 2 ^ - - 3", "return 2 ^ not x", "return 2 ^ not x == y", "return -x * y",
    "return -x + y", "return not x == y", "return not x and y", "return #x + 1", "return #x ^ 2", "return 2 ^ #x ^ 3 * 4",
    "return a or b and c", "return a and b or c", "return a and b or c and d", "return a == b and c ~= d", "return a .. b == c",
    "return a .. b + c .. d", "return a + b .. c + d", "return a .. b < c .. d", "return a < b and b < c", "return 1 + 2 < 3 + 4",
    "return a * b ^ c * d", "return -a .. -b", "return not a .. b", "return a or b and c < d .. e + f * -g ^ h",
    "return a ^ b * c + d .. e < f and g or h", "return a - -b", "return a\n+\nb\n*\nc", "return -\nx", "return a\nor b\nand c", "return a ^\n-b",
    # Prefix expressions, indexes and calls (manual 2.3, 2.5.8)
    "return x.y", "return x.y.z", "return x[1]", "return x[y.z]", "return x[1][2]", "return x.y[z].w", "return x\n.\ny", "return x\n[\ny\n]",
    "return x\n:\ny\n'a'", "return f(1)", "return f(1, 2)", "return f(\n1)", "return f\n{}", "return f\n'a'", "return f 'a' 'b'", "return f{1}.x",
    "return f(x)(y)", "return f(...)", "return f((...))", "return f(g(h()))", "return a.b:c(1):d{2}.e", "return a.b.c(1).d[2]:e'f'",
    "return (a)", "return ((a))", "return (a).b", "return (a)[1]", "return (a)(1)", "return (a):b(1)", "return (a.b)", "return ('a'):b()",
    "return (a\n+ b\n)\n.c", "return 'a' .. ('b'):c()", "return #('a')", "return f{\n}(1)", "return f'a\\\nb'(1)", "return f[[\n]](1)",
    "return a[ [[b]] ]", "return a[{}]", "return a[function() end]",
    # Table constructors (manual 2.5.7)
    "return {1}", "return {1,}", "return {1;}", "return {1, 2; 3}", "return {x}", "return {x = 1}", "return {x = 1, y = 2}",
    "return {[1] = 2}", "return {['a'] = 2, [b] = c}", "return {x, y = z, [w] = v, u}", "return {x == y}", "return {x.y, x[1], x()}",
    "return {f()}", "return {...}", "return {{}}", "return {{1}, {x = {2}}}", "return {x = function() end}", "return {function() end, 1}",
    "return {\n  a = 1,\n  ['b'] = 2,\n  3,\n}", "return {x\n=\n1}", "return {[a == b] = c or d}", "return {a or b, -c}", "return {(x)}",
    "return {x = x = 1}", "return {[[a]]}", "return {[ [[a]] ] = 1}",
    # Functions (manual 2.5.9)
    "return function(a) end", "return function(a, b) end", "return function(...) end", "return function(a, ...) return ... end",
    "return function() return function() end end", "return function(x) return x end, 1", "function f() end", "function f(a, b, ...) end",
    "function a.b() end", "function a.b.c() end", "function a:b() end", "function a.b.c:d(x) return self, x end", "function a:b(...) return ... end",
    "function f() return end", "function f() local x = 1; return x end", "function f()\n  g()\nend\nfunction h() end",
    "function\na\n.\nb\n:\nc\n(\n)\nend", "function f(...) local function g(...) return ... end return g(...) end",
    "function f() while x do break end end", "while x do function f() while y do break end end break end",
    "return function() if x then return 1 end return 2 end", "local p = {}\nfunction p.f(frame)\n  return frame.args[1]\nend\nreturn p",
    # A `(` goes on with the expression before it, and a new statement begins where it cannot (manual 2.5.8)
    "x = 1 (f)()", "x = 1\n(f)()", "x = 'a'\n(f)()", "x = {}\n(f)()", "x = function() end\n(f)()", "x = nil\n(f)()", "x = ...\n(f)()",
    "x = f\ny = g", "x = f y = g", "x = f;\n(g)()", "x = f(g)\n;(h)()", "x = -1\n(f)()", "f'a' g'b'", "local x = 1\n(f)()", "local x\n;(f)()",
    "return {f\n, (g)}", "return 1, (f)\n", "do end (f)()", "do end\n(f)()", "while x do end\n(f)()", "return f\n.g", "x = f\n.g(1)",
    "x = f --[[\n]] .g",
    # Fault 5: an unexpected token
    "return 1 + end", "x = = 1", "x", "x y", "x.y", "x.", "x.1", "x:", "x:y", "x:y = 1", "x: = 1", "x =", "x = 1,", "x, = 1", "x, y", "x, y 1",
    "x == 1", "f() = 1", "f(), x = 1", "x, f() = 1", "x, f()", "(x)", "(x) = 1", "(x), y = 1", "x, (y) = 1", "(x.y) = 1", "x, y.z, (w)() = 1",
    "1", "1 = x", "'a'", "{}", "{}.x = 1", "...", "...(1)", "-x", "not x", "#x = 1", ";", ";;", "f();;", "; f()", "return;;", "return return",
    "return 1 return 2", "return 1 2", "return x y", "return x\nf()", "return; f()", "return,", "return 1,", "return 1,\n\n", "return end",
    "return break", "break return", "while x do break f() end", "while x do break; f() end", "while x do break;; end", "while x do break break end",
    "break 1", "end", "do", "do end end", "do f()", "do f() until x", "else", "elseif", "until x", "then", "in", "and x", "while", "while x",
    "while do end", "while x end", "while x do", "while x then end", "while x do until y", "repeat", "repeat f()", "repeat end", "repeat until",
    "repeat until x y", "if", "if x", "if x do end", "if then end", "if x then", "if x then else", "if x then elseif", "if x then elseif y end",
    "if x then else elseif y then end", "if x then else else end", "if x then f() until y", "if x else end", "if x then return else f() end",
    "if x then return 1 f() end", "for", "for 1", "for i", "for i do end", "for i =", "for i = 1", "for i = 1 do end", "for i = 1, do end",
    "for i = 1, 2", "for i = 1, 2, do end", "for i = 1, 2, 3, 4 do end", "for i, j = 1, 2 do end", "for i in", "for i in do end",
    "for i in x", "for i in x, do end", "for i, in x do end", "for a.b in x do end", "for a[1] = 1, 2 do end", "for (i) = 1, 2 do end",
    "for i = 1, 2 f() end", "for i == 1, 2 do end", "for ... in x do end", "local", "local x y", "local x,", "local x =", "local x = 1,",
    "local x.y = 1", "local x[1] = 1", "local (x)", "local 1", "local x, y = 1 2", "local ...", "local function", "local function a.b() end",
    "local function a:b() end", "local function f", "local function f(", "local function f()", "local function() end", "local function f() end end",
    "local function 1() end", "local x()", "local x == 1", "function", "function f", "function f(", "function f()", "function () end",
    "function f() end()", "function f.() end", "function f.1() end", "function f[1]() end", "function a:b.c() end", "function a:b:c() end",
    "function a.b:c.d() end", "function a:() end", "function (f)() end", "function f{} end", "function f(a", "function f(a,", "function f(a,) end",
    "function f(,) end", "function f(1) end", "function f(a b) end", "function f(..., a) end", "function f(a, ..., b) end", "function f(...,) end",
    "function f(a.b) end", "function f(a = 1) end", "function f((a)) end", "function f(a; b) end", "function f('a') end", "function f(nil) end",
    "function f() return x", "function and() end", "x = function", "x = function f() end", "x = function()", "x = function() end end",
    "x = (", "x = (1", "x = ()", "x = (1, 2)", "x = (1;", "x = )", "x = 1)", "x = (...", "x = {", "x = {1", "x = {,}", "x = {;}", "x = {1,,2}",
    "x = {1;;2}", "x = {1 2}", "x = {x y}", "x = {x = }", "x = {x = 1", "x = {x =", "x = {x == }", "x = {[1]}", "x = {[1] 2}", "x = {[1] == 2}",
    "x = {[1", "x = {[}", "x = {[]= 1}", "x = {[1] = }", "x = {[1, 2] = 3}", "x = {x.y = 1}", "x = {'a' = 1}", "x = {(x) = 1}", "x = {1 = 2}",
    "x = {nil = 1}", "x = {x: y}", "x = }", "x = {1]", "x = {return}", "f(", "f(1", "f(1,", "f(1,)", "f(,)", "f(1 2)", "f(1;2)", "f(;)", "f(x = 1)",
    "f(...) ...", "f{", "f{1", "f.", "f[", "f[1", "f[]", "f[1,2] = 3", "f[1] 2", "f:1()", "f:g.h()", "f:g 1", "f:g[1]()", "a.b:c.d()", "a:b:c()",
    "a.end = 1", "a:end()", "a.and()", "x = a.nil", "x = {and = 1}", "local end", "for end in x do end", "and = 1", "x = 1 +", "x = + 1", "x = 1 + + 2",
    "x = 1 * / 2", "x = 1 .. .. 2", "x = 1 = 2", "x = not", "x = #", "x = -", "x = a b", "x = a 'b' c", "x = 1 'a'", "x = 'a' 'b'", "x = 'a' {1}",
    "x = 'a'.b", "x = 'a':b()", "x = {}.a", "x = {}[1]", "x = 1.x", "x = nil.a", "x = ...[1]", "x = function() end()", "x = function() end.a",
    "x = a not b", "x = a # b", "x = a and", "x = and a", "x = a ~ = b", "x = a ... b", "x = ....", "x = 1 < > 2", "x = a <", "x = a >= > b", "x = a or or b",
    "goto x", "::x::", "x += 1", "x = a // b", "x = a != b", "x = a ? b", "local x <const> = 1", "\n\nx = = 1", "x = 1\n\ny", "f(\n\n", "x = {\n1\n2\n}",
    "if x\nthen\nelse\nelse\nend", "return 1\n\n;\n\n;", "function f()\n\nend\nend", "x = [=", "x = a[[b]", "x = [ [a]]",
    # Fault 6: a numeral without a value
    "x = 0.5", "x = 1.5", "x = 1e-1", "x = 15e-1", "x = 9223372036854775808", "x = 99999999999999999999", "x = 1e19", "x = 1e99999999999999999999",
    "x = 0x8000000000000000", "x = 0x", "x = 0xg", "x = 1x", "x = 1e", "x = 1e+", "x = 1..2", "x = 1.2.3", "x = 3..", "x = 1_000", "x = 0x1.8", "x = 0x1p4",
    "x = -0.5", "x =\n\n0.5", "f(1, 2, 0.5)", "x = {0.5}", "x = {[0.5] = 1}", "return 1, 0.5", "for i = 1, 2, 0.5 do end", "x = -9223372036854775808", "x = 12ab",
    "x = 1e5e5", "x = 0b1", "x = 08.5",
    # Fault 8: a `break` outside a loop of its function
    "break", "break;", "f() break", "do break end", "if x then break end", "if x then else break end", "function f() break end", "\n\nbreak",
    "while x do f(function() break end) end", "repeat local f = function() break end until x", "for i = 1, 2 do local function f() break end end",
    "while x do end break", "repeat until x break", "for i = 1, 2 do end break", "repeat until f(function() break end)", "while f(function() break end) do end",
    "for i = 1, f(function() break end) do end", "while x do function f()\nif y then\nbreak end end end", "local function f() break end",
    "x = {function() break end}", "while x do break end break",
    # Fault 9: the `(` of a call on a new line
    "f\n(x)", "f\n()", "x = f\n(g)", "x = f\n(g)()", "return f\n(x)", "f(x)\n(y)", "f{}\n(y)", "f'a'\n(y)", "f[1]\n(y)", "f.g\n(y)", "f:g\n(y)", "f:g()\n(y)",
    "(f)\n(y)", "x = (f)\n(y)", "f --[[\n]] (x)", "f -- a\n(x)", "f\n\n\n(x)", "f{\n}\n(1)", "f'a\\\n'\n(1)", "f[[\n]]\n(1)", "x, y\n(z)", "local x = f\n(g)()",
    "x = {f\n(g)}", "f(g\n(h))", "x = -f\n(g)", "x = a + f\n(g)", "if f\n(x) then end", "f\r\n(x)", "f\r(x)", "x = f() + g.h\n(1)",
    # Fault 10: `...` outside a vararg function
    "function f() return ... end", "function f(a) return ... end", "f(function() return ... end)", "local function f() x = ... end", "function f()\n\nreturn ...\nend",
    "function f(...) return function() return ... end end", "function f(...) local function g() end return function(a) g(...) end end",
    "function a:b() return ... end", "x = {function() return {...} end}", "function f() g(...) end", "function f() x = {...} end", "function f() for i = 1, ... do end end",
    "function f() for i in ... do end end", "function f() return (...) end", "function f() return -... end", "function f() return 1 + ... end",
    "function f() if ... then end end", "function f() while ... do end end", "function f() x[...] = 1 end", "function f() local x = ... end",
    # Two faults at one token: the lower is answered; and the first of two tokens
    "x 0.5", "f() 1e-1", "x = {0.5 0.5}", "x = 0.5 0.5", "x = 1 0.5", "while x do break break end", "break x", "break break", "x = 0.5 = = 1", "x = 1 + break",
    "x = break", "if break then end", "while x do f(break) end", "function f() x = 1 ... end", "function f() ... end", "function f() local ... end",
    "function f() x = ... ... end", "function f() x = ...; break end", "function f() break x = ... end", "function f() x = 0.5 + ... end", "function f() x = ... + 0.5 end",
    "f\n(0.5)", "x = 0.5\n(f)", "f\n(break)", "function f() g\n(...) end", "function f() g(...)\n(1) end", "x = = 1 'a", "x = 1 'a\\300", "x = 'a", "x = [[a", "x = 1 @",
    "x = '\\256'", "--[[", "x = 1 --[[ \n\n", "x = '\n'", "\n\n'a\\\n\\999'", "x ~ y", "break @", "f\n(x) !", "return 1 + \"abc",
]

# Texts with a part that is repeated: what stands before, the part, what stands between, the part behind, what stands after, how often.
REPEATED = [
    (before, part, middle, behind, after, count)
    for before, part, middle, behind, after, most in [
        ("x = ", "(", "1", ")", "", 199), ("x = ", "{", "", "}", "", 200), ("x = ", "{", "1", "}", "", 199), ("x = ", "not ", "y", "", "", 199),
        ("x = ", "-", "y", "", "", 1), ("x = ", "- ", "y", "", "", 199), ("x = ", "# ", "y", "", "", 199), ("x = ", "y + ", "y", "", "", 199),
        ("x = ", "y .. ", "y", "", "", 199), ("x = ", "y ^ ", "y", "", "", 199), ("x = ", "", "y", " + z", "", 199), ("x = ", "", "y", " .. z", "", 199),
        ("x = ", "", "y", " ^ z", "", 199), ("x = ", "", "y", " and z", "", 199), ("x = ", "", "y", " == z", "", 199), ("x = ", "", "y", ".a", "", 199),
        ("x = ", "", "y", "[1]", "", 199), ("x = ", "", "y", "()", "", 199), ("x = ", "", "y", "{}", "", 199), ("x = ", "", "y", "''", "", 199),
        ("x = ", "", "y", ":z()", "", 199), ("", "", "y", ".a", " = 1", 199), ("", "", "f", "()", "", 199), ("", "", "f", ":a()", "", 199),
        ("", "", "f", "[1]", "()", 198), ("", "", "f", "()", ".x = 1", 198), ("function f", "", "", ".a", "() end", 199), ("function f", "", "", ".a", ":b() end", 198),
        ("", "do ", "", "end ", "", 201), ("", "do ", "f()", " end", "", 198), ("", "do ", "x = 1", " end", "", 199), ("", "do ", "return", " end", "", 200),
        ("", "if x then ", "", " end", "", 200), ("", "if x then else ", "", " end", "", 200), ("if x then ", "elseif x then ", "", "", "end", 5000),
        ("", "while x do ", "", " end", "", 200), ("", "while x do ", "break", " end", "", 200), ("", "repeat ", "", " until x", "", 200),
        ("", "for i = 1, 2 do ", "", " end", "", 200), ("", "for k in f do ", "", " end", "", 200), ("", "local function f() ", "", " end", "", 201),
        ("", "function f() ", "", " end", "", 100), ("", "return function() ", "", " end", "", 100), ("x = ", "function() return ", "1", " end", "", 99),
        ("x = ", "f(", "", ")", "", 199), ("x = ", "f(", "1", ")", "", 199), ("x = ", "f{", "", "}", "", 100), ("x = ", "a[", "1", "]", "", 199),
        ("x = ", "{x = ", "1", "}", "", 199), ("x = ", "{[", "1", "] = 1}", "", 199), ("", "(", "f", ")", "()", 197), ("", "f(", "", ")", "", 199),
        ("x = ", "(", "", "", "", 200), ("x = ", "{", "", "", "", 200), ("x = ", "not ", "0.5", "", "", 200), ("", "do ", "break", "", "", 200),
        ("", "do ", "break", "", "", 201), ("x = function() return ", "(", "...", "", "", 196), ("x = ", "(", "f\n(x)", "", "", 199), ("x = ", "(", "f\n(x)", "", "", 198),
        ("", "x = 1 ", "", "", "", 5000), ("", "f();\n", "", "", "", 5000), ("x = {", "1, ", "", "", "}", 5000), ("x = {", "a = 1; ", "", "", "}", 5000),
        ("f(1", ", 1", "", "", ")", 5000), ("x", ", x", " = 1", ", 1", "", 5000), ("local x", ", x", "", "", "", 5000), ("function f(x", ", x", "", "", ") end", 5000),
        ("return 1", ", 1", "", "", "", 5000), ("", "\n", "x", "", "", 5000), ("", ";", "", "", "", 300), ("x = ", "y.a ^ -", "1", "", "", 100),
        ("x = ", "(", "y", ").a", "", 100), ("x = ", "(", "y", ").a", "", 99), ("x = ", "-2 ^ ", "y", "", "", 100), ("x = ", "-2 ^ ", "y", "", "", 99),
        ("x = ", "y * ", "y", " .. z", "", 100), ("x = ", "y * ", "y", " .. z", "", 99),
    ]
    for count in sorted({most, most + 1, 300} if most < 300 else {most})
]

# A module of a wiki, of which every beginning is a chunk or has a fault.
MODULE = r'''-- Lists of pages, and texts about them.
local p = {}
local names = { [1] = 'one', two = "tw\"o"; [ [[three]] ] = 3, }

--[==[ The first argument that is not empty,
or the default. ]==]
local function first(args, default)
  for i, value in ipairs(args) do
    if value ~= '' and value ~= nil then return value end
  end
  return default or [[
none]]
end

function p.list(frame)
  local args, out = frame.args, {}
  local count = #args - 1 * 2 ^ 2 % 3
  for i = 1, count, 1 do
    local item = args[i]:gsub('^%s+', ""):lower()
    if item == 'stop' then
      break
    elseif not names[item] or -i <= -10 then
      out[#out + 1] = '* ' .. (names[item] or item) .. '\n'
    else
      out[#out + 1] = ('%d'):rep(i)
    end
  end
  return table.concat(out, ", ")
end

function p.tools.text:count(...)
  local n, more = 0, select('#', ...)
  repeat
    n = n + 1; more = more - 1
    while more > 100 do more = more / 2 break end
  until more <= 0 or n == 0x10
  do return n, self, {...}, function(...) return first{...} end end
end

p.main = function(frame) return p.list(frame) or frame:preprocess "{{none}}" end
return p
'''

# Pieces of which all short texts are tried.
PIECES = ["x ", "= ", "(", ") ", "\n", "f{} ", ".y ", "... ", "0.5 ", "end ", "function() ", "break ", "return ", ", ", "- ", "while x do "]
LENGTH = 4

# Texts over whose trees the walks go: most nodes stand on a line of their own, and each function has another number of parameters.
WALKED = [
    "local function g(...)\nif\nf then\nreturn\n3\n+\nf\n{\n3}\nend end",
    "local function g(p, p, p) while f do f(function() end) end end\nreturn {[f] = function(p) local function h(p, p) end end}",
]
