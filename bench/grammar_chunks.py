"""Chunks of Lua that are worked examples of `lua_grammar`: for each group its name, what it is about, and its chunks by name."""

GROUPS = [
    ("Operators", "how tightly operators bind, and to which side they group (manual 2.5)", [
        ("sums_and_products", "return a + b * c - d / e % f, (a + b) * c"),
        ("powers_and_joins", "return a .. b .. c, -x ^ 2, x ^ -y ^ z"),
        ("comparisons", "return not a == b, #a < b and c ~= d or e <= f, g > h .. i >= j"),
    ]),
    ("Calls", "indexes, calls, methods and tables (manual 2.3, 2.5.7 and 2.5.8)", [
        ("nothing", ""),
        ("call", "f()"),
        ("sugar", "f 'a' {} (x, ...)"),
        ("methods", "a.b:c(1):d 'x' :e {}"),
        ("places", "a.b[c].d, e = true, false, nil"),
        ("fields", "return {}, {f(); x = 0x10, [y] = 1e2,}, {z}"),
        ("lines", "x = f [[a\nb]] (1)\nreturn -\nx"),
    ]),
    ("Statements", "control structures, loops and blocks (manual 2.4)", [
        ("loops", "while a do if b then break end end repeat local x = f() until x"),
        ("counts", "for i = 1, 10 do f(i) end for i = n, 1, -1 do break; end"),
        ("iterations", "for k, v in pairs(t), n do end"),
        ("conditions", "if a then f() elseif b then return else do return 1; end end"),
    ]),
    ("Functions", "functions, parameters and local names (manual 2.4.7, 2.5.9)", [
        ("method_bodies", "function a.b:c(x) return self end"),
        ("varargs", "function f() end function g.h(a, ...) return function(...) end, ... end"),
        ("locals", "local function f(n) return f(n) end local g, h = f; local i"),
    ]),
]
