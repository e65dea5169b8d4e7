-- The rows of bench/machine_string_rows.py whose values are Lua 5.1's own.
--
--   lua5.1 bench/string_rows.lua             prints them
--   lua5.1 bench/string_rows.lua check FILE  compares them with the rows with which that file begins
--
-- A row is a call, and what it gives, `(none)` for no value; a text stands in quotes, with escapes of Lua.
local rows = {}

local function escaped(text)
  return (text:gsub("[%c\127-\255\\']", function(c)
    if c == "\\" or c == "'" then return "\\" .. c end
    return string.format("\\%03d", c:byte())
  end))
end

local function written(v)
  if type(v) == "string" then return "'" .. escaped(v) .. "'" end
  if type(v) == "number" then return string.format("%.0f", v):gsub("^-0$", "0") end
  return tostring(v)
end

local function row(name, ...)
  local library = string[name] and "string" or "math"
  local given = {}
  for i = 1, select("#", ...) do given[#given + 1] = written((select(i, ...))) end
  local function results(...)
    local out = {}
    for i = 1, select("#", ...) do out[#out + 1] = written((select(i, ...))) end
    return #out == 0 and "(none)" or table.concat(out, " ")
  end
  rows[#rows + 1] = library .. "." .. name .. "(" .. table.concat(given, ", ") .. ") => " .. results(_G[library][name](...))
end

for _, s in ipairs {"hello", "", "a\0b", "x"} do
  for _, i in ipairs {0, 1, 2, -1, -3, 10, -100} do
    row("sub", s, i)
    row("sub", s, i, 2)
    row("sub", s, i, -2)
    row("byte", s, i)
    row("byte", s, i, 3)
  end
  row("byte", s)
  row("byte", s, nil, nil)
  row("sub", s, 1, nil)
  row("len", s)
  row("upper", s)
  row("lower", s)
  row("reverse", s)
  row("rep", s, 3)
  row("rep", s, 0)
  row("rep", s, -1)
end
row("sub", 12345, "2", "3.0")
row("len", 12345)
row("rep", 7, "2")
row("upper", "aZ[`{\255\228")
row("lower", "aZ[`{\255\196")
row("reverse", "a\r\n\200")
row("char")
row("char", 72, 0, 255)
row("char", "65", "0x42")
for _, p in ipairs {"l", "l+", "(l)(l)", "()ll()", "^h", "^l", "o$", "", ".-", "%a+", "x", "(h)(.)%2", "[^h]+", "%f[%a]", "h?", "l*", "(e(l))l"} do
  row("find", "hello", p)
  row("find", "hello", p, 3)
  row("find", "hello", p, -2)
  row("match", "hello", p)
  row("match", "hello", p, 4)
end
row("find", "hello", "", 10)
row("find", "hello", "", 7, true)
row("find", "abc", "a", 0)
row("find", "abc", "^b", 2)
row("find", "a.b", ".", 2, true)
row("find", "a.b", ".", 2, false)
row("find", "a.b", ".", nil, 1)
row("find", "a\0b", "\0", 1, true)
row("find", "a\0b", "%z")
row("find", "abab", "ab", -2, true)
row("find", "abab", "ba%", 1, true)
row("find", 1001, 0)
row("match", "key = val", "^(%w+)%s*=%s*(%w+)$")
row("match", "2026-11-28", "(%d+)-(%d+)-(%d+)")
row("match", "f(a(b)c)d", "%b()")
row("match", "THE (quick) fox", "%((%a+)%)")
row("match", "abc", "b", 3)
row("match", "  x  ", "^%s*(.-)%s*$")
row("match", "[[x]]", "^%[%[(.*)%]%]$")
for _, f in ipairs {"%d", "%5d|", "%-5d|", "%05d", "%+d", "% d", "%.3d", "%5.3d", "%i", "%u", "%o", "%x", "%X", "%#x", "%#o", "%c", "%s", "%5s|", "%-5s|", "%.1s", "%q", "%%", "%5.1f", "%.0f", "%f"} do
  row("format", f, 42)
  row("format", f, "65")
end
row("format", "%d", -5)
row("format", "%.3d", -5)
row("format", "%05d", -5)
row("format", "%q", "a\"b\\c\nd\re\0f")
row("format", "%s=%d;", "k", 7)
row("format", "%s%s%s", "a", 1, "b")
row("format", "none", 1, 2)
row("format", "")
for _, a in ipairs {-7, -1, 0, 1, 7, 9007199254740991} do
  row("abs", a)
  row("ceil", a)
  row("floor", a)
  for _, b in ipairs {-3, -1, 1, 2, 3} do
    row("fmod", a, b)
  end
end
row("abs", " -12 ")
row("pow", 2, 10)
row("pow", -3, 3)
row("pow", 7, 0)
row("pow", 0, 5)
row("max", 3)
row("max", 3, 12, 5)
row("max", "3", "12", -5)
row("min", 3, 12, 5)
row("min", 3, -12, -12)
row("min", -1)

if arg[1] == "check" then
  local at, wrong = 0, 0
  for line in io.lines(arg[2]) do
    if line:find("^%a+%.%a+%(.*%) => ") then
      at = at + 1
      if rows[at] and rows[at] ~= line then
        wrong = wrong + 1
        print(line .. " stands there, and Lua 5.1 has " .. rows[at])
      end
    end
  end
  wrong = wrong + math.max(0, #rows - at)
  print(#rows .. " rows, " .. wrong .. " differ; " .. at - #rows .. " more are worked out by the rules")
  os.exit(wrong == 0 and 0 or 1)
end
print(table.concat(rows, "\n"))
