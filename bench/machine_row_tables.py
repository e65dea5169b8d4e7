"""Tables of rows as modules of `machine_rows.py`: a case calls all rows of a table, and gives their answers one after another.

A row is a line: a call as Lua has it, with `least` and `most` for the first and the last number, and behind `=>` what it gives: values with
spaces between, texts in quotes with Lua's escapes, `(none)` for no value. Behind `!` stands an error without its place, which is that of the
call: the module has a line for each row. Rows are called once, with ample steps; what fewer steps do is shown by other cases."""
import re

from machine_cases import hand
from machine_reference import shown

# what each module begins with: `said` writes the answer of a call as a row has it
ANSWERS = """local least,most=-9223372036854775807-1,9223372036854775807
local answers={}
local function written(v)
  if type(v)=='string' then return "'"..v.."'" end
  if type(v)=='number' then return string.format('%d',v) end
  return tostring(v)
end
local function list(...)
  local words={}
  for i=1,select('#',...) do words[i]=written((select(i,...))) end
  return #words==0 and '(none)' or table.concat(words,' ')
end
local function said(call)
  local ok,answer=pcall(call)
  return ok and answer or '! '..answer
end
"""

# a row has what its call gives
PLAIN = ANSWERS + "local function row(call) answers[#answers+1]=said(call) end\n", "list(%s)"

# a row has the steps of an iterator with `|` between, until it has come to its end twice
STEPS = ANSWERS + """local function steps(f)
  local all,ends={},0
  while ends<2 do
    local one=said(function() return list(f()) end)
    if one=='nil' or one=='(none)' or one:sub(1,1)=='!' then ends=ends+1 end
    all[#all+1]=one
  end
  return table.concat(all,' | ')
end
local function row(call)
  local made,f=pcall(call)
  answers[#answers+1]=made and steps(f) or '! '..f
end
""", "(%s)"

# a row has behind its answer what was asked of a function (`telling`) or a table (`holding`) that gives a value for it
ASKING = ANSWERS + """local asked=''
local function ask(...) asked=asked..', asked for '..list(...) end
local function telling(v) return function(...) ask(...) return v end end
local function holding(v) return setmetatable({},{__index=function(t,k) ask(k) return v end}) end
local function row(call)
  answers[#answers+1]=said(call)..asked
  asked=''
end
""", "list(%s)"


def in_bytes(answer):
    """An answer with the bytes that its escapes stand for."""
    return re.sub(rb"\\(\d{3}|.)", lambda m: bytes([int(m[1])]) if m[1].isdigit() else m[1], answer.encode())


def placed(answer, line, head):
    """An answer whose errors have their places: the line of the row, or that in which an iterator is stepped."""
    stepping = head[:head.find("list(f())")].count("\n") + 1
    return answer.replace(b"! ", b"! Module:X:%d: " % (stepping if b" | " in answer else line))


def rows(name, said, table, how=PLAIN, lua_ends=None, **more):
    """A case of the rows of a table. `lua_ends` is what Lua 5.1 gives at the end of an iterator, where the profile gives nil."""
    head, form = how
    lines = [line.split(" => ", 1) for line in table.strip("\n").split("\n")]
    first = head.count("\n") + 2
    answers = [placed(in_bytes(answer), first + at, head) for at, (_, answer) in enumerate(lines)]
    text = head + "return {f=function()\n" + "".join(f"row(function() return {form % call} end)\n" for call, _ in lines) + "return table.concat(answers,'; ')\nend}"
    in_lua = lua_ends and "gives " + shown(b"; ".join(answer.replace(b"nil", lua_ends) for answer in answers))
    hand(name, said, text, "gives " + shown(b"; ".join(answers)), levels=False, runs_at_each=False, in_lua=in_lua, **more)
