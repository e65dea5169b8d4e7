"""Long texts of Lua whose reading is timed, and the rows in which a program of cases is given them."""
from machine_reference import shown

FUNCTION = """
-- The %d-th of many functions.
function p.f%d(frame, ...)
  local args, out = frame.args, { [1] = 'one', two = "two" }
  for i, value in ipairs(args) do
    if value ~= '' and i %% 2 == 0 or #out > %d then
      out[#out + 1] = '[[' .. value:gsub('^%%s+', ""):lower() .. ']]'
    elseif not args[i + 1] then
      break
    else
      while i < 10 do i = (i + 1) * 2 - 1 end
    end
  end
  return table.concat(out, ', '), function(x, ...) return x.y[i](x, ...) end
end
"""

CAPTURING = """
-- The %d-th of many functions, with two inside it.
function p.f%d(frame, ...)
  local args, count = frame.args, %d
  local function add(value, key)
    if value ~= '' and not p[key] then count = count + 1 end
    p[count] = args[key] or value
    return p, count, frame
  end
  for i, value in ipairs(args) do add(value, i) end
  return add, function(x) return add(x, #args), p.f%d(frame, count) end
end
"""


def module(size, function=FUNCTION):
    text, number = ["local p = {}\n"], 0
    length = len(text[0])
    while length < size:
        text.append(function % ((number,) * function.count("%d")))
        length += len(text[-1])
        number += 1
    return "".join(text + ["return p\n"])


def escaped(text):
    return shown(text.encode())


def row(kind, text, answer):
    return f"{kind}\t{escaped(text)}\t=> {answer}\n".encode()
