-- Texts that several modules make.
local p = {}

function p.join(list, between)
  local text = ''
  for i, item in ipairs(list) do
    if i > 1 then text = text .. between end
    text = text .. item
  end
  return text
end

function p.cell(text, class)
  if class then return '<td class="' .. class .. '">' .. text .. '</td>' end
  return '<td>' .. text .. '</td>'
end

return p
