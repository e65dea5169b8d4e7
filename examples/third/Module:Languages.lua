-- The names of languages.
local data = mw.loadData('Module:Languages/data')
local p = {}

function p.name(code)
  local language = data[code]
  if not language then error('unknown language ' .. code, 2) end
  return language.name
end

-- {{#invoke:Languages|list}}: all of them
function p.list()
  local names = {}
  for code, language in pairs(data) do
    names[#names + 1] = code .. ': ' .. language.name
  end
  return require('Module:Text').join(names, '; ')
end

return p
