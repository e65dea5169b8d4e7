require('strict')
local text = require('Module:Text')
local languages = require('Module:Languages')
local p = {}

-- {{#invoke:Book|row}} in a template: a row of the template's arguments
function p.row(frame)
  local args = frame:getParent().args
  local cells = {
    text.cell(args.title or frame:preprocess('{{PAGENAME}}')),
    text.cell(args.year or '?', 'year'),
  }
  if args.lang then
    cells[#cells + 1] = text.cell(languages.name(args.lang))
  end
  return '<tr>' .. text.join(cells, '') .. '</tr>'
end

-- {{#invoke:Book|links|TITLE|..}}: links, each by a template
function p.links(frame)
  local links = {}
  for i, title in ipairs(frame.args) do
    links[i] = frame:expandTemplate{title = 'Link', args = {title, n = i}}
  end
  return text.join(links, ', ')
end

return p
