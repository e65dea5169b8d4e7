require('strict')
local p = {}
local function row(box, label, value)
  if not value or value == '' then return end
  local tr = box:tag('tr')
  tr:tag('th'):attr('scope', 'row'):wikitext(label)
  tr:tag('td'):wikitext(value)
end
function p.main(frame)
  local args = frame:getParent().args
  local box = mw.html.create('table'):addClass('infobox'):css('width', '20em')
  box:tag('caption'):wikitext(args.name or mw.title.getCurrentTitle().text)
  row(box, 'Born', args.born)
  row(box, 'Fields', mw.text.listToText(mw.text.split(args.fields, '; ', true)))
  row(box, 'Died', args.died)
  return tostring(box)
end
return p
