-- Tests of the modules and templates of this folder: ./wikitest examples/third
local languages = require('Module:Languages')
local text = require('Module:Text')
local p = {}

-- level 2: the line that is told is that of the test
local function same(found, wanted)
  if found ~= wanted then error('found ' .. found .. ', where ' .. wanted .. ' is wanted', 2) end
end

function p.testName()
  same(languages.name('de'), 'German')
end

function p.testUnknownName()
  assert(not pcall(languages.name, 'xx'))
end

function p.testList()
  same(languages.list(), 'de: German; en: English')
end

function p.testJoin()
  same(text.join({}, ', '), '')
  same(text.join({'a', 'b', 'c'}, ', '), 'a, b, c')
end

-- templates, as a page has them
function p.testBook(frame)
  same(frame:preprocess('{{Book|title=Notes|year=1843|lang=en}}'), '<tr><td>Notes</td><td class="year">1843</td><td>English</td></tr>')
end

function p.testLink(frame)
  same(frame:expandTemplate{title = 'Link', args = {'Ada Lovelace', n = 1}}, '[[Ada Lovelace]] (1)')
end

-- one that fails: no language has this name
function p.testFailing()
  same(languages.name('en'), 'Englisch')
end

return p
