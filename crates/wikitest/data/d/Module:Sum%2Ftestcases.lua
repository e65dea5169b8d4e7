local s = require('Module:Sum')
local p = {}
function p.testAdd() assert(s.add({args={1, 2}}) == 3) end
function p.testBad() error('no') end
return p
