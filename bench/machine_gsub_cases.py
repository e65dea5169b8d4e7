"""Cases by hand of `string.gsub` and `mw.ustring.gsub`, behind those of `machine_text_cases.py`. Ends are those of the manual, of Lua 5.1 (all
that aren't marked `profile`), and of Scribunto; steps are counted by docs/RULES.md. Bytes of texts are written as such."""
from machine_cases import AMPLE, CALLS, body, down
from machine_text_cases import TRY, counted, says

SPENT = [("exact", AMPLE, CALLS, [], "spends steps, 0 left")]


# ---- a text that replaces
says("gsub_matches", "Matches one after another, also empty ones, up to a limit, and none.",
     "('hello'):gsub('','-'),('abc'):gsub('b*','x'),('hello'):gsub('l*','x'),('aaa'):gsub('^a','x'),('abc'):gsub('$','x'),('aaa'):gsub('a','x',2),('aaa'):gsub('a','x',0),('aaa'):gsub('a','x',-1),(''):gsub('','x')",
     "-h-e-l-l-o- xaxxcx xhxexxox xaa abcx xxa aaa aaa x 1")
says("gsub_captures", "Captures, places, and what stands behind `%`.",
     "('x=1, y=2'):gsub('(%w)=(%w)','%2=%1'),('abc'):gsub('%w','%1%0%%'),('abc'):gsub('()','%1'),('a,b'):gsub('(%w)(,?)','[%2%1]'),('hello world'):gsub('(o)( ?)(w?)','<%3%2%1>')",
     "1=x, 2=y aa%bb%cc% 1a2b3c4 [,a][b] hell<w o><o>rld 2")
says("gsub_numbers", "Numbers as texts and as the limit, and a text that reads as one.", "string.gsub(1203,0,7),string.gsub(10,1,2),('aa'):gsub('a',5,'1'),('aa'):gsub('a','b',nil)", "1273 20 5a bb 2")
body("gsub_gives_two", "The text, and how many matches were replaced.", "return select('#',('aba'):gsub('a','')),('aba'):gsub('a','')", "2b2")
body("gsub_without_a_match", "The text itself, and 0: a fault of the replacement comes at a match alone.", "return ('abc'):gsub('x','%2')", "abc0")
body("gsub_bytes", "Zeros, and bytes that are no text.", "return (('a\\0b\\255'):gsub('%z','0'):gsub('[\\128-\\255]','+'))", "a0b+")
body("gsub_long", "Of 1,000 bytes each second one.", "local s=('ab'):rep(500):gsub('b','')\nreturn #s,s==('a'):rep(500) and 'y'", "500y")
body("gsub_percent_at_the_end", "A last `%` is itself, and so is any byte behind one.", "return ('ab'):gsub('b','%x%')", "ax%1", profile=True)
body("gsub_faults", "A capture that isn't there is fault 7, and a pattern has its own before.", TRY + "return try(string.gsub,'abc','b','y%2'),try(string.gsub,'abc','%','y'),try(string.gsub,'abc','(','%9')",
     "malformed pattern (7);malformed pattern (1);malformed pattern (4);", profile=True)
body("gsub_fault_place", "With the place of the call.", "return ('abc'):gsub('b','%1%2')", fails="Lua error: Module:X:2: malformed pattern (7)", profile=True)
body("gsub_arguments", "Arguments that are none, from the first to the last.",
     TRY + "local g=string.gsub\nreturn try(g),try(g,{}),try(g,'a'),try(g,'a','b'),try(g,'a','b',true),try(g,'a','b',nil,{}),try(g,'a','b','c',{}),try(g,'a','[','c','x')",
     "bad argument #1 to 'gsub' (string expected, got no value);bad argument #1 to 'gsub' (string expected, got table);bad argument #2 to 'gsub' (string expected, got no value);bad argument #3 to 'gsub' (string expected, got no value);"
     "bad argument #3 to 'gsub' (string expected, got boolean);bad argument #3 to 'gsub' (string expected, got nil);bad argument #4 to 'gsub' (number expected, got table);bad argument #4 to 'gsub' (number expected, got string);", profile=True)

# ---- a table that is asked
says("gsub_by_a_table", "Entries at the first capture, or at the whole match; what is not there stays, and so it is at false.",
     "('a b c'):gsub('%a',{a='1',b=2,c=false}),('x=1'):gsub('(%w)=(%w)',{x='y'}),('abc'):gsub('()',{'-',[3]='+'}),('abc'):gsub('.',{}),('aaa'):gsub('a',{a='b'},2)", "1 2 c y -ab+c abc bba 2")
body("gsub_by_a_handler", "A handler of `__index` is asked where an entry isn't there, and so is a table behind it.",
     "local t=setmetatable({a='1'},{__index=function(t,k) return k..k end})\nlocal u=setmetatable({},{__index=t})\nreturn (('ab'):gsub('.',t)),(('ab'):gsub('.',u))", "1bb1bb")
body("gsub_handler_keeps", "A handler that gives nil, false or a number.", "local t=setmetatable({},{__index=function(t,k) if k=='a' then return nil elseif k=='b' then return false end return 7 end})\nreturn ('abc'):gsub('.',t)", "ab73")
body("gsub_refused_by_a_table", "An entry that is no replacement.", "return ('ab'):gsub('b',{b={}})", fails="Lua error: Module:X:2: invalid replacement value (a table)")

# ---- a function that is called
says("gsub_by_a_function", "It gets the captures, or the whole match; places are numbers.",
     "('a b'):gsub('%a',function(x) return x:upper() end),('k=v'):gsub('(%w)=(%w)',function(k,v) return v..'='..k end),('abc'):gsub('()b()',function(i,j) return i+j end),('abc'):gsub('',function(x) return '<'..x..'>' end)",
     "A B v=k a5c <>a<>b<>c<> 4")
body("gsub_keeps", "Nothing, nil and false keep the match; further values are of no account.", "local n=0\nlocal s=('abcd'):gsub('.',function() n=n+1 if n==1 then return nil elseif n==2 then return false elseif n==3 then return 'x','y' end end)\nreturn s", "abxd")
body("gsub_by_the_library", "Functions of the library are called too.", "return (('a1b22'):gsub('%d+',string.len)),(('abc'):gsub('(b)',string.upper)),(('a'):gsub('a',tostring))", "a1b2aBca")
body("gsub_counts", "It is called for each match up to the limit, in order.", "local s=''\nlocal t,n=('abcdef'):gsub('..',function(x) s=s..x..'.' return '' end,2)\nreturn s,t,n", "ab.cd.ef2")
body("gsub_refused", "True, a table and a function are no replacement; the place is that of the call.",
     TRY + "local function g(v) return ('a'):gsub('a',function() return v end) end\nreturn try(g,true),try(g,{}),try(g,print or error)",
     "Module:X:3: invalid replacement value (a boolean);Module:X:3: invalid replacement value (a table);Module:X:3: invalid replacement value (a function);")
body("gsub_error", "An error in the function goes on as it is.", "local ok,m=pcall(string.gsub,'abc','b',function() error('x',0) end)\nreturn tostring(ok),m", "falsex")
body("gsub_error_has_no_caller", "The library calls the function from no place of the text: level 2 has none.", "local ok,m=pcall(string.gsub,'abc','b',function() error('x',2) end)\nreturn m", "x")
body("gsub_in_a_gsub", "Each has its own way.", "return (('ab cd'):gsub('%a+',function(w) return (w:gsub('%a',function(c) return c..w:gsub('.','-') end)) end))", "a--b-- c--d--")
body("gsub_of_what_changes", "The table that is asked may change, and the subject is a value.", "local t={a='1'}\nlocal s='aaa'\nreturn (s:gsub('a',function(x) s=s..'a' t[x]='2' return t[x] end)),s", "222aaaaaa")
body("gsub_of_an_object", "A table that can be called is a table here.", "return (('ab'):gsub('.',setmetatable({a='x'},{__call=function() return 'y' end})))", "xb")
body("gsub_changes_globals", "What a function does stays where a later one has an error.", "local n=0\nlocal ok=pcall(string.gsub,'aaa','a',function() n=n+1 if n==2 then error('') end end)\nreturn n", "2")
body("gsub_return_in_a_loop", "A loop in the function ends with its return.", "return (('abc'):gsub('.',function(c) for i=1,3 do if i==2 then return c..i end end end))", "a2b2c2")
down("deep_gsub", "`gsub` and the function that it calls: two calls a level.", "local n=~\nlocal function g() if n==0 then return 'end' end n=n-1 return (('x'):gsub('x',g)) end\nreturn g()", 2, 2)

# ---- over code points
says("ustring_gsub_matches", "Code points, classes by category, and places that count code points.",
     "mw.ustring.gsub('\xc3\xa4b','.','%0,'),mw.ustring.gsub('\xc3\xa4b','()','%1'),mw.ustring.gsub('\xd0\x90\xd0\xb1 c','%a','x'),mw.ustring.gsub('\xc3\xa4b','','-')", "\\xc3\\xa4,b, 1\\xc3\\xa42b3 xx x -\\xc3\\xa4-b- 3", profile=True)
says("ustring_gsub_asks", "A table and a function get code points, and places.",
     "mw.ustring.gsub('a\xc3\xa4','.',{['\xc3\xa4']='ae'}),mw.ustring.gsub('\xc3\xa4b','()b',function(n) return n end),mw.ustring.gsub('\xc3\xa4','.',mw.ustring.toNFD)", "aae \\xc3\\xa42 a\\xcc\\x88 1", profile=True)
body("ustring_gsub_given", "What is given need not be UTF-8.", "return (mw.ustring.gsub('a','a',function() return '\\255' end))", "\\xff", profile=True)
body("ustring_gsub_arguments", "Each text must be UTF-8.", TRY + "local g=mw.ustring.gsub\nreturn try(g,'\\255','a','b'),try(g,'a','\\255','b'),try(g,'a','a','\\255'),try(g,'a','a')",
     "bad argument #1 to 'gsub' (not UTF-8);bad argument #2 to 'gsub' (not UTF-8);bad argument #3 to 'gsub' (not UTF-8);bad argument #3 to 'gsub' (string expected, got no value);", profile=True)

# ---- steps
counted("steps_of_gsub", "A byte of the pattern; two tries, `a` and `x`; a try, and `c`.", "('abc'):gsub('b','x')", "axc1", 1 + 1 + 1 + 1 + 1 + 1 + (1 + 2 + 2 + 1 + 1))
counted("steps_of_gsub_by_a_table", "The constructor with 8, and a field of 4 with its key and its value; two tries with `a`, then `x`; a try, and `c`.", "('abc'):gsub('b',{b='x'})", "axc1", 1 + 1 + 1 + 1 + 1 + (1 + 8 + 4 + 1 + 1) + 1 + (2 + 1) + 1 + (1 + 1))
counted("steps_of_gsub_by_a_function", "Two tries with `a`; the function is entered, and `len` costs nothing; then `1`; a try, and `c`.", "('abc'):gsub('b',('').len)", "a1c1", 1 + 1 + 1 + 1 + 1 + (1 + 1 + 1 + 1) + 1 + (2 + 1) + 1 + 1 + (1 + 1))
counted("steps_of_ustring_gsub", "The bytes that are given, four; the pattern's; a try, and two bytes.", "mw.ustring.gsub('\xc3\xa4','.','x')", "x1", 1 + 2 + 2 + 1 + 3 + 1 + 4 + (1 + 1 + 1))
body("gsub_error_behind_its_bytes", "What stands before the first match is paid for before the function's error comes: a hundred bytes.",
     "return (('a'):rep(100)..'b'):gsub('b',function() error('x',0) end)", fails="Lua error: x")
body("gsub_of_much_by_a_function", "A million bytes that are given at each of a million matches.", "local s=('a'):rep(1000000)\nreturn s:gsub('a',function() return s end)", levels=False, profile=True, runs=SPENT)
body("gsub_of_much_by_a_table", "The same from a table.", "local s=('a'):rep(1000000)\nreturn s:gsub('a',{a=s})", levels=False, profile=True, runs=SPENT)
body("gsub_of_much_between", "What stands between matches is never paid for twice: a million bytes with two matches.", "local s=('a'):rep(500000)\nlocal t=('-'..s..'-'..s):gsub('-',{})\nreturn #t", "1000002")
body("gsub_without_end", "A function that never comes to an end.", "return ('a'):gsub('a',function() while true do end end)", levels=False, profile=True, runs=SPENT)
body("gsub_of_much", "A replacement of a million bytes at each of a million matches.", "local s=('a'):rep(1000000)\nreturn s:gsub('a',s)", levels=False, profile=True, runs=SPENT)
body("gsub_maybe_forty_times", "`a?` forty times, and then `a` forty times.", "local s=('a'):rep(40)\nreturn s:gsub(('a?'):rep(40)..s,'')", levels=False, profile=True, runs=SPENT)
