"""Rows of calls of the library, behind the cases of `machine_argument_cases.py`: of the basic functions, of `table`, `mw.ustring`, `mw.text`, of
frames and of `mw.html`. A row is a call as Lua has it, and what it gives. Some 10 to 40 rows are the calls of one module, which gives all
their answers; of a charge that was counted by hand a module of its own shows it, so that with one step less its run is spent.

Values without an error are those of Lua 5.1 (all that aren't marked `profile`) and of MediaWiki's own library, but for what this profile
fixes; errors and charges follow from docs/RULES.md."""
import re

from machine_cases import AMPLE, CALLS, body, hand
from machine_text_cases import counted

# `call` writes what a function gives, or behind `!` the value that it raises: texts in quotes, all else as `tostring` has it, and a line break.
WRITE = ("local function write(ok,...) local s=ok and '' or ' !' for i=1,select('#',...) do local v=select(i,...) "
         "s=s..' '..(type(v)=='string' and \"'\"..v..\"'\" or tostring(v)) end return s..'\\n' end "
         "local function call(f) return write(pcall(f)) end\n")
# All rows of a module stand on its third line, which an error of level 1 has for its place.
PLACE = "Module:X:3: "


def functions(library, names):
    """Functions of a library as local variables of their names."""
    names = names.split()
    return f"local {','.join(names)}={','.join(f'{library}.{name}' for name in names)} "


def answer(wanted):
    """What `call` gives where these values are wanted, or this error."""
    if wanted.startswith("! "):
        wanted = f"! '{PLACE}{wanted[2:]}'"
    return (" " + wanted if wanted else "") + "\\n"


def rows(name, said, table, setup="", **more):
    """A module with a row in each line, `CALL => VALUES`; `\\xHH` is one byte, and an error stands behind `!` without its place."""
    parts = [line.split(" =>") for line in table.strip("\n").split("\n")]
    calls = [re.sub(r"\\x(..)", lambda m: chr(int(m[1], 16)), row) for row, _ in parts]
    body(name, said, WRITE + setup + "return " + ",".join(f"call(function() return {row} end)" for row in calls),
         "".join(answer(wanted.strip()) for _, wanted in parts), levels=False, runs_at_each=False, **more)


def measured(name, said, text, steps, end="gives ", args=(), replies=(), **more):
    """A module that begins with `return {f=function`: what `f` takes behind its 1,000, the arguments, the text, 25 for the chunk, and 1 for
    `f` entered."""
    taken = 1000 + sum(4 + len(key) + len(value) for key, value in args) + len(text) + 25 + 1 + sum(steps)
    hand(name, said, text, None, profile=True, levels=False, args=args, runs=[("took", AMPLE, CALLS, list(replies), f"{end}, {taken} taken")], **more)


# ---- basic functions
rows("rows_of_basic_functions", "Values that are chosen, read and set.", r"""
assert(1,2) => 1 2
rawequal(1,2) => false
select(-1,1,2) => 2
tonumber(' -11 ',10) => -11
type(next) => 'function'
rawget({10,20},1) => 10
next({10,20},1) => 2 20
unpack({10,20},1) => 10 20
unpack({10,20},0) => nil 10 20
(function(t) return rawset(t,3,5)==t,t[3] end)({}) => true 5
(function(t) return setmetatable(t,t)==t,getmetatable(t)==t end)({}) => true true
_G.next({7}) => 1 7
pcall(next,{7}) => true 1 7
""")
rows("rows_of_own_functions", "Functions that Lua 5.1 hasn't, or has otherwise, and the handlers of `strict`.", r"""
pcall(error,1,2) => false 1
tonumber(' -11 ',36) => -37
mw.log(1) =>
(function(t) t[1]=t local c=mw.clone(t) return c==t,c[1]==c end)({}) => false true
mw.title.getCurrentTitle().prefixedText => 'P'
frame:getArgument('1').expand() => ! bad argument #1 to 'expand' (table expected, got no value)
handlers.__index(nil,'x') => ! variable 'x' is not declared
handlers.__newindex(nil,'x') => ! assign to undeclared variable 'x'
""", "require('strict') local handlers=getmetatable(_G) ", args=[("1", "a")], profile=True)
counted("steps_of_plain_functions", "None of these costs more than its call: those of `assert`, `rawequal`, `select`, `tonumber`, `type` and `rawget`, and `next` in a table of one entry.",
        "assert(1,2),rawequal(1,2),select(-1,1,2),tonumber(' -11 ',36),type(next),rawget({},1),next({10},1)", "1false2-37functionnilnil",
        (1 + 1 + 2 + 1) + (1 + 1 + 2 + 1) + (1 + 1 + 1 + 1 + 2 + 1) + (1 + 1 + 2 + 1) + (1 + 1 + 1 + 1) + (1 + 1 + 9 + 1 + 1) + (1 + 1 + 9 + 5 + 1 + 1))
counted("steps_of_error", "Nor does `error` with a value that is no text; `pcall` is a call, too, and gives two values.", "pcall(error,1,2)", "false1", 1 + 1 + 1 + 2 + 1 + 1)
counted("steps_of_log", "Nor does `mw.log`, which gives nothing.", "mw.log(1)", "", 1 + 2 + 1 + 1 + 1)
counted("steps_of_unpack", "A step for each entry that is read.", "unpack({10,20},1)", "1020", 1 + 1 + (9 + 2 * 5) + 1 + 1 + 2)
counted("steps_of_unpack_from_0", "So it is where there is none.", "unpack({10,20},0)", "nil1020", 1 + 1 + (9 + 2 * 5) + 1 + 1 + 3)
counted("steps_of_rawset", "Four for a new entry.", "rawset({},3,5)[3]", "5", 1 + 1 + 1 + 9 + 2 + 1 + 4 + 1)
measured("steps_of_metatables", "Nothing but the calls: a table that is its own metatable.", "return {f=function() local t={} setmetatable(t,t) getmetatable(t) end}",
         [1 + 9, 1 + 1 + 1 + 2 + 1, 1 + 1 + 1 + 1 + 1])
measured("steps_of_strict", "`strict` costs its table; what its handlers say costs its bytes, at no place too.",
         "return {f=function() require('strict') local m=getmetatable(_G) pcall(m.__index,nil,'x') pcall(m.__newindex,nil,'x') end}",
         [1 + 1 + 1 + 1 + 1 + 16, 1 + 1 + 1 + 1 + 1, 1 + 1 + 1 + 3 + 2 + 1 + 1, len("variable 'x' is not declared"),
          1 + 1 + 1 + 3 + 2 + 1 + 1, len("assign to undeclared variable 'x'")])
measured("steps_of_a_handler_that_is_called", "So it is where `gsub` asks the table of global variables.",
         "return {f=function() require('strict') pcall(string.gsub,'x','x',_G) end}", [1 + 1 + 1 + 1 + 1 + 16, 1 + 1 + 1 + 3 + 3 + 1 + 1, 1 + 1, 1 + 1 + len("variable 'x' is not declared")])
measured("steps_of_clone", "A table that holds itself: 8, and an entry.", "return {f=function() local t={} t[1]=t mw.clone(t) end}",
         [1 + 9, 1 + 1 + 2 + 1 + 4, 1 + 1 + 3 + 1 + 1 + 8 + 4])
measured("steps_of_the_title", "A table with three entries.", "return {f=function() mw.title.getCurrentTitle() end}", [1 + 1 + 5 + 1 + 8 + 3 * 4])
measured("steps_of_expand", "The table of an argument, and then nothing but the call.", "return {f=function(frame) frame:getArgument('1').expand({}) end}",
         [1 + 1 + 2, 1 + 1 + 1 + 1 + 16, 9 + 1], args=[("1", "a")])


# ---- `table`: a function, a list and further arguments; what is given, what it costs, and the list afterwards
CHANGES = [
    ("insert", "", "7", "", 5, "7"),
    ("insert", "1,2", "7", "", 5, "1,2,7"),
    ("insert", "1,2", "1,7", "", 9, "7,1,2"),
    ("insert", "1,2", "2,7", "", 7, "1,7,2"),
    ("insert", "1,2", "3,7", "", 5, "1,2,7"),
    ("insert", "1,2", "5,7", "", 5, "1,2"),
    ("insert", "1", "", "", 1, "1"),
    ("remove", "", "", "", 0, ""),
    ("remove", "4,5,6", "", "6", 2, "4,5"),
    ("remove", "4,5,6", "1", "4", 6, "5,6"),
    ("remove", "4,5,6", "3", "6", 2, "4,5"),
    ("remove", "4,5,6", "0", "", 0, "4,5,6"),
    ("remove", "4,5,6", "4", "", 0, "4,5,6"),
    ("maxn", "", "", "0", 0, ""),
    ("maxn", "9,9", "", "2", 2, "9,9"),
    ("sort", "", "", "", 0, ""),
    ("sort", "5", "", "", 3, "5"),
    ("sort", "3,1,2", "", "", 12, "1,2,3"),
    ("sort", "2,1,2,0", "", "", 20, "0,1,2,2"),
]
NOT_OF_LUA = ("insert", "1", "")


def behind(argument):
    return "," + argument if argument else ""


def changed(name, numbers, arguments, given, _, after):
    """The list afterwards, and what is given."""
    return f"on({name},{{{numbers}}}{behind(arguments)}) => '{after}' {given}"


ON = ("local function after(t,...) return table.concat(t,','),... end local function on(f,t,...) return after(t,f(t,...)) end "
      + functions("table", "insert remove maxn sort"))
rows("rows_of_lists", "Lists that are changed.", "\n".join(changed(*change) for change in CHANGES if change[:3] != NOT_OF_LUA), ON)
rows("rows_of_nothing_inserted", "Lua 5.1 has an error for it.", "\n".join(changed(*change) for change in CHANGES if change[:3] == NOT_OF_LUA), ON, profile=True)
for number, (name, numbers, arguments, given, charge, _) in enumerate(CHANGES):
    items, others = [text.count(",") + (text > "") for text in (numbers, arguments)]
    measured(f"steps_of_list_{number}", f"{charge} for `{name}`; beside it the list, `return`, the call, the function by its name, the arguments, and the function entered.",
             f"return {{f=function() local t={{{numbers}}} return table.{name}(t{behind(arguments)}) end}}",
             [1 + 9 + 5 * items, 1 + 1 + 3 + 1 + others + 1, charge, len(given)], f"gives {given}")
measured("steps_of_sorted_texts", "Two entries are read and written, with two comparisons each.", "return {f=function() local t={'ab','B'} table.sort(t) end}",
         [1 + 9 + 2 * 5, 1 + 1 + 3 + 1 + 1, 8])
rows("rows_of_joined_lists", "Lists that are joined, and texts that are put in order.", r"""
concat({10,20,30},', ',1,3) => '10, 20, 30'
concat({10,20,30},'-',2,2) => '20'
concat({10,20,30},'-',3,2) => ''
on(sort,{'ab','B'}) => 'B,ab'
""", ON + functions("table", "concat"))
rows("rows_of_refused_lists", "Errors of `table`.", r"""
concat({10,20,30},'-',2,9223372036854775807) => ! invalid value (at index 4) in table for 'concat'
insert({1},0,5) => ! bad argument #2 to 'insert' (out of range)
sort({1},1) => ! bad argument #2 to 'sort' (nil expected, got number)
insert(loaded) => ! table from mw.loadData is read-only
remove(loaded) => ! table from mw.loadData is read-only
sort(loaded) => ! table from mw.loadData is read-only
""", functions("table", "concat insert remove sort") + "local loaded=mw.loadData('Module:D') ", profile=True,
     replies=[(("table", [("#1", "#2"), ("#2", "#1")]), "-0")])


# ---- `mw.ustring`
rows("rows_of_code_points", "Code points, their places, and parts of texts.", r"""
char() => ''
char(97,233,1114111) => 'a\xc3\xa9\xf4\x8f\xbf\xbf'
char(0) => '\x00'
char('65') => 'A'
char(97,55296) => ! bad argument #2 to 'char' (out of range)
char(1114112) => ! bad argument #1 to 'char' (out of range)
char(-1) => ! bad argument #1 to 'char' (out of range)
char(97,nil) => ! bad argument #2 to 'char' (number expected, got nil)
codepoint('a\xc3\xa9bc') => 97
codepoint('a\xc3\xa9bc',2) => 233
codepoint('a\xc3\xa9bc',-1) => 99
codepoint('a\xc3\xa9bc',0,2) => 97 233
codepoint('a\xc3\xa9bc',3,2) =>
codepoint('a\xc3\xa9bc',-9,9) => 97 233 98 99
codepoint('\xff') => ! bad argument #1 to 'codepoint' (not UTF-8)
codepoint(nil) => ! bad argument #1 to 'codepoint' (string expected, got nil)
codepoint('a','x') => ! bad argument #2 to 'codepoint' (number expected, got string)
byteoffset('a\xc3\xa9b',3) => 4
byteoffset('a\xc3\xa9b',4) => nil
byteoffset('a\xc3\xa9b',1,3) => 4
byteoffset('a\xc3\xa9b',0,3) => 2
byteoffset('a\xc3\xa9b',1,2) => 2
byteoffset('a\xc3\xa9b',-1,3) => 1
byteoffset('a\xc3\xa9b',-2,3) => nil
byteoffset('a\xc3\xa9b',1,-2) => 4
byteoffset('a\xc3\xa9b',1,-5) => nil
byteoffset('a\xc3\xa9b') => 1
byteoffset('',0,1) => nil
sub('a\xc3\xa9bc',-2) => 'bc'
sub('a\xc3\xa9bc',-10,-2) => 'a\xc3\xa9b'
sub('a\xc3\xa9bc',0) => 'a\xc3\xa9bc'
sub('a\xc3\xa9bc',2,2) => '\xc3\xa9'
sub('a\xc3\xa9bc',3,2) => ''
sub('a\xc3\xa9bc','-9223372036854775808','9223372036854775807') => 'a\xc3\xa9bc'
sub('a') => ! bad argument #2 to 'sub' (number expected, got no value)
sub('a',1,true) => ! bad argument #3 to 'sub' (number expected, got boolean)
""", functions("mw.ustring", "char codepoint byteoffset sub"), profile=True)
rows("rows_of_searches", "Searches over code points.", r"""
find('a\xc3\xa9bc','',10) => 5 4
find('a\xc3\xa9bc','()b()') => 3 3 3 4
find('a\xc3\xa9b','b',-1) => 3 3
find('a\xc3\xa9b\xc3\xa9','\xc3\xa9',3,true) => 4 4
find('a\xc3\xa9.b','.',2,true) => 3 3
find('a\xc3\xa9b','^\xc3\xa9',2) => 2 2
find('a\xc3\xa9b','^\xc3\xa9') => nil
find('a\xc3\xa9b','(.)b') => 2 3 '\xc3\xa9'
find('THE (quick)','%f[%a]%a+%f[%A]',4) => 6 10
find('\xd9\xa3','%d') => 1 1
find('a','[a') => ! malformed pattern (2)
find('a','%1') => ! malformed pattern (7)
find('a','\xff') => ! bad argument #2 to 'find' (not UTF-8)
find('a','\xff',1,true) => ! bad argument #2 to 'find' (not UTF-8)
find('a') => ! bad argument #2 to 'find' (string expected, got no value)
match('a\xc3\xa9bc','.b') => '\xc3\xa9b'
match('a\xc3\xa9bc','(.)(b)') => '\xc3\xa9' 'b'
match('a\xc3\xa9bc','()c') => 4
match('a\xc3\xa9bc','x') => nil
match('a\xc3\xa9bc','.',-1) => 'c'
match('f(a(b)c)d','%b()') => '(a(b)c)'
match(12,'%d') => '1'
match('a','%b(') => ! malformed pattern (8)
""", functions("mw.ustring", "find match"), profile=True)
rows("rows_of_forms", "Lengths, and normal forms.", r"""
len('\xc3\xa9') => 1
len(-12) => 3
len('\xed\xa0\x80') => nil
len() => ! bad argument #1 to 'len' (string expected, got no value)
isutf8('\xf4\x90\x80\x80') => false
isutf8('\xc0\x80') => false
isutf8('\xf4\x8f\xbf\xbf') => true
isutf8(1) => true
toNFC('e\xcc\x81') => '\xc3\xa9'
toNFC('\xe2\x84\xab') => '\xc3\x85'
toNFC('q\xcc\x87\xcc\xa3') => 'q\xcc\xa3\xcc\x87'
toNFC('\xff') => nil
toNFD('\xea\xb0\x81') => '\xe1\x84\x80\xe1\x85\xa1\xe1\x86\xa8'
toNFD('\xff') => nil
toNFKC('\xe2\x91\xa0\xc2\xbd') => '11\xe2\x81\x842'
toNFKC('\xff') => nil
toNFKD('\xc2\xb2') => '2'
""", functions("mw.ustring", "len isutf8 toNFC toNFD toNFKC toNFKD"), profile=True)
counted("steps_of_ustring_find", "The bytes that are given, 6, that of the pattern, and a try at each of three code points.", "mw.ustring.find('a\xc3\xa9bc','b')", "33",
        1 + 2 + 2 + 1 + 2 + 1 + (6 + 1 + 3))


# ---- `mw.text`
rows("rows_of_trimmed_texts", "Ends that are cut off; characters that are encoded and decoded.", r"""
trim(' x\t') => 'x'
trim('xxaxx','x') => 'a'
trim('xxx','x') => ''
trim('a-b-a','a-') => 'b'
trim(']a]',']') => 'a'
trim('^a^','^a') => 'a'
trim('a1b','%a') => '1'
trim('\x0b\xc2\xa0x') => '\x0b\xc2\xa0x'
trim(' x ',nil) => 'x'
trim(12,'1') => '2'
trim('x','') => ! malformed pattern (2)
trim('x','a]b') => ! malformed pattern (2)
trim('x','\xff') => ! bad argument #2 to 'trim' (not UTF-8)
trim('\xff') => ! bad argument #1 to 'trim' (not UTF-8)
trim(nil) => ! bad argument #1 to 'trim' (string expected, got nil)
encode("<a href=\"x\">'&\xc2\xa0") => '&lt;a href=&quot;x&quot;&gt;&#39;&amp;&nbsp;'
encode('abc\xc3\xa9','b-\xc3\xa9') => 'a&#98;&#99;&#233;'
encode('<a>','a') => '<&#97;>'
encode('&',nil) => '&amp;'
encode('a','%') => ! malformed pattern (2)
decode('&#65&#66;') => '&#65B'
decode('&amp;lt;') => '&lt;'
decode('&#00039;') => '''
decode('&#x1F600;&#128512;') => '\xf0\x9f\x98\x80\xf0\x9f\x98\x80'
decode('&lt;&gt;&amp;&quot;&nbsp;') => '<>&"\xc2\xa0'
decode('&#xD800;&#1114112;&LT;&#X41;') => '&#xD800;&#1114112;&LT;&#X41;'
decode('\xff') => '\xff'
""", functions("mw.text", "trim encode decode"), profile=True)
rows("rows_of_split_texts", "The parts of a text.", r"""
split('abc','') => 'a' 'b' 'c'
split('','') => ''
split(',',',') => '' ''
split('a,b,',',') => 'a' 'b' ''
split('abc','b*') => 'a' '' 'c'
split('bab','b*') => '' 'a' '' ''
split('bbb','b*') => '' ''
split('abc','$') => 'abc'
split('abc','c$') => 'ab' ''
split('aaa','^a') => '' '' '' ''
split('a b  c','%s*') => 'a' '' 'b' '' 'c'
split('THE (quick)','%f[%a]') => 'T' 'HE (q' 'uick)'
split('abc','',true) => 'a' 'b' 'c'
split('a.b','.',true) => 'a' 'b'
split('\xc3\xa9x','x') => '\xc3\xa9' ''
split('a','%') => ! malformed pattern (1)
split('a') => ! bad argument #2 to 'split' (string expected, got no value)
split('a','\xff',true) => ! bad argument #2 to 'split' (not UTF-8)
""", "local function split(...) return unpack(mw.text.split(...)) end ", profile=True)
rows("rows_of_made_texts", "Lists, elements, and texts that are made shorter.", r"""
listToText({1,2,3}) => '1, 2 and 3'
listToText({'a'}) => 'a'
listToText({'a','b'}) => 'a and b'
listToText({}) => ''
listToText({'a','b','c'},';','&') => 'a;b&c'
listToText({'a','b','c'},nil,1) => 'a, b1c'
listToText({'a',true}) => ! bad argument #1 to 'listToText' (string expected, got boolean)
listToText('a') => ! bad argument #1 to 'listToText' (table expected, got string)
listToText({'a'},true) => ! bad argument #2 to 'listToText' (string expected, got boolean)
nowiki({'x'}) => ! bad argument #1 to 'nowiki' (string expected, got table)
nowiki("'{a}&") => '&#39;&#123;a&#125;&#38;'
nowiki('a\xff=b') => 'a\xff&#61;b'
nowiki(7) => '7'
tag('b',{x=1}) => '<b x="1">'
tag('b',nil,'') => '<b></b>'
tag('b',{},false) => '<b />'
tag('b',{a=true,b=false},'t') => '<b a>t</b>'
tag('b',{x="<'>"}) => '<b x="&lt;&#39;&gt;">'
tag({name='i',content='t'}) => '<i>t</i>'
tag({name='br',content=false,attrs='x'}) => ! bad argument #2 to 'tag' (table expected, got string)
tag('b',{x='['}) => '<b x="[">'
tag('b',nil,true) => ! bad argument #3 to 'tag' (string expected, got boolean)
tag(nil) => ! bad argument #1 to 'tag' (string expected, got nil)
truncate('abcdefghijklmnop',5) => 'abcde...'
truncate('abcdefghijklmnop',-5) => '...lmnop'
truncate('abcdefghijklmnop',5,nil,true) => 'ab...'
truncate('abcdefghijklmnop',5,'\xe2\x80\xa6',true) => 'abcd\xe2\x80\xa6'
truncate('abcdef',2,'...',true) => '...'
truncate('abcdef',0) => '...'
truncate('abcdef',3) => 'abc...'
truncate('abcdef',6) => 'abcdef'
truncate('abcdef') => ! bad argument #2 to 'truncate' (number expected, got no value)
truncate('a',1,'\xff') => ! bad argument #3 to 'truncate' (not UTF-8)
""", functions("mw.text", "listToText nowiki tag truncate"), profile=True)


# ---- frames: with the argument `1` of one byte, where nothing else is said
ARGUMENT = [("1", "x")]


def of_frame(name, said, statement, steps, end="gives ", **more):
    measured(name, said, "return {f=function(frame) " + statement + " end}", steps, end, ARGUMENT, **more)


rows("rows_of_frames", "Methods of a frame; none of them looks at a further argument.", r"""
mw.getCurrentFrame(frame,'')==frame => true
frame:getTitle('') => 'Module:X'
select('#',frame:argumentPairs('')) => 3
frame:argumentPairs('')({},nil) => nil
select('#',frame:getArgument('1')) => 1
frame:getArgument('2') => nil
select('#',frame:getParent('')) => 1
frame:getParent(''):getParent({title=''}) => nil
select('#',frame:newChild({title='B'})) => 1
frame:newChild({title='['}) => ! invalid title '['
frame:newChild('B') => ! bad template arguments
frame:extensionTag('br') => '<br>'
""", args=ARGUMENT, profile=True)
of_frame("steps_of_current_frame", "Nothing but the call.", "mw.getCurrentFrame()", [1 + 1 + 3 + 1])
of_frame("steps_of_get_title", "Nothing but the call.", "frame:getTitle()", [1 + 1 + 1 + 1])
of_frame("steps_of_argument_pairs", "Nothing but the call.", "frame:argumentPairs()", [1 + 1 + 1 + 1])
of_frame("steps_of_get_argument", "A table with two entries.", "frame:getArgument('1')", [1 + 1 + 2 + 1, 16])
of_frame("steps_of_no_argument", "Nothing but the call.", "frame:getArgument('2')", [1 + 1 + 2 + 1])
of_frame("steps_of_get_parent", "A frame whose two arguments have a name and a value of one byte each.", "frame:getParent()", [1 + 1 + 1 + 1, 16 + 2 * (4 + 2)], parent=True)
of_frame("steps_of_bare_parent", "A frame without arguments.", "frame:getParent()", [1 + 1 + 1 + 1, 16])
of_frame("steps_of_no_parent", "The parent is a frame; that one has none, which costs nothing.", "frame:getParent():getParent()", [1 + 1 + 1 + 1, 16, 1 + 1])
of_frame("steps_of_new_child", "A frame without arguments.", "frame:newChild({title='B'})", [1 + 1 + 1 + 9 + 1 + 1 + 4 + 1, 16])
of_frame("steps_of_preprocess", "The bytes of the text.", "frame:preprocess('{{1}}')", [1 + 1 + 2 + 1, 5], "asks preprocess {{1}} in Module:X|1=x")
of_frame("steps_of_expand_template", "The bytes of the title, `Template:T`.", "frame:expandTemplate({title='T'})", [1 + 1 + 1 + 9 + 1 + 1 + 4 + 1, 10], "asks template Template:T in Module:X|1=x")
of_frame("steps_of_cleared_arguments", "A cleared entry that is passed costs a step.", "local t={x=1} t.x=nil frame:expandTemplate({title='T',args=t})",
         [1 + 9 + 2 + 4, 1 + 3 + 1, 1 + 1 + 1 + 9 + 2 * (1 + 1 + 4) + 1, 1, 10], "asks template Template:T in Module:X|1=x")
of_frame("steps_of_a_cleared_child", "So it does for a child.", "local t={x=1} t.x=nil frame:newChild({args=t})",
         [1 + 9 + 2 + 4, 1 + 3 + 1, 1 + 1 + 1 + 9 + 1 + 1 + 4 + 1, 1, 16])
of_frame("steps_of_a_bad_title", "A message that quotes the title costs its bytes at no place too; then no entry is looked at.",
         "local t={x=1} t.x=nil pcall(frame.newChild,frame,{title='[',args=t})", [1 + 9 + 2 + 4, 1 + 3 + 1, 1 + 1 + 1 + 3 + 1 + 9 + 2 * (1 + 1 + 4) + 1 + 1, len("invalid title '['")])
of_frame("steps_of_an_absent_template", "Nor is the message free that there is no template; a step is gone with the answer.", "pcall(frame.expandTemplate,frame,{title='U'})",
         [1 + 1 + 1 + 3 + 1 + 9 + 1 + 1 + 4 + 1 + 1, 10, 1, len("template 'U' does not exist")], replies=[(("none",), "-1")])
of_frame("steps_of_extension_tag", "The bytes that are given, and those of `<br>`.", "frame:extensionTag('br')", [1 + 1 + 2 + 1, 2 + 4])


measured("steps_of_cleared_attributes", "A cleared entry that `mw.text.tag` passes costs a step, up to a wrong one.",
         "return {f=function() local t={x=1,[true]=1,y=1} t.x=nil t.y=nil pcall(mw.text.tag,'b',t) end}",
         [1 + 9 + 3 * (2 + 4), 2 * (1 + 3 + 1), 1 + 1 + 1 + 5 + 2 + 1 + 1, 1, 1])
body("messages_in_messages", "A message that quotes the one before it is paid for, so that the steps end long before the memory.", "local ok,m=true,'x'\nwhile true do ok,m=pcall(require,m) end",
     levels=False, profile=True, runs=[("exact", AMPLE, CALLS, [], "spends steps, 0 left")])


# ---- `mw.html`
rows("rows_of_objects", "Objects, of which the text is seen, and what is told of them.", r"""
create('div'):attr('b','1'):attr('a','2'):css('color','red'):addClass('x'):css('top','0'):addClass('y') => <div b="1" a="2" class="x y" style="color:red;top:0"></div>
create('p'):attr('id','i'):attr('a','1'):attr('id',nil):attr('id','j') => <p a="1" id="j"></p>
create('p'):css('a','b'):css('a',nil):css('c','d') => <p style="c:d"></p>
create('p'):css('a','1'):css('b','2'):css('a','3') => <p style="a:3;b:2"></p>
create('p'):attr('style','x:y'):css('a','b') => <p style="x:y;a:b"></p>
create('p'):css('a','b'):attr('style','x:y') => <p style="x:y"></p>
create('p'):attr('style','') => <p style=""></p>
create('p'):css('a','') => <p style="a:"></p>
create('p'):css('a','b"<') => <p style="a:b&quot;&lt;"></p>
create('p'):cssText('x:y;'):css('a','b') => <p style="x:y;;a:b"></p>
create('p'):cssText(nil):css('a','b') => <p style="a:b"></p>
create('p'):cssText() => <p></p>
create('p'):attr('title','x&y>"<') => <p title="x&amp;y&gt;&quot;&lt;"></p>
create('br') => <br />
create('BR') => <BR></BR>
create(''):css('a','b'):attr('id','i'):wikitext('t') => t
create('p'):wikitext('a',nil,'b') => <p>a</p>
create(''):newline():node('x'):node(nil):node(1) => \nx1
create('div'):tag('p'):tag('b'):allDone() => <div><p><b></b></p></div>
create('div'):tag('p'):wikitext('x'):done():tag('b'):done() => <div><p>x</p><b></b></div>
create('b',{selfClosing=true}):attr('id','i') => <b id="i" />
create('b'):tag('i',{selfClosing=true}):done() => <b><i /></b>
create('p'):attr({id='i'}) => <p id="i"></p>
create('p'):css({top='0'}) => <p style="top:0"></p>
create('p'):addClass('a'):getAttr('class') => 'a'
create('p'):attr('style','a:b'):getAttr('style') => nil
create('p'):addClass(''):addClass('a') => <p class=" a"></p>
create('p'):attr({}) => <p></p>
""", functions("mw.html", "create"), profile=True)
rows("rows_of_refused_objects", "Errors, which are counted from the object.", r"""
create('1') => ! bad html name
create('p'):attr('1','x') => ! bad html name
create('p'):attr({['-a']='x'}) => ! bad html name
create(true) => ! bad argument #1 to 'create' (string expected, got boolean)
create('p',1) => ! bad argument #2 to 'create' (table expected, got number)
create('p'):node(true) => ! bad argument #2 to 'node' (string expected, got boolean)
create('p'):wikitext('a',true) => ! bad argument #3 to 'wikitext' (string expected, got boolean)
create('p'):cssText(true) => ! bad argument #2 to 'cssText' (string expected, got boolean)
create('p'):cssText({}) => ! bad argument #2 to 'cssText' (string expected, got table)
create('p'):attr() => ! bad argument #2 to 'attr' (string expected, got no value)
create('p'):css('a',true) => ! bad argument #3 to 'css' (string expected, got boolean)
create('p'):tag('b',true) => ! bad argument #3 to 'tag' (table expected, got boolean)
create('p').newline() => ! bad argument #1 to 'newline' (table expected, got no value)
""", functions("mw.html", "create"), profile=True)
