"""Cases by hand of `string`, `math`, `table`, `mw.ustring` and `mw.text`, behind the cases of `machine_cases.py`. Ends are those of the manual, of Lua 5.1 (all that aren't marked `profile`), and of Scribunto; steps are counted by
docs/RULES.md. Bytes of texts are written as such."""
from machine_cases import AMPLE, CALLS, CASES, body, hand

SAY = "local function say(...) local s='' for i=1,select('#',...) do s=s..(i>1 and ' ' or '')..tostring((select(i,...))) end return s end\n"
TRY = "local function try(f,...) return tostring(select(2,pcall(f,...)))..';' end\n"
ALL = "local function all(...) local s='' for a,b,c in ... do s=s..'['..tostring(a)..(b and ' '..b or '')..(c and ' '..c or '')..']' end return s end\n"
READ_ONLY = "table from mw.loadData is read-only"


def says(name, said, text, gives, **more):
    """What some values are, with spaces between."""
    body(name, said, SAY + "return say(" + text + ")", gives, **more)


def gives_all(name, said, iterators, gives, **more):
    """All that some iterators give, each in brackets; a line between two iterators."""
    body(name, said, ALL + "return " + "..'|'..".join(f"all({one})" for one in iterators), "|".join(gives), **more)


def named(library, function):
    """A function by its name in a module; the basic functions have no library."""
    return f"{library}.{function}" if library else function


def refuses(name, said, library, pairs, **more):
    """Each function without an argument: its name and its message."""
    calls = ",".join(f"try({named(library, function)})" for function, _ in pairs)
    body(name, said, TRY + "return " + calls, ";".join(told for _, told in pairs) + ";", profile=True, **more)


def wanting(kind, functions):
    return [(name, f"bad argument #1 to '{name}' ({kind} expected, got no value)") for name in functions.split()]


# ---- steps, counted by hand. `return {f=function() return .. end}` begins with 1,000, its bytes, 1 for the chunk, and 24 for what it
# makes; then come the function, its `return`, and the bytes of the answer.
def counted(name, said, expression, gives, steps):
    text = "return {f=function() return " + expression + " end}"
    taken = 1000 + len(text) + 1 + 24 + 2 + steps + len(gives)
    hand(name, said, text, None, profile=True, levels=False, runs=[("took", AMPLE, CALLS, [], f"gives {gives}, {taken} taken")])


counted("steps_of_rep", "The call, its text, the number, the function entered, and 6 bytes.", "('ab'):rep(3)", "ababab", 1 + 1 + 1 + 1 + 1 + 6)
counted("steps_of_byte", "A step for each of two numbers.", "('AB'):byte(1,2)", "6566", 1 + 1 + 1 + 2 + 1 + 2)
counted("steps_of_find", "Two bytes of the pattern; five tries: at h and e, then two of l and one of o; a place costs nothing.", "('hello'):find('l+')", "34", 1 + 1 + 1 + 1 + 1 + 2 + 5)
counted("steps_of_match", "Four bytes of the pattern, two marks and two tries, and a byte that is given.", "('ab'):match('(a)b')", "a", 1 + 1 + 1 + 1 + 1 + 4 + 4 + 1)
counted("steps_of_format", "The bytes of both texts that are given, and those of the text.", "('%s-%d'):format('ab',7)", "ab-7", 1 + 1 + 1 + 2 + 1 + 7 + 4)
counted("steps_of_plain_find", "The bytes from the start on, and those of the needle.", "('a.b'):find('.',2,1)", "22", 1 + 1 + 1 + 3 + 1 + 2 + 1)
counted("steps_of_max", "The node of the index with its key and `math`, and nothing but the call.", "math.max(1,5)", "5", 1 + 1 + 1 + 1 + 2 + 1)
counted("steps_of_concat", "The constructor with 8 and two items of 4; two reads, three bytes.", "table.concat({1,2},'+')", "1+2", 1 + 1 + 1 + 1 + (1 + 8 + 2 * 5) + 1 + 1 + 2 + 3)
counted("steps_of_upper_point", "The bytes that are given come first: 2, and then one number.", "mw.ustring.codepoint('\xc3\xa9')", "233", 1 + 2 + 2 + 1 + 1 + 1 + 2 + 1)
counted("steps_of_trim", "Three bytes; a try at the space, at x, at the space behind it, and at x; a byte.", "mw.text.trim(' x ')", "x", 1 + 2 + 2 + 1 + 1 + 1 + 3 + 4 + 1)
counted("steps_of_split", "The bytes that are given, the pattern's, three tries, the table, and two parts; `#` is a node.", "#mw.text.split('a,b',',')", "2", 1 + 1 + 2 + 2 + 1 + 2 + 1 + 4 + 1 + 3 + 8 + 2 * 5)
counted("steps_of_gmatch", "The iterator costs 8; its step the bytes of the pattern, a try at a and one at 1, and a byte.", "('a1'):gmatch('%d')()", "1", 1 + 1 + 1 + 1 + 1 + 1 + 8 + 1 + 2 + 2 + 1)
counted("steps_of_gcodepoint", "The bytes that are given, and the iterator; a step costs nothing but its call.", "mw.ustring.gcodepoint('\xc3\xa9')()", "233", 1 + 1 + 2 + 2 + 1 + 1 + 1 + 2 + 8 + 1)
counted("steps_of_gsplit", "The bytes that are given, and the iterator; then the pattern's, two tries, and those of the part.", "mw.text.gsplit('a,b',',')()", "a", 1 + 1 + 2 + 2 + 1 + 2 + 1 + 4 + 8 + 1 + 1 + 2 + 1)
counted("steps_of_ustring_gmatch", "A step costs first the bytes of what it is given, used or not: here 3.", "mw.ustring.gmatch('ab','.')('xyz')", "a", 1 + 1 + 2 + 2 + 1 + 2 + 1 + 1 + 3 + 8 + 1 + 3 + 1 + 1 + 1)


# ---- `string`
says("find_captures", "Places and a capture.", "('THE (quick) fox'):find('%((%a+)%)')", "5 11 quick")
body("format_row", "Five directives.", "return string.format('%5d|%-4s|%x|%q|%.2f',42,'ab',255,'a\"b',3)", '   42|ab  |ff|"a\\\\"b"|3.00')
says("string_methods", "Functions as methods of a text.", "('Abc'):upper(),('Abc'):lower(),('Abc'):rep(2),('Abc'):reverse(),('Abc'):len(),('Abc'):sub(2,-1),('Abc'):byte()", "ABC abc AbcAbc cbA 3 bc 65")
says("parts_of_a_text", "Places from the end, and past it.", "('hello'):sub(0),('hello'):sub(-3),('hello'):sub(10)..'|',('hello'):sub(3,2)..'|',('hello'):sub(-100,2),('hello'):sub(2,-2)", "hello llo | | he ell")
says("bytes_of_a_text", "Codes from a place to another; none from 0 to 0.", "select('#',('hello'):byte(0,0)),('hello'):byte(1,-1)", "0 104 101 108 108 111")
says("chars", "Bytes by their codes.", "string.char(72,105),#string.char(),#string.char(0,255)", "Hi 0 2")
says("repeated", "None below 1.", "('ab'):rep(3),('ab'):rep(0)..'|',('ab'):rep(-1)..'|',#(''):rep(1000000)", "ababab | | 0")
says("find_places", "Where a search begins.", "('hello'):find('l',-2)", "4 4")
says("find_nothing_past_the_end", "An `init` past the end is the end.", "('hello'):find('',10)", "6 5")
says("find_plainly", "A plain search.", "('a.b'):find('.',2,true)", "2 2")
says("find_place_captures", "Places as captures.", "('hello'):find('()ll()')", "3 4 3 5")
says("find_anchored", "Under `^` only the first place counts, also with an `init`.", "('abc'):find('^b',2)", "2 2")
says("match_row", "Two captures.", "('key = val'):match('^(%w+)%s*=%s*(%w+)$')", "key val")
says("match_balanced", "Brackets that pair.", "('f(a(b)c)d'):match('%b()')", "(a(b)c)")
says("match_back_reference", "A text that stands twice.", "('say \"it\\'s\" now'):match('([\"\\'])(.-)%1')", "\" it's")
says("match_nothing", "Nil.", "('abc'):match('x'),(('abc'):match('b',3))", "nil nil")
says("frontier", "A frontier, which Lua 5.1 has too.", "('THE (quick) fox'):find('%f[%a]%a+%f[%A]',4)", "6 10")
says("format_numbers", "Widths, precisions and signs.", "('%05d|%-5d|%+d|% d|%5.3d|%x|%X|%o|%c|%i'):format(42,42,42,42,7,255,255,8,65,-3)", "00042|42   |+42| 42|  007|ff|FF|10|A|-3")
says("format_texts", "Texts with widths and precisions.", "('%s|%5s|%-5s|%.2s|%%'):format('abc','abc','abc','abc')", "abc|  abc|abc  |ab|%")
says("format_numbers_as_texts", "A number where a text is wanted, and the other way round.", "('%s %d %q'):format(12,'34',5)", "12 34 \"5\"")
says("format_points", "`%f` of whole numbers.", "('%f|%.1f|%6.1f|%.0f'):format(3,-2,7,9)", "3.000000|-2.0|   7.0|9")
says("texts_as_numbers", "A text that reads as a number is one where a number is wanted.", "('abcdef'):sub('2',' 4 '),('ab'):rep('2'),string.len(12345)", "bcd abab 5")
body("length_of_a_number", "A number has no methods of strings, but the function takes it.", "return string.len(12345)", "5")
body("method_of_a_number", "A number can't be indexed.", "local n=5\nreturn n:rep(2)", fails="Lua error: Module:X:3: attempt to index a number value", profile=True)
says("string_of_nul", "NUL is a byte as any other.", "#('a\\0b'):rep(2),('a\\0b'):find('\\0',1,true)", "6 2 2")
body("rep_beyond_all", "A text of 9 times 10^18 bytes is paid for before it is made.", "return ('x'):rep(9*10^18)", levels=False, profile=True, runs=[("exact", AMPLE, CALLS, [], "spends steps, 0 left"), ("exact", 2000, CALLS, [], "spends steps, 0 left")])
body("rep_beyond_numbers", "And one of 4 times 9 times 10^18 bytes.", "return ('abcd'):rep(9*10^18)", levels=False, profile=True, runs=[("exact", AMPLE, CALLS, [], "spends steps, 0 left")])
body("maybe_forty_times", "`a?` forty times, and then `a` forty times.", "local s=('a'):rep(40)\nreturn s:find(('a?'):rep(40)..s)", levels=False, profile=True, runs=[("exact", AMPLE, CALLS, [], "spends steps, 0 left")])
body("many_stars", "A search that goes back at each place.", "return (('a'):rep(200)..'b'):match(('a*'):rep(8)..'c')", levels=False, profile=True, runs=[("exact", AMPLE, CALLS, [], "spends steps, 0 left")])
body("malformed_patterns", "Patterns that are none, each with its number.", TRY + "return try(string.find,'a','%'),try(string.find,'a','[a'),try(string.match,'a','%f'),try(string.match,'a','('),try(string.find,'a',')'),try(string.find,'a',('()'):rep(33)),try(string.match,'a','%1'),try(string.find,'a','%b')",
     "".join(f"malformed pattern ({n});" for n in range(1, 9)), profile=True)
body("malformed_pattern_place", "With the place of the call.", "return ('a'):find('%')", fails="Lua error: Module:X:2: malformed pattern (1)", profile=True)
body("wrong_formats", "Faults of formats.", TRY + "local f=string.format\nreturn try(f,'%y'),try(f,'%'),try(f,'%d'),try(f,'%d','x'),try(f,'%s',{}),try(f,'%c',256),try(f,'%d %s',1),try(f)",
     "invalid option to 'format';invalid option to 'format';bad argument #2 to 'format' (number expected, got no value);bad argument #2 to 'format' (number expected, got string);bad argument #2 to 'format' (string expected, got table);bad argument #2 to 'format' (out of range);bad argument #3 to 'format' (string expected, got no value);bad argument #1 to 'format' (string expected, got no value);", profile=True)
body("wrong_codes", "A number that is no code, and of two wrong ones the first.", TRY + "return try(string.char,72,256),try(string.char,-1),try(string.char,1,'x',256)",
     "bad argument #2 to 'char' (out of range);bad argument #1 to 'char' (out of range);bad argument #2 to 'char' (number expected, got string);", profile=True)
body("wrong_kinds_of_texts", "Each kind where a text is wanted.", TRY + "local u=string.upper\nreturn try(u,nil),try(u,true),try(u,{}),try(u,u)",
     "".join(f"bad argument #1 to 'upper' (string expected, got {kind});" for kind in ("nil", "boolean", "table", "function")), profile=True)
body("method_with_a_wrong_argument", "The place of a method's call.", "local s='ab'\nreturn s:rep({})", fails="Lua error: Module:X:3: bad argument #2 to 'rep' (number expected, got table)", profile=True)
refuses("string_without_arguments", "The functions of `string` without an argument.", "string", [*wanting("string", "byte"), ("char", ""), *wanting("string", "find match gmatch format len lower upper rep reverse sub")])
body("order_of_string", "The names of `string`, in order.", "local s='' for k,v in pairs(string) do s=s..k..' ' end return s", "byte char find match gmatch gsub format len lower upper rep reverse sub ", profile=True)
body("index_of_a_text", "A text has the functions of `string` as fields, and no others.", SAY + "local s='x'\nreturn say(s.upper==string.upper,s.absent,s.len(s))", "true nil 1")
body("changed_string", "What is put into `string` is a method.", "function string.twice(s) return s..s end\nreturn ('ab'):twice()", "abab")


# ---- `math`
says("math_row", "Numbers.", "math.max(1,5,3),math.min(4,-2),math.abs(-7),math.floor(5),math.ceil(-5),math.pow(2,10)", "5 -2 7 5 -5 1024")
says("fmod_row", "The rest has the sign of the first.", "math.fmod(-7,3),math.fmod(7,-3),math.fmod(-5,-3),math.fmod(6,3)", "-1 1 -2 0")
says("math_of_texts", "Texts that read as numbers.", "math.max('3',2),math.abs(' -4 '),math.fmod('7','4')", "3 4 3")
body("math_out_of_range", "What leaves 64 bits, and what isn't whole.", TRY + "return try(math.abs,-9223372036854775807-1),try(math.pow,2,63),try(math.pow,2,-1),try(math.pow,0,-1),try(math.fmod,1,0),tostring(math.fmod(-9223372036854775807-1,-1))",
     "number out of range;number out of range;quotient is not whole;division by zero;division by zero;0", profile=True)
refuses("math_without_arguments", "The functions of `math` without an argument.", "math", wanting("number", "abs ceil floor fmod max min pow"))
body("max_names_the_argument", "The first that is no number.", TRY + "return try(math.max,1,2,{}),try(math.min,nil,'x')", "bad argument #3 to 'max' (number expected, got table);bad argument #1 to 'min' (number expected, got nil);", profile=True)
body("order_of_math", "The names of `math`, in order.", "local s='' for k,v in pairs(math) do s=s..k..' ' end return s", "abs ceil floor fmod max min pow ", profile=True)


# ---- `table`
says("concat_row", "Joined.", "table.concat({1,'b',3},', '),table.concat({}),table.concat({'a','b','c'},'-',2),table.concat({'a','b','c'},'-',2,2),table.concat({'a'},'-',3)..'|'", "1, b, 3  b-c b |")
body("insert_and_remove", "Places that move.", "local t={1,2,3}\ntable.insert(t,4) table.insert(t,1,0) table.insert(t,3,'x')\nlocal a,b=table.remove(t),table.remove(t,1)\nreturn a,b,table.concat(t,' ')", "401 x 2 3")
body("remove_nothing", "Of an empty table, and of a place that isn't there.", SAY + "local t={1}\nreturn say(table.remove({}),select('#',table.remove(t,5)),#t)", "nil 0 1", profile=True)
body("sort_numbers", "Numbers in order.", "local t={3,10,-2,3,0}\ntable.sort(t)\nreturn table.concat(t,' ')", "-2 0 3 3 10")
body("sort_texts", "Texts by their bytes.", "local t={'b','B','a','','ab'}\ntable.sort(t)\nreturn table.concat(t,' ')", " B a ab b")
body("sort_equal_texts", "Texts that stand there more than once.", "local t={'b','a','b','','a','bb','a',''}\ntable.sort(t)\nreturn table.concat(t,'.')", "..a.a.a.b.b.bb")
body("sort_one", "A single entry may be anything.", "local t={{}}\ntable.sort(t)\nreturn #t", "1")
body("sort_refuses", "Entries of two kinds, and a comparing function, leave the table as it was.", TRY + "local t={3,'a',1}\nreturn try(table.sort,t),try(table.sort,{{},1}),try(table.sort,{1,2},function() end),table.concat(t,' ')",
     "bad argument #1 to 'sort' (number expected, got string);bad argument #1 to 'sort' (string expected, got table);bad argument #2 to 'sort' (nil expected, got function);3 a 1", profile=True)
says("maxn_row", "The greatest number.", "table.maxn({1,2}),table.maxn({[7]=1,x=2}),table.maxn({}),table.maxn({[-3]=1})", "2 7 0 0")
body("maxn_of_cleared", "A cleared key doesn't count.", "local t={[9]=1,[4]=1}\nt[9]=nil\nreturn table.maxn(t)", "4")
body("table_functions_read_raw", "They ask no handler.", "local t=setmetatable({},{__index=function() return 'x' end,__newindex=function() end})\ntable.insert(t,'a')\nreturn table.concat(t,','),#t,rawget(t,1)", "a1a")
body("insert_where_it_is_refused", "A place below 1, and no place at all.", TRY + "return try(table.insert,{1,2},0,'x'),try(table.insert,{},'x','y'),try(table.insert,5,1),try(table.insert,{})",
     "bad argument #2 to 'insert' (out of range);bad argument #2 to 'insert' (number expected, got string);bad argument #1 to 'insert' (table expected, got number);nil;", profile=True)
body("concat_names_the_place", "The first entry that is no text.", TRY + "return try(table.concat,{'a',{},'b'}),try(table.concat,{'a'},',',1,2),try(table.concat,{},true)",
     "invalid value (at index 2) in table for 'concat';invalid value (at index 2) in table for 'concat';bad argument #2 to 'concat' (string expected, got boolean);", profile=True)
body("concat_beyond_all", "A million texts of a million bytes.", "local s,t=('x'):rep(1000000),{}\nfor i=1,1000000 do t[i]=s end\nreturn #table.concat(t)", levels=False, profile=True,
     runs=[("exact", 2 * AMPLE, CALLS, [], "spends steps, 0 left")])
body("concat_of_no_end", "Nothing stands there.", "return table.concat({},',',1,9*10^18)", fails="Lua error: Module:X:2: invalid value (at index 1) in table for 'concat'", profile=True)
body("insert_past_all_numbers", "Behind the greatest number there is no place; one past the end stands alone.", "local t={}\ntable.insert(t,9223372036854775807,'x')\nreturn #t,t[9223372036854775807]", "0x", profile=True)
refuses("table_without_arguments", "The functions of `table` without an argument.", "table", wanting("table", "concat insert maxn remove sort"))
body("order_of_table", "The names of `table`, in order.", "local s='' for k,v in pairs(table) do s=s..k..' ' end return s", "concat insert maxn remove sort ", profile=True)
DATA = dict(replies=[(("table", [("#1", "b"), ("#2", "a"), ("x", "v")]), "-2")], parent=True, profile=True, levels=False)
body("read_only_tables", "No function of `table` writes into loaded data.", TRY + "local d=mw.loadData('Module:D')\nreturn try(table.insert,d,'c'),try(table.insert,d,1,'c'),try(table.remove,d),try(table.sort,d),table.concat(d,' '),#d,d.x",
     f"{READ_ONLY};" * 4 + "b a2v", **DATA)
body("read_only_where_nothing_is_written", "What would write nothing is not refused, but nil that is inserted.", TRY + "local d=mw.loadData('Module:D')\nreturn try(table.remove,d,7),try(table.insert,d,nil),table.maxn(d)", f"nil;{READ_ONLY};2", **DATA)
body("copy_of_read_only", "A copy is put in order.", "local d=mw.clone(mw.loadData('Module:D'))\ntable.sort(d) table.insert(d,'c')\nreturn table.concat(d,' ')", "a b c", **DATA)


# ---- `mw.ustring`
says("ustring_row", "One code point of two bytes; bytes that aren't UTF-8 have no normal form.", "mw.ustring.len('\xc3\xa9'),#'\xc3\xa9',tostring(mw.ustring.toNFC('\\255'))", "1 2 nil", profile=True)
says("ustring_parts", "Parts by code points.", "mw.ustring.sub('a\xc3\xa9bc',2,3),mw.ustring.sub('a\xc3\xa9bc',-2),mw.ustring.sub('a\xc3\xa9bc',0),mw.ustring.char(97,233,8364)", "\\xc3\\xa9b bc a\\xc3\\xa9bc a\\xc3\\xa9\\xe2\\x82\\xac", profile=True)
says("ustring_numbers", "Numbers of code points, and where they begin.", "mw.ustring.codepoint('a\xc3\xa9b',1,-1)", "97 233 98", profile=True)
says("ustring_byteoffset", "Byte places of code points.", "mw.ustring.byteoffset('a\xc3\xa9b',3),mw.ustring.byteoffset('a\xc3\xa9b',0,3),mw.ustring.byteoffset('a\xc3\xa9b',-1,4),mw.ustring.byteoffset('a\xc3\xa9b',9),mw.ustring.byteoffset('',1)", "4 2 2 nil nil", profile=True)
says("ustring_find", "Places and captures by code points.", "mw.ustring.find('a\xc3\xa9bc','(%a)b')", "2 3 \\xc3\\xa9", profile=True)
says("ustring_find_plainly", "A plain search, and one past the end.", "mw.ustring.find('\xc3\xa9.b','.',1,true)", "2 2", profile=True)
says("ustring_find_nothing", "An `init` past the end counts as the end.", "mw.ustring.find('a\xc3\xa9bc','',10)", "5 4", profile=True)
says("ustring_match", "Classes by category; a place is a number.", "mw.ustring.match('x \xc3\x89t\xc3\xa9','()%u(%l+)')", "3 t\\xc3\\xa9", profile=True)
says("ustring_forms", "An accent that is put together, and apart.", "#mw.ustring.toNFC('e\\204\\129'),#mw.ustring.toNFD('\xc3\xa9'),mw.ustring.toNFKC('\xef\xac\x81'),#mw.ustring.toNFKD('\xef\xac\x81')", "2 3 fi 2", profile=True)
says("ustring_of_any_bytes", "`len` and `isutf8` take any bytes.", "mw.ustring.len('\\255'),mw.ustring.isutf8('\\255'),mw.ustring.isutf8('\xc3\xa9'),mw.ustring.isutf8('\\237\\160\\128')", "nil false true false", profile=True)
body("ustring_refuses", "Bytes that aren't UTF-8, and numbers of no code point.", TRY + "local u=mw.ustring\nreturn try(u.sub,'\\255',1),try(u.find,'a','\\255',1,true),try(u.match,'\\255','a'),try(u.codepoint,'\\255'),try(u.char,55296),try(u.char,97,1114112),try(u.find,'a','%')",
     "bad argument #1 to 'sub' (not UTF-8);bad argument #2 to 'find' (not UTF-8);bad argument #1 to 'match' (not UTF-8);bad argument #1 to 'codepoint' (not UTF-8);bad argument #1 to 'char' (out of range);bad argument #2 to 'char' (out of range);malformed pattern (1);", profile=True)
refuses("ustring_without_arguments", "The functions of `mw.ustring` without an argument.", "mw.ustring", [("char", ""), *wanting("string", "codepoint gcodepoint byteoffset find match gmatch gsub len sub isutf8 toNFC toNFD toNFKC toNFKD")])
body("ustring_maybe_forty_times", "`a?` forty times over code points.", "local s=('a'):rep(40)\nreturn mw.ustring.find(s,('a?'):rep(40)..s)", levels=False, profile=True, runs=[("exact", AMPLE, CALLS, [], "spends steps, 0 left")])


# ---- `mw.text`
says("text_row", "Encoded, trimmed, split, and shortened.", "mw.text.encode('<a&b>')..'/'..mw.text.trim(' x ')..'/'..#mw.text.split('abc','')..'/'..mw.text.truncate('abcdef',3)", "&lt;a&amp;b&gt;/x/3/abc...", profile=True)
says("text_splits", "Parts, also empty ones.", "table.concat(mw.text.split('a,b,,',','),'|'),table.concat(mw.text.split('a.b','.',true),'|'),table.concat(mw.text.split('abc','c$'),'|'),table.concat(mw.text.split('a b  c','%s*'),'|'),#mw.text.split('','x')", "a|b|| a|b ab| a||b||c 1", profile=True)
says("text_trims", "By a set.", "mw.text.trim('xxaxx','x'),mw.text.trim('\\t a b\\n'),mw.text.trim('a1b','%a'),mw.text.trim('xxx','x')..'|'", "a a b 1 |", profile=True)
says("text_encodes", "By name, by number, and by a set of its own.", "mw.text.encode('\"\\''),mw.text.encode('abc','b-c'),mw.text.encode('<a>','a')", "&quot;&#39; a&#98;&#99; <&#97;>", profile=True)
says("text_decodes", "By name and by number; nothing is read again.", "mw.text.decode('&lt;&#65;&#x42;&amp;lt;&LT;&#xD800;')", "<AB&lt;&LT;&#xD800;", profile=True)
says("text_lists", "Lists as texts.", "mw.text.listToText({1,2,3}),mw.text.listToText({'a','b'}),mw.text.listToText({'a'}),mw.text.listToText({'a','b','c'},';','&')", "1, 2 and 3 a and b a a;b&c", profile=True)
says("text_nowiki", "What wikitext would read.", "mw.text.nowiki('[[{{a|b}}]]=')", "&#91;&#91;&#123;&#123;a&#124;b&#125;&#125;&#93;&#93;&#61;", profile=True)
says("text_tags", "Elements of HTML.", "mw.text.tag('b',{x=1},'t'),mw.text.tag('br',nil,false),mw.text.tag{name='i',attrs={y=true},content='t'},mw.text.tag('p')", "<b x=\"1\">t</b> <br /> <i y>t</i> <p>", profile=True)
says("text_truncates", "From both ends, with an ellipsis that counts.", "mw.text.truncate('abcdefghij',5),mw.text.truncate('abcdefghij',-5),mw.text.truncate('abcdefghij',5,nil,true),mw.text.truncate('abc',5)", "abcde... ...fghij ab... abc", profile=True)
body("text_refuses", "Wrong arguments.", TRY + "local m=mw.text\nreturn try(m.trim,'x','a]b'),try(m.trim,'\\255'),try(m.split,'a','%'),try(m.listToText,{1,{}}),try(m.tag,'b',5),try(m.tag,'b',{},true),try(m.tag,'b',{[{}]=1}),try(m.truncate,'a')",
     "malformed pattern (2);bad argument #1 to 'trim' (not UTF-8);malformed pattern (1);bad argument #1 to 'listToText' (string expected, got table);bad argument #2 to 'tag' (table expected, got number);bad argument #3 to 'tag' (string expected, got boolean);bad argument #2 to 'tag' (string expected, got table);bad argument #2 to 'truncate' (number expected, got no value);", profile=True)
refuses("text_without_arguments", "The functions of `mw.text` without an argument.", "mw.text", [*wanting("string", "trim split gsplit encode decode"), *wanting("table", "listToText"), *wanting("string", "nowiki tag truncate")])
body("order_of_ustring", "The names of `mw.ustring`, in order.", "local s='' for k,v in pairs(mw.ustring) do s=s..k..' ' end return s",
     "char codepoint gcodepoint byteoffset find match gmatch gsub len sub isutf8 toNFC toNFD toNFKC toNFKD ", profile=True)
body("order_of_globals", "The names of a fresh environment, in order.", "local s='' for k,v in pairs(_G) do s=s..k..' ' end return s",
     "_G _VERSION assert error getmetatable setmetatable ipairs pairs next pcall xpcall rawequal rawget rawset select tonumber tostring type unpack require string table math mw ", profile=True)
body("order_of_text", "The names of `mw.text`, in order.", "local s='' for k,v in pairs(mw.text) do s=s..k..' ' end return s", "trim split gsplit encode decode listToText nowiki tag truncate ", profile=True)
body("order_of_mw", "The names of `mw`, in order.", "local s='' for k,v in pairs(mw) do s=s..k..' ' end return s", "clone log title loadData getCurrentFrame ustring text html ", profile=True)


# ---- iterators
gives_all("gmatch_matches", "One match after another; behind an empty one the search goes on one byte later.",
          ["('hello world from Lua'):gmatch('%a+')", "('abbc'):gmatch('b*')", "('abc'):gmatch('')", "(''):gmatch('')", "(''):gmatch('x')", "('a,b,,c'):gmatch('([^,]*)')", "('aaa'):gmatch('a-')"],
          ["[hello][world][from][Lua]", "[][bb][][]", "[][][][]", "[]", "", "[a][][b][][][c][]", "[][][][]"])
gives_all("gmatch_captures", "Captures, places, and texts that stand twice.",
          ["('k=v, a=b'):gmatch('(%w+)=(%w+)')", "('abc'):gmatch('()')", "('x1y22'):gmatch('()(%d+)()')", "('aXbX'):gmatch('(.)X')", "('aa bb ab'):gmatch('(%w)%1')"],
          ["[k v][a b]", "[1][2][3][4]", "[2 1 3][4 22 6]", "[a][b]", "[a][b]"])
gives_all("gmatch_anchors", "A first `^` is plain; the end, brackets that pair, and a frontier.",
          ["('a^a'):gmatch('^a')", "('one two'):gmatch('%w+$')", "('(a)(b)'):gmatch('%b()')", "('THE (quick) fox'):gmatch('%f[%a]%a+')", "string.gmatch(1203,'[^0]')"],
          ["[^a]", "[two]", "[(a)][(b)]", "[THE][quick][fox]", "[1][2][3]"])
body("gmatch_by_hand", "An iterator is a function; it looks at no argument, and goes on where it was.",
     SAY + "local f,g=('abc'):gmatch('.'),('xy'):gmatch('.')\nfor c in f do break end\nreturn say(type(f),f(5,{}),g(),f('x'),g(nil),f==f,f==g)", "function b x c y true false")
body("gmatch_at_its_end", "At its end nil, again and again.", SAY + "local f=('a'):gmatch('a')\nreturn say(f(),(f()),(f()),select('#',f()))", "a nil nil 1", profile=True)
body("gmatch_reads_late", "A pattern is read at each step and not before.", TRY + "local f=('a'):gmatch('%')\nreturn try(f),try(f)", "malformed pattern (1);malformed pattern (1);", profile=True)
body("gmatch_pattern_place", "With the place of the loop.", "for x in ('a'):gmatch('[') do end", fails="Lua error: Module:X:2: malformed pattern (2)", profile=True)
body("gmatch_in_a_gmatch", "Lines, and the words of each.", "local s=''\nfor l in ('a b\\nc'):gmatch('[^\\n]+') do for w in l:gmatch('%a') do s=s..w end s=s..';' end\nreturn s", "ab;c;")
body("iterator_has_no_fields", "An iterator can't be indexed.", "local f=('a'):gmatch('.')\nreturn f.x", fails="Lua error: Module:X:3: attempt to index a function value", profile=True)
body("gmatch_maybe_forty_times", "`a?` forty times, and then `a` forty times.", "local s=('a'):rep(40)\nreturn s:gmatch(('a?'):rep(40)..s)()", levels=False, profile=True, runs=[("exact", AMPLE, CALLS, [], "spends steps, 0 left")])
body("gmatch_of_a_long_pattern", "A pattern of a million bytes is paid for at each step.", "local p=('a'):rep(1000000)\nfor i=1,1000 do local x=('b'):gmatch(p)() end", levels=False, profile=True, runs=[("exact", AMPLE, CALLS, [], "spends steps, 0 left")])
gives_all("ustring_gmatch_matches", "Symbols and places of code points, and classes by category.",
          ["mw.ustring.gmatch('\xc3\xa4b\xc3\xa4','.')", "mw.ustring.gmatch('\xc3\xa4b\xc3\xa4','()\xc3\xa4()')", "mw.ustring.gmatch('\xc3\xa4b','')", "mw.ustring.gmatch('\xc3\xa4b','()')", "mw.ustring.gmatch('\xd0\x90\xd0\xb1 c','%a+')"],
          ["[\\xc3\\xa4][b][\\xc3\\xa4]", "[1 2][3 4]", "[][][]", "[1][2][3]", "[\\xd0\\x90\\xd0\\xb1][c]"], profile=True)
gives_all("gcodepoint_numbers", "Code points, all of them, from a place on, from the end, from one to another, and none.",
          ["mw.ustring.gcodepoint('a\xc3\xa4\xe2\x82\xac')", "mw.ustring.gcodepoint('a\xc3\xa4\xe2\x82\xac',2)", "mw.ustring.gcodepoint('a\xc3\xa4\xe2\x82\xac',-1)", "mw.ustring.gcodepoint('a\xc3\xa4\xe2\x82\xac',1,2)", "mw.ustring.gcodepoint('abc',3,2)", "mw.ustring.gcodepoint('')", "mw.ustring.gcodepoint(42)"],
          ["[97][228][8364]", "[228][8364]", "[8364]", "[97][228]", "", "", "[52][50]"], profile=True)
gives_all("gsplit_parts", "The parts that `split` puts into a table.",
          ["mw.text.gsplit('abc','')", "mw.text.gsplit('','')", "mw.text.gsplit('a,b,',',')", "mw.text.gsplit('abc','b*')", "mw.text.gsplit('bab','b*')", "mw.text.gsplit('abc','$')", "mw.text.gsplit('aaa','^a')", "mw.text.gsplit('a.b','.',true)", "mw.text.gsplit('\xc3\xa9x','x')"],
          ["[a][b][c]", "[]", "[a][b][]", "[a][][c]", "[][a][][]", "[abc]", "[][][][]", "[a][b]", "[\\xc3\\xa9][]"], profile=True)
body("iterators_refuse", "Arguments that are none, and patterns that are read late.", TRY + "local u,m=mw.ustring,mw.text\nreturn try(u.gmatch,'\\255','a'),try(u.gmatch,'a','\\255'),try(u.gcodepoint,'\\255'),try(m.gsplit,'a','\\255',true),try(m.gsplit('a','%')),try(u.gmatch('a','['))",
     "bad argument #1 to 'gmatch' (not UTF-8);bad argument #2 to 'gmatch' (not UTF-8);bad argument #1 to 'gcodepoint' (not UTF-8);bad argument #2 to 'gsplit' (not UTF-8);malformed pattern (1);malformed pattern (2);", profile=True)

# ---- an operator whose operand is a call: its result, what it makes of a value that has a handler, and its errors
says("operators_over_calls", "Of texts, numbers and truths that functions of the library give.",
     "#('hello'):sub(2,3),-math.abs(-4),not tonumber('x'),not not ('abc'):find('b'),-('12'):sub(2),#('ab'):rep(3),#string.format('%d',17),-('a'):len(),not ('x'):sub(1)", "2 -4 true true -2 6 2 -1 false")
body("operators_over_calls_that_give_tables", "A handler of `-`, and the length of a table.",
     "local t={__unm=function() return 5 end}\nreturn -setmetatable({},t),#setmetatable({1,2},t),not setmetatable({},t)", "52false")
body("operators_over_calls_that_give_lists", "The first of several values, and nil for none.", SAY + "return say(-('AB'):byte(1,2),not ('AB'):byte(1,2),not ('AB'):byte(5),#select(2,'a','bcd','e'))", "-65 false true 3")
body("operators_over_calls_without_a_value", "There is no length of a number, and none of nil.", "local ok,a=pcall(function() return #math.abs(1) end)\nlocal ok,b=pcall(function() return -('AB'):byte(5) end)\nlocal ok,c=pcall(function() return -('x'):sub(1) end)\nreturn a..';'..b..';'..c",
     "Module:X:2: attempt to get length of a number value;Module:X:3: attempt to perform arithmetic on a nil value;Module:X:4: attempt to perform arithmetic on a string value")
body("operators_over_calls_that_fail", "The error of the function, with the place of the call.", TRY + "return try(function() return #string.rep() end),try(function() return -math.abs({}) end),try(function() return not string.sub('x') end)",
     "Module:X:3: bad argument #1 to 'rep' (string expected, got no value);Module:X:3: bad argument #1 to 'abs' (number expected, got table);Module:X:3: bad argument #2 to 'sub' (number expected, got no value);")
counted("steps_of_an_operator_over_a_call", "The operator, the call, its text in brackets and two numbers, the function entered, and 2 bytes.", "#('hello'):sub(2,3)", "2", 1 + 1 + 2 + 1 + 1 + 1 + 2)
