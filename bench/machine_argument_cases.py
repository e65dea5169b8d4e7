"""Cases by hand of the arguments of all functions of the library, behind those of `machine_gsub_cases.py`: each kind of value in each place,
the ends of the numbers, bytes that are no UTF-8, NUL, and tables with themselves in them. What is told of a wrong argument follows from
docs/RULES.md."""
from machine_cases import body
from machine_text_cases import TRY, refuses, says, wanting

# ---- each function with each kind of value in each place. What a place wants: `s` a text, `n` a number, `t` a table, `o` an object of
# `mw.html`, `f` a frame, `r` what `gsub` puts in the place of a match, `-` nil, `v` any value; behind `?` a value may be left out, or be nil.
SWEEPS = [
    ("basic", "{}", "error=vn? setmetatable=tt? ipairs=t pairs=t next=t rawget=t rawset=t select=n tonumber=sn? unpack=tn?n? require=s"),
    ("string", "string.{}", "byte=sn?n? char=nn find=ssn? match=ssn? gmatch=ss gsub=ssrn? format=s len=s lower=s upper=s rep=sn reverse=s sub=snn?"),
    ("math", "math.{}", "abs=n ceil=n floor=n fmod=nn max=nn min=nn pow=nn"),
    ("table", "table.{}", "concat=ts?n?n? insert=tnt maxn=t remove=tn? sort=t-"),
    ("mw", "mw.{}", "loadData=s"),
    ("ustring", "mw.ustring.{}", "char=nn codepoint=sn?n? gcodepoint=sn?n? byteoffset=sn?n? find=ssn? match=ssn? gmatch=ss gsub=ssrn? len=s sub=snn? isutf8=s toNFC=s "
     "toNFD=s toNFKC=s toNFKD=s"),
    ("text", "mw.text.{}", "trim=ss? split=ss gsplit=ss encode=ss? decode=s listToText=ts?s? nowiki=s tag=st? truncate=sns?"),
    ("html", "mw.html.{}", "create=s?t?"),
    ("objects", "mw.html.create('p').{}", "node=os? wikitext=os?s? newline=o attr=oss? addClass=os? css=oss? cssText=os? tag=os?t? done=o allDone=o getAttr=os"),
    ("frames", "frame.{}", "getTitle=f getParent=f argumentPairs=f getArgument=fs preprocess=fs expandTemplate=f newChild=f extensionTag=f"),
    ("arguments", "frame:getArgument('1').{}", "expand=t"),
    ("step_of_ipairs", "(ipairs({{}}))", "ipairs=tn"),
]
KINDS = {"s": "string", "n": "number", "t": "table", "o": "table", "f": "frame", "r": "string", "-": "nil"}
GOOD = {"s": "'a'", "n": "1", "t": "{}", "o": "mw.html.create('b')", "f": "frame", "r": "'b'", "v": "1"}
VALUES = {"nil": "nil", "boolean": "true", "number": "5", "string": "'x'", "table": "{}", "function": "error"}
TEXTS = ["nil", "true", "5", "x", "table", "function"]
TAKEN = {"s": ["string", "number"], "n": ["number"], "t": ["table"], "o": [], "f": [], "r": ["string", "number", "table", "function"], "-": ["nil"], "v": VALUES}

# the third argument of `insert` may be anything; where a text or a name is wanted, a table may have it as a field, or fields for all
LEFT_OUT = {("table", "insert", 2): VALUES, ("text", "tag", 0): ["table"], ("objects", "attr", 1): ["table"], ("objects", "css", 1): ["table"],
            ("frames", "getArgument", 1): ["table"], ("frames", "preprocess", 1): ["table"]}
# what has to stand behind a value for it to be looked at
BEHIND = {("table", "insert", 1): ["{}"], ("basic", "tonumber", 0): ["2"]}


def sweep(group, form, signatures):
    calls, told = [], []
    for signature in signatures.split():
        name, letters = signature.split("=")
        wants = [(c, letters[at + 1:at + 2] == "?") for at, c in enumerate(letters) if c != "?"]
        for at, (want, optional) in enumerate(wants):
            before, place = [GOOD[c] for c, _ in wants[:at]], (group, name, at)
            for kind, value in VALUES.items():
                if not (kind in TAKEN[want] or optional and kind == "nil" or kind in LEFT_OUT.get(place, [])):
                    calls.append(f"try({form.format(name)},{','.join([*before, value, *BEHIND.get(place, [])])})")
                    told.append(f"bad argument #{at + 1} to '{name}' ({KINDS[want]} expected, got {kind});")
    return calls, "".join(told)


for group, form, signatures in SWEEPS:
    calls, told = sweep(group, form, signatures)
    body(f"sweep_of_{group}", "Each kind of value in each place where it is wrong.", TRY + "return " + ",".join(calls), told, args=[("1", "a")], profile=True)


# ---- the basic functions that take any value, with each kind of it, and all of them without a value
def each_kind(form, kinds=VALUES):
    """A call for each kind of value, which stands for `~`."""
    return ",".join(form.replace("~", VALUES[kind]) for kind in kinds)


OF_EACH = [kind for kind in VALUES if kind != "function"]
says("kinds_of_values", "`type` of each kind of value.", each_kind("type(~)"), "nil boolean number string table function")
says("numbers_of_values", "`tonumber`, which takes any value where it has no base.", each_kind("tonumber(~)"), "nil nil 5 nil nil nil")
says("values_themselves", "`rawequal`: two tables differ, all other values are themselves.", each_kind("rawequal(~,~)"), "true true true true false true")
says("values_among_others", "`select` looks at none of the values that it counts or gives.", each_kind("select('#',~)") + "," + each_kind("type((select(2,1,~)))"),
     "1 1 1 1 1 1 nil boolean number string table function")
says("texts_of_values", "`tostring`: a table and a function have their kinds.", each_kind("tostring(~)"), "nil true 5 x table function", profile=True)
says("metatables_of_values", "Only tables have one.", each_kind("getmetatable(~)") + ",getmetatable(setmetatable({},{__metatable=false}))", "nil nil nil nil nil nil false", profile=True)
says("copies_of_values", "`mw.clone` copies any value, and `mw.log` gives nothing.", each_kind("type(mw.clone(~))") + "," + each_kind("select('#',mw.log(~))"),
     "nil boolean number string table function 0 0 0 0 0 0", profile=True)
says("values_as_keys", "`rawget` looks for any key.", each_kind("rawget({},~)") + "," + each_kind("rawget({[~]=1},~)", ["boolean", "number", "string", "function"]), "nil nil nil nil nil nil 1 1 1 1")
body("keys_refused", "`rawset` takes any key but nil, and `next` those that are there.", TRY + "return " + each_kind("try(rawset,{},~,1)") + "," + each_kind("try(next,{},~)"),
     "table index is nil;" + "table;" * 5 + "nil;" + "invalid key to 'next';" * 5, profile=True)
body("values_raised", "`error` raises any value, and `assert` gives any that counts as true.", TRY + "return " + each_kind("try(error,~)") + "," + each_kind("try(assert,~)"),
     "nil;true;5;x;table;function;assertion failed!;true;5;x;table;function;", profile=True)
body("messages_of_assert", "A value of each kind in place of the message; nil has the message that is there without one.", TRY + "return " + each_kind("try(assert,false,~)"),
     "assertion failed!;true;5;x;table;function;", profile=True)
body("values_called", "What is no function can't be called, by `pcall` and by `xpcall`.", TRY + "local function same(m) return m end\nreturn " + each_kind("try(~)", OF_EACH) + ","
     + each_kind("tostring(select(2,xpcall(~,same)))..';'", OF_EACH), "".join(f"attempt to call a {kind} value;" for kind in OF_EACH) * 2, profile=True)
body("values_as_handlers", "Nor can it handle an error.", "return " + each_kind("tostring(select(2,xpcall(error,~)))..';'", OF_EACH) + ",tostring(select(2,xpcall(error)))",
     "error in error handling;" * 5 + "error in error handling", profile=True)
refuses("basic_without_arguments", "The basic functions without an argument: absent is nil where any value may stand.", "", [
    ("assert", "assertion failed!"), ("error", "nil"), ("getmetatable", "nil"), *wanting("table", "setmetatable ipairs pairs next"), ("pcall", "false"), ("xpcall", "false"),
    ("rawequal", "true"), *wanting("table", "rawget rawset"), *wanting("number", "select"), ("tonumber", "nil"), ("tostring", "nil"), ("type", "nil"), *wanting("table", "unpack"),
    *wanting("string", "require")])
refuses("mw_without_arguments", "Those of `mw`.", "mw", [("clone", "nil"), ("log", "nil"), ("title.getCurrentTitle", "table"), *wanting("string", "loadData"), ("getCurrentFrame", "table")])
refuses("objects_without_arguments", "The methods of an object of `mw.html` without one.", "mw.html.create('p')", wanting("table", "node wikitext newline attr addClass css cssText tag done allDone getAttr"))
refuses("frames_without_arguments", "Those of a frame.", "frame", wanting("frame", "getTitle getParent argumentPairs getArgument preprocess expandTemplate newChild extensionTag"))
refuses("create_without_arguments", "An object without a name has no tag.", "mw.html", [("create", "")])
body("fields_wanted", "Where a table has the text as a field, the kind of that field is told.",
     TRY + "return try(frame.getArgument,frame,{}),try(frame.getArgument,frame,{name=true}),try(frame.preprocess,frame,{}),try(frame.preprocess,frame,{text={}})",
     "bad argument #2 to 'getArgument' (string expected, got nil);bad argument #2 to 'getArgument' (string expected, got boolean);"
     "bad argument #2 to 'preprocess' (string expected, got nil);bad argument #2 to 'preprocess' (string expected, got table);", profile=True)
body("template_arguments_refused", "What is no table with a title.", TRY + "return " + each_kind("try(frame.expandTemplate,frame,~)") + "," + each_kind("try(frame.newChild,frame,~)", [kind for kind in VALUES if kind != "table"]),
     "bad template arguments;" * 11, profile=True)


def refused(form, place, function, wanted, kinds):
    """A call with each of these kinds of value for `~`, and what is told of it."""
    return [(f"try({form.replace('~', VALUES[kind])})", f"bad argument #{place} to '{function}' ({wanted} expected, got {kind})") for kind in kinds]


def refuses_each(name, said, rows):
    body(name, said, TRY + "return " + ",".join(call for call, _ in rows), "".join(told + ";" for _, told in rows), profile=True)


def not_taken(want):
    return [kind for kind in VALUES if kind not in TAKEN[want]]


for letters, want in (("dc", "n"), ("xf", "n"), ("sq", "s")):
    refuses_each(f"values_of_format_{letters}", "Each kind of value that a directive doesn't take.",
                 [row for letter in letters for row in refused(f"string.format,'%{letter}',~", 2, "format", KINDS[want], not_taken(want))])
NO_CONTENT, NO_NAME, NO_ATTRIBUTES = ["boolean", "table", "function"], ["nil", "boolean", "function"], ["boolean", "number", "string", "function"]
refuses_each("parts_of_tags_refused", "Contents, names and attributes of each kind that they are not; the names and places are those of `tag`.",
             refused("mw.text.tag,'b',{},~", 3, "tag", "string", NO_CONTENT) + refused("frame.extensionTag,frame,'b',~", 3, "tag", "string", NO_CONTENT)
             + refused("frame.extensionTag,frame,~", 1, "tag", "string", NO_NAME) + refused("frame.extensionTag,frame,'b','t',~", 2, "tag", "table", NO_ATTRIBUTES))
body("fields_of_requests_refused", "Titles that are no texts, and arguments that are no tables.",
     TRY + "return " + ",".join(each_kind(f"try(frame.{name},frame,{{title=~}})", ["boolean", "table", "function"]) for name in ("expandTemplate", "newChild")) + ","
     + ",".join(each_kind(f"try(frame.{name},frame,{{title='T',args=~}})", ["boolean", "number", "string", "function"]) for name in ("expandTemplate", "newChild")),
     "bad template arguments;" * 14, profile=True)
body("strict_of_values", "The handlers of `strict` take any key.", TRY + "require('strict')\nlocal m=getmetatable(_G)\nreturn " + each_kind("try(m.__index,_G,~)") + "," + each_kind("try(m.__newindex,_G,~)"),
     "".join(f"variable '{value}' is not declared;" for value in TEXTS) + "".join(f"assign to undeclared variable '{value}';" for value in TEXTS), profile=True)

body("handlers_without_arguments", "Handlers and steps without an argument.", TRY + "require('strict')\nlocal m=getmetatable(_G)\nreturn try(frame:getArgument('1').expand),try((ipairs({}))),try(m.__index),try(m.__newindex)",
     "bad argument #1 to 'expand' (table expected, got no value);bad argument #1 to 'ipairs' (table expected, got no value);variable 'nil' is not declared;assign to undeclared variable 'nil';",
     args=[("1", "a")], profile=True)


def each_flag(form):
    """A call for each kind of value in place of a flag, and one with false."""
    return each_kind(form) + "," + form.replace("~", "false")


says("plain_of_each_kind", "All but nil and false count as true.", each_flag("(('ab'):find('.',1,~))"), "1 nil nil nil nil nil 1")
says("flags_of_each_kind", "So they do as flags of `mw.ustring` and `mw.text`.",
     ",".join(each_flag(form) for form in ("(mw.ustring.find('ab','.',1,~))", "#mw.text.split('ab','.',~)", "mw.text.gsplit('ab','.',~)()..'|'", "mw.text.truncate('abcdef',4,'.',~)")),
     "1 nil nil nil nil nil 1 3 1 1 1 1 1 3 | ab| ab| ab| ab| ab| | abcd. abc. abc. abc. abc. abc. abcd.", profile=True)
says("arguments_that_nobody_looks_at", "Two functions of `mw` look at none.", each_kind("type(mw.title.getCurrentTitle(~))") + "," + each_kind("type(mw.getCurrentFrame(~))"), "table " * 11 + "table", profile=True)


# ---- the ends of the numbers
MOST, LEAST = "9223372036854775807", "-9223372036854775807-1"


def at_ends(text):
    return text.replace("MOST", MOST).replace("LEAST", LEAST)


says("ends_of_numbers", "Places beyond all.", at_ends("table.concat({'a'},'-',MOST,LEAST)..'|',select('#',table.remove({1},MOST)),select('#',table.remove({1},LEAST)),table.maxn({[MOST]=1}),"
     "select('#',select(MOST,1)),select('#',unpack({1},MOST)),rawget({[LEAST]='x'},LEAST),tostring((ipairs({}))({},MOST))"), f"| 0 0 {MOST} 0 0 x nil", profile=True)
says("entries_at_the_ends", "Entries at the very ends.", at_ends("table.concat({[MOST]='x'},'-',MOST,MOST),table.concat({[LEAST]='y'},'-',LEAST,LEAST),unpack({[MOST]='x'},MOST,MOST)"), "x y x", profile=True)
says("ends_in_strings", "Places, counts and values of `string`.",
     at_ends("('abc'):sub(LEAST,MOST),('abc'):sub(MOST,LEAST)..'|',select('#',('abc'):byte(LEAST,MOST)),select('#',('abc'):byte(MOST)),('abc'):rep(LEAST)..'|',(''):rep(MOST)..'|',"
             "('abc'):find('c',LEAST),('abc'):find('',MOST),('abc'):match('.',MOST),('abc'):match('.',LEAST),('aa'):gsub('a','b',MOST),('aa'):gsub('a','b',LEAST),('%d %x %u'):format(LEAST,LEAST,MOST)"),
     "abc | 3 0 | | 3 4 nil a bb aa -9223372036854775808 8000000000000000 9223372036854775807", profile=True)
says("ends_in_ustring", "Those of `mw.ustring`.",
     "(function(u,s) return " + at_ends("u.sub(s,LEAST,MOST),u.sub(s,MOST)..'|',select('#',u.codepoint(s,LEAST,MOST)),u.byteoffset(s,MOST),u.byteoffset(s,LEAST),u.byteoffset(s,1,MOST),u.byteoffset(s,1,LEAST),"
     "u.find(s,'b',LEAST),u.find(s,'b',MOST),u.find(s,'',MOST),u.match(s,'.',LEAST),u.gsub(s,'.','x',MOST),u.gsub(s,'.','x',LEAST),u.gcodepoint(s,LEAST,MOST)(),u.gcodepoint(s,MOST)()") + " end)(mw.ustring,'\xc3\xa4b')",
     "\\xc3\\xa4b | 2 nil nil nil nil 2 nil 3 \\xc3\\xa4 xx \\xc3\\xa4b 228 nil", profile=True)
says("ends_in_text", "Those of `mw.text`.", at_ends("mw.text.truncate('abc',MOST),mw.text.truncate('abc',LEAST),mw.text.listToText({MOST,LEAST}),mw.text.tag('b',{[LEAST]=MOST})"),
     f'abc abc {MOST} and -9223372036854775808 <b -9223372036854775808="{MOST}">', profile=True)
says("ends_in_math", "Those of `math`.", at_ends("math.max(LEAST,MOST),math.min(MOST,LEAST),math.abs(MOST),math.floor(LEAST),math.ceil(MOST),math.fmod(MOST,LEAST),math.fmod(LEAST,MOST),math.pow(LEAST,1),math.pow(LEAST,0)"),
     f"{MOST} -9223372036854775808 {MOST} -9223372036854775808 {MOST} {MOST} -1 -9223372036854775808 1", profile=True)
body("ends_of_numbers_refused", "Numbers that a function doesn't take.", TRY + at_ends("local m=LEAST\nreturn try(table.concat,{'a'},'-',m,m),try(table.insert,{1},m,'x'),try(select,m,1),try(tonumber,'1',m),try(tonumber,'1',MOST),"
     "try(string.char,m),try(string.char,MOST),try(mw.ustring.char,m),try(mw.ustring.char,MOST),try(string.format,'%c',m)"),
     "invalid value (at index -9223372036854775808) in table for 'concat';bad argument #2 to 'insert' (out of range);bad argument #1 to 'select' (out of range);bad argument #2 to 'tonumber' (out of range);"
     "bad argument #2 to 'tonumber' (out of range);bad argument #1 to 'char' (out of range);bad argument #1 to 'char' (out of range);bad argument #1 to 'char' (out of range);bad argument #1 to 'char' (out of range);"
     "bad argument #2 to 'format' (out of range);", profile=True)


# ---- bytes that are no UTF-8: the places where a function wants it
WANT_UTF8 = [("mw.ustring", "codepoint=1 gcodepoint=1 byteoffset=1 find=12 match=12 gmatch=12 gsub=123 sub=1"), ("mw.text", "trim=12 split=12 gsplit=12 encode=12 truncate=13")]
for library, places in WANT_UTF8:
    found = [(name, int(place)) for name, digits in (word.split("=") for word in places.split()) for place in digits]
    # the number of `truncate` stands before its ellipsis
    calls = [f"try({library}.{name}," + ",".join([["'a'", "1" if name == "truncate" else "'a'"][n] for n in range(place - 1)] + ["'\\255'"]) + ")" for name, place in found]
    body(f"utf8_wanted_by_{library[3:]}", "A byte that is no UTF-8 in each place where a text in it is wanted.", TRY + "return " + ",".join(calls),
         "".join(f"bad argument #{place} to '{name}' (not UTF-8);" for name, place in found), profile=True)
says("any_bytes_in_strings", "The functions of `string` take any bytes.",
     "(function(s) return s:upper(),s:lower(),s:reverse(),s:rep(2),s:sub(2),s:byte(2),s:find('\\255'),s:match('%a'),s:gmatch('[^%a]')(),s:gsub('\\255','+'),#s,s:format(),('%s%q'):format(s,s) end)('a\\255')",
     "A\\xff a\\xff \\xffa a\\xffa\\xff \\xff 255 2 a \\xff a+ 2 a\\xff a\\xff\"a\\xff\"", profile=True)
says("any_bytes_in_text", "So do some of `mw.ustring` and `mw.text`, and `mw.html` in all but names.",
     "(function(u,m,s) return u.len(s),u.isutf8(s),u.toNFC(s),u.toNFD(s),u.toNFKC(s),u.toNFKD(s),m.decode(s..'&lt;'),m.nowiki(s..'['),m.tag(s),m.listToText({s,s},s,s),"
     "mw.html.create('b'):attr('x',s):css(s,s):wikitext(s):node(s) end)(mw.ustring,mw.text,'\\255')",
     "nil false nil nil nil nil \\xff< \\xff&#91; <\\xff> \\xff\\xff\\xff <b x=\"\\xff\" style=\"\\xff:\\xff\">\\xff\\xff</b>", profile=True)
body("any_bytes_in_names", "Names are ASCII; a title is UTF-8, and has no byte below 32.", TRY + "local h=mw.html.create\nreturn try(h,'\\255'),try(h('b').tag,h('b'),'b\\255'),try(h('b').attr,h('b'),'a\\255','x'),try(h,'b\\0'),try(require,'\\255'),try(mw.loadData,'a\\0'),"
     "try(frame.expandTemplate,frame,{title='\\255'})",
     "bad html name;bad html name;bad html name;bad html name;module '\\xff' not found;data module 'a\\x00' not found;invalid title '\\xff';", profile=True)


# ---- NUL is a byte as any other
says("nul_in_strings", "In `string`.",
     "(function(s) return #s,(select(2,s:byte(1,-1))),s:find('b',1,true),s:find('%z'),s:match('a.b'),s:gmatch('%z')(),s:gsub('%z','-'),s:upper(),s:lower(),s:reverse(),s:sub(2,2),s:rep(2),('%s|%q'):format(s,s),string.char(97,0) end)('a\\0b')",
     "3 0 3 2 a\\x00b \\x00 a-b A\\x00B a\\x00b b\\x00a \\x00 a\\x00ba\\x00b a\\x00b|\"a\\\\000b\" a\\x00", profile=True)
says("nul_in_ustring", "In `mw.ustring`.",
     "(function(u,s) return u.len(s),u.codepoint(s,2),u.char(97,0),u.find(s,'b'),u.find(s,'%z'),u.match(s,'.b'),u.gmatch(s,'%z')(),u.gsub(s,'%z','-'),u.sub(s,2,2),u.byteoffset(s,3),u.isutf8(s),u.toNFC(s),u.toNFD(s),u.toNFKC(s),u.toNFKD(s),u.gcodepoint('\\0')() end)"
     "(mw.ustring,'a\\0b')", "3 0 a\\x00 3 2 \\x00b \\x00 a-b \\x00 3 true a\\x00b a\\x00b a\\x00b a\\x00b 0", profile=True)
says("nul_in_text", "In `mw.text` and `mw.html`.",
     "(function(m,s) return m.trim('\\0a\\0'),#m.split(s,'%z'),#m.split(s,'\\0',true),m.gsplit(s,'\\0')(),m.encode('\\0<'),m.encode(s,'%z'),m.decode('&#0;'),m.nowiki('\\0['),m.tag('b',{x='\\0'}),m.listToText({s,s}),m.truncate(s,2),"
     "mw.html.create('b'):attr('x',s):css('y',s):wikitext(s) end)(mw.text,'a\\0b')",
     "\\x00a\\x00 2 2 a \\x00&lt; a&#0;b \\x00 \\x00&#91; <b x=\"\\x00\"> a\\x00b and a\\x00b a\\x00... <b x=\"a\\x00b\" style=\"y:a\\x00b\">a\\x00b</b>", profile=True)
says("nul_elsewhere", "As a key, in order, in numerals and in messages.", "({['a\\0b']=1})['a\\0b'],({['a\\0b']=1}).a,'a\\0'<'a\\0b','a'<'a\\0',tonumber('1\\0'),tonumber('1\\0',16),select(2,pcall(error,'a\\0b',0))",
     "1 nil true true nil nil a\\x00b", profile=True)


# ---- tables with themselves in them, and with holes
body("tables_of_themselves", "A table in itself is a table as any other, which no function takes for a text.",
     TRY + "local t={} t[1]=t t[2]=t t.x=t\nlocal m,b=mw.text,mw.html.create('b')\nreturn try(table.concat,t),try(table.sort,t),try(m.listToText,t),try(m.tag,'b',t),try(b.attr,b,t),try(b.css,b,t),try(string.gsub,'x','x',t),"
     "try(frame.expandTemplate,frame,{title='T',args=t}),try(frame.newChild,frame,{args=t}),try(frame.extensionTag,frame,t),try(frame.extensionTag,frame,'b',t),try(frame.extensionTag,frame,'b','t',t),try(unpack,t),tostring(mw.html.create('b',t)),table.maxn(t),tostring(table.remove(t)==t),#t,try(table.insert,t,t),#t",
     "invalid value (at index 1) in table for 'concat';bad argument #1 to 'sort' (string expected, got table);bad argument #1 to 'listToText' (string expected, got table);bad argument #2 to 'tag' (string expected, got table);"
     "bad html name;bad argument #3 to 'css' (string expected, got table);invalid replacement value (a table);bad template arguments;bad template arguments;"
     "bad argument #1 to 'tag' (string expected, got nil);bad argument #3 to 'tag' (string expected, got table);bad argument #2 to 'tag' (string expected, got table);table;<b></b>2true1nil;2", profile=True)
body("tables_with_holes", "A cleared entry is absent, and no handler is asked.",
     "local t=setmetatable({'a','b','c',x='d'},{__index=function() return 'i' end,__newindex=function() end})\nt[2]=nil t.x=nil\n"
     "return table.concat(t,','),#t,table.maxn(t),select('#',unpack(t)),table.remove(t),#t,mw.text.listToText(t),mw.text.tag('b',t)", "a131a0<b 3=\"c\">", profile=True)
body("holes_elsewhere", "So it is in order, in arguments of frames and in attributes.",
     "local t=setmetatable({3,1,2,x='d'},{__index=function() return 'i' end,__newindex=function() end})\nt.x=nil\ntable.sort(t) t[3]=nil table.insert(t,'z')\n"
     "local s='' for k,v in next,t do s=s..k..v end\nreturn s,mw.html.create('b'):css(t),frame:newChild{args=t}.args[3]", '11223z<b style="1:1;2:2;3:z"></b>z', profile=True)
