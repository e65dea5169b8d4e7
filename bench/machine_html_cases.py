"""Cases by hand of `mw.html`, behind those of `machine_text_cases.py`. What is rendered is MediaWiki's own rendering of these calls, or
worked out by docs/RULES.md, by which steps are counted too."""
from machine_cases import AMPLE, CALLS, CASES, body, hand
from machine_text_cases import SAY, TRY, counted

MAKE = "local H=mw.html.create\n"


def renders(name, said, rows, **more):
    """What `tostring` gives of each of these objects, or the value of a call, with a stroke behind each."""
    body(name, said, MAKE + "return " + ",".join(f"tostring({made}),'|'" for made, _ in rows), "".join(text + "|" for _, text in rows), profile=True, **more)


def refuses(name, said, rows, **more):
    body(name, said, MAKE + TRY + "return " + ",".join(f"try({call})" for call, _ in rows), "".join(told + ";" for _, told in rows), profile=True, **more)


# ---- what is rendered
renders("html_of_attributes", "Attributes in the order of their first setting, then the styles.", [
    ("H('div'):attr('b','1'):attr('a','2'):css('color','red'):addClass('x'):css('top','0'):addClass('y')", '<div b="1" a="2" class="x y" style="color:red;top:0"></div>'),
    ("H('p'):attr('id','i'):attr('a','1'):attr('id',nil):attr('id','j')", '<p a="1" id="j"></p>'),
    ("H('p'):attr('title','x&y>\"<')", '<p title="x&amp;y&gt;&quot;&lt;"></p>'),
    ("H('p'):attr{id='i',n=5}", '<p id="i" n="5"></p>'),
    ("H('p'):attr('data-x.y:z_1','')", '<p data-x.y:z_1=""></p>')])
renders("html_of_styles", "Styles, texts of styles, and the attribute that is all of them.", [
    ("H('p'):css('a','b'):css('a',nil):css('c','d')", '<p style="c:d"></p>'),
    ("H('p'):css('a','1'):css('b','2'):css('a','3')", '<p style="a:3;b:2"></p>'),
    ("H('p'):attr('style','x:y'):css('a','b')", '<p style="x:y;a:b"></p>'),
    ("H('p'):css('a','b'):attr('style','x:y')", '<p style="x:y"></p>'),
    ("H('p'):css('a','b'):attr('style',nil)", '<p></p>'),
    ("H('p'):css('a','b\"<')", '<p style="a:b&quot;&lt;"></p>'),
    ("H('p'):css{top=0}:cssText('x:y;'):css('a','b')", '<p style="top:0;x:y;;a:b"></p>'),
    ("H('p'):cssText(nil):css('a','b'):cssText()", '<p style="a:b"></p>'), ("H('p'):cssText('')", '<p style=""></p>')])
renders("html_of_children", "Texts, numbers and objects, up to the first nil; children are not escaped.", [
    ("H('p'):wikitext('a',nil,'b')", '<p>a</p>'),
    ("H('p'):wikitext('a',1,'<b>'):newline():node('x'):node(nil):node(2):node()", '<p>a1<b>\\nx2</p>'),
    ("H('div'):tag('p'):wikitext('x'):done():tag('b'):done()", '<div><p>x</p><b></b></div>'),
    ("H('div'):tag('p'):tag('b'):allDone()", '<div><p><b></b></p></div>'),
    ("H('div'):node(H('p'):wikitext('x'))", '<div><p>x</p></div>')])
renders("html_of_void_tags", "Tags that close themselves, by name or since they are made so; and an object without a tag.", [
    ("H('br')", '<br />'), ("H('BR')", '<BR></BR>'), ("H('hr'):wikitext('x'):attr('id','i')", '<hr id="i" />'),
    ("H('b',{selfClosing=true}):attr('id','i'):wikitext('x')", '<b id="i" />'),
    ("H('b'):tag('i',{selfClosing=1}):done()", '<b><i /></b>'),
    ("H('b',{selfClosing=false})", '<b></b>'),
    ("H():css('a','b'):attr('id','i'):wikitext('t')", 't'), ("H(''):wikitext('t')", 't'), ("H(nil,{selfClosing=true}):wikitext('t')", 't')])
renders("html_of_classes", "Classes with a space between, and attributes that are told.", [
    ("H('p'):addClass(''):addClass('a'):addClass(nil)", '<p class=" a"></p>'), ("H('p'):attr('class','a'):addClass('b'):getAttr('class')", 'a b'),
    ("H('p'):attr('style','a:b'):getAttr('style')", 'nil'), ("H('p'):getAttr('1')", 'nil')])
body("html_as_an_answer", "The values of an answer are rendered as `tostring` renders them.", MAKE + "return H('b'):wikitext('x'),1,H('i')", "<b>x</b>1<i></i>", profile=True)
body("html_of_one_object_twice", "An object that stands in two places keeps its parent, and what is done to it is seen in both.",
     MAKE + "local a,b=H('a'),H('b')\nlocal x=a:tag('i')\nb:node(x):node(x)\nx:wikitext('t')\nreturn a,b,x:done()==a,x:allDone()==a,b:done()==b".replace("x:done()==a,x:allDone()==a,b:done()==b", "tostring(x:done()==a and x:allDone()==a and b:done()==b)"),
     "<a><i>t</i></a><b><i>t</i><i>t</i></b>true", profile=True)


# ---- what an object is as a value
body("html_fields", "The fields of an object are its methods, the same for all; it is a table that has no entries, no metatable and no length.",
     MAKE + SAY + "local a,b=H('a'),H('b')\nreturn say(type(a),a.node==b.node,type(a.node),a.nothing,a[1],a[a],getmetatable(a),a==a,a==b,({[a]=1})[a],mw.clone(a)==a)",
     "table true function nil nil nil nil true false 1 true", profile=True)
body("html_as_an_index", "An object as `__index`.", MAKE + "local t=setmetatable({},{__index=H('b')})\nreturn tostring(t.node==H('i').node)", "true", profile=True)
refuses("html_is_no_table", "What wants a table of Lua refuses an object.", [
    ("next,H('a')", "bad argument #1 to 'next' (table expected, got table)"), ("pairs,H('a')", "bad argument #1 to 'pairs' (table expected, got table)"),
    ("setmetatable,{},H('a')", "bad argument #2 to 'setmetatable' (table expected, got table)"),
    ("function() H('a').x=1 end", "Module:X:4: attempt to index a table value"), ("function() return #H('a') end", "Module:X:4: attempt to get length of a table value"),
    ("H('a')", "attempt to call a table value"), ("function() return H('a')..'x' end", "Module:X:4: attempt to concatenate a table value"),
    ("function() return H('a')<H('b') end", "Module:X:4: attempt to compare two table values")])
hand("html_is_no_module", "A module whose value is an object returned no table.", "return mw.html.create('b')", "fails Script error: The module returned no table.", profile=True)


# ---- errors
refuses("html_refuses_names", "Names that are none.", [
    ("H,'1'", "bad html name"), ("H,'a-b'", "bad html name"), ("H('p').tag,H('p'),' '", "bad html name"), ("H('p').attr,H('p'),'1','x'", "bad html name"),
    ("H('p').attr,H('p'),'','x'", "bad html name"), ("H('p').attr,H('p'),{['-a']='x'}", "bad html name"), ("H,5", "bad html name")])
refuses("html_refuses", "Arguments that are none; they are counted from the object.", [
    ("H,true", "bad argument #1 to 'create' (string expected, got boolean)"), ("H,'p',1", "bad argument #2 to 'create' (table expected, got number)"),
    ("H,'p',H('q')", "bad argument #2 to 'create' (table expected, got table)"), ("H('p').node,H('p'),true", "bad argument #2 to 'node' (string expected, got boolean)"),
    ("H('p').wikitext,H('p'),'a',true", "bad argument #3 to 'wikitext' (string expected, got boolean)"),
    ("H('p').cssText,H('p'),true", "bad argument #2 to 'cssText' (string expected, got boolean)"), ("H('p').cssText,H('p'),{}", "bad argument #2 to 'cssText' (string expected, got table)"),
    ("H('p').attr,H('p')", "bad argument #2 to 'attr' (string expected, got no value)"),
    ("H('p').attr,H('p'),{[{}]='x'}", "bad argument #2 to 'attr' (string expected, got table)"), ("H('p').attr,H('p'),{x={}}", "bad argument #3 to 'attr' (string expected, got table)"),
    ("H('p').css,H('p'),'a',true", "bad argument #3 to 'css' (string expected, got boolean)"), ("H('p').addClass,H('p'),{}", "bad argument #2 to 'addClass' (string expected, got table)"),
    ("H('p').getAttr,H('p')", "bad argument #2 to 'getAttr' (string expected, got no value)"), ("H('p').tag,H('p'),'b',true", "bad argument #3 to 'tag' (table expected, got boolean)"),
    ("H('p').newline", "bad argument #1 to 'newline' (table expected, got no value)"), ("H('p').done,{}", "bad argument #1 to 'done' (table expected, got table)")])
body("html_error_place", "With the place of the call.", MAKE + "local x=H('p')\nx:attr('!','x')", fails="Lua error: Module:X:4: bad html name", profile=True)
renders("html_after_an_error", "What was set before a wrong entry stays; of wrong texts none is added.", [
    ("(function() local x=H('p') pcall(x.attr,x,{a='1',['-']='2',b='3'}) pcall(x.wikitext,x,'a',{}) return x end)()", '<p a="1"></p>')])


# ---- an object may stand below 200 others
CHAIN = MAKE + "local r=H('b')\nlocal x=r\nfor i=1,%d do x=x:tag('b') end\n"
body("html_down_to_the_last", "200 objects above one.", CHAIN % 200 + "return #tostring(r)", str(201 * 7), profile=True, levels=False, every=True)
body("html_too_deep", "One more, for an answer; its error has no place.", CHAIN % 201 + "return r", fails="Lua error: html tree nested too deeply", profile=True, levels=False, every=True)
body("html_too_deep_by_tostring", "And for `tostring`.", CHAIN % 201 + "return tostring(r)", fails="Lua error: Module:X:6: html tree nested too deeply", profile=True, levels=False, every=True)
body("html_in_itself", "An object in itself is too deep.", MAKE + "local x=H('b')\nx:node(x):wikitext('t')\nreturn x", fails="Lua error: html tree nested too deeply", profile=True)


# ---- steps, counted by hand: `create` costs its call alone
ANY = 1 + 2 + 2 + 1 + 1 + 1
counted("steps_of_an_object", "Nothing but the call; then the answer: an object begun, and seven bytes.", "mw.html.create('b')", "<b></b>", ANY + 1 + 7)
counted("steps_of_its_text", "By `tostring` the same, and its name and its call.", "tostring(mw.html.create('b'))", "<b></b>", 1 + 1 + 1 + ANY + 1 + 7)
counted("steps_of_two_objects", "Two begun, and their bytes.", "mw.html.create('b'):tag('i'):done()", "<b><i></i></b>", ANY + (1 + 1 + 1 + 1) + (1 + 1) + 2 + 14)
counted("steps_of_classes", "The bytes that are given, the classes, and the value that is told.", "mw.html.create('b'):addClass('xy'):addClass('z'):getAttr('class')", "xy z",
        ANY + (1 + 1 + 1 + 2 + 2) + (1 + 1 + 1 + 1 + 4) + (1 + 1 + 1 + 5 + 4))
counted("steps_of_entries", "Each entry costs the bytes of both its parts; the constructor costs 8, and an item 4.", "mw.html.create('b'):attr{a='x'}", '<b a="x"></b>',
        ANY + 1 + (1 + 8 + 1 + 1 + 4) + 1 + 2 + 1 + 13)
hand("steps_of_a_cleared_entry", "A cleared entry costs a step.", "return {f=function() local t={a='x'} t.a=nil return mw.html.create('b'):attr(t) end}", None, profile=True, levels=False,
     runs=[("took", AMPLE, CALLS, [], "gives <b></b>, %d taken" % (1000 + 84 + 1 + 24 + 1 + (1 + 1 + 8 + 1 + 1 + 4) + (1 + 1 + 1 + 1 + 1) + 1 + ANY + (1 + 1 + 1 + 1) + 1 + 7 + 7))])
body("html_of_many_classes", "Classes are paid for at each addition, so a long list spends its steps.", "local x=mw.html.create('b')\nlocal s=('a'):rep(1000)\nwhile true do x:addClass(s) end", levels=False, profile=True,
     runs=[("exact", AMPLE, CALLS, [], "spends steps, 0 left")])


# ---- one object that is rendered again and again
MANY = MAKE + "local x,q,p=H('b'),H('b'),H('b')\nfor i=1,1000 do q:node(x) end\nfor i=1,500 do p:node(q) end\nreturn #tostring(p)"
# 500,501 objects are begun, of seven bytes each
RENDERED = 500501 * 8
# what begins a run with its module; `f`, the locals, both loops with five steps and a turn each time, `return`, and seven bytes of the answer
MANY_TAKEN = (1000 + len("return {f=function(frame)\n" + MANY + "\nend}") + 1 + 24) + 1 + 6 + (1 + 3 * 4) + (3 + 1000 * 6) + (3 + 500 * 6) + 6 + RENDERED + 7
body("html_of_half_a_million", "An object stands in another 1,000 times, and that one in a third 500 times: it is rendered 500,000 times.", MANY, levels=False, profile=True, runs=[
    ("took", AMPLE, CALLS, [], f"gives {500501 * 7}, {MANY_TAKEN} taken"), ("exact", MANY_TAKEN - 1, CALLS, [], "spends steps, 0 left"),
    ("exact", 2_000_000, CALLS, [], "spends steps, 0 left")])
body("html_of_long_children", "A text of a million bytes stands in another object 500,000 times: nothing of it is made that the steps do not cover.",
     "local a=mw.html.create('b'):wikitext(('x'):rep(1000000))\nlocal b=mw.html.create()\nfor i=1,500000 do b:node(a) end\nreturn tostring(b)", levels=False, profile=True, runs=[("exact", AMPLE, CALLS, [], "spends steps, 0 left")])
body("html_doubled", "Each of 100 objects has the one before twice: the steps are spent long before the end.", MAKE + "local x=H('b')\nfor i=1,100 do x=H('b'):node(x):node(x) end\nreturn x", levels=False, profile=True, runs=[
    ("exact", 2_000_000, CALLS, [], "spends steps, 0 left"), ("exact", 20_000, CALLS, [], "spends steps, 0 left")])
