"""Rows of iterators, each of which is stepped to its end and once more, and of `gsub`. Those of `string` without an error are Lua 5.1's own, but
that an iterator gives nil at its end, where Lua 5.1 gives nothing, and a `%` at the end of a replacement; the others were worked out by
docs/RULES.md."""
from machine_row_tables import ASKING, STEPS, rows

# ---- iterators

rows("rows_of_gmatch", "One match after another, captures, places, anchors and bytes.", r"""
string.gmatch('abbc', 'b*') => '' | 'bb' | '' | '' | nil | nil
string.gmatch('hello world from Lua', '%a+') => 'hello' | 'world' | 'from' | 'Lua' | nil | nil
string.gmatch('k=v, a=b', '(%w+)=(%w+)') => 'k' 'v' | 'a' 'b' | nil | nil
string.gmatch('abc', '()') => 1 | 2 | 3 | 4 | nil | nil
string.gmatch('abc', '') => '' | '' | '' | '' | nil | nil
string.gmatch('', '') => '' | nil | nil
string.gmatch('', 'x') => nil | nil
string.gmatch('a,b,,c', '([^,]*)') => 'a' | '' | 'b' | '' | '' | 'c' | '' | nil | nil
string.gmatch('a^a', '^a') => '^a' | nil | nil
string.gmatch('aaa', 'a-') => '' | '' | '' | '' | nil | nil
string.gmatch('one two', '%w+$') => 'two' | nil | nil
string.gmatch('(a)(b)', '%b()') => '(a)' | '(b)' | nil | nil
string.gmatch('THE (quick) fox', '%f[%a]%a+') => 'THE' | 'quick' | 'fox' | nil | nil
string.gmatch('a.b', '.') => 'a' | '.' | 'b' | nil | nil
string.gmatch(123, '%d') => '1' | '2' | '3' | nil | nil
string.gmatch('x1y22', '()(%d+)()') => 2 '1' 3 | 4 '22' 6 | nil | nil
string.gmatch('aXbX', '(.)X') => 'a' | 'b' | nil | nil
string.gmatch('aa bb ab', '(%w)%1') => 'a' | 'b' | nil | nil
string.gmatch('a\000b', '%z') => '\000' | nil | nil
string.gmatch('\255\195', '.') => '\255' | '\195' | nil | nil
""", STEPS, lua_ends=b"(none)", profile=True)

rows("rows_of_wrong_gmatches", "A malformed pattern at each step, and arguments that are none.", r"""
string.gmatch('a', '%') => ! malformed pattern (1) | ! malformed pattern (1)
string.gmatch() => ! bad argument #1 to 'gmatch' (string expected, got no value)
string.gmatch('a', nil) => ! bad argument #2 to 'gmatch' (string expected, got nil)
""", STEPS, profile=True)

rows("rows_of_gmatch_by_code_points", "Matches, captures and places by code points, and arguments.", r"""
mw.ustring.gmatch('\195\164b\195\164', '.') => '\195\164' | 'b' | '\195\164' | nil | nil
mw.ustring.gmatch('\195\164b\195\164', '()\195\164()') => 1 2 | 3 4 | nil | nil
mw.ustring.gmatch('\195\164b', '') => '' | '' | '' | nil | nil
mw.ustring.gmatch('\195\164b', '()') => 1 | 2 | 3 | nil | nil
mw.ustring.gmatch('\226\130\1721 \226\130\1722', '\226\130\172(%d)') => '1' | '2' | nil | nil
mw.ustring.gmatch('\208\144\208\177 c', '%a+') => '\208\144\208\177' | 'c' | nil | nil
mw.ustring.gmatch('a', '[') => ! malformed pattern (2) | ! malformed pattern (2)
mw.ustring.gmatch('\255', 'a') => ! bad argument #1 to 'gmatch' (not UTF-8)
mw.ustring.gmatch('a', '\255') => ! bad argument #2 to 'gmatch' (not UTF-8)
""", STEPS, profile=True)

rows("rows_of_gcodepoint", "Code points from one place to another, and arguments.", r"""
mw.ustring.gcodepoint('a\195\164\226\130\172') => 97 | 228 | 8364 | nil | nil
mw.ustring.gcodepoint('a\195\164\226\130\172', 2) => 228 | 8364 | nil | nil
mw.ustring.gcodepoint('a\195\164\226\130\172', -1) => 8364 | nil | nil
mw.ustring.gcodepoint('a\195\164\226\130\172', 1, 2) => 97 | 228 | nil | nil
mw.ustring.gcodepoint('abc', 3, 2) => nil | nil
mw.ustring.gcodepoint('') => nil | nil
mw.ustring.gcodepoint(42) => 52 | 50 | nil | nil
mw.ustring.gcodepoint('\255') => ! bad argument #1 to 'gcodepoint' (not UTF-8)
mw.ustring.gcodepoint('a', true) => ! bad argument #2 to 'gcodepoint' (number expected, got boolean)
""", STEPS, profile=True)

rows("rows_of_gsplit", "Parts between matches, and arguments.", r"""
mw.text.gsplit('abc', '') => 'a' | 'b' | 'c' | nil | nil
mw.text.gsplit('', '') => '' | nil | nil
mw.text.gsplit(',', ',') => '' | '' | nil | nil
mw.text.gsplit('a,b,', ',') => 'a' | 'b' | '' | nil | nil
mw.text.gsplit('abc', 'b*') => 'a' | '' | 'c' | nil | nil
mw.text.gsplit('bab', 'b*') => '' | 'a' | '' | '' | nil | nil
mw.text.gsplit('abc', '$') => 'abc' | nil | nil
mw.text.gsplit('abc', 'c$') => 'ab' | '' | nil | nil
mw.text.gsplit('aaa', '^a') => '' | '' | '' | '' | nil | nil
mw.text.gsplit('THE (quick)', '%f[%a]') => 'T' | 'HE (q' | 'uick)' | nil | nil
mw.text.gsplit('abc', '', true) => 'a' | 'b' | 'c' | nil | nil
mw.text.gsplit('a.b', '.', true) => 'a' | 'b' | nil | nil
mw.text.gsplit('\195\169x', 'x') => '\195\169' | '' | nil | nil
mw.text.gsplit('a', '%') => ! malformed pattern (1) | ! malformed pattern (1)
mw.text.gsplit('a') => ! bad argument #2 to 'gsplit' (string expected, got no value)
mw.text.gsplit('a', '\255', true) => ! bad argument #2 to 'gsplit' (not UTF-8)
""", STEPS, profile=True)


# ---- `gsub`

rows("rows_of_gsub", "Texts that replace, with captures, up to a limit, and arguments that are none.", r"""
string.gsub('hello', '', '-') => '-h-e-l-l-o-' 6
string.gsub('abc', 'b*', 'x') => 'xaxxcx' 4
string.gsub('hello', 'l*', 'x') => 'xhxexxox' 5
string.gsub('aaa', '^a', 'x') => 'xaa' 1
string.gsub('abc', '$', 'x') => 'abcx' 1
string.gsub('', '', 'x') => 'x' 1
string.gsub('', 'a', 'x') => '' 0
string.gsub('abc', 'x', '%2') => 'abc' 0
string.gsub('aaa', 'a', 'x', 2) => 'xxa' 2
string.gsub('aaa', 'a', 'x', 0) => 'aaa' 0
string.gsub('aaa', 'a', 'x', -1) => 'aaa' 0
string.gsub('aaa', 'a', 'x', nil) => 'xxx' 3
string.gsub('aaa', 'a', 'x', '1') => 'xaa' 1
string.gsub('x=1, y=2', '(%w)=(%w)', '%2=%1') => '1=x, 2=y' 2
string.gsub('abc', '%w', '%1%0%%') => 'aa%bb%cc%' 3
string.gsub('abc', '()', '%1') => '1a2b3c4' 4
string.gsub(1203, 0, 7) => '1273' 1
string.gsub('a\000b', '%z', '0') => 'a0b' 1
string.gsub('THE (quick)', '%f[%a]%a+', '_') => '_ (_)' 2
string.gsub('aa bb', '(%w)%1', '<%1>') => '<a> <b>' 2
string.gsub('a(b(c)d)e', '%b()', '') => 'ae' 1
string.gsub() => ! bad argument #1 to 'gsub' (string expected, got no value)
string.gsub('a') => ! bad argument #2 to 'gsub' (string expected, got no value)
string.gsub('a', 'a', 'b', 'c') => ! bad argument #4 to 'gsub' (number expected, got string)
""")

rows("rows_of_asking_gsubs", "What a function or a table is asked, and what stands for it; what is no replacement.", r"""
string.gsub('abc', 'b', telling('x'), 1) => 'axc' 1, asked for 'b'
string.gsub('abc', 'b', telling(nil), 1) => 'abc' 1, asked for 'b'
string.gsub('abc', 'b', telling(false), 1) => 'abc' 1, asked for 'b'
string.gsub('abc', 'b', holding(12), 1) => 'a12c' 1, asked for 'b'
string.gsub('k=v', '(%w)=(%w)', holding(''), 1) => '' 1, asked for 'k'
string.gsub('k=v', '(%w)=(%w)', telling(''), 1) => '' 1, asked for 'k' 'v'
string.gsub('abc', '()b', telling('x'), 1) => 'axc' 1, asked for 2
string.gsub('abc', 'b', telling(true), 1) => ! invalid replacement value (a boolean), asked for 'b'
string.gsub('abc', 'b', telling({}), 1) => ! invalid replacement value (a table), asked for 'b'
string.gsub('abc', 'b', telling(next), 1) => ! invalid replacement value (a function), asked for 'b'
string.gsub('abc', 'x', next) => 'abc' 0
""", ASKING)

rows("rows_of_wrong_gsubs", "A last `%`, malformed patterns, and arguments that are no replacement.", r"""
string.gsub('ab', 'b', '%x%') => 'ax%' 1
string.gsub('abc', 'b', 'y%2') => ! malformed pattern (7)
string.gsub('abc', '%', 'y') => ! malformed pattern (1)
string.gsub('a', 'a') => ! bad argument #3 to 'gsub' (string expected, got no value)
string.gsub('a', 'a', true) => ! bad argument #3 to 'gsub' (string expected, got boolean)
string.gsub('a', '[', {}) => ! malformed pattern (2)
""", profile=True)

rows("rows_of_gsub_by_code_points", "Replacements by code points, and arguments.", r"""
mw.ustring.gsub('\195\164b', '.', '%0,') => '\195\164,b,' 2
mw.ustring.gsub('\195\164b', '()', '%1') => '1\195\1642b3' 3
mw.ustring.gsub('\195\164b', '', '-') => '-\195\164-b-' 3
mw.ustring.gsub('\208\144\208\177 c', '%a', 'x') => 'xx x' 3
mw.ustring.gsub('\195\164b', '()b', telling('x'), 1) => '\195\164x' 1, asked for 2
mw.ustring.gsub('a', 'a', holding('\255'), 1) => '\255' 1, asked for 'a'
mw.ustring.gsub('\255', 'a', 'b') => ! bad argument #1 to 'gsub' (not UTF-8)
mw.ustring.gsub('a', '\255', 'b') => ! bad argument #2 to 'gsub' (not UTF-8)
mw.ustring.gsub('a', 'a', '\255') => ! bad argument #3 to 'gsub' (not UTF-8)
""", ASKING, profile=True)
