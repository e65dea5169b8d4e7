"""Rows of the functions of `string` and `math`. Those of the first part are Lua 5.1's own: `lua5.1 bench/string_rows.lua` prints them, in this
order, and `bench/run check` compares them. Those behind them were worked out by docs/RULES.md: errors of arguments, which Lua 5.1 has too, then
errors of patterns and formats, for which it has other texts, and numbers of 64 bits, which it hasn't."""
from machine_cases import AMPLE, CALLS, hand
from machine_row_tables import rows

# ---- by Lua 5.1
rows("rows_of_a_word", "Parts of a word, its bytes, and what is made of it.", r"""
string.sub('hello', 0) => 'hello'
string.sub('hello', 0, 2) => 'he'
string.sub('hello', 0, -2) => 'hell'
string.byte('hello', 0) => (none)
string.byte('hello', 0, 3) => 104 101 108
string.sub('hello', 1) => 'hello'
string.sub('hello', 1, 2) => 'he'
string.sub('hello', 1, -2) => 'hell'
string.byte('hello', 1) => 104
string.byte('hello', 1, 3) => 104 101 108
string.sub('hello', 2) => 'ello'
string.sub('hello', 2, 2) => 'e'
string.sub('hello', 2, -2) => 'ell'
string.byte('hello', 2) => 101
string.byte('hello', 2, 3) => 101 108
string.sub('hello', -1) => 'o'
string.sub('hello', -1, 2) => ''
string.sub('hello', -1, -2) => ''
string.byte('hello', -1) => 111
string.byte('hello', -1, 3) => (none)
string.sub('hello', -3) => 'llo'
string.sub('hello', -3, 2) => ''
string.sub('hello', -3, -2) => 'll'
string.byte('hello', -3) => 108
string.byte('hello', -3, 3) => 108
string.sub('hello', 10) => ''
string.sub('hello', 10, 2) => ''
string.sub('hello', 10, -2) => ''
string.byte('hello', 10) => (none)
string.byte('hello', 10, 3) => (none)
string.sub('hello', -100) => 'hello'
string.sub('hello', -100, 2) => 'he'
string.sub('hello', -100, -2) => 'hell'
string.byte('hello', -100) => (none)
string.byte('hello', -100, 3) => 104 101 108
string.byte('hello') => 104
string.byte('hello', nil, nil) => 104
string.sub('hello', 1, nil) => 'hello'
string.len('hello') => 5
string.upper('hello') => 'HELLO'
string.lower('hello') => 'hello'
string.reverse('hello') => 'olleh'
string.rep('hello', 3) => 'hellohellohello'
string.rep('hello', 0) => ''
string.rep('hello', -1) => ''
""")

rows("rows_of_an_empty_text", "The same of a text without a byte.", r"""
string.sub('', 0) => ''
string.sub('', 0, 2) => ''
string.sub('', 0, -2) => ''
string.byte('', 0) => (none)
string.byte('', 0, 3) => (none)
string.sub('', 1) => ''
string.sub('', 1, 2) => ''
string.sub('', 1, -2) => ''
string.byte('', 1) => (none)
string.byte('', 1, 3) => (none)
string.sub('', 2) => ''
string.sub('', 2, 2) => ''
string.sub('', 2, -2) => ''
string.byte('', 2) => (none)
string.byte('', 2, 3) => (none)
string.sub('', -1) => ''
string.sub('', -1, 2) => ''
string.sub('', -1, -2) => ''
string.byte('', -1) => (none)
string.byte('', -1, 3) => (none)
string.sub('', -3) => ''
string.sub('', -3, 2) => ''
string.sub('', -3, -2) => ''
string.byte('', -3) => (none)
string.byte('', -3, 3) => (none)
string.sub('', 10) => ''
string.sub('', 10, 2) => ''
string.sub('', 10, -2) => ''
string.byte('', 10) => (none)
string.byte('', 10, 3) => (none)
string.sub('', -100) => ''
string.sub('', -100, 2) => ''
string.sub('', -100, -2) => ''
string.byte('', -100) => (none)
string.byte('', -100, 3) => (none)
string.byte('') => (none)
string.byte('', nil, nil) => (none)
string.sub('', 1, nil) => ''
string.len('') => 0
string.upper('') => ''
string.lower('') => ''
string.reverse('') => ''
string.rep('', 3) => ''
string.rep('', 0) => ''
string.rep('', -1) => ''
""")

rows("rows_of_a_nul", "And of a text with a NUL.", r"""
string.sub('a\000b', 0) => 'a\000b'
string.sub('a\000b', 0, 2) => 'a\000'
string.sub('a\000b', 0, -2) => 'a\000'
string.byte('a\000b', 0) => (none)
string.byte('a\000b', 0, 3) => 97 0 98
string.sub('a\000b', 1) => 'a\000b'
string.sub('a\000b', 1, 2) => 'a\000'
string.sub('a\000b', 1, -2) => 'a\000'
string.byte('a\000b', 1) => 97
string.byte('a\000b', 1, 3) => 97 0 98
string.sub('a\000b', 2) => '\000b'
string.sub('a\000b', 2, 2) => '\000'
string.sub('a\000b', 2, -2) => '\000'
string.byte('a\000b', 2) => 0
string.byte('a\000b', 2, 3) => 0 98
string.sub('a\000b', -1) => 'b'
string.sub('a\000b', -1, 2) => ''
string.sub('a\000b', -1, -2) => ''
string.byte('a\000b', -1) => 98
string.byte('a\000b', -1, 3) => 98
string.sub('a\000b', -3) => 'a\000b'
string.sub('a\000b', -3, 2) => 'a\000'
string.sub('a\000b', -3, -2) => 'a\000'
string.byte('a\000b', -3) => 97
string.byte('a\000b', -3, 3) => 97 0 98
string.sub('a\000b', 10) => ''
string.sub('a\000b', 10, 2) => ''
string.sub('a\000b', 10, -2) => ''
string.byte('a\000b', 10) => (none)
string.byte('a\000b', 10, 3) => (none)
string.sub('a\000b', -100) => 'a\000b'
string.sub('a\000b', -100, 2) => 'a\000'
string.sub('a\000b', -100, -2) => 'a\000'
string.byte('a\000b', -100) => (none)
string.byte('a\000b', -100, 3) => 97 0 98
string.byte('a\000b') => 97
string.byte('a\000b', nil, nil) => 97
string.sub('a\000b', 1, nil) => 'a\000b'
string.len('a\000b') => 3
string.upper('a\000b') => 'A\000B'
string.lower('a\000b') => 'a\000b'
string.reverse('a\000b') => 'b\000a'
string.rep('a\000b', 3) => 'a\000ba\000ba\000b'
string.rep('a\000b', 0) => ''
string.rep('a\000b', -1) => ''
""")

rows("rows_of_a_byte", "And of one byte.", r"""
string.sub('x', 0) => 'x'
string.sub('x', 0, 2) => 'x'
string.sub('x', 0, -2) => ''
string.byte('x', 0) => (none)
string.byte('x', 0, 3) => 120
string.sub('x', 1) => 'x'
string.sub('x', 1, 2) => 'x'
string.sub('x', 1, -2) => ''
string.byte('x', 1) => 120
string.byte('x', 1, 3) => 120
string.sub('x', 2) => ''
string.sub('x', 2, 2) => ''
string.sub('x', 2, -2) => ''
string.byte('x', 2) => (none)
string.byte('x', 2, 3) => (none)
string.sub('x', -1) => 'x'
string.sub('x', -1, 2) => 'x'
string.sub('x', -1, -2) => ''
string.byte('x', -1) => 120
string.byte('x', -1, 3) => 120
string.sub('x', -3) => 'x'
string.sub('x', -3, 2) => 'x'
string.sub('x', -3, -2) => ''
string.byte('x', -3) => (none)
string.byte('x', -3, 3) => 120
string.sub('x', 10) => ''
string.sub('x', 10, 2) => ''
string.sub('x', 10, -2) => ''
string.byte('x', 10) => (none)
string.byte('x', 10, 3) => (none)
string.sub('x', -100) => 'x'
string.sub('x', -100, 2) => 'x'
string.sub('x', -100, -2) => ''
string.byte('x', -100) => (none)
string.byte('x', -100, 3) => 120
string.byte('x') => 120
string.byte('x', nil, nil) => 120
string.sub('x', 1, nil) => 'x'
string.len('x') => 1
string.upper('x') => 'X'
string.lower('x') => 'x'
string.reverse('x') => 'x'
string.rep('x', 3) => 'xxx'
string.rep('x', 0) => ''
string.rep('x', -1) => ''
""")

rows("rows_of_other_texts", "Numbers as texts, bytes that are no letters, and texts from codes.", r"""
string.sub(12345, '2', '3.0') => '23'
string.len(12345) => 5
string.rep(7, '2') => '77'
string.upper('aZ[`{\255\228') => 'AZ[`{\255\228'
string.lower('aZ[`{\255\196') => 'az[`{\255\196'
string.reverse('a\013\010\200') => '\200\010\013a'
string.char() => ''
string.char(72, 0, 255) => 'H\000\255'
string.char('65', '0x42') => 'AB'
""")

rows("rows_of_byte_searches", "Plain bytes, captures, places and anchors, from several starts.", r"""
string.find('hello', 'l') => 3 3
string.find('hello', 'l', 3) => 3 3
string.find('hello', 'l', -2) => 4 4
string.match('hello', 'l') => 'l'
string.match('hello', 'l', 4) => 'l'
string.find('hello', 'l+') => 3 4
string.find('hello', 'l+', 3) => 3 4
string.find('hello', 'l+', -2) => 4 4
string.match('hello', 'l+') => 'll'
string.match('hello', 'l+', 4) => 'l'
string.find('hello', '(l)(l)') => 3 4 'l' 'l'
string.find('hello', '(l)(l)', 3) => 3 4 'l' 'l'
string.find('hello', '(l)(l)', -2) => nil
string.match('hello', '(l)(l)') => 'l' 'l'
string.match('hello', '(l)(l)', 4) => nil
string.find('hello', '()ll()') => 3 4 3 5
string.find('hello', '()ll()', 3) => 3 4 3 5
string.find('hello', '()ll()', -2) => nil
string.match('hello', '()ll()') => 3 5
string.match('hello', '()ll()', 4) => nil
string.find('hello', '^h') => 1 1
string.find('hello', '^h', 3) => nil
string.find('hello', '^h', -2) => nil
string.match('hello', '^h') => 'h'
string.match('hello', '^h', 4) => nil
string.find('hello', '^l') => nil
string.find('hello', '^l', 3) => 3 3
string.find('hello', '^l', -2) => 4 4
string.match('hello', '^l') => nil
string.match('hello', '^l', 4) => 'l'
string.find('hello', 'o$') => 5 5
string.find('hello', 'o$', 3) => 5 5
string.find('hello', 'o$', -2) => 5 5
string.match('hello', 'o$') => 'o'
string.match('hello', 'o$', 4) => 'o'
""")

rows("rows_of_repeats_and_sets", "Patterns that match nothing, repeats, sets, a frontier and captures in captures.", r"""
string.find('hello', '') => 1 0
string.find('hello', '', 3) => 3 2
string.find('hello', '', -2) => 4 3
string.match('hello', '') => ''
string.match('hello', '', 4) => ''
string.find('hello', '.-') => 1 0
string.find('hello', '.-', 3) => 3 2
string.find('hello', '.-', -2) => 4 3
string.match('hello', '.-') => ''
string.match('hello', '.-', 4) => ''
string.find('hello', '%a+') => 1 5
string.find('hello', '%a+', 3) => 3 5
string.find('hello', '%a+', -2) => 4 5
string.match('hello', '%a+') => 'hello'
string.match('hello', '%a+', 4) => 'lo'
string.find('hello', 'x') => nil
string.find('hello', 'x', 3) => nil
string.find('hello', 'x', -2) => nil
string.match('hello', 'x') => nil
string.match('hello', 'x', 4) => nil
string.find('hello', '(h)(.)%2') => nil
string.find('hello', '(h)(.)%2', 3) => nil
string.find('hello', '(h)(.)%2', -2) => nil
string.match('hello', '(h)(.)%2') => nil
string.match('hello', '(h)(.)%2', 4) => nil
string.find('hello', '[^h]+') => 2 5
string.find('hello', '[^h]+', 3) => 3 5
string.find('hello', '[^h]+', -2) => 4 5
string.match('hello', '[^h]+') => 'ello'
string.match('hello', '[^h]+', 4) => 'lo'
string.find('hello', '%f[%a]') => 1 0
string.find('hello', '%f[%a]', 3) => nil
string.find('hello', '%f[%a]', -2) => nil
string.match('hello', '%f[%a]') => ''
string.match('hello', '%f[%a]', 4) => nil
string.find('hello', 'h?') => 1 1
string.find('hello', 'h?', 3) => 3 2
string.find('hello', 'h?', -2) => 4 3
string.match('hello', 'h?') => 'h'
string.match('hello', 'h?', 4) => ''
string.find('hello', 'l*') => 1 0
string.find('hello', 'l*', 3) => 3 4
string.find('hello', 'l*', -2) => 4 4
string.match('hello', 'l*') => ''
string.match('hello', 'l*', 4) => 'l'
string.find('hello', '(e(l))l') => 2 4 'el' 'l'
string.find('hello', '(e(l))l', 3) => nil
string.find('hello', '(e(l))l', -2) => nil
string.match('hello', '(e(l))l') => 'el' 'l'
string.match('hello', '(e(l))l', 4) => nil
""")

rows("rows_of_more_searches", "Starts past the end, plain searches, and whole patterns.", r"""
string.find('hello', '', 10) => 6 5
string.find('hello', '', 7, true) => 6 5
string.find('abc', 'a', 0) => 1 1
string.find('abc', '^b', 2) => 2 2
string.find('a.b', '.', 2, true) => 2 2
string.find('a.b', '.', 2, false) => 2 2
string.find('a.b', '.', nil, 1) => 2 2
string.find('a\000b', '\000', 1, true) => 2 2
string.find('a\000b', '%z') => 2 2
string.find('abab', 'ab', -2, true) => 3 4
string.find('abab', 'ba%', 1, true) => nil
string.find(1001, 0) => 2 2
string.match('key = val', '^(%w+)%s*=%s*(%w+)$') => 'key' 'val'
string.match('2026-11-28', '(%d+)-(%d+)-(%d+)') => '2026' '11' '28'
string.match('f(a(b)c)d', '%b()') => '(a(b)c)'
string.match('THE (quick) fox', '%((%a+)%)') => 'quick'
string.match('abc', 'b', 3) => nil
string.match('  x  ', '^%s*(.-)%s*$') => 'x'
string.match('[[x]]', '^%[%[(.*)%]%]$') => 'x'
""")

rows("rows_of_directives", "Each directive with a number and with a text.", r"""
string.format('%d', 42) => '42'
string.format('%d', '65') => '65'
string.format('%5d|', 42) => '   42|'
string.format('%5d|', '65') => '   65|'
string.format('%-5d|', 42) => '42   |'
string.format('%-5d|', '65') => '65   |'
string.format('%05d', 42) => '00042'
string.format('%05d', '65') => '00065'
string.format('%+d', 42) => '+42'
string.format('%+d', '65') => '+65'
string.format('% d', 42) => ' 42'
string.format('% d', '65') => ' 65'
string.format('%.3d', 42) => '042'
string.format('%.3d', '65') => '065'
string.format('%5.3d', 42) => '  042'
string.format('%5.3d', '65') => '  065'
string.format('%i', 42) => '42'
string.format('%i', '65') => '65'
string.format('%u', 42) => '42'
string.format('%u', '65') => '65'
string.format('%o', 42) => '52'
string.format('%o', '65') => '101'
string.format('%x', 42) => '2a'
string.format('%x', '65') => '41'
string.format('%X', 42) => '2A'
string.format('%X', '65') => '41'
string.format('%#x', 42) => '0x2a'
string.format('%#x', '65') => '0x41'
string.format('%#o', 42) => '052'
string.format('%#o', '65') => '0101'
string.format('%c', 42) => '*'
string.format('%c', '65') => 'A'
string.format('%s', 42) => '42'
string.format('%s', '65') => '65'
string.format('%5s|', 42) => '   42|'
string.format('%5s|', '65') => '   65|'
string.format('%-5s|', 42) => '42   |'
string.format('%-5s|', '65') => '65   |'
string.format('%.1s', 42) => '4'
string.format('%.1s', '65') => '6'
string.format('%q', 42) => '"42"'
string.format('%q', '65') => '"65"'
string.format('%%', 42) => '%'
string.format('%%', '65') => '%'
string.format('%5.1f', 42) => ' 42.0'
string.format('%5.1f', '65') => ' 65.0'
string.format('%.0f', 42) => '42'
string.format('%.0f', '65') => '65'
string.format('%f', 42) => '42.000000'
string.format('%f', '65') => '65.000000'
""")

rows("rows_of_formats", "Numbers below 0, quotes, and several directives.", r"""
string.format('%d', -5) => '-5'
string.format('%.3d', -5) => '-005'
string.format('%05d', -5) => '-0005'
string.format('%q', 'a"b\\c\010d\013e\000f') => '"a\\"b\\\\c\\\010d\\re\\000f"'
string.format('%s=%d;', 'k', 7) => 'k=7;'
string.format('%s%s%s', 'a', 1, 'b') => 'a1b'
string.format('none', 1, 2) => 'none'
string.format('') => ''
""")

rows("rows_of_remainders", "Numbers on both sides of 0, divided by some.", r"""
math.abs(-7) => 7
math.ceil(-7) => -7
math.floor(-7) => -7
math.fmod(-7, -3) => -1
math.fmod(-7, -1) => 0
math.fmod(-7, 1) => 0
math.fmod(-7, 2) => -1
math.fmod(-7, 3) => -1
math.abs(-1) => 1
math.ceil(-1) => -1
math.floor(-1) => -1
math.fmod(-1, -3) => -1
math.fmod(-1, -1) => 0
math.fmod(-1, 1) => 0
math.fmod(-1, 2) => -1
math.fmod(-1, 3) => -1
math.abs(0) => 0
math.ceil(0) => 0
math.floor(0) => 0
math.fmod(0, -3) => 0
math.fmod(0, -1) => 0
math.fmod(0, 1) => 0
math.fmod(0, 2) => 0
math.fmod(0, 3) => 0
math.abs(1) => 1
math.ceil(1) => 1
math.floor(1) => 1
math.fmod(1, -3) => 1
math.fmod(1, -1) => 0
math.fmod(1, 1) => 0
math.fmod(1, 2) => 1
math.fmod(1, 3) => 1
math.abs(7) => 7
math.ceil(7) => 7
math.floor(7) => 7
math.fmod(7, -3) => 1
math.fmod(7, -1) => 0
math.fmod(7, 1) => 0
math.fmod(7, 2) => 1
math.fmod(7, 3) => 1
math.abs(9007199254740991) => 9007199254740991
math.ceil(9007199254740991) => 9007199254740991
math.floor(9007199254740991) => 9007199254740991
math.fmod(9007199254740991, -3) => 1
math.fmod(9007199254740991, -1) => 0
math.fmod(9007199254740991, 1) => 0
math.fmod(9007199254740991, 2) => 1
math.fmod(9007199254740991, 3) => 1
""")

rows("rows_of_math", "Texts as numbers, powers, and the greatest and the least.", r"""
math.abs(' -12 ') => 12
math.pow(2, 10) => 1024
math.pow(-3, 3) => -27
math.pow(7, 0) => 1
math.pow(0, 5) => 0
math.max(3) => 3
math.max(3, 12, 5) => 12
math.max('3', '12', -5) => 12
math.min(3, 12, 5) => 3
math.min(3, -12, -12) => -12
math.min(-1) => -1
""")


# ---- by the rules, and Lua 5.1 has the same
rows("rows_of_wrong_texts", "Arguments that are none, and places at one end of the numbers.", r"""
string.byte() => ! bad argument #1 to 'byte' (string expected, got no value)
string.byte({}) => ! bad argument #1 to 'byte' (string expected, got table)
string.byte('a', true) => ! bad argument #2 to 'byte' (number expected, got boolean)
string.byte('a', 1, 'x') => ! bad argument #3 to 'byte' (number expected, got string)
string.byte('abc', most, least) => (none)
string.sub('a') => ! bad argument #2 to 'sub' (number expected, got no value)
string.sub(nil, 1) => ! bad argument #1 to 'sub' (string expected, got nil)
string.sub('a', 1, {}) => ! bad argument #3 to 'sub' (number expected, got table)
string.char(65, nil) => ! bad argument #2 to 'char' (number expected, got nil)
string.char(65, 'x', 256) => ! bad argument #2 to 'char' (number expected, got string)
string.len() => ! bad argument #1 to 'len' (string expected, got no value)
string.len(next) => ! bad argument #1 to 'len' (string expected, got function)
string.len(least) => 20
string.lower(nil) => ! bad argument #1 to 'lower' (string expected, got nil)
string.upper(true) => ! bad argument #1 to 'upper' (string expected, got boolean)
string.reverse(next) => ! bad argument #1 to 'reverse' (string expected, got function)
string.rep('a') => ! bad argument #2 to 'rep' (number expected, got no value)
string.rep({}, 1) => ! bad argument #1 to 'rep' (string expected, got table)
string.rep('', most) => ''
string.rep('ab', least) => ''
""")

rows("rows_of_wrong_searches_and_formats", "Arguments that are none, searches from the first number on, and numbers that are written without a sign.", r"""
string.find('a') => ! bad argument #2 to 'find' (string expected, got no value)
string.find(nil, 'a') => ! bad argument #1 to 'find' (string expected, got nil)
string.find('a', 'a', 'x') => ! bad argument #3 to 'find' (number expected, got string)
string.find('abc', 'a', least) => 1 1
string.find('a(b', '(', 1, true) => 2 2
string.find('ab', '(', nil, 0) => nil
string.match(true, 'a') => ! bad argument #1 to 'match' (string expected, got boolean)
string.match('a', nil) => ! bad argument #2 to 'match' (string expected, got nil)
string.format() => ! bad argument #1 to 'format' (string expected, got no value)
string.format('%d', true) => ! bad argument #2 to 'format' (number expected, got boolean)
string.format('%d%d', 1, 'x') => ! bad argument #3 to 'format' (number expected, got string)
string.format('%s', {}) => ! bad argument #2 to 'format' (string expected, got table)
string.format('%s%q', 'a', nil) => ! bad argument #3 to 'format' (string expected, got nil)
string.format('%d%y', true) => ! bad argument #2 to 'format' (number expected, got boolean)
string.format('%d', least) => '-9223372036854775808'
string.format('%u', -1) => '18446744073709551615'
string.format('%x', -1) => 'ffffffffffffffff'
""")

rows("rows_of_wrong_math", "Arguments that are none, and numbers at both ends.", r"""
math.abs() => ! bad argument #1 to 'abs' (number expected, got no value)
math.abs('x') => ! bad argument #1 to 'abs' (number expected, got string)
math.ceil({}) => ! bad argument #1 to 'ceil' (number expected, got table)
math.floor(nil) => ! bad argument #1 to 'floor' (number expected, got nil)
math.floor(least) => -9223372036854775808
math.fmod(1) => ! bad argument #2 to 'fmod' (number expected, got no value)
math.fmod(true, 1) => ! bad argument #1 to 'fmod' (number expected, got boolean)
math.fmod(least, -1) => 0
math.max() => ! bad argument #1 to 'max' (number expected, got no value)
math.max(1, nil, 'x') => ! bad argument #2 to 'max' (number expected, got nil)
math.min() => ! bad argument #1 to 'min' (number expected, got no value)
math.min(1, 2, 'x') => ! bad argument #3 to 'min' (number expected, got string)
math.min(least, most) => -9223372036854775808
math.pow(2) => ! bad argument #2 to 'pow' (number expected, got no value)
math.pow(2, 62) => 4611686018427387904
math.pow(-2, 63) => -9223372036854775808
math.pow(-1, -3) => -1
""")


rows("rows_of_many_items", "Patterns of many items that match nothing without a try: in the middle of a text, at its end, and both.", r"""
string.find('a', ('.-'):rep(40)..'b') => nil
string.find('aab', ('.-'):rep(40)..'b') => 1 3
string.find('ab', ('.-'):rep(20)..'%f[%z]()'..('.-'):rep(20)..'$') => 1 2 3
string.find('', ('a*'):rep(40)..'$') => 1 0
string.find('aa', ('a?'):rep(17)..'b', -1) => nil
string.match('aab', '(.-)'..('a-'):rep(40)..'(b)') => '' 'b'
string.match('(a)', ('.-'):rep(20)..'%b()'..('.-'):rep(20)..'()$') => 4
string.gsub('xxx', ('.-'):rep(40)..'x', 'y') => 'yyy' 3
string.gsub('ab', ('.-'):rep(40), '-') => '-a-b-' 3
string.gsub('aabab', '(a-)'..('a-'):rep(40)..'%1b', '<%1>') => '<><>' 2
""")

# ---- by the rules alone
rows("rows_of_texts_in_the_profile", "Places at both ends of the numbers, codes, malformed patterns, and directives that are none.", r"""
string.byte('abc', least, most) => 97 98 99
string.sub('abc', least, most) => 'abc'
string.char(256) => ! bad argument #1 to 'char' (out of range)
string.char(65, -1) => ! bad argument #2 to 'char' (out of range)
string.char(1, 2, 3, 4, 5, 6, 7, 8, 9, 10, 11, 300) => ! bad argument #12 to 'char' (out of range)
string.find('abc', 'c', most) => nil
string.find('a', '%') => ! malformed pattern (1)
string.find('a', '[a') => ! malformed pattern (2)
string.find('a', '%f') => ! malformed pattern (3)
string.find('a', '(') => ! malformed pattern (4)
string.match('a', ')') => ! malformed pattern (5)
string.match('a', ('('):rep(33)) => ! malformed pattern (6)
string.match('a', '%1') => ! malformed pattern (7)
string.match('a', '%bx') => ! malformed pattern (8)
string.format('%d') => ! bad argument #2 to 'format' (number expected, got no value)
string.format('%d%d', 1) => ! bad argument #3 to 'format' (number expected, got no value)
string.format('%c', -1) => ! bad argument #2 to 'format' (out of range)
string.format('%d%c', 1, 256) => ! bad argument #3 to 'format' (out of range)
string.format('%y') => ! invalid option to 'format'
string.format('%', 1) => ! invalid option to 'format'
string.format('%100d', 1) => ! invalid option to 'format'
string.format('%s', 'a\000b') => 'a\000b'
""", profile=True)

rows("rows_of_math_in_the_profile", "What leaves the numbers.", r"""
math.abs(least) => ! number out of range
math.abs(-9223372036854775807) => 9223372036854775807
math.fmod(1, 0) => ! division by zero
math.max(least, most) => 9223372036854775807
math.pow(2, 63) => ! number out of range
math.pow(2, -1) => ! quotient is not whole
math.pow(0, -1) => ! division by zero
""", profile=True)


# ---- rows whose answer is that the steps are spent, or that they are not
# more than a million steps for the call, with what stands before it
A_MILLION = 1_005_000


def spent(name, said, expression, steps):
    """A call that so many steps don't let come to an end."""
    hand(name, said, "return {f=function() return " + expression + " end}", None, profile=True, levels=False, runs_at_each=False, runs=[("exact", steps, CALLS, [], "spends steps, 0 left")])


def paid(name, said, expression, gives, before, charge):
    """A call whose charge is worked out by hand: with a step less it is spent. The text of the module begins with 1,000, its bytes, 1 for the
    chunk, and 24 for what it makes; then come the function, its `return`, the call, and the bytes of the answer."""
    text = "return {f=function() return " + expression + " end}"
    needed = 1000 + len(text) + 1 + 24 + 2 + before + charge
    hand(name, said, text, None, profile=True, levels=False, runs_at_each=False, runs=[
        ("took", AMPLE, CALLS, [], f"gives {gives}, {needed + len(gives)} taken"), ("exact", needed - 1, CALLS, [], "spends steps, 0 left")])


spent("row_of_a_text_beyond_all", "A text of 2 times the last number of bytes is paid for before it is made.", "string.rep('ab',9223372036854775807)", AMPLE)
spent("row_of_maybe_24_times", "`a?` as many times as there is an `a`, and then as many: 2^24 ways.", "string.match(('a'):rep(24),('a?'):rep(24)..('a'):rep(24))", A_MILLION)
spent("row_of_three_repeats", "Three repeats over 2,000 bytes: as many ways as there are three places in a row.", "string.match(('a'):rep(2000),'.-.-.-b')", A_MILLION)
paid("row_of_a_long_text", "The length and the call with four nodes of its own and two arguments; then the function, and each byte.", "#string.rep('ab',500001)", "1000002",
     1 + 4 + 2 + 1, 1000002)
for name, size in (("row_of_a_plain_search", 500001), ("row_of_a_longer_plain_search", 1000001)):
    paid(name, "The call with four nodes, the text with five and its bytes, and three arguments; then the function, and the bytes that are searched.",
         f"string.find(('a'):rep({size}),'',1,true)", "10", 4 + 5 + size + 3 + 1, size)
paid("row_of_a_text_without_a_directive", "The length and the call with four nodes, two arguments, the text with five and its bytes; then the function, the bytes of both texts, and those that are made.",
     "#string.format('%99d',1,('a'):rep(999999))", "99", 1 + 4 + 2 + 5 + 999999 + 1, 4 + 999999 + 99)
