"""The functions of `string`, `table`, `math`, `mw.ustring` and `mw.text`, for `machine_reference.py`, by the rules of docs/RULES.md.

Patterns are those of `pattern_reference.py`. Each function takes its charge where the rules say that it is; a text that is made is paid
for before it is made."""
import functools
import re
import unicodedata

from machine_library import a_number, a_table, a_text, bad, tag_by, want
from machine_values import LEAST, MOST, Table, first, is_true, kind_of, nth, number_in, text_in
from pattern_reference import Fault, Reader, Search, symbols


# ---- further arguments
def text_or(run, ls, args, n, name, default):
    return default if nth(args, n - 1) is None else a_text(run, ls, args, n, name)


def utf8(run, ls, n, name, text):
    try:
        text.decode()
    except UnicodeDecodeError:
        bad(run, ls, n, name, b"not UTF-8")
    return text


def utf8_text(run, ls, args, n, name, default=None):
    text = a_text(run, ls, args, n, name) if default is None else text_or(run, ls, args, n, name, default)
    return utf8(run, ls, n, name, text)


def numbers(run, ls, args, name, allowed=lambda n: True):
    found = []
    for n in range(1, len(args) + 1):
        found.append(a_number(run, ls, args, n, name))
        if not allowed(found[-1]):
            bad(run, ls, n, name, b"out of range")
    return found


def bytes_in(args):
    """What a function of texts costs before it looks at its arguments."""
    return sum(len(value) for value in args if isinstance(value, bytes))


def giving(run, text):
    run.tick(len(text))
    return [text]


# ---- places, from 0
def first_place(size, n):
    return min(n - 1, size) if n > 0 else max(size + n, 0) if n < 0 else 0


def last_place(size, n):
    return min(n, size) if n >= 0 else max(size + n + 1, 0)


def part(items, i, j):
    return items[first_place(len(items), i):last_place(len(items), j)]


# ---- searches
class Found:
    def __init__(self, start, end, captures, tries):
        self.start, self.end, self.captures, self.tries = start, end, captures, tries


def reader_of(run, ls, pattern, points, anchors=True):
    try:
        return Reader(symbols(pattern, points)[0], points, anchors)
    except Fault as fault:
        return run.raise_at(ls, b"malformed pattern (%d)" % fault.args[0])


def search(reader, subject, place):
    """The first match from a byte on: its places, and the captures as texts, or places as numbers from 0; and the tries."""
    way, tries = Search(reader, subject), int(reader.anchored)
    for at, start in enumerate(way.starts):
        if start < place:
            continue
        more, end, marks = way.way(0, at, ())
        tries += more
        if end is not None:
            captures = [marks[it[1]] if it[0] == "place" else subject[marks[it[1]]:marks[it[2]]] for it in reader.captures]
            return Found(start, way.starts[end], captures, tries)
        if reader.anchored:
            break
    return Found(None, None, [], tries)


def plain_found(subject, needle, place):
    at = subject.find(needle, place)
    return Found(None, None, [], 0) if at < 0 else Found(at, at + len(needle), [], 0)


def find_values(run, found, subject, number):
    """`number` gives what stands before a byte, as places count."""
    if found.start is None:
        run.tick(found.tries)
        return [None]
    run.tick(found.tries + bytes_in(found.captures))
    return [number(found.start) + 1, number(found.end)] + [number(c) + 1 if type(c) is int else c for c in found.captures]


def match_values(run, found, subject, number):
    if found.start is not None and not found.captures:
        found.captures = [subject[found.start:found.end]]
    return find_values(run, found, subject, number)[2:] if found.start is not None else find_values(run, found, subject, number)


def searching(run, ls, args, name, points, values, plainly):
    text = utf8_text if points else a_text
    subject, pattern = text(run, ls, args, 1, name), text(run, ls, args, 2, name)
    init = a_number(run, ls, args, 3, name, 1)
    if points:
        place = len(subject.decode()[:first_place(len(subject.decode()), init)].encode())
    else:
        place = first_place(len(subject), init)

    def number(at):
        return len(subject[:at].decode()) if points else at
    if plainly and is_true(nth(args, 3)):
        run.tick(len(subject) - place + len(pattern))
        return values(run, plain_found(subject, pattern, place), subject, number)
    run.tick(len(pattern))
    return values(run, search(reader_of(run, ls, pattern, points), subject, place), subject, number)


# ---- `string.format`
def filled(flags, width, zeros, prefix, body):
    room = max(width - len(prefix + body), 0)
    if "-" in flags:
        return prefix + body + b" " * room
    return prefix + b"0" * room + body if "0" in flags and zeros else b" " * room + prefix + body


def counted(precision, digits):
    return digits if precision is None else b"" if precision == 0 and digits == b"0" else digits.rjust(precision, b"0")


def quoted(text):
    names = {b'"': b'\\"', b"\\": b"\\\\", b"\n": b"\\\n", b"\r": b"\\r", b"\0": b"\\000"}
    return b'"' + re.sub(rb'["\\\n\r\0]', lambda m: names[m[0]], text) + b'"'


def number_by(flags, width, precision, letter, n):
    sign = b"-" if n < 0 else b"+" if "+" in flags else b" " if " " in flags else b""
    whole, m = str(abs(n)).encode(), n % 2 ** 64
    if letter in "di":
        return filled(flags, width, precision is None, sign, counted(precision, whole))
    if letter == "f":
        places = 6 if precision is None else precision
        return filled(flags, width, True, sign, whole + (b"." + b"0" * places if places or "#" in flags else b""))
    if letter == "c":
        return filled(flags, width, False, b"", bytes([n]))
    body = counted(precision, {"u": b"%d", "o": b"%o", "x": b"%x", "X": b"%X"}[letter] % m)
    if letter == "o" and "#" in flags and body[:1] != b"0":
        body = b"0" + body
    prefix = {"x": b"0x", "X": b"0X"}.get(letter, b"") if "#" in flags and m else b""
    return filled(flags, width, precision is None, prefix, body)


def directive(run, ls, found, given, n):
    """What a directive writes of argument n."""
    flags, width, precision, letter = found
    kind, read = (b"string", text_in) if letter in "qs" else (b"number", number_in)
    value = want(run, ls, given, n, b"format", kind, read(nth(given, n - 1)))
    if letter == "q":
        return quoted(value)
    if letter == "s":
        return filled(flags, width, False, b"", value if precision is None else value[:precision])
    if letter == "c" and not 0 <= value <= 255:
        bad(run, ls, n, b"format", b"out of range")
    return number_by(flags, width, precision, letter, value)


def formatted(run, ls, args):
    text, at, made, n = a_text(run, ls, args, 1, b"format"), 0, [], 2
    while at < len(text):
        if text[at:at + 1] != b"%":
            made.append(text[at:at + 1])
            at += 1
            continue
        form = re.match(rb"%([-+ #0]*)([0-9]{0,2})(\.[0-9]{0,2})?([cdiuoxXfqs%])", text[at:], re.S)
        if not form or len(form[1]) > 5:
            run.raise_at(ls, b"invalid option to 'format'")
        at += form.end()
        if form[4] == b"%":
            made.append(b"%")
            continue
        precision = None if form[3] is None else int(form[3][1:] or b"0")
        made.append(directive(run, ls, (form[1].decode(), int(form[2] or b"0"), precision, form[4].decode()), args, n))
        n += 1
    return b"".join(made)


# ---- `string` and `math`
def string_functions(run):
    from machine_gsub import gsub
    from machine_iterators import gmatch

    def byte(args, ls):
        s = a_text(run, ls, args, 1, b"byte")
        i = a_number(run, ls, args, 2, b"byte", 1)
        given = part(s, i, a_number(run, ls, args, 3, b"byte", i))
        run.tick(len(given))
        return list(given)

    def char(args, ls):
        return giving(run, bytes(numbers(run, ls, args, b"char", lambda n: 0 <= n <= 255)))

    def find(args, ls):
        return searching(run, ls, args, b"find", False, find_values, True)

    def match(args, ls):
        return searching(run, ls, args, b"match", False, match_values, False)

    def form(args, ls):
        run.tick(bytes_in(args))
        return giving(run, formatted(run, ls, args))

    def size(args, ls):
        return [len(a_text(run, ls, args, 1, b"len"))]

    def rep(args, ls):
        s, n = a_text(run, ls, args, 1, b"rep"), a_number(run, ls, args, 2, b"rep")
        run.tick(len(s) * max(n, 0))
        return [s * max(n, 0) if s else s]

    def sub(args, ls):
        s, i = a_text(run, ls, args, 1, b"sub"), a_number(run, ls, args, 2, b"sub")
        return giving(run, part(s, i, a_number(run, ls, args, 3, b"sub", -1)))

    def changed(name, change):
        return lambda args, ls: giving(run, change(a_text(run, ls, args, 1, name)))
    return [(b"byte", byte), (b"char", char), (b"find", find), (b"match", match), (b"gmatch", gmatch(run, False)), (b"gsub", gsub(run, False)), (b"format", form), (b"len", size),
            (b"lower", changed(b"lower", bytes.lower)), (b"upper", changed(b"upper", bytes.upper)), (b"rep", rep),
            (b"reverse", changed(b"reverse", lambda s: s[::-1])), (b"sub", sub)]


def math_functions(run):
    from machine_reference import calculated

    def answer(ls, n):
        if isinstance(n, bytes):
            run.raise_at(ls, n)
        return [n] if LEAST <= n <= MOST else run.raise_at(ls, b"number out of range")

    def of_one(name, change):
        return lambda args, ls: answer(ls, change(a_number(run, ls, args, 1, name)))

    def of_two(name, change):
        return lambda args, ls: answer(ls, change(a_number(run, ls, args, 1, name), a_number(run, ls, args, 2, name)))

    def of_all(name, choose):
        def does(args, ls):
            found = numbers(run, ls, args, name)
            return [choose(found)] if found else [a_number(run, ls, args, 1, name)]
        return does

    def rest(a, b):
        return b"division by zero" if b == 0 else abs(a) % abs(b) * (-1 if a < 0 else 1)
    return [(b"abs", of_one(b"abs", abs)), (b"ceil", of_one(b"ceil", int)), (b"floor", of_one(b"floor", int)),
            (b"fmod", of_two(b"fmod", rest)), (b"max", of_all(b"max", max)), (b"min", of_all(b"min", min)),
            (b"pow", of_two(b"pow", functools.partial(calculated, "^")))]


# ---- `table`
def put_all(run, table, place, values, read):
    """The values from a place on, after so many reads: a step for each, and 4 for a new entry."""
    at = list(enumerate(values, place))
    run.tick(read + sum(1 + 4 * (value is not None and not table.has(n)) for n, value in at))
    for n, value in at:
        table.set(n, value)


def writable(run, ls, table):
    if table.frozen:
        run.raise_at(ls, b"table from mw.loadData is read-only")


def table_functions(run):
    def concat(args, ls):
        t, between = a_table(run, ls, args, 1, b"concat"), text_or(run, ls, args, 2, b"concat", b"")
        i = a_number(run, ls, args, 3, b"concat", 1)
        parts = []
        for n in range(i, a_number(run, ls, args, 4, b"concat", t.border()) + 1):
            run.tick(1)
            parts.append(text_in(t.get(n)))
            if parts[-1] is None:
                run.raise_at(ls, b"invalid value (at index %d) in table for 'concat'" % n)
        run.tick(sum(map(len, parts)) + len(between) * max(len(parts) - 1, 0))
        return [between.join(parts)]

    def insert_at(t, place, moved, value, ls):
        if place + moved > MOST:
            run.raise_at(ls, b"number out of range")
        put_all(run, t, place, [value] + [t.get(n) for n in range(place, place + moved)], moved)
        return []

    def insert(args, ls):
        t = a_table(run, ls, args, 1, b"insert")
        if len(args) < 3:
            writable(run, ls, t)
            return insert_at(t, t.border() + 1, 0, nth(args, 1), ls)
        place = a_number(run, ls, args, 2, b"insert")
        if place < 1:
            bad(run, ls, 2, b"insert", b"out of range")
        writable(run, ls, t)
        return insert_at(t, place, max(t.border() - place + 1, 0), args[2], ls)

    def maxn(args, ls):
        t = a_table(run, ls, args, 1, b"maxn")
        run.tick(len(t.slots))
        return [max([0] + [key for key, _ in t.entries() if type(key) is int])]

    def remove(args, ls):
        t = a_table(run, ls, args, 1, b"remove")
        n = t.border()
        place = a_number(run, ls, args, 2, b"remove", n)
        if not 1 <= place <= n:
            return []
        writable(run, ls, t)
        given = t.get(place)
        put_all(run, t, place, [t.get(k) for k in range(place + 1, n + 1)] + [None], n - place + 1)
        return [given]

    def sort(args, ls):
        t = a_table(run, ls, args, 1, b"sort")
        if nth(args, 1) is not None:
            bad(run, ls, 2, b"sort", b"nil expected, got " + kind_of(args[1]))
        values = [t.get(n) for n in range(1, t.border() + 1)]
        wanted = bytes if not values or type(values[0]) is not int else int
        for value in values:
            run.tick(1)
            if len(values) > 1 and type(value) is not wanted:
                bad(run, ls, 1, b"sort", b"%s expected, got %s" % ({int: b"number", bytes: b"string"}[wanted], kind_of(value)))
        if values:
            writable(run, ls, t)
        run.tick(len(values) * len(values).bit_length())
        put_all(run, t, 1, sorted(values) if len(values) > 1 else values, 0)
        return []
    return [(b"concat", concat), (b"insert", insert), (b"maxn", maxn), (b"remove", remove), (b"sort", sort)]


# ---- `mw.ustring`
def of_texts(run, pairs):
    """Functions that cost the bytes of their arguments that are strings before they look at them."""
    def paid(does):
        def call(args, ls):
            run.tick(bytes_in(args))
            return does(args, ls)
        return call
    return [(name, paid(does)) for name, does in pairs]


def begins(text):
    return [at for at, byte in enumerate(text) if byte & 0xC0 != 0x80]


def ustring_functions(run):
    from machine_gsub import gsub
    from machine_iterators import gcodepoint, gmatch

    def char(args, ls):
        found = numbers(run, ls, args, b"char", lambda n: 0 <= n < 0xD800 or 0xE000 <= n <= 0x10FFFF)
        return giving(run, "".join(map(chr, found)).encode())

    def codepoint(args, ls):
        s = utf8_text(run, ls, args, 1, b"codepoint").decode()
        i = a_number(run, ls, args, 2, b"codepoint", 1)
        given = part(s, i, a_number(run, ls, args, 3, b"codepoint", i))
        run.tick(len(given))
        return list(map(ord, given))

    def byteoffset(args, ls):
        s = utf8_text(run, ls, args, 1, b"byteoffset")
        point, i = a_number(run, ls, args, 2, b"byteoffset", 1), a_number(run, ls, args, 3, b"byteoffset", 1)
        at = i - 1 if i > 0 else len(s) + i
        if i == 0 or not 0 <= at < len(s):
            return [None]
        before, behind = [n for n in begins(s) if n <= at][::-1], [n for n in begins(s) if n >= at]
        return [nth([n + 1 for n in (behind if point > 0 else before)], point - 1 if point > 0 else -point)]

    def find(args, ls):
        return searching(run, ls, args, b"find", True, find_values, True)

    def match(args, ls):
        return searching(run, ls, args, b"match", True, match_values, False)

    def decoded_in(args, ls, name):
        try:
            return a_text(run, ls, args, 1, name).decode()
        except UnicodeDecodeError:
            return None

    def size(args, ls):
        text = decoded_in(args, ls, b"len")
        return [None if text is None else len(text)]

    def sub(args, ls):
        s, i = utf8_text(run, ls, args, 1, b"sub").decode(), a_number(run, ls, args, 2, b"sub")
        return giving(run, part(s, i, a_number(run, ls, args, 3, b"sub", -1)).encode())

    def isutf8(args, ls):
        return [decoded_in(args, ls, b"isutf8") is not None]

    def form(name):
        def does(args, ls):
            text = decoded_in(args, ls, b"to" + name)
            return [None] if text is None else giving(run, unicodedata.normalize(name.decode(), text).encode())
        return b"to" + name, does
    return of_texts(run, [(b"char", char), (b"codepoint", codepoint), (b"gcodepoint", gcodepoint(run)), (b"byteoffset", byteoffset),
                          (b"find", find), (b"match", match), (b"gmatch", gmatch(run, True)), (b"gsub", gsub(run, True)),
                          (b"len", size), (b"sub", sub), (b"isutf8", isutf8), *map(form, (b"NFC", b"NFD", b"NFKC", b"NFKD"))])


# ---- `mw.text`
REFERENCES = {"&": "&amp;", "<": "&lt;", ">": "&gt;", '"': "&quot;", "\xa0": "&nbsp;"}
NAMES = {b"lt": 60, b"gt": 62, b"amp": 38, b"quot": 34, b"nbsp": 160}


def set_in(run, ls, args, name, usual):
    """Whether a code point is in the set of argument 2, or in the usual one."""
    if nth(args, 1) is None:
        return lambda c: chr(c) in usual
    text = utf8_text(run, ls, args, 2, name)
    run.tick(len(text))
    reader = reader_of(run, ls, b"[" + text + b"]", True)
    if len(reader.items) != 1 or reader.items[0][0] != "single" or reader.items[0][2]:
        run.raise_at(ls, b"malformed pattern (2)")
    return reader.items[0][1]


def referred(m):
    if m[3]:
        return chr(NAMES[m[3]]).encode()
    n = int(m[1], 16) if m[1] else int(m[2])
    return chr(n).encode() if n < 0xD800 or 0xE000 <= n <= 0x10FFFF else m[0]


def part_from(subject, pattern, reader, at):
    """The part that begins at a byte, the tries, and where the next one begins, if there is one. Without a reader it is a plain search."""
    found = search(reader, subject, at) if reader else plain_found(subject, pattern, at)
    stop, behind = found.start, found.end
    if stop is None:
        stop, behind = len(subject), None
    elif stop == behind:
        ends = [n for n in begins(subject) + [len(subject)] if n > stop] or [stop]
        stop, behind = ends[0], ends[0] if ends[0] < len(subject) else None
    return subject[at:stop], found.tries, behind


def cuts(run, ls, subject, pattern, plain):
    """The parts of a text, and the tries."""
    reader = None if plain else reader_of(run, ls, pattern, True)
    parts, tries, at = [], 0, 0
    while at is not None:
        text, more, at = part_from(subject, pattern, reader, at)
        parts.append(text)
        tries += more
    return parts, tries


def text_functions(run):
    from machine_iterators import gsplit

    def trim(args, ls):
        s = list(map(ord, utf8_text(run, ls, args, 1, b"trim").decode()))
        goes, tries = set_in(run, ls, args, b"trim", "\t\n\f\r "), 0
        for end in (0, -1):
            while s:
                tries += 1
                if not goes(s[end]):
                    break
                s.pop(end)
        run.tick(tries)
        return giving(run, "".join(map(chr, s)).encode())

    def split(args, ls):
        s, pattern = utf8_text(run, ls, args, 1, b"split"), utf8_text(run, ls, args, 2, b"split")
        plain = is_true(nth(args, 2))
        run.tick(0 if plain else len(pattern))
        parts, tries = cuts(run, ls, s, pattern, plain)
        run.tick(tries + 8 + sum(4 + len(text) for text in parts))
        return [Table(list(enumerate(parts, 1)))]

    def encode(args, ls):
        s = utf8_text(run, ls, args, 1, b"encode").decode()
        goes = set_in(run, ls, args, b"encode", "&<>\"'\xa0")
        run.tick(len(s))
        return giving(run, "".join(REFERENCES.get(c, f"&#{ord(c)};") if goes(ord(c)) else c for c in s).encode())

    def decode(args, ls):
        s = a_text(run, ls, args, 1, b"decode")
        return giving(run, re.sub(rb"&(?:#x([0-9a-fA-F]+)|#([0-9]+)|(lt|gt|amp|quot|nbsp));", referred, s))

    def list_to_text(args, ls):
        t = a_table(run, ls, args, 1, b"listToText")
        items = [t.get(n) for n in range(1, t.border() + 1)]
        for item in items:
            want(run, ls, [item], 1, b"listToText", b"string", text_in(item))
        items = list(map(text_in, items))
        between = text_or(run, ls, args, 2, b"listToText", b", ")
        last = text_or(run, ls, args, 3, b"listToText", b" and ")
        return giving(run, last.join([between.join(items[:-1])] * (len(items) > 1) + items[-1:]))

    def nowiki(args, ls):
        s = a_text(run, ls, args, 1, b"nowiki")
        return giving(run, re.sub(rb"[\"&'<=>\[\]{|}]", lambda m: b"&#%d;" % m[0][0], s))

    def tag(args, ls):
        if isinstance(first(args), Table):
            return tag_by(run, [args[0].get(b"name")], args[0].get(b"attrs"), args[0].get(b"content"), ls)
        return tag_by(run, args, nth(args, 1), nth(args, 2), ls)

    def truncate(args, ls):
        s, n = utf8_text(run, ls, args, 1, b"truncate").decode(), a_number(run, ls, args, 2, b"truncate")
        dots = utf8_text(run, ls, args, 3, b"truncate", b"...").decode()
        if len(s) <= abs(n):
            return giving(run, s.encode())
        room = max(abs(n) - len(dots), 0) if is_true(nth(args, 3)) else abs(n)
        return giving(run, (s[:room] + dots if n >= 0 else dots + s[len(s) - room:]).encode())
    return of_texts(run, [(b"trim", trim), (b"split", split), (b"gsplit", gsplit(run)), (b"encode", encode), (b"decode", decode),
                          (b"listToText", list_to_text), (b"nowiki", nowiki), (b"tag", tag), (b"truncate", truncate)])
