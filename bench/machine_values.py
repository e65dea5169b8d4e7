"""Values of Lua, and the allowances of a run, for `machine_reference.py`. A text is `bytes`, a number an `int`, nil is None."""
import re

WHITE = b" \t\n\v\f\r"
LEAST, MOST = -2 ** 63, 2 ** 63 - 1


class Spent(Exception):
    def __init__(self, which):
        super().__init__(which)
        self.which = which


class Raised(Exception):
    """An error with its value."""

    def __init__(self, value):
        super().__init__(value)
        self.value = value


class Asked(Exception):
    """A question to which there is no reply."""

    def __init__(self, question):
        super().__init__(question)
        self.question = question


def key_of(value):
    """A key of a dictionary that is the same for the same value of Lua alone."""
    return ("truth", value) if isinstance(value, bool) else value


class Table:
    """Its entries stand in order of first insertion; a cleared one keeps its place."""

    def __init__(self, entries=(), meta=None, frozen=False):
        self.places, self.slots, self.meta, self.frozen = {}, [], meta, frozen
        for key, value in entries:
            self.set(key, value)

    def get(self, key):
        place = self.places.get(key_of(key))
        return None if place is None else self.slots[place][1]

    def has(self, key):
        return key_of(key) in self.places

    def set(self, key, value):
        place = self.places.get(key_of(key))
        if place is not None:
            self.slots[place][1] = value
        elif value is not None:
            self.places[key_of(key)] = len(self.slots)
            self.slots.append([key, value])

    def entries(self):
        return [(key, value) for key, value in self.slots if value is not None]

    def border(self):
        n = 0
        while self.get(n + 1) is not None:
            n += 1
        return n


class Closure:
    def __init__(self, params, dotted, body, names, source):
        self.params, self.dotted, self.body, self.names, self.source = params, dotted, body, names, source


class Builtin:
    def __init__(self, name, does):
        self.name, self.does = name, does


class Markup:
    """An object of `mw.html`. Attributes and styles stand in order; a text of styles has no name."""

    def __init__(self, name, closed, parent):
        self.name, self.closed, self.parent, self.attrs, self.styles, self.children = name, closed, parent, {}, [], []


def kind_of(value):
    if value is None:
        return b"nil"
    if isinstance(value, bool):
        return b"boolean"
    return {int: b"number", bytes: b"string", Table: b"table", Markup: b"table"}.get(type(value), b"function")


def is_true(value):
    return value is not None and value is not False


def is_function(value):
    return isinstance(value, (Closure, Builtin))


def same(a, b):
    objects = (Table, Closure, Builtin, Markup)
    if isinstance(a, objects) or isinstance(b, objects):
        return a is b
    return type(a) is type(b) and a == b


def numeral(word):
    """The whole number of a numeral without a sign, or None."""
    if re.fullmatch(rb"0[xX][0-9a-fA-F]+", word):
        return int(word, 16)
    parts = re.fullmatch(rb"([0-9]*)\.?([0-9]*)(?:[eE]([+-]?[0-9]+))?", word)
    if not parts or not parts.group(1) + parts.group(2):
        return None
    digits, power = int(parts.group(1) + parts.group(2)), int(parts.group(3) or 0) - len(parts.group(2))
    if digits == 0:
        return 0
    if power > 40 or power < 0 and (-power > len(word) or digits % 10 ** -power):
        return None
    return digits * 10 ** power if power >= 0 else digits // 10 ** -power


def signed(text, read):
    text = text.strip(WHITE)
    minus, bare = text[:1] == b"-", text[1:] if text[:1] in (b"-", b"+") else text
    n = read(bare)
    n = -n if n is not None and minus else n
    return n if n is not None and LEAST <= n <= MOST else None


def digits_in(base):
    def read(word):
        if base == 16 and word[:2] in (b"0x", b"0X"):
            word = word[2:]
        return int(word, base) if re.fullmatch(rb"[0-9a-zA-Z]+", word) and all(int(chr(c), 36) < base for c in word) else None
    return read


def number_in(value):
    if isinstance(value, bytes):
        return signed(value, numeral)
    return value if type(value) is int else None


def text_in(value):
    if type(value) is int:
        return str(value).encode()
    return value if isinstance(value, bytes) else None


def text_of(value):
    """As `tostring` gives it without a handler."""
    if isinstance(value, bool):
        return b"true" if value else b"false"
    text = text_in(value)
    return kind_of(value) if text is None else text


def first(values):
    return values[0] if values else None


def nth(values, n):
    return values[n] if len(values) > n else None


def raw_field(table, name):
    return table.get(name) if isinstance(table, Table) else None


def handler(value, event):
    return raw_field(value.meta, event) if isinstance(value, Table) else None
