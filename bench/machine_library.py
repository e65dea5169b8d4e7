"""The library and the frames, for `machine_reference.py`, by the rules of docs/RULES.md."""
import re

from expand_reference import title_of, title_text
from machine_values import (MOST, Builtin, Markup, Raised, Table, digits_in, first, handler, is_true, kind_of, nth, number_in, raw_field, same,
                            signed, text_in, text_of)


class Scene:
    """A title (its text), arguments in order, and the titles of the templates that are being expanded."""

    def __init__(self, title, args, chain):
        self.title, self.args, self.chain = title, args, chain

    def words(self):
        from machine_reference import shown
        return "in " + shown(self.title) + args_words(self.args) + "".join(f" under {shown(t)}" for t in self.chain)


def args_words(args):
    from machine_reference import shown
    return "".join(f"|{shown(name)}={shown(value)}" for name, value in args)


def plain_scene(title, args=(), chain=()):
    return Scene(title, merged(args), list(chain))


def merged(args):
    found = {}
    for name, value in args:
        found[name] = value
    return list(found.items())


def charge_of(args):
    return sum(4 + len(name) + len(value) for name, value in args)


# ---- arguments of functions
def bad(run, levels, n, name, why):
    return run.raise_at(levels, b"bad argument #%d to '%s' (%s)" % (n, name, why))


def got(args, n):
    return kind_of(args[n - 1]) if len(args) >= n else b"no value"


def want(run, levels, args, n, name, kind, value):
    return bad(run, levels, n, name, b"%s expected, got %s" % (kind, got(args, n))) if value is None else value


def a_table(run, levels, args, n, name):
    value = nth(args, n - 1)
    return want(run, levels, args, n, name, b"table", value if isinstance(value, Table) else None)


def a_number(run, levels, args, n, name, default=None):
    if default is not None and nth(args, n - 1) is None:
        return default
    return want(run, levels, args, n, name, b"number", number_in(nth(args, n - 1)))


def a_text(run, levels, args, n, name):
    return want(run, levels, args, n, name, b"string", text_in(nth(args, n - 1)))


# ---- basic functions
def basic(run):
    def f_assert(args, ls):
        if is_true(first(args)):
            return args
        message = nth(args, 1)
        raise Raised(b"assertion failed!" if message is None else message)

    def f_error(args, ls):
        level = a_number(run, ls, args, 2, b"error", 1)
        return run.raise_at(ls, first(args), level)

    def f_getmetatable(args, ls):
        meta = first(args).meta if isinstance(first(args), Table) else None
        protected = raw_field(meta, b"__metatable")
        return [meta if protected is None else protected]

    def f_setmetatable(args, ls):
        t = a_table(run, ls, args, 1, b"setmetatable")
        meta = nth(args, 1)
        if meta is not None and not isinstance(meta, Table):
            bad(run, ls, 2, b"setmetatable", b"table expected, got " + kind_of(meta))
        if t.frozen:
            run.raise_at(ls, b"table from mw.loadData is read-only")
        if handler(t, b"__metatable") is not None:
            run.raise_at(ls, b"cannot change a protected metatable")
        t.meta = meta
        return [t]

    def f_rawequal(args, ls):
        return [same(nth(args, 0), nth(args, 1))]

    def f_rawget(args, ls):
        return [a_table(run, ls, args, 1, b"rawget").get(nth(args, 1))]

    def f_rawset(args, ls):
        t = a_table(run, ls, args, 1, b"rawset")
        run.set_entry(t, nth(args, 1), nth(args, 2), ls)
        return [t]

    def f_select(args, ls):
        rest = args[1:]
        if first(args) == b"#":
            return [len(rest)]
        n = a_number(run, ls, args, 1, b"select")
        if n == 0 or -n > len(rest):
            bad(run, ls, 1, b"select", b"out of range")
        return rest[n - 1:] if n > 0 else rest[n:]

    def f_tonumber(args, ls):
        base = a_number(run, ls, args, 2, b"tonumber", 10)
        if base == 10:
            return [number_in(first(args))]
        text = a_text(run, ls, args, 1, b"tonumber")
        if not 2 <= base <= 36:
            bad(run, ls, 2, b"tonumber", b"out of range")
        return [signed(text, digits_in(base))]

    def f_type(args, ls):
        return [kind_of(first(args))]

    def f_unpack(args, ls):
        t = a_table(run, ls, args, 1, b"unpack")
        i = a_number(run, ls, args, 2, b"unpack", 1)
        j = a_number(run, ls, args, 3, b"unpack") if nth(args, 2) is not None else t.border()
        run.tick(max(j - i + 1, 0))
        return [t.get(n) for n in range(i, j + 1)]

    def f_next(args, ls):
        t = a_table(run, ls, args, 1, b"next")
        key = nth(args, 1)
        if key is not None and not t.has(key):
            run.raise_at(ls, b"invalid key to 'next'")
        from machine_values import key_of
        at = 0 if key is None else t.places[key_of(key)] + 1
        passed = at
        while passed < len(t.slots) and t.slots[passed][1] is None:
            passed += 1
        run.tick(passed - at)
        return list(t.slots[passed]) if passed < len(t.slots) else [None]

    def f_pcall(args, ls):
        try:
            return [True] + run.call(first(args), args[1:], None)
        except Raised as raised:
            return [False, raised.value]

    def f_xpcall(args, ls):
        try:
            return [True] + run.call(first(args), [], None)
        except Raised as raised:
            value = raised.value
        try:
            return [False, first(run.call(nth(args, 1), [value], None))]
        except Raised:
            return [False, b"error in error handling"]

    def f_tostring(args, ls):
        if isinstance(first(args), Markup):
            from machine_html import TOO_DEEP, rendered
            return [rendered(run, args[0], lambda: run.raise_at(ls, TOO_DEEP))]
        by = handler(first(args), b"__tostring")
        text = text_of(first(args)) if by is None else text_in(first(run.call(by, [first(args)], None)))
        if text is None:
            run.raise_at(ls, b"'tostring' must return a string")
        run.tick(len(text))
        return [text]

    def walk(event, name, step, start):
        def f_walk(args, ls):
            by = handler(first(args), event)
            if by is None:
                return [step, a_table(run, ls, args, 1, name), start]
            values = run.call(by, [first(args)], None)
            return [nth(values, 0), nth(values, 1), nth(values, 2)]
        return f_walk

    def next_place(args, ls):
        t = a_table(run, ls, args, 1, b"ipairs")
        n = a_number(run, ls, args, 2, b"ipairs") + 1
        value = t.get(n) if n <= MOST else None
        return [None] if value is None else [n, value]

    def f_require(args, ls):
        text = a_text(run, ls, args, 1, b"require")
        if text == b"strict":
            return strict(run)
        title = title_of(text, "")
        return [run.require(text, None if title is None else title_text(title), ls)]

    step_next, step_place = Builtin(b"next", f_next), Builtin(b"ipairs step", next_place)
    run.pairs = walk(b"__pairs", b"pairs", step_next, None)
    return [(b"assert", f_assert), (b"error", f_error), (b"getmetatable", f_getmetatable), (b"setmetatable", f_setmetatable),
            (b"ipairs", walk(b"__ipairs", b"ipairs", step_place, 0)), (b"pairs", run.pairs),
            (b"next", step_next), (b"pcall", f_pcall), (b"xpcall", f_xpcall), (b"rawequal", f_rawequal), (b"rawget", f_rawget),
            (b"rawset", f_rawset), (b"select", f_select), (b"tonumber", f_tonumber), (b"tostring", f_tostring), (b"type", f_type),
            (b"unpack", f_unpack), (b"require", f_require)]


def builtins(pairs):
    return [(name, does if isinstance(does, Builtin) else Builtin(name, does)) for name, does in pairs]


def strict(run):
    run.tick(16)

    def undeclared(words):
        def refuse(args, ls):
            return run.quote(ls, words % text_of(nth(args, 1)))
        return refuse
    run.globals.meta = Table(builtins([(b"__index", undeclared(b"variable '%s' is not declared")),
                                       (b"__newindex", undeclared(b"assign to undeclared variable '%s'"))]))
    return [True]


# ---- mw
def reached(value, found):
    """All tables that a value leads to, as values or as metatables, in order."""
    waiting = [value]
    while waiting:
        table = waiting.pop(0)
        if isinstance(table, Table) and id(table) not in found:
            found[id(table)] = table
            waiting += [table.meta] + [v for _, v in table.entries()]
    return found


def f_clone(run):
    def clone(args, ls):
        found = reached(first(args), {})
        run.tick(sum(8 + 4 * len(t.entries()) for t in found.values()))
        made = {at: Table() for at in found}

        def copy(value):
            return made[id(value)] if isinstance(value, Table) else value
        for at, table in found.items():
            made[at].meta = copy(table.meta)
            for key, value in table.entries():
                made[at].set(key, copy(value))
        return [copy(first(args))]
    return clone


def shared(entries):
    """A read-only table; `@` as a value is the table itself."""
    table = Table()
    for key, value in entries:
        table.set(key, table if value == "@" else value)
    table.frozen = True
    return table


def f_load(run):
    def load_data(args, ls):
        text = a_text(run, ls, args, 1, b"loadData")
        title = title_of(text, "")
        title = title and title_text(title)
        if title is None:
            run.quote(ls, b"data module '%s' not found" % text)
        if title in run.loaded:
            return [run.loaded[title]]
        from machine_reference import shown
        told = run.ask("data " + shown(title))
        if told[0] == "table":
            run.loaded[title] = shared(told[1])
            return [run.loaded[title]]
        if told[0] == "none":
            run.quote(ls, b"data module '%s' not found" % text)
        raise Raised(told[1] if told[0] == "failed" else b"the answer does not belong to the question")
    return load_data


def mw(run):
    from machine_html import html
    from machine_texts import text_functions, ustring_functions

    def current_title(args, ls):
        run.tick(8 + 3 * 4)
        page = run.world.page
        space, name = page.split(b":", 1) if b":" in page else (b"", page)
        return [Table([(b"text", name), (b"nsText", space), (b"prefixedText", page)])]

    def current_frame(args, ls):
        return [run.frames[0].table if run.frames else None]
    title = Table(builtins([(b"getCurrentTitle", current_title)]))
    return Table(builtins([(b"clone", f_clone(run)), (b"log", lambda args, ls: [])]) + [(b"title", title)]
                 + builtins([(b"loadData", f_load(run)), (b"getCurrentFrame", current_frame)])
                 + [(b"ustring", Table(builtins(ustring_functions(run)))), (b"text", Table(builtins(text_functions(run)))),
                    (b"html", Table(builtins(html(run))))])


def home(run):
    """A fresh environment: the tables of global variables and of the functions for strings."""
    from machine_texts import math_functions, string_functions, table_functions
    strings, tables, math = (Table(builtins(group(run))) for group in (string_functions, table_functions, math_functions))
    table = Table([(b"_VERSION", b"Lua 5.1")])
    table.places, table.slots = {}, []
    for key, value in [(b"_G", table), (b"_VERSION", b"Lua 5.1"), *builtins(basic(run)), (b"string", strings), (b"table", tables),
                       (b"math", math), (b"mw", mw(run))]:
        table.set(key, value)
    return table, strings


# ---- frames
class Frame:
    def __init__(self, scene, parent):
        self.scene, self.parent, self.table = scene, parent, None


def arg_key(name):
    return int(name) if re.fullmatch(rb"[1-9][0-9]{0,17}", name) else name


def make_frame(run, scene, parent):
    """A frame; its parent is None, ("unmade", SCENE) or ("made", FRAME)."""
    frame = Frame(scene, parent)
    run.frames.append(frame)

    def args_index(args, ls):
        t = a_table(run, ls, args, 1, b"args")
        name = nth(args, 1)
        return [t.get(arg_key(name)) if isinstance(name, bytes) and arg_key(name) != name else None]
    meta = Table([(b"__metatable", False), (b"__index", Builtin(b"args", args_index))])
    args = Table([(arg_key(name), value) for name, value in scene.args], meta)
    number = len(run.frames) - 1
    frame.table = Table([(b"args", args)] + builtins(methods(run)), Table([(1, number), (b"__metatable", False)]))
    return frame


def field_or_text(value, name):
    return [value.get(name)] if isinstance(value, Table) else [value]


def passing(run, table):
    """The entries of a table in order of `next`; a cleared one is passed for a step."""
    for key, value in table.slots:
        if value is None:
            run.tick(1)
        else:
            yield key, value


def read_args(run, ls, value):
    """The entries of a table as arguments."""
    found = []
    for key, entry in passing(run, value) if value is not None else []:
        name, text = text_in(key), (b"1" if entry else b"") if isinstance(entry, bool) else text_in(entry)
        if name is None or text is None:
            run.raise_at(ls, b"bad template arguments")
        found.append((name, text))
    return found


def methods(run):
    def a_frame(args, ls, name):
        meta = first(args).meta if isinstance(first(args), Table) else None
        number = raw_field(meta, 1)
        if type(number) is int and 0 <= number < len(run.frames):
            return run.frames[number]
        return bad(run, ls, 1, name, b"frame expected, got " + got(args, 1))

    def get_title(args, ls):
        return [a_frame(args, ls, b"getTitle").scene.title]

    def get_parent(args, ls):
        frame = a_frame(args, ls, b"getParent")
        if frame.parent and frame.parent[0] == "unmade":
            run.tick(16 + charge_of(frame.parent[1].args))
            frame.parent = ("made", make_frame(run, frame.parent[1], None))
        return [frame.parent[1].table if frame.parent else None]

    def argument_pairs(args, ls):
        a_frame(args, ls, b"argumentPairs")
        return run.pairs([raw_field(first(args), b"args")], ls)

    def get_argument(args, ls):
        frame = a_frame(args, ls, b"getArgument")
        given = args[:1] + (field_or_text(args[1], b"name") if len(args) > 1 else [])
        value = dict(frame.scene.args).get(a_text(run, ls, given, 2, b"getArgument"))
        if value is None:
            return [None]
        run.tick(16)

        def expand(args, ls):
            return [a_table(run, ls, args, 1, b"expand").get(b"value")]
        return [Table([(b"expand", Builtin(b"expand", expand)), (b"value", value)])]

    def preprocess(args, ls):
        frame = a_frame(args, ls, b"preprocess")
        given = args[:1] + (field_or_text(args[1], b"text") if len(args) > 1 else [])
        text = a_text(run, ls, given, 2, b"preprocess")
        run.tick(len(text))
        from machine_reference import shown
        return text_answer(run, run.ask(f"preprocess {shown(text)} {frame.scene.words()}"))

    def request(args, ls, optional):
        t = nth(args, 1)
        if not isinstance(t, Table):
            run.raise_at(ls, b"bad template arguments")
        text = text_in(t.get(b"title"))
        if text is None and not (optional and t.get(b"title") is None):
            run.raise_at(ls, b"bad template arguments")
        given = t.get(b"args")
        if given is not None and not isinstance(given, Table):
            run.raise_at(ls, b"bad template arguments")
        return text, given

    def titled(text, default, ls):
        title = title_of(text, default)
        return run.quote(ls, b"invalid title '%s'" % text) if title is None else title_text(title)

    def expand_template(args, ls):
        frame = a_frame(args, ls, b"expandTemplate")
        text, given = request(args, ls, False)
        title = titled(text, "Template", ls)
        found = read_args(run, ls, given)
        run.tick(len(title) + sum(len(n) + len(v) for n, v in found))
        from machine_reference import shown
        told = run.ask(f"template {shown(title)}{args_words(merged(found))} {frame.scene.words()}")
        if told[0] == "none":
            run.quote(ls, b"template '%s' does not exist" % text)
        return text_answer(run, told)

    def new_child(args, ls):
        frame = a_frame(args, ls, b"newChild")
        text, given = request(args, ls, True)
        title = frame.scene.title if text is None else titled(text, "", ls)
        found = read_args(run, ls, given)
        run.tick(16 + charge_of(found))
        return [make_frame(run, Scene(title, merged(found), frame.scene.chain), ("made", frame)).table]

    def extension_tag(args, ls):
        a_frame(args, ls, b"extensionTag")
        return tag(run, args[1:], ls)
    return [(b"getParent", get_parent), (b"expandTemplate", expand_template), (b"preprocess", preprocess), (b"getArgument", get_argument),
            (b"argumentPairs", argument_pairs), (b"newChild", new_child), (b"getTitle", get_title), (b"extensionTag", extension_tag)]


def text_answer(run, told):
    if told[0] != "text":
        raise Raised(b"the answer does not belong to the question")
    run.tick(len(told[1]))
    return [told[1]]


# ---- tags
def encoded(text):
    names = {b"&": b"&amp;", b"<": b"&lt;", b">": b"&gt;", b'"': b"&quot;", b"'": b"&#39;", b"\xc2\xa0": b"&nbsp;"}
    return re.sub(rb"\xc2\xa0|[&<>\"']", lambda m: names[m[0]], text)


def attribute(run, ls, key, value):
    name = text_in(key)
    wrong = key if name is None else value
    if name is not None and text_in(value) is not None:
        return b' %s="%s"' % (name, encoded(text_in(value)))
    if name is not None and isinstance(value, bool):
        return b" " + name if value else b""
    return bad(run, ls, 2, b"tag", b"string expected, got " + kind_of(wrong))


def tag(run, args, ls):
    """Of `extensionTag`: with a name, content and attributes, or these as fields."""
    run.tick(sum(len(v) for v in args if isinstance(v, bytes)))
    if isinstance(first(args), Table):
        return tag_by(run, [args[0].get(b"name")], args[0].get(b"args"), args[0].get(b"content"), ls)
    return tag_by(run, args, nth(args, 2), nth(args, 1), ls)


def tag_by(run, names, attrs, content, ls):
    name = a_text(run, ls, names, 1, b"tag")
    if attrs is not None and not isinstance(attrs, Table):
        bad(run, ls, 2, b"tag", b"table expected, got " + kind_of(attrs))
    inside = b"".join([attribute(run, ls, key, value) for key, value in passing(run, attrs)]) if attrs is not None else b""
    if content is None:
        behind = b">"
    elif content is False:
        behind = b" />"
    elif text_in(content) is not None:
        behind = b">%s</%s>" % (text_in(content), name)
    else:
        bad(run, ls, 3, b"tag", b"string expected, got " + kind_of(content))
    text = b"<" + name + inside + behind
    run.tick(len(text))
    return [text]
