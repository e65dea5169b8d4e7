"""Objects of `mw.html` for `machine_reference.py`, by the rules of docs/RULES.md: `create`, the methods, and the text of an object."""
import re

from machine_library import a_text, bad, got
from machine_texts import bytes_in, giving, text_or
from machine_values import Builtin, Markup, Table, is_true, nth

CLOSE_THEMSELVES = b"area base br col command embed hr img input keygen link meta param source track wbr".split()
NAME, ATTRIBUTE_NAME = rb"[A-Za-z][A-Za-z0-9]*", rb"[A-Za-z][-A-Za-z0-9_:.]*"
TOO_DEEP = b"html tree nested too deeply"


# ---- the text of an object
class Deep(Exception):
    pass


def escaped(text):
    names = {b"&": b"&amp;", b"<": b"&lt;", b">": b"&gt;", b'"': b"&quot;"}
    return re.sub(rb'[&<>"]', lambda m: names[m[0]], text)


def tag(node, shut):
    attributes = b"".join(b' %s="%s"' % (name, escaped(value)) for name, value in node.attrs.items())
    styles = b";".join(escaped(key) + b":" + escaped(value) if isinstance(key, bytes) else escaped(value) for key, value in node.styles)
    return b"<" + node.name + attributes + (b' style="%s"' % styles if node.styles else b"") + (b" />" if shut else b">")


class Unpaid(Exception):
    pass


class Pieces:
    """What is given so far, of which no more is made than can be paid for: a step for each object begun, and each byte."""

    def __init__(self, most):
        self.most, self.taken, self.texts = most, 0, []

    def pay(self, steps):
        self.taken += steps
        if self.taken > self.most:
            raise Unpaid()

    def add(self, text):
        self.pay(len(text))
        self.texts.append(text)


def put(node, above, out):
    if above > 200:
        raise Deep()
    shut = node.closed or node.name in CLOSE_THEMSELVES
    out.pay(1)
    if node.name:
        out.add(tag(node, shut))
    if shut and node.name:
        return
    for child in node.children:
        if isinstance(child, Markup):
            put(child, above + 1, out)
        else:
            out.add(child)
    if node.name:
        out.add(b"</%s>" % node.name)


def rendered(run, node, refuse):
    """Its text, which is paid for up to where it ends."""
    out, deep = Pieces(run.steps), False
    try:
        put(node, 0, out)
    except Deep:
        deep = True
    except Unpaid:
        pass
    run.tick(out.taken)
    if deep:
        refuse()
    return b"".join(out.texts)


# ---- arguments
def an_object(run, ls, args, name):
    return args[0] if args and isinstance(args[0], Markup) else bad(run, ls, 1, name, b"table expected, got " + got(args, 1))


def text_if_any(run, ls, args, n, name):
    return None if nth(args, n - 1) is None else a_text(run, ls, args, n, name)


def named(run, ls, text, pattern):
    return text if re.fullmatch(pattern, text) else run.raise_at(ls, b"bad html name")


def new_object(run, ls, args, n, name, parent):
    text = text_or(run, ls, args, n, name, b"")
    if text:
        named(run, ls, text, NAME)
    options = nth(args, n)
    if options is not None and not isinstance(options, Table):
        bad(run, ls, n + 1, name, b"table expected, got " + got(args, n + 1))
    return Markup(text, options is not None and is_true(options.get(b"selfClosing")), parent)


# ---- attributes and styles
def set_attribute(node, name, value):
    if name == b"style":
        node.styles = [] if value is None else [(None, value)]
    elif value is None:
        node.attrs.pop(name, None)
    else:
        node.attrs[name] = value


def set_style(node, name, value):
    places = [at for at, (key, _) in enumerate(node.styles) if key == name]
    if places:
        node.styles[places[0]:places[0] + 1] = [] if value is None else [(name, value)]
    elif value is not None:
        node.styles.append((name, value))


def setter(run, name, pattern, sets):
    def set_one(node, args, ls):
        key = named(run, ls, a_text(run, ls, args, 2, name), pattern)
        sets(node, key, text_if_any(run, ls, args, 3, name))

    def method(node, args, ls):
        if not isinstance(nth(args, 1), Table):
            set_one(node, args, ls)
            return [node]
        for key, value in list(args[1].slots):
            run.tick(1 if value is None else bytes_in([key, value]))
            if value is not None:
                set_one(node, [node, key, value], ls)
        return [node]
    return method


# ---- the other methods; each gets its object, and the arguments from it on
def methods(run):
    def node(it, args, ls):
        if isinstance(nth(args, 1), Markup):
            it.children.append(args[1])
        elif nth(args, 1) is not None:
            it.children.append(a_text(run, ls, args, 2, b"node"))
        return [it]

    def wikitext(it, args, ls):
        end = next((n for n in range(1, len(args)) if args[n] is None), len(args))
        it.children += [a_text(run, ls, args, n + 1, b"wikitext") for n in range(1, end)]
        return [it]

    def newline(it, args, ls):
        it.children.append(b"\n")
        return [it]

    def make(it, args, ls):
        made = new_object(run, ls, args, 2, b"tag", it)
        it.children.append(made)
        return [made]

    def get_attr(it, args, ls):
        value = it.attrs.get(a_text(run, ls, args, 2, b"getAttr"))
        return [None] if value is None else giving(run, value)

    def add_class(it, args, ls):
        one = text_if_any(run, ls, args, 2, b"addClass")
        if one is not None:
            classes = it.attrs[b"class"] + b" " + one if b"class" in it.attrs else one
            run.tick(len(classes))
            it.attrs[b"class"] = classes
        return [it]

    def css_text(it, args, ls):
        text = text_if_any(run, ls, args, 2, b"cssText")
        if text is not None:
            it.styles.append((None, text))
        return [it]

    def done(it, args, ls):
        return [it if it.parent is None else it.parent]

    def all_done(it, args, ls):
        while it.parent is not None:
            it = it.parent
        return [it]
    return {b"node": node, b"wikitext": wikitext, b"newline": newline, b"tag": make, b"attr": setter(run, b"attr", ATTRIBUTE_NAME, set_attribute),
            b"getAttr": get_attr, b"addClass": add_class, b"css": setter(run, b"css", rb"(?s).*", set_style), b"cssText": css_text,
            b"done": done, b"allDone": all_done}


def html(run):
    """The functions of `mw.html`; the run keeps the methods, which are the fields of each object."""
    def method(name, does):
        def called(args, ls):
            run.tick(bytes_in(args))
            return does(an_object(run, ls, args, name), args, ls)
        return Builtin(name, called)

    def create(args, ls):
        return [new_object(run, ls, args, 1, b"create", None)]
    run.methods = {name: method(name, does) for name, does in methods(run).items()}
    return [(b"create", create)]
