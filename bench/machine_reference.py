#!/usr/bin/env python3
"""What a module of Lua comes to in this profile, with every step that it takes, by the rules of docs/RULES.md.

It knows nothing of the crates: it runs trees of `lua_reference.py` by recursion, looks names up, and takes the charges where the
rules say that they are. The library is in `machine_library.py`, values are in `machine_values.py`.

    machine_reference.py check         runs the worked examples of `lua_chunks.py`, and tells each whose end or steps differ
    machine_reference.py FILE [STEPS [CALLS]]
                                       runs the function `f` of the module in FILE, and prints its end and the steps that it took
"""
import re
import sys
import threading

from lua_reference import Fault, answer
from machine_values import (LEAST, MOST, Asked, Builtin, Closure, Markup, Raised, Spent, Table, first, handler, is_function, is_true, kind_of,
                            nth, number_in, raw_field, same, text_in, text_of)

FAULTS = ["unfinished string", "unfinished long bracket", "escape out of range", "unexpected byte", "unexpected token",
          "numeral is not a whole number in range", "nested too deeply", "break outside a loop", "call on a new line",
          "... outside a vararg function"]
ARITHMETIC = {"+": b"__add", "-": b"__sub", "*": b"__mul", "/": b"__div", "%": b"__mod", "^": b"__pow"}
ORDER = {"<": (False, False), ">": (False, True), "<=": (True, False), ">=": (True, True)}


class Returned(Exception):
    def __init__(self, values):
        super().__init__()
        self.values = values


class Broke(Exception):
    pass


# ---- trees
def nested(text):
    """An S-expression of `lua_reference.py` as nested lists; a node begins with its word and its line."""
    stack = [[]]
    for word in re.findall(r'"(?:\\.|[^"\\])*"|[()]|[^\s()"]+', text):
        if word == "(":
            stack.append([])
        elif word == ")":
            done = stack.pop()
            stack[-1].append(done)
        elif word.startswith('"'):
            stack[-1].append(re.sub(r"\\x(..)", lambda m: chr(int(m[1], 16)), word[1:-1]).encode("latin-1"))
        elif "@" in word and not stack[-1]:
            name, line = word.rsplit("@", 1)
            stack[-1] += [name, int(line)]
        else:
            stack[-1].append(word)
    return stack[0][0]


def read(text):
    """The body of a chunk, or its fault as a number and a line."""
    said = answer(text.decode("latin-1"))
    fault = re.fullmatch(r"fault (\d+) line (\d+)", said)
    return (int(fault[1]), int(fault[2])) if fault else nested(said)


# ---- numbers
def power(a, b):
    if b >= 0:
        return a ** b if abs(a) < 2 or b < 64 else MOST + 1
    if a == 0:
        return b"division by zero"
    return a ** -b if a in (1, -1) else b"quotient is not whole"


def calculated(op, a, b):
    """A number, or the message of its fault."""
    if op in "/%" and b == 0:
        return b"division by zero"
    if op == "/" and a % b:
        return b"quotient is not whole"
    n = {"+": lambda: a + b, "-": lambda: a - b, "*": lambda: a * b, "/": lambda: a // b, "%": lambda: a % b, "^": lambda: power(a, b)}[op]()
    return n if isinstance(n, bytes) or LEAST <= n <= MOST else b"number out of range"


class Scope:
    """The names that are seen, the values of `...`, the title of the text, and the levels above."""

    def __init__(self, names, dots, source, callers):
        self.names, self.dots, self.source, self.callers = names, dots, source, callers

    def levels(self, line):
        return (self.source, line, self.callers)

    def declare(self, names, values):
        for n, name in enumerate(names):
            self.names = (name, [nth(values, n)], self.names)

    def copy(self):
        return Scope(self.names, self.dots, self.source, self.callers)

    def cell(self, name):
        at = self.names
        while at is not None:
            if at[0] == name:
                return at[1]
            at = at[2]
        return None


class Run:
    def __init__(self, world, steps, calls, replies=()):
        from machine_library import home
        self.world, self.steps, self.calls, self.replies = world, steps, calls, list(replies)
        self.progress, self.height, self.nodes = 0, 0, 0
        self.modules, self.loaded, self.frames = {}, {}, []
        self.globals, self.strings = home(self)

    # ---- charges
    def tick(self, n):
        if n > self.steps:
            self.steps = 0
            raise Spent("steps")
        self.steps -= n

    def node(self):
        self.tick(1)
        self.nodes += 1

    def enter(self):
        self.tick(1)
        if self.progress >= self.calls:
            raise Spent("calls")
        self.progress += 1
        self.height = max(self.height, self.progress)
        self.nodes += 1

    # ---- errors
    def raise_at(self, levels, value, level=1):
        at = levels
        while level > 1 and at:
            level, at = level - 1, at[2]
        if isinstance(value, bytes) and level > 0 and at:
            value = b"%s:%d: %s" % (at[0], at[1], value)
            self.tick(len(value))
        raise Raised(value)

    def quote(self, levels, value):
        """An error at level 1 whose message quotes a text of the call: it costs its bytes at no place too."""
        if not levels:
            self.tick(len(value))
        self.raise_at(levels, value)

    def attempt(self, levels, what, value):
        self.raise_at(levels, b"attempt to %s a %s value" % (what, kind_of(value)))

    # ---- calls
    def call(self, f, args, levels):
        while isinstance(f, Table):
            by = handler(f, b"__call")
            if by is None:
                self.attempt(levels, b"call", f)
            self.tick(1)
            f, args = by, [f] + args
        if isinstance(f, Closure):
            return self.body(f, args, levels)
        if isinstance(f, Builtin):
            self.enter()
            try:
                return f.does(args, levels)
            finally:
                self.progress -= 1
        return self.attempt(levels, b"call", f)

    def body(self, f, args, callers):
        self.enter()
        try:
            scope = Scope(f.names, args[len(f.params):] if f.dotted else [], f.source, callers)
            scope.declare(f.params, args)
            return self.values_of(f.body, scope)
        finally:
            self.progress -= 1

    def values_of(self, body, scope):
        try:
            self.block(body, scope)
        except Returned as returned:
            return returned.values
        return []

    def chunk(self, title, body):
        self.enter()
        try:
            return self.values_of(body, Scope(None, [], title, None))
        finally:
            self.progress -= 1

    # ---- indices
    def index_all(self, v, key, levels):
        while True:
            if isinstance(v, Markup):
                return [self.methods.get(key) if isinstance(key, bytes) else None]
            if isinstance(v, bytes):
                table, own = self.strings, self.strings
            elif isinstance(v, Table):
                table, own = v, v
            else:
                return self.attempt(levels, b"index", v)
            found = table.get(key)
            by = handler(own, b"__index") if found is None else None
            if by is None:
                return [found]
            self.tick(1)
            if is_function(by):
                return self.call(by, [own, key], levels)
            v = by

    def index(self, v, key, levels):
        return first(self.index_all(v, key, levels))

    def set_entry(self, table, key, value, levels):
        if table.frozen:
            self.raise_at(levels, b"table from mw.loadData is read-only")
        if key is None:
            self.raise_at(levels, b"table index is nil")
        if not table.has(key) and value is not None:
            self.tick(4)
        table.set(key, value)

    def set_index(self, v, key, value, levels):
        while True:
            if not isinstance(v, Table):
                self.attempt(levels, b"index", v)
            by = handler(v, b"__newindex") if v.get(key) is None else None
            if by is None:
                return self.set_entry(v, key, value, levels)
            self.tick(1)
            if is_function(by):
                return self.call(by, [v, key, value], levels)
            v = by

    # ---- operators
    def by_either(self, a, b, event, levels, what, wrong):
        by = handler(a, event)
        by = handler(b, event) if by is None else by
        if by is None:
            self.attempt(levels, what, wrong)
        return first(self.call(by, [a, b], levels))

    def arithmetic(self, op, a, b, levels):
        x, y = number_in(a), number_in(b)
        if x is None or y is None:
            return self.by_either(a, b, ARITHMETIC[op], levels, b"perform arithmetic on", a if x is None else b)
        n = calculated(op, x, y)
        return self.raise_at(levels, n) if isinstance(n, bytes) else n

    def minus(self, a, levels):
        x = number_in(a)
        if x is None:
            return self.by_either(a, a, b"__unm", levels, b"perform arithmetic on", a)
        return self.raise_at(levels, b"number out of range") if x == LEAST else -x

    def concatenate(self, a, b, levels):
        x, y = text_in(a), text_in(b)
        if x is None or y is None:
            return self.by_either(a, b, b"__concat", levels, b"concatenate", a if x is None else b)
        self.tick(len(x) + len(y))
        return x + y

    def length_of(self, v, levels):
        if isinstance(v, bytes):
            return len(v)
        return v.border() if isinstance(v, Table) else self.attempt(levels, b"get length of", v)

    def common(self, a, b, event):
        by = handler(a, event)
        return by if same(by, handler(b, event)) else None

    def truth_by(self, by, a, b, levels):
        return is_true(first(self.call(by, [a, b], levels)))

    def equals(self, a, b, levels):
        if same(a, b):
            return True
        by = self.common(a, b, b"__eq")
        return by is not None and self.truth_by(by, a, b, levels)

    def ordered(self, at_most, a, b, levels):
        """a < b, or a <= b"""
        if type(a) is int and type(b) is int:
            return a <= b if at_most else a < b
        if isinstance(a, bytes) and isinstance(b, bytes):
            self.tick(min(len(a), len(b)))
            return a <= b if at_most else a < b
        by = self.common(a, b, b"__le") if at_most else None
        if by is not None:
            return self.truth_by(by, a, b, levels)
        by = self.common(a, b, b"__lt")
        if by is None:
            x, y = kind_of(a), kind_of(b)
            self.raise_at(levels, b"attempt to compare two %s values" % x if x == y else b"attempt to compare %s with %s" % (x, y))
        return not self.truth_by(by, b, a, levels) if at_most else self.truth_by(by, a, b, levels)

    def operate(self, op, a, b, levels):
        if op in ARITHMETIC:
            return self.arithmetic(op, a, b, levels)
        if op == "..":
            return self.concatenate(a, b, levels)
        if op in ORDER:
            at_most, turned = ORDER[op]
            return self.ordered(at_most, *((b, a) if turned else (a, b)), levels)
        return self.equals(a, b, levels) == (op == "==")

    # ---- expressions
    def value(self, e, scope):
        return first(self.expression(e, scope))

    def values(self, es, scope, before=()):
        found = list(before)
        for e in es[:-1]:
            found.append(self.value(e, scope))
        return found + self.expression(es[-1], scope) if es else found

    def expression(self, e, scope):
        self.node()
        return getattr(self, "exp_" + e[0])(e[1], *e[2:], scope)

    def exp_nil(self, line, scope):
        return [None]

    def exp_true(self, line, scope):
        return [True]

    def exp_false(self, line, scope):
        return [False]

    def exp_number(self, line, digits, scope):
        return [int(digits)]

    def exp_text(self, line, text, scope):
        return [text]

    def exp_dots(self, line, scope):
        self.tick(len(scope.dots))
        return scope.dots

    def exp_function(self, line, params, body, scope):
        return [self.closure(params, body, scope)]

    def closure(self, params, body, scope):
        self.tick(8)
        dotted = params[-1:] == ["..."]
        return Closure(params[:-1] if dotted else params, dotted, body, scope.names, scope.source)

    def exp_name(self, line, name, scope):
        cell = scope.cell(name)
        return [cell[0] if cell else self.index(self.globals, name.encode(), scope.levels(line))]

    def exp_index(self, line, of, key, scope):
        of = self.value(of, scope)
        return [self.index(of, self.value(key, scope), scope.levels(line))]

    def exp_call(self, line, f, args, scope):
        f = self.value(f, scope)
        return self.call(f, self.values(args, scope), scope.levels(line))

    def exp_method(self, line, of, name, args, scope):
        of = self.value(of, scope)
        f = self.index(of, name.encode(), scope.levels(line))
        return self.call(f, self.values(args, scope, [of]), scope.levels(line))

    def exp_paren(self, line, e, scope):
        return [self.value(e, scope)]

    def exp_table(self, line, fields, scope):
        self.tick(8)
        table, place, levels = Table(), 1, scope.levels(line)
        for n, field in enumerate(fields):
            if field[0] == "pair":
                key = self.value(field[1], scope)
                self.set_entry(table, key, self.value(field[2], scope), levels)
                continue
            given = self.expression(field, scope) if n == len(fields) - 1 else [self.value(field, scope)]
            for value in given:
                self.set_entry(table, place, value, levels)
                place += 1
        return [table]

    def exp_binary(self, line, op, a, b, scope):
        v = self.value(a, scope)
        if op in ("and", "or"):
            return [v if is_true(v) == (op == "or") else self.value(b, scope)]
        return [self.operate(op, v, self.value(b, scope), scope.levels(line))]

    def exp_unary(self, line, op, a, scope):
        v = self.value(a, scope)
        if op == "not":
            return [not is_true(v)]
        return [self.length_of(v, scope.levels(line)) if op == "#" else self.minus(v, scope.levels(line))]

    # ---- statements
    def block(self, body, scope):
        """Runs a block; the scope has what it declares."""
        for statement in body:
            self.node()
            getattr(self, "stat_" + statement[0])(statement[1], *statement[2:], scope)

    def stat_assign(self, line, targets, values, scope):
        found = []
        for target in targets:
            if target[0] == "name":
                found.append((scope.cell(target[2]), target))
            else:
                self.node()
                of = self.value(target[2], scope)
                found.append(((of, self.value(target[3], scope)), target))
        given = self.values(values, scope)
        for n in reversed(range(len(found))):
            self.assign(*found[n], nth(given, n), scope)

    def assign(self, place, target, value, scope):
        levels = scope.levels(target[1])
        if target[0] != "name":
            self.set_index(*place, value, levels)
        elif place is not None:
            place[0] = value
        else:
            self.set_index(self.globals, target[2].encode(), value, levels)

    def stat_call(self, line, e, scope):
        self.expression(e, scope)

    def stat_do(self, line, body, scope):
        self.block(body, scope.copy())

    def stat_if(self, line, arms, other, scope):
        for test, body in arms:
            if is_true(self.value(test, scope)):
                return self.block(body, scope.copy())
        return None if other == "none" else self.block(other, scope.copy())

    def turn(self):
        self.tick(1)
        self.nodes += 1

    def stat_while(self, line, test, body, scope):
        try:
            while is_true(self.value(test, scope)):
                self.turn()
                self.block(body, scope.copy())
        except Broke:
            pass

    def stat_repeat(self, line, body, test, scope):
        try:
            while True:
                self.turn()
                inner = scope.copy()
                self.block(body, inner)
                if is_true(self.value(test, inner)):
                    return
        except Broke:
            pass

    def for_number(self, value, which, scope, line):
        n = number_in(value)
        return self.raise_at(scope.levels(line), b"'for' %s must be a number" % which) if n is None else n

    def stat_count(self, line, name, start, limit, step, body, scope):
        given = [self.value(start, scope), self.value(limit, scope), 1 if step == "none" else self.value(step, scope)]
        n, limit, step = [self.for_number(v, w, scope, line) for v, w in zip(given, (b"initial value", b"limit", b"step"))]
        try:
            while LEAST <= n <= MOST and (n <= limit if step > 0 else limit <= n):
                self.turn()
                inner = scope.copy()
                inner.declare([name], [n])
                self.block(body, inner)
                n += step
        except Broke:
            pass

    def stat_each(self, line, names, values, body, scope):
        given = self.values(values, scope)
        f, state, before = nth(given, 0), nth(given, 1), nth(given, 2)
        try:
            while True:
                results = self.call(f, [state, before], scope.levels(line))
                before = first(results)
                if before is None:
                    return
                self.turn()
                inner = scope.copy()
                inner.declare(names, results)
                self.block(body, inner)
        except Broke:
            pass

    def stat_local(self, line, names, values, scope):
        scope.declare(names, self.values(values, scope))

    def stat_localfunction(self, line, name, params, body, scope):
        scope.declare([name], [])
        scope.names[1][0] = self.closure(params, body, scope)

    def stat_return(self, line, values, scope):
        raise Returned(self.values(values, scope))

    def stat_break(self, line, scope):
        raise Broke()

    # ---- modules
    def run_chunk(self, title):
        text = self.world.modules[title]
        self.tick(len(text))
        body = self.world.body(title)
        if isinstance(body, tuple):
            raise Raised(b"%s:%d: %s" % (title, body[1], FAULTS[body[0] - 1].encode()))
        return self.chunk(title, body)

    def require(self, text, title, levels):
        """A module by its title, None where the text is none."""
        if title in self.modules:
            value = self.modules[title]
            return self.quote(levels, b"loop in require of '%s'" % text) if value is None else value
        if title not in self.world.modules:
            self.quote(levels, b"module '%s' not found" % text)
        self.modules[title] = None
        try:
            value = first(self.run_chunk(title))
        except Raised:
            del self.modules[title]
            raise
        self.modules[title] = True if value is None else value
        return self.modules[title]

    def ask(self, question):
        """The answer to a question, as a reply has it."""
        if not self.replies:
            raise Asked(question)
        told, left = self.replies.pop(0)
        if str(left).startswith("-"):
            self.tick(-int(left))
        else:
            self.steps = int(left)
        return told


class World:
    """The title of the page, and the texts of the modules by their titles."""

    def __init__(self, modules, page=b"P"):
        self.page, self.modules, self.bodies = page, modules, {}

    def body(self, title):
        if title not in self.bodies:
            self.bodies[title] = read(self.modules[title])
        return self.bodies[title]


# ---- whole runs
class End:
    def __init__(self, kind, text, run, steps):
        self.kind, self.text, self.left, self.taken, self.height, self.nodes = kind, text, run.steps, steps - run.steps, run.height, run.nodes

    def words(self):
        return f"{self.kind} {shown(self.text)}" if self.text is not None else self.kind


def shown(text):
    """As the program of cases prints it."""
    names = {10: "\\n", 13: "\\r", 9: "\\t", 92: "\\\\"}
    return "".join(names.get(c, chr(c) if 32 <= c < 127 else f"\\x{c:02x}") for c in text)


def error_text(value):
    text = text_in(value)
    return b"the error is a %s value" % kind_of(value) if text is None else text


def in_html(text):
    return text.replace(b"&", b"&amp;").replace(b"<", b"&lt;").replace(b">", b"&gt;")


def answer_text(run, value):
    if isinstance(value, Markup):
        from machine_html import TOO_DEEP, rendered
        return rendered(run, value, lambda: run.raise_at(None, TOO_DEEP))
    by = handler(value, b"__tostring")
    if by is None:
        return text_of(value)
    text = text_in(first(run.call(by, [value], None)))
    return run.raise_at(None, b"'tostring' must return a string") if text is None else text


def invoke(run, title, function, scene, parent):
    from machine_library import charge_of, make_frame
    run.tick(1000)
    run.tick(charge_of(scene.args))
    frame = make_frame(run, scene, ("unmade", parent))
    module = run.require(title, title, None)
    if not isinstance(module, Table):
        return "fails", b"Script error: The module returned no table."
    f = run.index(module, function, None)
    if not is_function(f):
        return "fails", in_html(b'Script error: The function "%s" does not exist.' % function)
    values = run.call(f, [frame.table], None)
    text = b"".join([answer_text(run, value) for value in values])
    run.tick(len(text))
    return "gives", text


def load(run, title):
    run.tick(1000)
    if title not in run.world.modules:
        run.raise_at(None, b"data module '%s' not found" % title)
    value = first(run.run_chunk(title))
    return ("loads", None) if isinstance(value, Table) else ("fails", b"data module returned no table")


def run_of(world, work, steps, calls, replies=()):
    """The end of a run: work is ("invoke", title, function, scene, parent) or ("load", title)."""
    run = Run(world, steps, calls, replies)
    try:
        kind, text = invoke(run, *work[1:]) if work[0] == "invoke" else load(run, work[1])
    except Spent as spent:
        kind, text = f"spends {spent.which}", None
    except Asked as asked:
        kind, text = f"asks {asked.question}", None
    except Raised as raised:
        text = error_text(raised.value)
        kind, text = "fails", in_html(b"Lua error: " + text) if work[0] == "invoke" else text
    return End(kind, text, run, steps)


def in_thread(does):
    """Calls a function with a stack that is large enough, and gives what it gives."""
    found = []
    sys.setrecursionlimit(2_000_000)
    threading.stack_size(1 << 30)
    thread = threading.Thread(target=lambda: found.append(does()))
    thread.start()
    thread.join()
    return found[0] if found else 1


def main():
    if sys.argv[1:] == ["check"]:
        from machine_rows import check_examples
        return check_examples()
    from machine_library import plain_scene
    with open(sys.argv[1], "rb") as file:
        world = World({b"Module:X": file.read()})
    steps, calls = [int(word) for word in (sys.argv[2:] + ["10000000", "20000"])[:2]] if len(sys.argv) != 3 else (int(sys.argv[2]), 20000)
    end = run_of(world, ("invoke", b"Module:X", b"f", plain_scene(b"Module:X"), plain_scene(b"P")), steps, calls)
    print(f"{end.words()}, {end.taken} taken, {end.height} calls high, {end.nodes} nodes")
    return 0


if __name__ == "__main__":
    sys.exit(in_thread(main))
