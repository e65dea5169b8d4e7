#!/usr/bin/env python3
"""Prints the plain tree of a Lua chunk as a term of a specification, for the worked examples of `lua_meaning`.

    lua_trees.py [FILE]    reads a chunk from FILE or standard input, and prints the term of its block

It reads enough of Lua 5.1 for small chunks: no long strings, and escapes \\n, \\t, \\\\, \\" and \\' alone. The term is written
with the constructors of `lua_syntax/specs/Tree.antt`; a list of trees is written as a list, with the word of
`lua_syntax/specs/View.antt` for it. A list that is too long for a line has a line for each of its trees.
"""
import re
import sys

WORDS = set("and break do else elseif end false for function if in local nil not or repeat return then true until while".split())
TOKEN = re.compile(r"""
    (?P<space>\s+|--[^\n]*)
  | (?P<name>[A-Za-z_]\w*)
  | (?P<number>0[xX][0-9a-fA-F]+|\d+(?:e\d+)?)
  | (?P<text>"(?:\\.|[^"\\])*"|'(?:\\.|[^'\\])*')
  | (?P<mark>\.\.\.|\.\.|==|~=|<=|>=|[-+*/%^\#<>=(){}\[\];:,.])
""", re.X)
BINARY = {
    "or": (1, 1, "Or"), "and": (2, 2, "And"),
    "<": (3, 3, "Lt"), ">": (3, 3, "Gt"), "<=": (3, 3, "Le"), ">=": (3, 3, "Ge"), "~=": (3, 3, "Ne"), "==": (3, 3, "Eq"),
    "..": (5, 4, "Concat"), "+": (6, 6, "Add"), "-": (6, 6, "Sub"), "*": (7, 7, "Mul"), "/": (7, 7, "Div"), "%": (7, 7, "Mod"),
    "^": (10, 9, "Pow"),
}
UNARY = {"not": "Not", "#": "Len", "-": "Minus"}
ESCAPES = {"n": "\n", "t": "\t", "\\": "\\", '"': '"', "'": "'"}
WIDTH = 130


def tokens(text):
    found, at, line = [], 0, 1
    while at < len(text):
        match = TOKEN.match(text, at)
        if not match:
            raise SyntaxError(f"line {line}: {text[at:at + 10]!r}")
        kind, word = match.lastgroup, match.group()
        if kind == "name" and word in WORDS:
            kind = "mark"
        if kind != "space":
            found.append((kind, word, line))
        line += word.count("\n")
        at = match.end()
    found.append(("end", "", line))
    return found


def string(text):
    escaped = text.replace("\\", "\\\\").replace('"', '\\"').replace("\n", "\\n").replace("\t", "\\t")
    return f'(codes "{escaped}")' if text else "[]"


def rows(items):
    items = list(items)
    return "(" + " ∷ ".join(items + ["[]"]) + ")" if items else "[]"


def name_list(names):
    return rows(f'codes "{name}"' for name in names)


def trees(word, empty, items):
    """A list of trees: on one line if it is short, else with a line for each of them. One tree that has lines stays where it is."""
    if not items:
        return empty
    line = f"({word} {rows(items)})"
    if len(line) <= WIDTH or len(items) == 1 and "\n" in line:
        return line
    lines = "\n∷ ".join(items + ["[]"])
    return f"({word} (\n{lines}))".replace("\n", "\n    ")


def exps(items):
    return trees("exps_of", "NoExp", items)


class Parser:
    def __init__(self, text):
        self.tokens, self.at = tokens(text), 0

    def peek(self):
        return self.tokens[self.at]

    def sees(self, *marks):
        kind, word, _ = self.peek()
        return kind == "mark" and word in marks

    def take(self, mark=None):
        token = self.peek()
        if mark is not None and not self.sees(mark):
            raise SyntaxError(f"line {token[2]}: {mark} wanted, {token[1]!r} found")
        self.at += 1
        return token

    def taken(self, mark):
        if self.sees(mark):
            self.at += 1
            return True
        return False

    def name(self):
        kind, word, line = self.take()
        if kind != "name":
            raise SyntaxError(f"line {line}: a name wanted, {word!r} found")
        return word

    # blocks and statements
    def block(self):
        stats = []
        while not self.sees("end", "else", "elseif", "until") and self.peek()[0] != "end":
            last = self.sees("return", "break")
            stats.append(self.stat())
            self.taken(";")
            if last:
                break
        return trees("stats_of", "NoStat", stats)

    def stat(self):
        line = self.peek()[2]
        if self.taken("do"):
            body = self.block()
            self.take("end")
            return f"DoS {line} {body}"
        if self.taken("while"):
            test = self.expr()
            self.take("do")
            body = self.block()
            self.take("end")
            return f"WhileS {line} ({test}) {body}"
        if self.taken("repeat"):
            body = self.block()
            self.take("until")
            return f"RepeatS {line} {body} ({self.expr()})"
        if self.taken("if"):
            return self.if_(line)
        if self.taken("for"):
            return self.for_(line)
        if self.taken("function"):
            return self.function_stat(line)
        if self.taken("local"):
            if self.taken("function"):
                name = self.name()
                return f"LocalFunctionS {line} {string(name)} {self.function()}"
            names = self.names()
            values = self.exprs() if self.taken("=") else []
            return f"LocalS {line} {name_list(names)} {exps(values)}"
        if self.taken("return"):
            ends = self.sees("end", "else", "elseif", "until", ";") or self.peek()[0] == "end"
            return f"ReturnS {line} {exps([] if ends else self.exprs())}"
        if self.taken("break"):
            return f"BreakS {line}"
        target = self.prefix()
        if not self.sees("=", ","):
            return f"CallS {line} ({target})"
        targets = [target]
        while self.taken(","):
            targets.append(self.prefix())
        self.take("=")
        return f"AssignS {line} {exps(targets)} {exps(self.exprs())}"

    def if_(self, line):
        arms = []
        while True:
            test = self.expr()
            self.take("then")
            arms.append(f"Arm ({test}) {self.block()}")
            if not self.taken("elseif"):
                break
        term = f"IfS {line} {trees('arms_of', 'NoArm', arms)}"
        if self.taken("else"):
            term = f"IfElseS {line} {trees('arms_of', 'NoArm', arms)} {self.block()}"
        self.take("end")
        return term

    def for_(self, line):
        names = self.names()
        if len(names) == 1 and self.taken("="):
            first = self.expr()
            self.take(",")
            last = self.expr()
            step = self.expr() if self.taken(",") else None
            self.take("do")
            body = self.block()
            self.take("end")
            if step is None:
                return f"CountS {line} {string(names[0])} ({first}) ({last}) {body}"
            return f"CountByS {line} {string(names[0])} ({first}) ({last}) ({step}) {body}"
        self.take("in")
        values = self.exprs()
        self.take("do")
        body = self.block()
        self.take("end")
        return f"EachS {line} {name_list(names)} {exps(values)} {body}"

    def function_stat(self, line):
        at = self.peek()[2]
        target, method = f"NameE {at} {string(self.name())}", False
        while self.sees(".", ":"):
            _, mark, dot = self.take()
            at = self.peek()[2]
            target = f"IndexE {dot} ({target}) (TextE {at} {string(self.name())})"
            if mark == ":":
                method = True
                break
        return f"AssignS {line} {exps([target])} {exps([f'FunctionE {line} {self.function(method)}'])}"

    def function(self, method=False):
        self.take("(")
        params, dots = (["self"] if method else []), "false"
        while not self.taken(")"):
            if self.taken("..."):
                dots = "true"
            else:
                params.append(self.name())
            self.taken(",")
        body = self.block()
        self.take("end")
        return f"(Lambda {name_list(params)} {dots} {body})"

    def names(self):
        found = [self.name()]
        while self.taken(","):
            found.append(self.name())
        return found

    # expressions
    def exprs(self):
        found = [self.expr()]
        while self.taken(","):
            found.append(self.expr())
        return found

    def expr(self, limit=0):
        _, word, line = self.peek()
        if self.sees(*UNARY):
            self.take()
            left = f"UnaryE {line} sign.{UNARY[word]} ({self.expr(8)})"
        else:
            left = self.simple()
        while True:
            _, word, line = self.peek()
            if not self.sees(*BINARY) or BINARY[word][0] <= limit:
                return left
            self.take()
            right = self.expr(BINARY[word][1])
            left = f"BinaryE {line} op.{BINARY[word][2]} ({left}) ({right})"

    def simple(self):
        kind, word, line = self.peek()
        if kind == "number":
            self.take()
            value = int(word, 16) if word[:2].lower() == "0x" else int(float(word)) if "e" in word else int(word)
            return f"NumberE {line} (pos {value})"
        if kind == "text":
            return self.text()
        for mark, name in (("nil", "NilE"), ("true", "TrueE"), ("false", "FalseE"), ("...", "DotsE")):
            if self.taken(mark):
                return f"{name} {line}"
        if self.taken("function"):
            return f"FunctionE {line} {self.function()}"
        if self.sees("{"):
            return self.table()
        return self.prefix()

    def text(self):
        _, word, line = self.take()
        if not set(re.findall(r"\\(.)", word, re.S)) <= ESCAPES.keys():
            raise SyntaxError(f"line {line}: {word}")
        plain = re.sub(r"\\(.)", lambda m: ESCAPES[m.group(1)], word[1:-1], flags=re.S)
        return f"TextE {line} {string(plain)}"

    def table(self):
        _, _, line = self.take("{")
        fields = []
        while not self.taken("}"):
            if self.taken("["):
                key = self.expr()
                self.take("]")
                self.take("=")
                fields.append(f"Pair ({key}) ({self.expr()})")
            elif self.peek()[0] == "name" and self.tokens[self.at + 1][1] == "=":
                at = self.peek()[2]
                key = f"TextE {at} {string(self.name())}"
                self.take("=")
                fields.append(f"Pair ({key}) ({self.expr()})")
            else:
                fields.append(f"Item ({self.expr()})")
            if not self.taken(","):
                self.taken(";")
        return f"TableE {line} {trees('fields_of', 'NoField', fields)}"

    def prefix(self):
        kind, word, line = self.peek()
        if self.taken("("):
            e = f"ParenE {line} ({self.expr()})"
            self.take(")")
        else:
            e = f"NameE {line} {string(self.name())}"
        while True:
            kind, word, line = self.peek()
            if self.taken("."):
                at = self.peek()[2]
                e = f"IndexE {line} ({e}) (TextE {at} {string(self.name())})"
            elif self.taken("["):
                e = f"IndexE {line} ({e}) ({self.expr()})"
                self.take("]")
            elif self.taken(":"):
                name = self.name()
                e = f"MethodE {line} ({e}) {string(name)} {exps(self.args())}"
            elif self.sees("(", "{") or kind == "text":
                e = f"CallE {line} ({e}) {exps(self.args())}"
            else:
                return e

    def args(self):
        if self.sees("{"):
            return [self.table()]
        if self.peek()[0] == "text":
            return [self.text()]
        self.take("(")
        found = [] if self.sees(")") else self.exprs()
        self.take(")")
        return found


def tree(text):
    parser = Parser(text)
    term = parser.block()
    if parser.peek()[0] != "end":
        raise SyntaxError(f"line {parser.peek()[2]}: the end wanted, {parser.peek()[1]!r} found")
    return term[1:-1] if term.startswith("(") else term


if __name__ == "__main__":
    print(tree(open(sys.argv[1]).read() if len(sys.argv) > 1 else sys.stdin.read()))
