#!/usr/bin/env python3
"""A parser of Lua of its own, from the manual's grammar (2.1 and 8), to which `lua_parser` is compared.

    lua_reference.py                     reads a chunk from standard input, and prints its tree or its fault
    lua_reference.py --write             writes the tables of trees and faults in `text_cases` from the chunks of `parser_chunks.py`
    lua_reference.py --judge             compares those answers with `bench/lua_trees.py` and with `luac5.1 -p`

A tree is printed as an S-expression in which each node has its line, as `(assign@1 ((name@1 x)) ((number@1 1)))`. A fault is
printed as `fault K line L`; K is 1 to 4 for the lexis, and for the grammar 5 unexpected token, 6 numeral without a value, 7 more
than 200 nodes above a node, 8 `break` outside a loop, 9 a call's `(` on a new line, 10 `...` outside a vararg function.
"""
import itertools
import os
import re
import subprocess
import sys

import row_tables

KEYWORDS = set("and break do else elseif end false for function if in local nil not or repeat return then true until while".split())
MARKS = ["...", "..", "==", "~=", "<=", ">="] + list("+-*/%^#<>=(){}[];:,.")
BREAK = re.compile(r"\r\n|\n\r|\r|\n")
NUMERAL = re.compile(r"\.?[0-9][0-9.]*(?:[eE][+-]?)?[0-9A-Za-z_]*")
ESCAPES = {"a": "\a", "b": "\b", "f": "\f", "n": "\n", "r": "\r", "t": "\t", "v": "\v"}
ENDS = ("end", "else", "elseif", "until")
LEFT, RIGHT = 0, 1
LEVELS = [(["or"], LEFT), (["and"], LEFT), (["<", ">", "<=", ">=", "~=", "=="], LEFT), ([".."], RIGHT), (["+", "-"], LEFT),
          (["*", "/", "%"], LEFT)]
UNARY = ["not", "#", "-"]
DEEPEST = 200
# How many of the chunks `luac5.1` judges otherwise, since numbers are whole and a `(` is looked at wherever it stands (docs/DECISIONS.md).
PROFILE = 22


class Fault(Exception):
    def __init__(self, kind, line):
        super().__init__(f"fault {kind} line {line}")


class Token:
    """A token from place `start` up to `end`, on the lines `line` to `last`."""

    def __init__(self, kind, word, start, end, line, last):
        self.kind, self.word, self.start, self.end, self.line, self.last = kind, word, start, end, line, last


# Lexis. A text is a str of characters up to 255, one for each byte.
def long_bracket(text, at):
    """What stands in the long bracket that begins here, and the place behind it; or None where none begins."""
    opening = re.compile(r"\[(=*)\[").match(text, at)
    if not opening:
        return None
    closing = "]" + opening.group(1) + "]"
    end = text.find(closing, opening.end())
    if end < 0:
        return "", -1
    inside = text[opening.end():end]
    first = BREAK.match(inside)
    return BREAK.sub("\n", inside[first.end():] if first else inside), end + len(closing)


def quoted(text, at, line):
    """The string that begins here, the place behind it, and its last line."""
    quote, found, begin = text[at], [], line
    at += 1
    while True:
        if at >= len(text) or text[at] in "\r\n":
            raise Fault(1, begin)
        if text[at] == quote:
            return "".join(found), at + 1, line
        if text[at] != "\\":
            found.append(text[at])
            at += 1
            continue
        at += 1
        if at >= len(text):
            raise Fault(1, begin)
        digits, ended = re.compile(r"[0-9]{1,3}").match(text, at), BREAK.match(text, at)
        if digits:
            if int(digits.group()) > 255:
                raise Fault(3, begin)
            found.append(chr(int(digits.group())))
            at = digits.end()
        elif ended:
            found.append("\n")
            line += 1
            at = ended.end()
        else:
            found.append(ESCAPES.get(text[at], text[at]))
            at += 1


def tokens(text):
    found, at, line = [], 0, 1
    while at < len(text):
        begin = at
        ended = BREAK.match(text, at)
        if ended:
            at, line = ended.end(), line + 1
            continue
        if text[at] in " \t\v\f":
            at += 1
            continue
        if text.startswith("--", at):
            bracket = long_bracket(text, at + 2)
            if bracket and bracket[1] < 0:
                raise Fault(2, line)
            at = bracket[1] if bracket else re.compile(r"[^\r\n]*").match(text, at).end()
            line += len(BREAK.findall(text[begin:at]))
            continue
        bracket = long_bracket(text, at)
        name = re.compile(r"[A-Za-z_][A-Za-z0-9_]*").match(text, at)
        numeral = NUMERAL.match(text, at)
        if bracket:
            if bracket[1] < 0:
                raise Fault(2, line)
            word, at = bracket
            kind, last = "text", line + len(BREAK.findall(text[begin:at]))
        elif text[at] in "'\"":
            word, at, last = quoted(text, at, line)
            kind = "text"
        elif name:
            word, at, last = name.group(), name.end(), line
            kind = "mark" if word in KEYWORDS else "name"
        elif numeral:
            word, at, last = numeral.group(), numeral.end(), line
            kind = "number"
        else:
            word = next((mark for mark in MARKS if text.startswith(mark, at)), None)
            if word is None:
                raise Fault(4, line)
            kind, at, last = "mark", at + len(word), line
        found.append(Token(kind, word, begin, at, line, last))
        line = last
    return found + [Token("end", "", at, at, line, line)]


def value(word):
    """The whole number of a numeral, or None."""
    if re.fullmatch(r"0[xX][0-9a-fA-F]+", word):
        n = int(word, 16)
    else:
        parts = re.fullmatch(r"([0-9]*)\.?([0-9]*)(?:[eE]([+-]?[0-9]+))?", word)
        if not parts or not parts.group(1) + parts.group(2):
            return None
        digits, power = int(parts.group(1) + parts.group(2)), int(parts.group(3) or 0) - len(parts.group(2))
        if digits == 0:
            return 0
        if power > 40:
            return None
        if power < 0 and (-power > len(word) or digits % 10 ** -power):
            return None
        n = digits * 10 ** power if power >= 0 else digits // 10 ** -power
    return n if n < 2 ** 63 else None


# Trees. A node has its text and the number of levels of nodes that it has, itself among them.
class Node:
    def __init__(self, text, height):
        self.text, self.height = text, height


def tallest(nodes):
    return max((node.height for node in nodes), default=0)


def row(nodes):
    return "(" + " ".join(node.text for node in nodes) + ")"


def string(word):
    return '"' + "".join(c if " " <= c <= "~" and c not in '"\\' else f"\\x{ord(c):02x}" for c in word) + '"'


class Parser:
    """Where a method takes `above`, it is the number of nodes above the node that begins here."""

    def __init__(self, text):
        self.tokens, self.at = tokens(text), 0
        self.loops, self.dotted = [False], [True]

    @property
    def now(self):
        return self.tokens[self.at]

    def sees(self, *words):
        return self.now.kind == "mark" and self.now.word in words

    def fault(self, kind):
        raise Fault(kind, self.now.line)

    def born(self, above, height=1):
        if above + height - 1 > DEEPEST:
            self.fault(7)

    def next(self):
        self.at += 1
        return self.tokens[self.at - 1]

    def want(self, word):
        return self.next() if self.sees(word) else self.fault(5)

    def name(self):
        return self.next().word if self.now.kind == "name" else self.fault(5)

    def names(self):
        found = [self.name()]
        while self.sees(","):
            self.next()
            found.append(self.name())
        return found

    # Blocks and statements
    def chunk(self):
        body = self.block(0)
        if self.now.kind != "end":
            self.fault(5)
        return row(body)

    def block(self, above):
        body = []
        while self.now.kind != "end" and not self.sees(*ENDS):
            last = self.sees("return", "break")
            body.append(self.statement(above))
            if self.sees(";"):
                self.next()
            if last:
                break
        return body

    def loop(self, above):
        self.loops[-1], outer = True, self.loops[-1]
        body = self.block(above)
        self.loops[-1] = outer
        return body

    def do_loop(self, above):
        self.want("do")
        body = self.loop(above)
        self.want("end")
        return body

    def statement(self, above):
        line, word = self.now.line, self.now.word
        if self.now.kind == "mark" and hasattr(self, "stat_" + word):
            self.born(above)
            if word == "function":
                self.born(above + 1)
            if word == "break" and not self.loops[-1]:
                self.fault(8)
            self.next()
            text, height = getattr(self, "stat_" + word)(line, above + 1)
            return Node(text, height + 1)
        if self.now.kind != "name" and not self.sees("("):
            self.fault(5)
        self.born(above)
        first, sort = self.suffixed(above + 1)
        if sort == "call" and not self.sees("=", ","):
            return Node(f"(call@{line} {first.text})", first.height + 1)
        targets = [first]
        while True:
            if sort != "place":
                self.fault(5)
            if not self.sees(","):
                break
            self.next()
            target, sort = self.suffixed(above + 1)
            targets.append(target)
        self.want("=")
        values = self.expressions(above + 1)
        return Node(f"(assign@{line} {row(targets)} {row(values)})", tallest(targets + values) + 1)

    def stat_do(self, line, above):
        body = self.block(above)
        self.want("end")
        return f"(do@{line} {row(body)})", tallest(body)

    def stat_while(self, line, above):
        test = self.expression(above)
        body = self.do_loop(above)
        return f"(while@{line} {test.text} {row(body)})", tallest([test] + body)

    def stat_repeat(self, line, above):
        body = self.loop(above)
        self.want("until")
        test = self.expression(above)
        return f"(repeat@{line} {row(body)} {test.text})", tallest([test] + body)

    def stat_if(self, line, above):
        arms, nodes, other = [], [], "none"
        while True:
            test = self.expression(above)
            self.want("then")
            body = self.block(above)
            nodes += [test] + body
            arms.append(f"({test.text} {row(body)})")
            if not self.sees("elseif"):
                break
            self.next()
        if self.sees("else"):
            self.next()
            body = self.block(above)
            nodes += body
            other = row(body)
        self.want("end")
        return f"(if@{line} ({' '.join(arms)}) {other})", tallest(nodes)

    def stat_for(self, line, above):
        names = self.names()
        if len(names) == 1 and self.sees("="):
            self.next()
            first = self.expression(above)
            self.want(",")
            bounds = [first] + self.expressions(above, 2)
            body = self.do_loop(above)
            said = [bound.text for bound in bounds] + (["none"] if len(bounds) == 2 else [])
            return f"(count@{line} {names[0]} {' '.join(said)} {row(body)})", tallest(bounds + body)
        self.want("in")
        values = self.expressions(above)
        body = self.do_loop(above)
        return f"(each@{line} ({' '.join(names)}) {row(values)} {row(body)})", tallest(values + body)

    def stat_function(self, line, above):
        at = self.now.line
        target = Node(f"(name@{at} {self.named(above)})", 1)
        method = False
        while not method and self.sees(".", ":"):
            method = self.sees(":")
            target = self.field_of(target, above)
        params, body = self.function(above + 1, ["self"] if method else [])
        made = Node(f"(function@{line} {params} {row(body)})", tallest(body) + 1)
        return f"(assign@{line} {row([target])} {row([made])})", tallest([target, made])

    def stat_local(self, line, above):
        if self.sees("function"):
            self.next()
            name = self.name()
            params, body = self.function(above, [])
            return f"(localfunction@{line} {name} {params} {row(body)})", tallest(body)
        names, values = self.names(), []
        if self.sees("="):
            self.next()
            values = self.expressions(above)
        return f"(local@{line} ({' '.join(names)}) {row(values)})", tallest(values)

    def stat_return(self, line, above):
        ends = self.now.kind == "end" or self.sees(";", *ENDS)
        values = [] if ends else self.expressions(above)
        return f"(return@{line} {row(values)})", tallest(values)

    def stat_break(self, line, above):
        return f"(break@{line})", 0

    def function(self, above, params):
        """From the `(` of its parameters to its `end`."""
        self.want("(")
        dots = False
        if not self.sees(")"):
            while not dots:
                if self.sees("..."):
                    self.next()
                    dots = True
                else:
                    params.append(self.name())
                    if not self.sees(","):
                        break
                    self.next()
        self.want(")")
        self.loops.append(False)
        self.dotted.append(dots)
        body = self.block(above)
        self.want("end")
        self.loops.pop()
        self.dotted.pop()
        return "(" + " ".join(params + ["..."] * dots) + ")", body

    # Expressions
    def expressions(self, above, most=None):
        found = [self.expression(above)]
        while self.sees(",") and len(found) != most:
            self.next()
            found.append(self.expression(above))
        return found

    def expression(self, above, level=0):
        """An expression that binds at least at this level; behind the levels of LEVELS come unary operators, and `^`."""
        if level == len(LEVELS):
            return self.unary(above)
        words, side = LEVELS[level]
        left = self.expression(above, level + 1)
        while self.sees(*words):
            self.born(above, left.height + 1)
            mark = self.next()
            right = self.expression(above + 1, level if side == RIGHT else level + 1)
            left = self.binary(mark, left, right)
        return left

    def binary(self, mark, left, right):
        return Node(f"(binary@{mark.line} {mark.word} {left.text} {right.text})", tallest([left, right]) + 1)

    def unary(self, above):
        if not self.sees(*UNARY):
            return self.power(above)
        self.born(above)
        mark = self.next()
        operand = self.unary(above + 1)
        return Node(f"(unary@{mark.line} {mark.word} {operand.text})", operand.height + 1)

    def power(self, above):
        base = self.simple(above)
        if not self.sees("^"):
            return base
        self.born(above, base.height + 1)
        mark = self.next()
        return self.binary(mark, base, self.unary(above + 1))

    def simple(self, above):
        token = self.now
        at = f"@{token.line}"
        if token.kind == "number":
            n = value(token.word)
            if n is None:
                self.fault(6)
            self.born(above)
            self.next()
            return Node(f"(number{at} {n})", 1)
        if token.kind == "text":
            return self.text(above)
        if self.sees("nil", "true", "false", "..."):
            self.born(above)
            if self.sees("...") and not self.dotted[-1]:
                self.fault(10)
            self.next()
            return Node(f"({'dots' if token.word == '...' else token.word}{at})", 1)
        if self.sees("function"):
            self.born(above)
            self.next()
            params, body = self.function(above + 1, [])
            return Node(f"(function{at} {params} {row(body)})", tallest(body) + 1)
        if self.sees("{"):
            return self.table(above)
        return self.suffixed(above)[0]

    def text(self, above):
        self.born(above)
        token = self.next()
        return Node(f"(text@{token.line} {string(token.word)})", 1)

    def table(self, above):
        self.born(above)
        line = self.next().line
        said, nodes = [], []
        while not self.sees("}"):
            pair = self.now.kind == "name" and self.tokens[self.at + 1].kind == "mark" and self.tokens[self.at + 1].word == "="
            if pair:
                self.born(above + 1)
                name = self.next()
                nodes.append(Node(f"(text@{name.line} {string(name.word)})", 1))
                self.want("=")
            elif self.sees("["):
                self.next()
                nodes.append(self.expression(above + 1))
                self.want("]")
                self.want("=")
                pair = True
            nodes.append(self.expression(above + 1))
            said.append(f"(pair {nodes[-2].text} {nodes[-1].text})" if pair else nodes[-1].text)
            if not self.sees(",", ";"):
                break
            self.next()
        self.want("}")
        return Node(f"(table@{line} ({' '.join(said)}))", tallest(nodes) + 1)

    def named(self, above):
        if self.now.kind == "name":
            self.born(above)
        return self.name()

    def field_of(self, target, above):
        """`.` or `:` and a name, behind a target."""
        self.born(above, target.height + 1)
        line = self.next().line
        at = self.now.line
        key = Node(f"(text@{at} {string(self.named(above + 1))})", 1)
        return Node(f"(index@{line} {target.text} {key.text})", target.height + 1)

    def suffixed(self, above):
        """A prefix expression with all that goes on with it; and whether it is a `place` to assign to, a `call`, or neither."""
        token = self.now
        if self.sees("("):
            self.born(above)
            self.next()
            inner = self.expression(above + 1)
            self.want(")")
            node, sort = Node(f"(paren@{token.line} {inner.text})", inner.height + 1), "paren"
        else:
            node, sort = Node(f"(name@{token.line} {self.named(above)})", 1), "place"
        while True:
            line = self.now.line
            if self.sees("."):
                node, sort = self.field_of(node, above), "place"
            elif self.sees("["):
                self.born(above, node.height + 1)
                self.next()
                key = self.expression(above + 1)
                self.want("]")
                node, sort = Node(f"(index@{line} {node.text} {key.text})", tallest([node, key]) + 1), "place"
            elif self.sees(":"):
                self.born(above, node.height + 1)
                self.next()
                name = self.name()
                args = self.arguments(above + 1)
                node, sort = Node(f"(method@{line} {node.text} {name} {row(args)})", tallest([node] + args) + 1), "call"
            elif self.sees("(", "{") or self.now.kind == "text":
                self.born(above, node.height + 1)
                args = self.arguments(above + 1)
                node, sort = Node(f"(call@{line} {node.text} {row(args)})", tallest([node] + args) + 1), "call"
            else:
                return node, sort

    def arguments(self, above):
        if self.sees("{"):
            return [self.table(above)]
        if self.now.kind == "text":
            return [self.text(above)]
        if self.sees("(") and self.now.line != self.tokens[self.at - 1].last:
            self.fault(9)
        self.want("(")
        found = [] if self.sees(")") else self.expressions(above)
        self.want(")")
        return found


def answer(text):
    """The tree of a chunk, or its fault."""
    try:
        return Parser(text).chunk()
    except Fault as fault:
        return str(fault)


# Other judges
def term_parts(words):
    """A term of `lua_trees.py` as nested lists."""
    found = []
    while words:
        word = words.pop()
        if word == "(":
            found.append(term_parts(words))
        elif word == ")":
            return found
        else:
            found.append(word)
    return found


def listed(term):
    """The items of `a ∷ b ∷ []`, each a list of words."""
    items, item = [], []
    for part in term:
        if part == "∷":
            items.append(item)
            item = []
        else:
            item.append(part)
    return items


OPS = dict(Or="or", And="and", Lt="<", Gt=">", Le="<=", Ge=">=", Ne="~=", Eq="==", Concat="..", Add="+", Sub="-", Mul="*",
           Div="/", Mod="%", Pow="^", Not="not", Len="#", Minus="-")


def plain(term):
    """The characters of a text of `lua_trees.py`."""
    term = term if isinstance(term, list) else [term]
    if len(term) == 1 and isinstance(term[0], list):
        return plain(term[0])
    if term[0] != "codes":
        return ""
    return re.sub(r"\\(.)", lambda m: {"n": "\n", "t": "\t"}.get(m.group(1), m.group(1)), term[1][1:-1], flags=re.S)


def names_of(term):
    return "(" + " ".join(plain(item) for item in listed(term)) + ")"


def turned(term):
    """A term of `lua_trees.py` as an S-expression."""
    term = term if isinstance(term, list) else [term]
    if len(term) == 1 and isinstance(term[0], list):
        return turned(term[0])
    head, rest = term[0], term[1:]
    if head in ("NoExp", "NoField", "NoStat"):
        return "()"
    if head in ("exps_of", "fields_of", "arms_of", "stats_of"):
        return "(" + " ".join(turned(item) for item in listed(rest[0])) + ")"
    if head == "Arm":
        return f"({turned(rest[0])} {turned(rest[1])})"
    if head == "Lambda":
        names = [plain(name) for name in listed(rest[0])] + ["..."] * (rest[1] == "true")
        return f"({' '.join(names)}) {turned(rest[2])}"
    if head == "Pair":
        return f"(pair {turned(rest[0])} {turned(rest[1])})"
    if head == "Item":
        return turned(rest[0])
    return turned_node(head, f"@{rest[0]}", rest[1:])


def turned_node(head, at, rest):
    word = head[:-1].lower()
    if head in ("NilE", "TrueE", "FalseE", "DotsE", "BreakS"):
        return f"({word}{at})"
    if head == "NumberE":
        return f"(number{at} {rest[0][1]})"
    if head == "TextE":
        return f"(text{at} {string(plain(rest))})"
    if head == "NameE":
        return f"(name{at} {plain(rest)})"
    if head in ("UnaryE", "BinaryE"):
        return f"({word}{at} {OPS[rest[0].split('.')[1]]} {' '.join(map(turned, rest[1:]))})"
    if head == "MethodE":
        return f"(method{at} {turned(rest[0])} {plain(rest[1])} {turned(rest[2])})"
    if head == "IfS":
        return f"(if{at} {turned(rest[0])} none)"
    if head == "IfElseS":
        return f"(if{at} {turned(rest[0])} {turned(rest[1])})"
    if head == "CountS":
        return f"(count{at} {plain(rest[0])} {turned(rest[1])} {turned(rest[2])} none {turned(rest[3])})"
    if head == "CountByS":
        return f"(count{at} {plain(rest[0])} {' '.join(map(turned, rest[1:]))})"
    if head in ("LocalS", "EachS"):
        return f"({word}{at} {names_of(rest[0])} {' '.join(map(turned, rest[1:]))})"
    if head == "LocalFunctionS":
        return f"(localfunction{at} {plain(rest[0])} {turned(rest[1])})"
    return f"({word}{at} {' '.join(map(turned, rest))})"


def other_tree(text):
    """The tree that `lua_trees.py` makes of a text, or None."""
    from lua_trees import tree
    try:
        term = tree(text)
    except (SyntaxError, ValueError, OverflowError, IndexError):
        return None
    words = re.findall(r'"(?:\\.|[^"\\])*"|[()]|[^\s()"]+', term, flags=re.S)
    return turned(term_parts(words[::-1]))


def judge(chunks):
    """Whether a chunk is judged otherwise that the profile doesn't; each that is judged otherwise is printed."""
    trees = same = unread = otherwise = 0
    for text in chunks:
        mine, other = answer(text), other_tree(text)
        luac = subprocess.run(["luac5.1", "-p", "-"], input=text.encode("latin-1"), capture_output=True)
        if (luac.returncode == 0) == mine.startswith("fault"):
            otherwise += 1
            print(f"luac5.1 judges otherwise: {row_tables.escaped(text)[:100]} => {mine[:100]}; {luac.stderr.decode('latin-1').strip()[:100]}")
        if not mine.startswith("fault"):
            trees += 1
            same += mine == other
            unread += other is None
            if other not in (mine, None):
                print(f"lua_trees reads otherwise: {row_tables.escaped(text)[:100]}\n  {mine[:400]}\n  {str(other)[:400]}")
    print(f"{len(chunks)} chunks; luac5.1 judges {otherwise} otherwise, {PROFILE} of them by the profile; "
          f"of {trees} trees lua_trees gives {same} alike, and {unread} not at all")
    return otherwise != PROFILE or same + unread != trees


# The tables of the tests
def repeated_row(before, part, middle, behind, after, count):
    given = answer(before + part * count + middle + behind * count + after)
    parts = [row_tables.escaped(item) for item in (before, part, middle, behind, after)]
    return row_tables.row("repeated", f"{'|'.join(parts)}|{count}", given if given.startswith("fault") else "chunk")


def walk_rows(text):
    """The lines of the nodes and the numbers of parameters (`...` is none), both in the order of the text, which is that of the printed
    tree. A text has no string here."""
    tree = answer(text)
    heads = re.findall(r"\((?:local)?function@\d+ (?:\w+ )?\(([^)]*)\)", tree)
    yield row_tables.row("lines", row_tables.escaped(text), " ".join(re.findall(r"@(\d+)", tree)))
    yield row_tables.row("functions", row_tables.escaped(text), " ".join(str(len(re.findall(r"\w+", head))) for head in heads))


def write(chunks, repeated, module, pieces, length, walked):
    answers = [row_tables.row("tree", row_tables.escaped(text), answer(text)) for text in chunks]
    row_tables.replace("Trees of texts", [row for row in answers if "\t=> fault" not in row])
    row_tables.replace("Faults of texts", [row for row in answers if "\t=> fault" in row])
    row_tables.replace("Texts with repeated parts", [repeated_row(*item) for item in repeated])
    beginnings = sum_of(module[:end] for end in range(len(module) + 1))
    short = sum_of("".join(digits[::-1]) for count in range(length + 1) for digits in itertools.product(pieces, repeat=count))
    row_tables.replace("Sums of answers", [
        row_tables.row("beginnings", row_tables.escaped(module), str(beginnings)),
        row_tables.row("pieces", "|".join(map(row_tables.escaped, pieces)), str(short)),
    ])
    row_tables.replace("Walks over trees", [row for text in walked for row in walk_rows(text)])


def mixed(total, text):
    for c in text:
        total = (total ^ ord(c)) * 1099511628211 % 2 ** 64
    return (total ^ 256) * 1099511628211 % 2 ** 64


def sum_of(texts):
    """One number for the answers to some texts."""
    total = 14695981039346656037
    for text in texts:
        total = mixed(total, answer(text))
    return total


def main():
    sys.setrecursionlimit(20000)
    if len(sys.argv) < 2:
        print(answer(sys.stdin.buffer.read().decode("latin-1")))
        return
    here = os.path.dirname(os.path.abspath(__file__))
    sys.path.insert(0, here)
    from parser_chunks import CHUNKS, LENGTH, MODULE, PIECES, REPEATED, WALKED
    if sys.argv[1] == "--judge":
        sys.exit(judge(CHUNKS))
    elif sys.argv[1] == "--write":
        write(CHUNKS, REPEATED, MODULE, PIECES, LENGTH, WALKED)
    else:
        sys.exit(__doc__)


if __name__ == "__main__":
    main()
