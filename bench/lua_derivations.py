#!/usr/bin/env python3
"""Prints worked examples of Lua's grammar for `lua_grammar`: the tokens of a chunk, its plain tree, and the proof that it is one.

    lua_derivations.py           reads a chunk from standard input, and prints the three
    lua_derivations.py --write   writes `specs/Examples.antt` and the proofs of `lua_grammar` from the chunks of `grammar_chunks.py`

Tokens and trees come from `lua_reference.py`. The proof goes over the tree as `specs/Grammar.antt` does, case by case, and asks
at each place that the token is the one which the case wants.
"""
import os
import re
import sys

from lua_reference import KEYWORDS, Parser

BINARY = {
    "or": ("OrOp", 1, 1, 2), "and": ("AndOp", 2, 2, 3), "<": ("Lt", 3, 3, 4), ">": ("Gt", 3, 3, 4), "<=": ("Le", 3, 3, 4),
    ">=": ("Ge", 3, 3, 4), "~=": ("Ne", 3, 3, 4), "==": ("Eq", 3, 3, 4), "..": ("Concat", 4, 5, 4), "+": ("Add", 5, 5, 6),
    "-": ("Sub", 5, 5, 6), "*": ("Mul", 6, 6, 7), "/": ("Div", 6, 6, 7), "%": ("Mod", 6, 6, 7), "^": ("Pow", 8, 9, 7),
}
UNARY = {"not": "NotOp", "#": "Len", "-": "MinusOp"}
WIDTH, SHORT = 130, 40


# Trees: S-expressions as nested lists; a node begins with its name and its line.
def tree_of(said):
    words = re.findall(r'"(?:\\.|[^"\\])*"|[()]|[^\s()"]+', said)[::-1]

    def read():
        found = []
        while words:
            word = words.pop()
            if word == ")":
                return found
            found.append(read() if word == "(" else word)
        return found

    return read()[0]


def node_of(tree):
    """The name, the line and the parts of a node."""
    name, line = tree[0].split("@")
    return name, line, tree[1:]


def characters(word):
    return re.sub(r"\\x(..)", lambda found: chr(int(found.group(1), 16)), word[1:-1])


def codes(text):
    return '(codes "' + text.replace("\\", "\\\\").replace('"', '\\"').replace("\n", "\\n") + '")' if text else "[]"


def names_of(names):
    return "(" + " ∷ ".join([codes(name)[1:-1] for name in names] + ["[]"]) + ")" if names else "[]"


# Terms of plain trees. Where a node has a name of its own, the name stands for it.
class Terms:
    def __init__(self, named):
        self.named = named

    def block(self, block):
        term = "NoStat"
        for stat in reversed(block):
            term = f"(MoreStat {self.stat(stat)} {term})"
        return term

    def exps(self, exps):
        term = "NoExp"
        for exp in reversed(exps):
            term = f"(MoreExp {self.exp(exp)} {term})"
        return term

    def fields(self, fields):
        term = "NoField"
        for field in reversed(fields):
            if field[0] == "pair":
                term = f"(Pair {self.exp(field[1])} {self.exp(field[2])} {term})"
            else:
                term = f"(Item {self.exp(field)} {term})"
        return term

    def arms(self, arms):
        term = "NoArm"
        for test, body in reversed(arms):
            term = f"(Arm {self.exp(test)} {self.block(body)} {term})"
        return term

    def fun(self, params, body):
        dots = params[-1:] == ["..."]
        return f"(Lambda {names_of(params[:-1] if dots else params)} {'true' if dots else 'false'} {self.block(body)})"

    def exp(self, exp):
        return self.named.get(id(exp)) or self.whole_exp(exp)

    def stat(self, stat):
        return self.named.get(id(stat)) or self.whole_stat(stat)

    def whole_exp(self, exp):
        name, line, parts = node_of(exp)
        if name in ("nil", "true", "false", "dots"):
            return f"({name.capitalize()}E {line})"
        behind = {
            "number": lambda: [f"(pos {parts[0]})"],
            "text": lambda: [codes(characters(parts[0]))],
            "name": lambda: [codes(parts[0])],
            "function": lambda: [self.fun(*parts)],
            "table": lambda: [self.fields(parts[0])],
            "index": lambda: [self.exp(parts[0]), self.exp(parts[1])],
            "call": lambda: [self.exp(parts[0]), self.exps(parts[1])],
            "method": lambda: [self.exp(parts[0]), codes(parts[1]), self.exps(parts[2])],
            "binary": lambda: [BINARY[parts[0]][0], self.exp(parts[1]), self.exp(parts[2])],
            "unary": lambda: [UNARY[parts[0]], self.exp(parts[1])],
            "paren": lambda: [self.exp(parts[0])],
        }[name]()
        return "(" + " ".join([name.capitalize() + "E", line] + behind) + ")"

    def whole_stat(self, stat):
        name, line, parts = node_of(stat)
        head = {"if": "IfElse", "localfunction": "LocalFunction"}.get(name, name.capitalize())
        if name == "if" and parts[1] == "none":
            head = "If"
        if name == "count" and parts[3] != "none":
            head = "CountBy"
        behind = {
            "assign": lambda: [self.exps(parts[0]), self.exps(parts[1])],
            "call": lambda: [self.exp(parts[0])],
            "do": lambda: [self.block(parts[0])],
            "while": lambda: [self.exp(parts[0]), self.block(parts[1])],
            "repeat": lambda: [self.block(parts[0]), self.exp(parts[1])],
            "if": lambda: [self.arms(parts[0])] + [self.block(body) for body in parts[1:] if body != "none"],
            "count": lambda: [codes(parts[0])] + [self.exp(bound) for bound in parts[1:4] if bound != "none"] + [self.block(parts[4])],
            "each": lambda: [names_of(parts[0]), self.exps(parts[1]), self.block(parts[2])],
            "localfunction": lambda: [codes(parts[0]), self.fun(*parts[1:])],
            "local": lambda: [names_of(parts[0]), self.exps(parts[1])],
            "return": lambda: [self.exps(parts[0])],
            "break": lambda: [],
        }[name]()
        return "(" + " ".join([head + "S", line] + behind) + ")"


# Proofs. Each stands from a place to a place; `parts` are the proofs of which it is made.
class Proof:
    """A proof that has no parts."""

    def __init__(self, text, start, end):
        self.text, self.start, self.end, self.parts = text, start, end, []

    def flat(self):
        return self.text


class Row:
    """The proof of pieces behind one another: `(place, piece, (place, piece, .. piece))`."""

    def __init__(self, *parts):
        self.parts, self.start, self.end = parts, parts[0].start, parts[-1].end

    def flat(self):
        text = self.parts[-1].flat()
        for part in self.parts[-2::-1]:
            text = f"({part.end}, {part.flat()}, {text})"
        return text


class Left:
    """The proof of a tree to the left, of what is asked of it, and of what stands behind it."""

    def __init__(self, left, asked, rest):
        self.parts, self.asked, self.start, self.end = [left, rest], asked, left.start, rest.end

    def flat(self):
        left, rest = self.parts
        return f"({left.end}, {left.flat()}, {self.asked}{rest.flat()})"


class Wrapped:
    """A proof with words before and behind it."""

    def __init__(self, before, proof, behind=""):
        self.before, self.parts, self.behind, self.start, self.end = before, [proof], behind, proof.start, proof.end

    def flat(self):
        return self.before + self.parts[0].flat() + self.behind


class Whole:
    """The proof of a node, which can have a name of its own. `said` is what it proves, with `{}` for the tree and the places."""

    def __init__(self, tree, said, proof):
        self.tree, self.said, self.parts, self.start, self.end, self.name = tree, said, [proof], proof.start, proof.end, None

    def flat(self):
        return f"stands_{self.name}" if self.name else self.parts[0].flat()


def nodes_below(proof):
    """The nodes of a proof that are in no other, but for itself."""
    found = []
    for part in proof.parts:
        found += [part] if isinstance(part, Whole) else nodes_below(part)
    return found


def give_names(proof):
    """Names the longest nodes below each node until its proof fits on a line."""
    for node in nodes_below(proof):
        give_names(node)
    inside = proof.parts[0] if isinstance(proof, Whole) else proof
    while len(inside.flat()) > WIDTH:
        unnamed = [node for node in nodes_below(proof) if not node.name and len(node.flat()) > SHORT]
        if not unnamed:
            break
        max(unnamed, key=lambda node: len(node.flat())).name = "?"


def named_nodes(proof):
    found = []
    for node in nodes_below(proof):
        found += named_nodes(node) + [node] * bool(node.name)
    return found


def either(side, proof):
    return Wrapped(side + " ", proof)


def under(w):
    return f"(under {w})"


def in_loop(w):
    return f"(in_loop {w})"


def in_function(params, w):
    return f"(in_function {'true' if params[-1:] == ['...'] else 'false'} {w})"


class Derivation:
    """Proofs over the tokens of a chunk. A method takes the tree, the place where it begins, and what is around it."""

    def __init__(self, tokens):
        self.tokens = tokens

    # Tokens
    def sees(self, i, *words):
        return self.tokens[i].kind == "mark" and self.tokens[i].word in words

    def word(self, i, word, proof="word"):
        assert self.sees(i, word), (self.tokens[i].word, word)
        return Proof(proof, i, i + 1)

    def text(self, i, kind, text):
        assert (self.tokens[i].kind, self.tokens[i].word) == (kind, text), (self.tokens[i].word, text)
        return Proof("text", i, i + 1)

    def node(self, i, line):
        assert self.tokens[i].line == int(line), (i, line)
        return Proof("here refl", i, i)

    def opens(self, i):
        assert self.tokens[i].line == self.tokens[i - 1].last
        return self.word(i, "(", "allowed")

    def ends(self, i, level):
        return Proof("goes_on" if level == 10 else "ended", i, i)

    def nothing(self, i):
        return Proof("refl", i, i)

    def where(self, i, fact="(tt, refl)"):
        return Proof(fact, i, i)

    # Names
    def more_names(self, names, i):
        if not names:
            return self.nothing(i)
        return Row(self.word(i, ","), self.text(i + 1, "name", names[0]), self.more_names(names[1:], i + 2))

    def names(self, names, i):
        return Row(self.text(i, "name", names[0]), self.more_names(names[1:], i + 1))

    def params(self, params, i):
        if not params:
            return self.nothing(i)
        if params == ["..."]:
            return self.word(i, "...")
        if params[-1] != "...":
            return self.names(params, i)
        names = self.names(params[:-1], i)
        return Row(names, self.word(names.end, ","), self.word(names.end + 1, "..."))

    def name_key(self, key, i):
        name, line, parts = node_of(key)
        return Row(self.node(i, line), self.text(i, "name", characters(parts[0])))

    def path(self, exp, i):
        name, line, parts = node_of(exp)
        if name == "name":
            return Row(self.node(i, line), self.text(i, "name", parts[0]))
        return self.index(parts, i, line, ".")

    def index(self, parts, i, line, mark):
        """A path, and a name behind `.` or `:`."""
        left = self.path(parts[0], i)
        at = left.end
        return Left(left, "", Row(self.node(at, line), self.word(at, mark), self.name_key(parts[1], at + 1)))

    # Expressions
    def exp(self, exp, i, w, level=1):
        said = f"Spells {{}} {w} {level} {{}} {{}} {{}}"
        return Whole(exp, said, self.whole_exp(exp, i, w, level))

    def whole_exp(self, exp, i, w, level):
        name, line, parts = node_of(exp)
        if name in ("name", "paren", "index", "call", "method"):
            return self.prefix(name, line, parts, i, w, level)
        if name == "binary":
            return self.binary(line, parts, i, w, level)
        here = self.node(i, line)
        if name in ("nil", "true", "false"):
            return Row(here, self.word(i, name))
        if name == "number":
            assert self.tokens[i].kind == "number"
            return Row(here, Proof("number", i, i + 1))
        if name == "text":
            return Row(here, self.text(i, "text", characters(parts[0])))
        if name == "dots":
            return Row(here, self.word(i, "...", "allowed"))
        if name == "function":
            return Row(here, self.word(i, "function"), self.fun(*parts, i + 1, under(w)))
        if name == "table":
            fields = self.fields(parts[0], i + 1, under(w))
            return Row(here, self.word(i, "{"), fields, self.word(fields.end, "}"))
        assert name == "unary" and level <= 7, exp
        return Wrapped("(lit≤ tt, ", Row(here, self.word(i, parts[0]), self.exp(parts[1], i + 1, under(w), 7)), ")")

    def binary(self, line, parts, i, w, level):
        op, own, leftward, rightward = BINARY[parts[0]]
        assert level <= own
        left = self.exp(parts[1], i, under(w), leftward)
        at = left.end
        return Left(left, "lit≤ tt, ", Row(self.node(at, line), self.word(at, parts[0]), self.exp(parts[2], at + 1, under(w), rightward)))

    def prefix(self, name, line, parts, i, w, level):
        if name == "name":
            return Row(self.node(i, line), self.text(i, "name", parts[0]), self.ends(i + 1, level))
        if name == "paren":
            inside = self.exp(parts[0], i + 1, under(w))
            at = inside.end
            return Row(self.node(i, line), self.word(i, "("), inside, self.word(at, ")"), self.ends(at + 1, level))
        left = self.exp(parts[0], i, under(w), 10)
        behind = self.suffix(name, parts, left.end, under(w))
        return Left(left, "tt, ", Row(self.node(left.end, line), *behind, self.ends(behind[-1].end, level)))

    def suffix(self, name, parts, i, w):
        if name == "call":
            return [self.args(parts[1], i, w)]
        if name == "method":
            return [self.word(i, ":"), self.text(i + 1, "name", parts[1]), self.args(parts[2], i + 2, w)]
        if self.sees(i, "."):
            return [either("inl", Row(self.word(i, "."), self.name_key(parts[1], i + 1)))]
        return [either("inr", self.in_brackets(parts[1], i, w))]

    def in_brackets(self, exp, i, w):
        inside = self.exp(exp, i + 1, w)
        return Row(self.word(i, "["), inside, self.word(inside.end, "]"))

    def args(self, args, i, w):
        if not args:
            return Row(self.opens(i), self.word(i + 1, ")"))
        if not self.sees(i, "("):
            return either("inr", Row(self.where(i), self.exp(args[0], i, w, 9)))
        first = self.exp(args[0], i + 1, w)
        more = self.more_exps(args[1:], first.end, w)
        return either("inl", Row(self.opens(i), first, more, self.word(more.end, ")")))

    def more_exps(self, exps, i, w):
        if not exps:
            return self.nothing(i)
        first = self.exp(exps[0], i + 1, w)
        return Row(self.word(i, ","), first, self.more_exps(exps[1:], first.end, w))

    def exps(self, exps, i, w):
        first = self.exp(exps[0], i, w)
        return Row(first, self.more_exps(exps[1:], first.end, w))

    def fields(self, fields, i, w):
        if not fields:
            return self.nothing(i)
        first = []
        if fields[0][0] == "pair":
            key = either("inr", self.in_brackets(fields[0][1], i, w)) if self.sees(i, "[") else either("inl", self.name_key(fields[0][1], i))
            first = [key, self.word(key.end, "=")]
            i = key.end + 1
        value = self.exp(fields[0][2] if first else fields[0], i, w)
        return Row(*first, value, self.more_fields(fields[1:], value.end, w))

    def more_fields(self, fields, i, w):
        if not self.sees(i, ",", ";"):
            assert not fields
            return either("inl", self.where(i))
        separator = Proof("comma" if self.sees(i, ",") else "semicolon", i, i + 1)
        return either("inr", Row(separator, self.fields(fields, i + 1, w)))

    # Functions
    def fun(self, params, body, i, w):
        names = self.params(params, i + 1)
        block = self.block(body, names.end + 1, in_function(params, w))
        return Row(self.word(i, "("), names, self.word(names.end, ")"), block, self.word(block.end, "end"))

    def named(self, targets, values, i, w):
        name, line, (params, body) = node_of(values[0])
        here, word = self.node(i, line), self.word(i, "function")
        target = node_of(targets[0])
        opening = next(at for at in range(i, len(self.tokens)) if self.sees(at, "("))
        if not self.sees(opening - 2, ":"):
            path = self.path(targets[0], i + 1)
            return Row(here, word, either("inl", Row(path, self.fun(params, body, path.end, under(w)))))
        path = self.index(target[2], i + 1, target[1], ":")
        rest = self.fun(params[1:], body, path.end, under(w))
        return Row(here, word, either("inr", Row(path, self.where(path.end, "(refl, refl)"), *rest.parts)))

    # Statements
    def block(self, block, i, w):
        if not block:
            return self.nothing(i)
        stat = self.stat(block[0], i, w)
        last = node_of(block[0])[0] in ("return", "break")
        at = stat.end
        mark = either("inr", self.word(at, ";")) if self.sees(at, ";") else either("inl", self.nothing(at))
        return Row(stat, self.where(at, "last" if last else "not_last"), mark, self.block(block[1:], mark.end, w))

    def arms(self, arms, i, w, *before):
        if not arms:
            return self.nothing(i)
        test = self.exp(arms[0][0], before[-1].end if before else i, w)
        body = self.block(arms[0][1], test.end + 1, w)
        more = [self.word(body.end, "elseif")] if arms[1:] else []
        return Row(*before, test, self.word(test.end, "then"), body, self.arms(arms[1:], body.end, w, *more))

    def stat(self, stat, i, w):
        name, line, parts = node_of(stat)
        here = self.node(i, line)
        if name == "call":
            proof = Wrapped("(tt, ", Row(here, self.exp(parts[0], i, under(w), 9)), ")")
        else:
            proof = Row(here, *getattr(self, "stat_" + name)(parts, i, w))
        return Whole(stat, f"SpellsStat {{}} {w} {{}} {{}} {{}}", proof)

    def stat_assign(self, parts, i, w):
        if self.sees(i, "function"):
            return [either("inr", self.named(*parts, i, under(w)))]
        targets = self.exps(parts[0], i, under(w))
        values = self.exps(parts[1], targets.end + 1, under(w))
        variables = "tt"
        for _ in parts[0]:
            variables = f"(tt, {variables})"
        return [either("inl", Row(self.where(i, f"({variables}, refl)"), targets, self.word(targets.end, "="), values))]

    def stat_do(self, parts, i, w):
        body = self.block(parts[0], i + 1, under(w))
        return self.word(i, "do"), body, self.word(body.end, "end")

    def loop(self, body, i, w):
        block = self.block(body, i + 1, in_loop(w))
        return self.word(i, "do"), block, self.word(block.end, "end")

    def stat_while(self, parts, i, w):
        test = self.exp(parts[0], i + 1, under(w))
        return self.word(i, "while"), test, *self.loop(parts[1], test.end, w)

    def stat_repeat(self, parts, i, w):
        body = self.block(parts[0], i + 1, in_loop(w))
        return self.word(i, "repeat"), body, self.word(body.end, "until"), self.exp(parts[1], body.end + 1, under(w))

    def stat_if(self, parts, i, w):
        arms = self.arms(parts[0], i + 1, under(w))
        if parts[1] == "none":
            return self.word(i, "if"), arms, self.word(arms.end, "end")
        body = self.block(parts[1], arms.end + 1, under(w))
        return self.word(i, "if"), arms, self.word(arms.end, "else"), body, self.word(body.end, "end")

    def stat_count(self, parts, i, w):
        found = [self.word(i, "for"), self.text(i + 1, "name", parts[0])]
        for mark, bound in zip("=,,", parts[1:4]):
            if bound != "none":
                found.append(self.word(found[-1].end, mark))
                found.append(self.exp(bound, found[-1].end, under(w)))
        return found + list(self.loop(parts[4], found[-1].end, w))

    def stat_each(self, parts, i, w):
        names = self.names(parts[0], i + 1)
        values = self.exps(parts[1], names.end + 1, under(w))
        return self.word(i, "for"), names, self.word(names.end, "in"), values, *self.loop(parts[2], values.end, w)

    def stat_localfunction(self, parts, i, w):
        return self.word(i, "local"), self.word(i + 1, "function"), self.text(i + 2, "name", parts[0]), self.fun(*parts[1:], i + 3, under(w))

    def stat_local(self, parts, i, w):
        names = self.names(parts[0], i + 1)
        at = names.end
        values = either("inr", Row(self.word(at, "="), self.exps(parts[1], at + 1, under(w)))) if parts[1] else either("inl", self.where(at))
        return self.word(i, "local"), names, values

    def stat_return(self, parts, i, w):
        values = either("inr", self.exps(parts[0], i + 1, under(w))) if parts[0] else either("inl", self.where(i + 1))
        return self.word(i, "return"), values

    def stat_break(self, parts, i, w):
        return [self.word(i, "break", "allowed")]

    def chunk(self, block):
        body = self.block(block, 0, "outside")
        assert self.tokens[body.end].kind == "end"
        return Row(body, Proof("word", body.end, body.end + 1))


# What is printed
def spelled(tokens):
    """The tokens as a text again, with single spaces."""
    return " ".join(repr(token.word) if token.kind == "text" else token.word for token in tokens)


def token_term(token):
    kinds = {"name": "Name", "number": "Number", "text": "Text"}
    kind = "End" if token.kind == "end" else f"({kinds.get(token.kind, 'Word' if token.word in KEYWORDS else 'Mark')} {codes(token.word)})"
    lines = f"on {token.line}" if token.line == token.last else f"across {token.line} {token.last}"
    return f"{lines} {kind} {token.start} {token.end}"


def tokens_term(tokens):
    lines, line = [], ""
    for token in tokens:
        said = token_term(token) + " ∷"
        if line and len(line) + 1 + len(said) > WIDTH:
            lines.append(line)
            line = ""
        line += " " * bool(line) + said
    return lines + [line + " []"]


def heading(text):
    return ["-- " + line for line in text.split("\n")] if text else ["-- the empty text"]


class Example:
    """A chunk with its tokens, its plain tree and the proof, in parts that have names."""

    def __init__(self, name, text):
        parser = Parser(text)
        self.name, self.text, self.tree = name, text, tree_of(parser.chunk())
        self.tokens = parser.tokens
        self.proof = Derivation(self.tokens).chunk(self.tree)
        give_names(self.proof)
        self.parts = named_nodes(self.proof)
        for number, part in enumerate(self.parts):
            part.name = number + 1
        self.terms = Terms({id(part.tree): f"{name}_{part.name}" for part in self.parts})

    def said(self, part):
        return "-- " + spelled(self.tokens[part.start:part.end])

    def definitions(self):
        lines = heading(self.text) + [f"abbrev pub {self.name}_tokens : List Token", f"{self.name}_tokens ="]
        lines += ["    " + line for line in tokens_term(self.tokens)] + [""]
        for part in self.parts:
            name, kind = f"{self.name}_{part.name}", "Stat" if part.said.startswith("SpellsStat") else "Exp"
            term = self.terms.whole_stat(part.tree) if kind == "Stat" else self.terms.whole_exp(part.tree)
            lines += [self.said(part), f"abbrev pub {name} : {kind}", f"{name} = {term[1:-1]}", ""]
        tree = self.terms.block(self.tree)
        return "\n".join(lines + [f"abbrev pub {self.name}_tree : Block", f"{self.name}_tree = {tree[1:-1] if tree[0] == '(' else tree}", ""])

    def proofs(self):
        lines = heading(self.text) + [f"pub {self.name} : IsChunk {self.name}_tokens {self.name}_tree", UNFOLDING, f"{self.name} k = {self.proof.flat()}"]
        given = f"(given_tokens {self.name}_tokens {len(self.tokens)} k)"
        for number, part in enumerate(self.parts):
            lines += ["" if number else "  where"] + ["    " + self.said(part)]
            lines.append(f"    stands_{part.name} : " + part.said.format(given, f"{self.name}_{part.name}", part.start, part.end))
            lines.append(f"    stands_{part.name} = {part.parts[0].flat()}")
        return "\n".join(lines + [""])


UNFOLDING = "unfolding IsChunk SpellsChunk Spells SpellsPath mark_class word_class tok_at read_numeral_of numeral_of decimal_of"

SPECS_USE = """
Rattle.std.specs.Prelude ℕ true false List [] ◌∷◌ pos codes
Rattle.lua_lexer.specs.declared.token.Token Token
Rattle.lua_lexer.specs.declared.token.TokenKind TokenKind
Rattle.lua_lexer.specs.declared.token.TokenKind.TheVariants Name Word Mark Number Text End
Rattle.lua_syntax.specs.declared.BinaryOp.TheVariants Or~as~OrOp And~as~AndOp Lt Gt Le Ge Ne Eq Concat Add Sub Mul Div Mod Pow
Rattle.lua_syntax.specs.declared.UnaryOp.TheVariants Not~as~NotOp Len Minus~as~MinusOp
Rattle.lua_grammar.specs.Grammar IsChunk
Rattle.lua_syntax.specs.Tree Exp Block Stat NilE TrueE FalseE NumberE TextE DotsE FunctionE NameE IndexE CallE MethodE TableE BinaryE \
UnaryE ParenE NoExp MoreExp NoField Item Pair Lambda NoStat MoreStat NoArm Arm AssignS CallS DoS WhileS RepeatS IfS IfElseS CountS \
CountByS EachS LocalFunctionS LocalS ReturnS BreakS
"""

SPECS = """
-- A token with its places, on one line or across two.
abbrev pub on : ℕ → TokenKind → ℕ → ℕ → Token
on line kind start end = record { kind = kind; start = start; end = end; line = line; end_line = line }

abbrev pub across : ℕ → ℕ → TokenKind → ℕ → ℕ → Token
across line last kind start end = record { kind = kind; start = start; end = end; line = line; end_line = last }
"""

PROOFS_USE = """
Rattle.std.proofs.Common true false inl inr refl lit≤
Rattle.lua_number.specs.Numerals read_numeral_of numeral_of decimal_of
Rattle.lua_grammar.specs.Tokens mark_class word_class tok_at
Rattle.lua_grammar.specs.Grammar IsChunk SpellsChunk Spells SpellsPath SpellsStat given_tokens outside under in_loop in_function
Rattle.lua_grammar.proofs.Pieces here word text number ended goes_on allowed comma semicolon last not_last
"""

BY = "`bench/lua_derivations.py` writes this file."


def imports(lines, text):
    """The `use` lines, each with those of its names that the text has beside its comments."""
    found, text = [], re.sub(r"(?m)^ *--.*", "", text)
    for line in lines.strip().split("\n"):
        module, *names = line.split()
        names = [name.replace("~", " ") for name in names]
        names = [name for name in names if re.search(r"(?<![\w'])" + re.escape(name.split()[-1].strip("◌")) + r"(?![\w'])", text)]
        found += [f"use {module}.{{{', '.join(names)}}}"] * bool(names)
    return "\n".join(found)


def put(folder, path, head, uses, text):
    with open(os.path.join(folder, path), "w") as file:
        file.write(f"{head} {BY}\n{imports(uses, text)}\n{text}")


def write(folder, groups):
    specs = [SPECS]
    for group, about, chunks in groups:
        examples, one = [Example(name, text) for name, text in chunks], group[:-1]
        specs.append(f"-- {group.upper()}: {about}\n")
        specs += [example.definitions() for example in examples]
        statement = "\n    × ".join(f"IsChunk {name}_tokens {name}_tree" for name, _ in chunks)
        specs.append(f"abbrev pub {one}Chunks : Type 0\n{one}Chunks = {statement}\n")
        cited = [f"{one}Chunks"] + [f"{name}_{kind}" for name, _ in chunks for kind in ("tokens", "tree")]
        cited += [f"{example.name}_{part.name}" for example in examples for part in example.parts]
        every = f"pub {one.lower()}_chunks : {one}Chunks\n{one.lower()}_chunks = ({', '.join(name for name, _ in chunks)})\n"
        uses = PROOFS_USE + "Rattle.lua_grammar.specs.Examples " + " ".join(cited)
        put(folder, f"proofs/Example{group}.antt", f"-- Worked examples: {about}. A number is the place where a piece ends.", uses, "\n".join([""] + [example.proofs() for example in examples] + [every]))
    put(folder, "specs/Examples.antt", "-- WORKED EXAMPLES: chunks with their tokens and their plain trees, in parts.", SPECS_USE, "\n".join(specs))


def main():
    sys.setrecursionlimit(20000)
    if len(sys.argv) < 2:
        example = Example("chunk", sys.stdin.buffer.read().decode("latin-1"))
        print(example.definitions() + "\n" + example.proofs())
    elif sys.argv[1] == "--write":
        from grammar_chunks import GROUPS
        write(os.path.join(os.path.dirname(os.path.abspath(__file__)), "../crates/lua_grammar"), GROUPS)
    else:
        sys.exit(__doc__)


if __name__ == "__main__":
    main()
