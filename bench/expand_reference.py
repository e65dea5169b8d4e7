#!/usr/bin/env python3
"""What a page of a folder without modules becomes, by the rules of docs/RULES.md, in a form that only has to be plain.

It knows nothing of the crates: titles, arguments and parser functions are written from the rules, and what is shown and how
braces pair is taken from `markup_reference.py`.

  expand_reference.py check FILE      runs the cases of a table and tells each whose output differs
  expand_reference.py page DIR PAGE   prints the text of a page of a folder

FILE is crates/page_cases/stdin, of which the table of pages without modules is taken (crates/page_cases/README.md tells the form), or a table of that
form by itself.
"""
import os
import re
import sys
import threading

from markup_reference import items_of, settle, shown, trees

WHITE = b" \t\n\v\f\r"
NAMESPACES = ["", "Talk", "User", "User talk", "Project", "Project talk", "File", "File talk", "MediaWiki", "MediaWiki talk",
              "Template", "Template talk", "Help", "Help talk", "Category", "Category talk", "Module", "Module talk"]
BY_PREFIX = {name.lower().encode(): name for name in NAMESPACES if name}
NODE_TEXT = b'<span class="error">Node limit exceeded</span>'
SIZE_TEXT = b'<span class="error">Include size exceeded</span>'
DEPTH_TEXT = b'<span class="error">Expansion depth limit exceeded</span>'


# ---- titles

def one_spaced(text):
    return re.sub(rb" +", b" ", text)


def title_of(text, default):
    """(namespace, name), or None"""
    text = text.replace(b"_", b" ").strip(WHITE)
    if text.startswith(b":"):
        text, default = text[1:].lstrip(WHITE), ""
    if b":" in text:
        before, behind = text.split(b":", 1)
        chosen = BY_PREFIX.get(one_spaced(before.strip(WHITE)).lower())
        if chosen is not None:
            text, default = behind, chosen
    name = one_spaced(text).strip(WHITE)
    try:
        name.decode("utf-8")
    except UnicodeDecodeError:
        return None
    if not name or name.startswith(b":") or re.search(rb"[#<>\[\]|{}\x00-\x1f\x7f]", name) or len(name) > 255:
        return None
    return default, name[:1].upper() + name[1:] if b"a" <= name[:1] <= b"z" else name


def title_text(title):
    return (title[0].encode() + b":" if title[0] else b"") + title[1]


# ---- allowances

class Left:
    def __init__(self, nodes=1000000, size=2097152):
        self.nodes, self.size, self.depth, self.templates = nodes, size, 100, 40

    def take_node(self):
        self.nodes, covered = max(self.nodes - 1, 0), self.nodes >= 1
        return covered

    def take_bytes(self, count):
        covered = count <= self.size
        self.size = self.size - count if covered else 0
        return covered


# ---- expansion

class Frame:
    def __init__(self, args, chain):
        self.args, self.chain = args, chain


def is_number(text):
    return re.fullmatch(rb"[+-]?[0-9]{1,18}", text) is not None


def equal(x, y):
    return x == y or (is_number(x) and is_number(y) and int(x) == int(y))


class Wiki:
    """pages by title, and what is left for the page that is expanded"""

    def __init__(self, files, page, left):
        self.page, self.left, self.raw, self.read = page, left, {}, {}
        for name, text in files.items():
            self.raw[title_of(name, "")] = text

    def tree_of(self, title, mode):
        if (title, mode) not in self.read:
            data, kept, cuts = shown(self.raw[title], mode)
            self.read[title, mode] = trees(settle(items_of(data, kept, cuts)), False)[0]
        return self.read[title, mode]

    def text(self):
        if self.page not in self.raw:
            raise KeyError(self.page)
        return self.expand(self.tree_of(self.page, "D"), Frame({}, []))

    def expand(self, tree, frame):
        """the text of some trees; an `=` that splits a part is written as it is"""
        out = []
        for node in tree:
            if isinstance(node, bytes):
                out.append(node)
            elif node == "~":
                out.append(b"=")
            else:
                out.append(self.opened(node, frame))
        return b"".join(out)

    def opened(self, node, frame):
        if not self.left.take_node():
            return NODE_TEXT
        if self.left.depth == 0:
            result = DEPTH_TEXT
        else:
            self.left.depth -= 1
            result = self.parameter(node[1], frame) if node[0] == "P" else self.construct(node[1], frame)
            self.left.depth += 1
        return result if self.left.take_bytes(len(result)) else SIZE_TEXT

    def trimmed(self, tree, frame):
        return self.expand(tree, frame).strip(WHITE)

    def parameter(self, parts, frame):
        name = self.expand(parts[0], frame)
        if name.strip(WHITE) in frame.args:
            return frame.args[name.strip(WHITE)]
        if len(parts) > 1:
            return self.expand(parts[1], frame)
        return b"{{{" + name + b"}}}"

    def as_written(self, first, parts, frame):
        return b"{{" + b"|".join([first] + [self.expand(part, frame) for part in parts]) + b"}}"

    def construct(self, parts, frame):
        first, parts = self.expand(parts[0], frame), parts[1:]
        name = first.strip(WHITE)
        if name[:10].lower() == b"safesubst:":
            name = name[10:].strip(WHITE)
        if name[:6].lower() == b"subst:":
            return self.as_written(first, parts, frame)
        if not parts and name in (b"!", b"=", b"PAGENAME", b"FULLPAGENAME", b"NAMESPACE"):
            return {b"!": b"|", b"=": b"=", b"PAGENAME": self.page[1], b"FULLPAGENAME": title_text(self.page),
                    b"NAMESPACE": self.page[0].encode()}[name]
        if b":" in name:
            function, rest = name.split(b":", 1)
            meant = {b"#if": self.if_, b"#ifeq": self.ifeq, b"#switch": self.switch, b"#invoke": self.invoke}.get(function.lower())
            if meant:
                return meant(rest.strip(WHITE), parts, frame)
        title = title_of(name, "Template")
        if title is None:
            return self.as_written(first, parts, frame)
        if title not in self.raw:
            return b"[[:" + title_text(title) + b"]]"
        if title in frame.chain:
            return b'<span class="error">Template loop detected: [[:' + title_text(title) + b"]]</span>"
        if self.left.templates == 0:
            return DEPTH_TEXT
        args = self.arguments(parts, frame)
        self.left.templates -= 1
        result = self.expand(self.tree_of(title, "T"), Frame(args, frame.chain + [title]))
        self.left.templates += 1
        return result

    def arguments(self, parts, frame):
        args, number = {}, 0
        for part in parts:
            if "~" in part:
                at = part.index("~")
                name = self.trimmed(part[:at], frame)
                args[name] = self.trimmed(part[at + 1:], frame)
            else:
                number += 1
                args[str(number).encode()] = self.expand(part, frame)
        return args

    def branch(self, parts, number, frame):
        return self.trimmed(parts[number], frame) if number < len(parts) else b""

    def if_(self, test, parts, frame):
        return self.branch(parts, 0 if test else 1, frame)

    def ifeq(self, x, parts, frame):
        y = self.trimmed(parts[0], frame) if parts else b""
        return self.branch(parts, 1 if equal(x, y) else 2, frame)

    def switch(self, x, parts, frame):
        met, default, waits = False, None, False
        for at, part in enumerate(parts):
            if "~" not in part:
                name = self.trimmed(part, frame)
                met = met or equal(x, name)
                waits = waits or name == b"#default"
                if at == len(parts) - 1 and not waits:
                    return name
                continue
            split = part.index("~")
            if met:
                return self.trimmed(part[split + 1:], frame)
            name = self.trimmed(part[:split], frame)
            if equal(x, name):
                return self.trimmed(part[split + 1:], frame)
            if waits or name == b"#default":
                default, waits = part[split + 1:], False
        return b"" if default is None else self.trimmed(default, frame)

    def invoke(self, module, parts, frame):
        """no module is held here"""
        if not parts:
            said = b"You must specify a function to call."
        else:
            self.trimmed(parts[0], frame)
            self.arguments(parts[1:], frame)
            said = b'No such module "' + module + b'".'
        said = said.replace(b"&", b"&amp;").replace(b"<", b"&lt;").replace(b">", b"&gt;")
        return b'<strong class="error">Script error: ' + said + b"</strong>"


# ---- tables of cases

def unescaped(text):
    r"""\n \t \r \\ and \xHH stand for one byte, \(N:TEXT) for TEXT N times"""
    one = {b"n": b"\n", b"t": b"\t", b"r": b"\r", b"\\": b"\\"}

    def byte(match):
        if match.group(2):
            return match.group(3) * int(match.group(2))
        return one.get(match.group(1)) or bytes([int(match.group(1)[1:], 16)])

    return re.sub(rb"\\(?:(n|t|r|\\|x[0-9a-f]{2})|\(([0-9]+):([^)]*)\))", byte, text)


def each_case(table):
    """for each case: its line's number, its words, its files, and what it leaves on both streams"""
    words, err, files = [b"expand", b"d", b"P"], b"", {}
    for number, line in enumerate(table.split(b"\n"), 1):
        if line.startswith(b">"):
            yield number, words, files, (unescaped(line[1:]), err)
            words, err = [b"expand", b"d", b"P"], b""
        elif line.startswith(b"!"):
            err = unescaped(line[1:])
        elif line.startswith(b"$"):
            words = line[1:].split(b" ")
        elif not line:
            files = {}
        elif not line.startswith(b"#"):
            name, text = line.split(b"|", 1)
            files[name] = unescaped(text)


def run_case(words, files):
    """What a case leaves on both streams: a page's text, and with `--stats` what it used. No page here takes a step."""
    nodes, size, values, words, stats = 1000000, 2097152, [], list(words), False
    while words:
        name, given, number = words.pop(0).partition(b"=")
        if name == b"--nodes":
            nodes = int(number if given else words.pop(0))
        elif name == b"--bytes":
            size = int(number if given else words.pop(0))
        elif name == b"--stats":
            stats = True
        else:
            values.append(name + given + number)
    page, left = title_of(values[2], ""), Left(nodes, size)
    text = Wiki(files, page, left).text()
    return text, b"%s steps 0 nodes %d bytes %d\n" % (title_text(page), nodes - left.nodes, size - left.size) if stats else b""


def table_in(path):
    """the first table of a file: it ends at a line that has it counted"""
    return open(path, "rb").read().split(b"\n:", 1)[0]


def check(path):
    count = wrong = 0
    for number, words, files, wanted in each_case(table_in(path)):
        count += 1
        got = run_case(words, files)
        if got != wanted:
            wrong += 1
            for one, other in zip(wanted, got):
                print(f"line {number}: wanted {one[:300]!r}\n{'':10}got    {other[:300]!r}")
    print(f"{count} cases, {wrong} differ")
    return wrong == 0


def page(folder, name):
    files = {}
    for file in os.listdir(folder):
        if file.endswith((".wiki", ".lua")):
            stem = re.sub(rb"%([0-9a-fA-F]{2})", lambda m: bytes([int(m.group(1), 16)]), file.rsplit(".", 1)[0].encode())
            files[stem] = open(os.path.join(folder, file), "rb").read()
    sys.stdout.buffer.write(Wiki(files, title_of(name.encode(), ""), Left()).text())
    return True


def main():
    done = check(sys.argv[2]) if sys.argv[1] == "check" else page(sys.argv[2], sys.argv[3])
    os._exit(0 if sys.stdout.flush() is None and done else 1)


if __name__ == "__main__":
    sys.setrecursionlimit(1000000)
    threading.stack_size(1 << 29)
    worker = threading.Thread(target=main)
    worker.start()
    worker.join()
