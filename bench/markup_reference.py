#!/usr/bin/env python3
"""What is shown of a page and how its braces pair, by the rules of docs/RULES.md, in a form that only has to be plain.

It knows nothing of the crate `wiki_markup`: the list of items is rewritten, leftmost closing run first. The rows of `text_cases`
on that crate take their expected values from here.

  markup_reference.py table FILE   for each line `MODE text` of FILE, in which escapes are read: the row `markup` with its trees
  markup_reference.py check FILE   tells each row `markup` with the trees of a text that are others, with these
  markup_reference.py sums FILE    tells each row `markup` with a sum that is another, with that (some minutes)
"""
import re
import sys

from row_tables import row, rows, unescaped

WHITE = rb"[ \t-\r]*"


def tag(form, names):
    begin, end = {"open": (b"<", b">"), "close": (b"</", b">"), "self": (b"<", b"/>")}[form]
    return re.compile(begin + b"(" + names + b")" + WHITE + end, re.IGNORECASE)


def rest_of(text, at, name):
    """behind the next closing tag of a name, or the end"""
    found = tag("close", name).search(text, at)
    return found.end() if found else len(text)


def comment(text, at):
    if not text.startswith(b"<!--", at):
        return None
    end = text.find(b"-->", at + 4)
    return len(text) if end < 0 else end + 3


def blank(text, at):
    while at < len(text) and text[at] in b" \t":
        at += 1
    return at


def comment_line(text, at):
    """a line of comments alone, behind a newline"""
    at = comment(text, blank(text, at))
    while at is not None:
        at = blank(text, at)
        if text[at:at + 1] == b"\n":
            return at + 1
        at = comment(text, at)
    return None


LITERAL = re.compile(rb"<(nowiki|pre)(?:/>|(?=[ \t-\r>])([^>]*)>)", re.IGNORECASE)


def literal(text, at):
    found = LITERAL.match(text, at)
    if not found:
        return None
    if found.group(2) is None or found.group(2).endswith(b"/"):
        return "kept", found.end()
    closed = tag("close", found.group(1)).search(text, found.end())
    return ("kept", closed.end()) if closed else ("plain", found.end())


def included(text, at, mode, part):
    """where an include rule applies: the place behind what it removes"""
    found = tag("self", b"noinclude|includeonly|onlyinclude").match(text, at)
    if found:
        return found.end()
    whole, alone = (b"includeonly", b"noinclude|onlyinclude") if mode == "D" else (
        b"noinclude", b"includeonly" if part else b"includeonly|onlyinclude")
    found = tag("open", whole).match(text, at)
    if found:
        return rest_of(text, found.end(), whole)
    for form in ("open", "close"):
        found = tag(form, alone).match(text, at)
        if found:
            return found.end()
    return None


def pieces(text, mode, part):
    at = 0
    while at < len(text):
        end = comment_line(text, at) if at > 0 and text[at - 1:at] == b"\n" else None
        if end is None:
            end = comment(text, at)
        if end is not None:
            yield "cut", b""
            at = end
            continue
        found = literal(text, at)
        if found:
            yield found[0], text[at:found[1]]
            at = found[1]
            continue
        end = included(text, at, mode, part)
        if end is not None:
            yield "cut", b""
            at = end
            continue
        yield "plain", text[at:at + 1]
        at += 1


def all_pieces(text, mode):
    opened, closed = tag("open", b"onlyinclude"), tag("close", b"onlyinclude")
    if mode == "D" or not opened.search(text) or not closed.search(text):
        yield from pieces(text, mode, False)
        return
    at = 0
    while True:
        yield "cut", b""
        begin = opened.search(text, at)
        if not begin:
            return
        end = closed.search(text, begin.end())
        yield from pieces(text[begin.end():end.start() if end else len(text)], mode, True)
        if not end:
            return
        at = end.end()


def shown(text, mode):
    out, kept, cuts = bytearray(), [], []
    for kind, piece in all_pieces(text, mode):
        if kind == "cut":
            cuts.append(len(out))
        if kind == "kept":
            kept.append((len(out), len(out) + len(piece)))
        out += piece
    return bytes(out), kept, cuts


def items_of(data, kept, cuts):
    barriers = set(cuts) | {p for span in kept for p in span}
    items, at = [], 0
    while at < len(data):
        b = chr(data[at])
        if any(s <= at < e for s, e in kept):
            items.append(("text", data[at:at + 1]))
            at += 1
        elif b in "{}[]":
            end = at + 1
            while end < len(data) and chr(data[end]) == b and end not in barriers:
                end += 1
            items.append((b, end - at))
            at = end
        elif b in "|=":
            items.append((b, 1))
            at += 1
        else:
            items.append(("text", data[at:at + 1]))
            at += 1
    return items


def rewrite(items):
    """the list with its leftmost closing run rewritten, or None"""
    for at, item in enumerate(items):
        if item[0] in ("}", "]"):
            kind, count = item
            break
    else:
        return None
    opening = {"}": "{", "]": "["}[kind]
    for open_at in range(at - 1, -1, -1):
        if items[open_at][0] in ("{", "[") and items[open_at][1] >= 2:
            break
    else:
        open_at = None
    if open_at is not None and items[open_at][0] == opening:
        opened = items[open_at][1]
        k = min(3 if kind == "}" else 2, opened, count)
        if k >= 2:
            node = ("node", {("}", 2): "C", ("}", 3): "P", ("]", 2): "B"}[kind, k], items[open_at + 1:at])
            left = [] if opened == k else [("text", opening.encode())] if opened == k + 1 else [(opening, opened - k)]
            right = [(kind, count - k)] if count > k else []
            return items[:open_at] + left + [node] + right + items[at + 1:]
    return items[:at] + [("text", kind.encode() * count)] + items[at + 1:]


def settle(items):
    while True:
        after = rewrite(items)
        if after is None:
            return items
        items = after


def trees(items, splits):
    """parts, each a list of trees: a text, '~' for an `=` that splits, or (kind, parts)"""
    parts, equals = [[]], False

    def text(piece):
        if parts[-1] and isinstance(parts[-1][-1], bytes):
            parts[-1][-1] += piece
        else:
            parts[-1].append(piece)

    for item in items:
        if item[0] == "text":
            text(item[1])
        elif item[0] == "node" and item[1] == "B":
            text(b"[[")
            for tree in trees(item[2], False)[0]:
                text(tree) if isinstance(tree, bytes) else parts[-1].append(tree)
            text(b"]]")
        elif item[0] == "node":
            parts[-1].append((item[1], trees(item[2], True)))
        elif item[0] == "|" and splits:
            parts.append([])
            equals = False
        elif item[0] == "=" and splits and len(parts) > 1 and not equals:
            parts[-1].append("~")
            equals = True
        else:
            text(item[0].encode() * item[1])
    return parts


def form(tree):
    """texts in quotes, constructs as C(part;part;), parameters as P(part;part;), the `=` that splits as ~"""
    if isinstance(tree, bytes):
        return b"'" + tree + b"'"
    if tree == "~":
        return b"~"
    return tree[0].encode() + b"(" + b"".join(b"".join(map(form, part)) + b";" for part in tree[1]) + b")"


def marked(data, kept, cuts):
    return b"".join(map(form, trees(settle(items_of(data, kept, cuts)), False)[0]))


MASK = (1 << 64) - 1


def mixed(sum_so_far, numbers):
    """FNV-1a over some numbers and an end"""
    for n in numbers:
        sum_so_far = ((sum_so_far ^ n) * 1099511628211) & MASK
    return ((sum_so_far ^ 256) * 1099511628211) & MASK


def texts(items, most):
    for count in range(most + 1):
        for n in range(len(items) ** count):
            text = b""
            for _ in range(count):
                text += items[n % len(items)]
                n //= len(items)
            yield text


def trees_of(mode, text):
    """the trees of a text, as a row has them"""
    return marked(*shown(unescaped(text).encode("latin-1"), mode)).decode("latin-1")


def pairing_sum(items, most):
    """one number for the pairings of all texts of up to so many items"""
    total = 14695981039346656037
    for text in texts(items, most):
        total = mixed(total, marked(text, [], []))
    return total


def shown_sum(items, most):
    """one number for what is shown of all texts of up to so many pieces"""
    total = 14695981039346656037
    for text in texts(items, most):
        for mode in "DT":
            data, kept, cuts = shown(text, mode)
            for numbers in (data, [place for span in kept for place in span], cuts):
                total = mixed(total, numbers)
    return total


def sum_of(name, text):
    """the sum of a row: a number and pieces, with tabs between"""
    most, *items = text.split("\t")
    sums = {"pairings": pairing_sum, "shown": shown_sum}
    return str(sums[name]([unescaped(item).encode("latin-1") for item in items], int(most)))


def check(file, computed, names):
    """tells each row `markup` with one of these names that comes to something else; whether there is one, or none at all"""
    wrong, count = [], 0
    for kind, text, expected in rows(file, "markup"):
        name, _, tried = text.partition("\t")
        if name in names:
            count += 1
            given = computed(name, tried)
            if given != expected:
                wrong.append(row(kind, text, given))
    print(*wrong, f"{count} rows, {len(wrong)} come to something else", sep="\n")
    return bool(wrong) or not count


if __name__ == "__main__":
    command, path = sys.argv[1:]
    if command == "table":
        with open(path, encoding="utf-8") as lines:
            for line in lines.read().splitlines():
                mode, _, text = line.partition(" ")
                print(row("markup", f"{mode}\t{text}", trees_of(mode, text)))
    elif command == "check":
        sys.exit(check(path, trees_of, ["D", "T"]))
    elif command == "sums":
        sys.exit(check(path, sum_of, ["pairings", "shown"]))
