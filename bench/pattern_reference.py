#!/usr/bin/env python3
"""Patterns of Lua by the rules of docs/RULES.md, in a form that only has to be plain: what a pattern is read as, its first match
from a place on, and how many tries that takes. It knows nothing of the crate `lua_pattern`.

  pattern_reference.py check FILE        tells each row of a search, in the table FILE of `text_cases`, that has another answer
  pattern_reference.py KIND PATTERN SUBJECT [PLACE]

KIND is `bytes`, `points`, or `plain ^`, which is bytes with a first `^` as a plain character. The rows are written by hand; the row
of the kind `small patterns` is a comparison that the program makes by itself, and must tell of no difference.
"""
import functools
import os
import re
import string
import sys
import unicodedata

BUDGET = 10_000_000
MOST_CAPTURES = 32
ASCII = {
    "a": string.ascii_letters, "d": string.digits, "l": string.ascii_lowercase, "p": string.punctuation,
    "s": " \t\n\v\f\r", "u": string.ascii_uppercase, "w": string.ascii_letters + string.digits, "x": string.hexdigits,
    "z": "\0", "c": "".join(map(chr, [*range(32), 127])),
}
CATEGORIES = {"a": ("L",), "c": ("Cc",), "d": ("Nd",), "l": ("Ll",), "p": ("P",), "s": ("Z",), "u": ("Lu",), "w": ("L", "Nd")}


class Fault(Exception):
    pass


def symbols(text, points):
    """The codes of a text's symbols with the places where they begin, and the place of the end."""
    if not points:
        return list(text), list(range(len(text) + 1))
    starts = [at for at, byte in enumerate(text) if at == 0 or byte & 0xC0 != 0x80] + [len(text)]
    codes = [ord(text[at:end].decode("utf-8", "replace")[0]) for at, end in zip(starts, starts[1:])]
    return codes, starts


def has_class(letter, code, points):
    small = letter.lower()
    if points and small in CATEGORIES:
        held = unicodedata.category(chr(code)).startswith(CATEGORIES[small]) or (small == "s" and 9 <= code <= 13)
    else:
        held = code < 128 and chr(code) in ASCII[small]
    return held != letter.isupper()


class Reader:
    """Items, read from left to right: functions of a search, which go on with the items behind."""

    def __init__(self, codes, points, anchors):
        self.codes, self.points, self.at = codes, points, 0
        self.anchored = anchors and codes[:1] == [ord("^")]
        self.at += self.anchored
        self.open, self.captures, self.items, self.refers = [], [], [], False
        marks = 0
        while self.at < len(codes):
            marks = self.item(marks)
        if self.open:
            raise Fault(4)

    def now(self, ahead=0):
        """The character that stands here, as a text; the empty one behind the end."""
        at = self.at + ahead
        return chr(self.codes[at]) if at < len(self.codes) else ""

    def item(self, marks):
        here, behind = self.now(), self.now(1)
        if here == "(":
            if len(self.captures) == MOST_CAPTURES:
                raise Fault(6)
            place = behind == ")"
            self.captures.append(("place", marks) if place else ("open", marks))
            if not place:
                self.open.append(len(self.captures) - 1)
            self.items.append(("mark",))
            self.at += 1 + place
            return marks + 1
        if here == ")":
            if not self.open:
                raise Fault(5)
            closed = self.open.pop()
            self.captures[closed] = ("text", self.captures[closed][1], marks)
            self.items.append(("mark",))
            self.at += 1
            return marks + 1
        if here == "$" and self.at + 1 == len(self.codes):
            self.items.append(("end",))
            self.at += 1
        elif here == "%" and behind == "b":
            if self.at + 3 >= len(self.codes):
                raise Fault(8)
            self.items.append(("balance", self.codes[self.at + 2], self.codes[self.at + 3]))
            self.at += 4
        elif here == "%" and behind == "f":
            self.at += 2
            if self.now() != "[":
                raise Fault(3)
            self.items.append(("frontier", self.set()))
        elif here == "%" and behind in list("123456789"):
            number = int(behind)
            if number > len(self.captures) or self.captures[number - 1][0] != "text":
                raise Fault(7)
            self.items.append(("back", *self.captures[number - 1][1:]))
            self.refers = True
            self.at += 2
        else:
            fits = self.single()
            repeat = self.now() if self.now() in list("*+-?") else ""
            self.at += len(repeat)
            self.items.append(("single", fits, repeat))
        return marks

    def escaped(self, fault):
        """What stands behind a `%`: a class or a character."""
        if self.at >= len(self.codes):
            raise Fault(fault)
        letter, code, points = self.now(), self.codes[self.at], self.points
        self.at += 1
        if letter.lower() in ASCII and letter.isascii():
            return lambda c: has_class(letter, c, points)
        return lambda c: c == code

    def single(self):
        here = self.now()
        if here == "[":
            return self.set()
        code = self.codes[self.at]
        self.at += 1
        if here == "%":
            return self.escaped(1)
        return (lambda c: True) if here == "." else (lambda c: c == code)

    def set(self):
        self.at += 1
        but = self.now() == "^"
        self.at += but
        parts, first = [], True
        while first or self.now() != "]":
            if self.at >= len(self.codes):
                raise Fault(2)
            parts.append(self.part())
            first = False
        self.at += 1
        return lambda c: any(part(c) for part in parts) != but

    def part(self):
        least = self.codes[self.at]
        self.at += 1
        if least == ord("%"):
            return self.escaped(2)
        if self.now() == "-" and self.now(1) not in ("", "]", "%"):
            most = self.codes[self.at + 1]
            self.at += 2
            return lambda c: least <= c <= most
        return lambda c: c == least


class Search:
    """The first way through the items from a place on, as tries, end, and the places of the marks; without back references it hangs
    on item and place alone."""

    def __init__(self, reader, subject):
        self.items, self.subject = reader.items, subject
        self.codes, self.starts = symbols(subject, reader.points)
        self.way = self.ways if reader.refers else functools.lru_cache(None)(self.ways)

    def behind(self, item, at, marks):
        """The way of the items behind, which see the marks so far only where there are back references."""
        return self.way(item, at, marks if self.way == self.ways else ())

    def ways(self, item, at, marks):
        if item == len(self.items):
            return 0, at, ()
        kind, *what = self.items[item]
        return getattr(self, kind)(item, at, marks, *what)

    def after(self, tries, item, at, marks):
        more, end, later = self.behind(item + 1, at, marks)
        return tries + more, end, later

    def mark(self, item, at, marks):
        place = self.starts[at]
        tries, end, later = self.after(1, item, at, marks + (place,))
        return tries, end, (place,) + later

    def end(self, item, at, marks):
        return self.after(1, item, at, marks) if at == len(self.codes) else (1, None, ())

    def frontier(self, item, at, marks, fits):
        before = self.codes[at - 1] if at > 0 else 0
        here = self.codes[at] if at < len(self.codes) else 0
        return self.after(1, item, at, marks) if fits(here) and not fits(before) else (1, None, ())

    def balance(self, item, at, marks, opening, closing):
        depth, place = 0, at
        while place < len(self.codes):
            code, place = self.codes[place], place + 1
            if place - at == 1:
                if code != opening:
                    return 1, None, ()
                depth = 1
            elif code == closing:
                depth -= 1
            elif code == opening:
                depth += 1
            if depth == 0:
                return self.after(place - at, item, place, marks)
        return place - at, None, ()

    def back(self, item, at, marks, first, last):
        text, place, tries = self.subject[marks[first]:marks[last]], self.starts[at], 0
        for byte in text:
            if place == len(self.subject):
                return tries, None, ()
            tries += 1
            if self.subject[place] != byte:
                return tries, None, ()
            place += 1
        return self.after(tries, item, self.starts.index(place), marks)

    def single(self, item, at, marks, fits, repeat):
        if repeat == "-":
            return self.fewest(item, at, marks, fits)
        place, tries, most = at, 0, 1 if repeat in ("", "?") else len(self.codes)
        while place < len(self.codes) and place - at < most:
            tries += 1
            if not fits(self.codes[place]):
                break
            place += 1
        least = at + (repeat in ("", "+"))
        while place >= least:
            tries, end, later = self.after(tries, item, place, marks)
            if end is not None:
                return tries, end, later
            place -= 1
        return tries, None, ()

    def fewest(self, item, at, marks, fits):
        tries = 0
        while True:
            tries, end, later = self.after(tries, item, at, marks)
            if end is not None or at == len(self.codes):
                return tries, end, later
            tries += 1
            if not fits(self.codes[at]):
                return tries, None, ()
            at += 1


def answer(kind, pattern, subject, place=0, budget=BUDGET):
    """What a row of a search says."""
    points = kind == "points"
    try:
        reader = Reader(symbols(pattern, points)[0], points, kind != "plain ^")
    except Fault as fault:
        return f"fault {fault}"
    search = Search(reader, subject)
    if place > len(subject):
        return "no such place"
    tries = int(reader.anchored)
    for at, start in enumerate(search.starts):
        if start < place:
            continue
        more, end, marks = search.way(0, at, ())
        tries += more
        if tries > budget:
            return "spent"
        if end is not None:
            found = [f"@{marks[it[1]]}" if it[0] == "place" else f"{marks[it[1]]}-{marks[it[2]]}" for it in reader.captures]
            return " ".join([str(start), str(search.starts[end]), *found]) + f", {tries} tries"
        if reader.anchored:
            break
    return f"none, {tries} tries"


def unescaped(text):
    return re.sub(rb"\\x([0-9a-f]{2})", lambda it: bytes([int(it.group(1), 16)]), text)


def wanted(case, told):
    """What a row says, if it is one of a search or of the comparison."""
    kind, *words = case.split(b"\t")
    if kind == b"small patterns":
        return told if told.endswith(" 0 differ") else "no difference"
    if kind != b"pattern" or words[0] not in (b"bytes", b"points", b"plain ^"):
        return None
    alphabet, place, pattern, subject, *budget = words
    return answer(alphabet.decode(), unescaped(pattern), unescaped(subject), int(place), int(budget[0]) if budget else BUDGET)


def check(path):
    searches = wrong = 0
    with open(path, "rb") as file:
        rows = [it.split(b"\t=> ") for it in file.read().split(b"\n") if it.startswith((b"pattern\t", b"small patterns\t"))]
    for case, told in rows:
        told = told.decode()
        answered = wanted(case, told)
        searches += answered is not None
        if answered not in (None, told):
            wrong += 1
            print(f"{case[:100]!r}: {told}, should be {answered}")
    print(f"{path}: {searches} searches, {wrong} with another answer")
    return bool(wrong)


def main():
    words = sys.argv[1:]
    if words[:1] == ["check"]:
        return check(words[1])
    kind, pattern, subject, *place = words
    print(answer(kind, os.fsencode(pattern), os.fsencode(subject), int(place[0]) if place else 0))
    return 0


if __name__ == "__main__":
    sys.setrecursionlimit(10_000)
    sys.exit(main())
