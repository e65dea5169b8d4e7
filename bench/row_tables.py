"""The tables in the standard input of `text_cases`, which the scripts that work out rows read and write.

A table is a heading, `# NAME: where its rows come from`, then its rows up to an empty line. A row is a kind, a text and what it comes to,
`KIND<tab>TEXT<tab>=> EXPECTED`. Texts are strs of characters up to 255, one for each byte; in a row any of them is written by the escapes
of `case_text`.
"""
import os
import re

HERE = os.path.dirname(os.path.abspath(__file__))
FOLDER = os.path.join(HERE, "../crates/text_cases")
PLAIN = {"\\": "\\\\", "\n": "\\n", "\r": "\\r", "\t": "\\t"}
LETTERS = {"n": "\n", "r": "\r", "t": "\t"}


def escaped(text):
    return "".join(PLAIN.get(c) or (c if " " <= c <= "~" else f"\\x{ord(c):02x}") for c in text)


def unescaped(text):
    def meaning(found):
        if found.group(1):
            return chr(int(found.group(1), 16))
        if found.group(2):
            return int(found.group(2)) * found.group(3)
        return LETTERS.get(found.group(4), found.group(4))
    return re.sub(r"\\(?:x(..)|\((\d+):([^)]*)\)|(.))", meaning, text, flags=re.S)


def row(kind, text, expected):
    """A row, whose text is escaped already."""
    return f"{kind}\t{text}\t=> {escaped(expected)}"


def rows(file, *kinds):
    """The rows of some kinds: the kind, the text as it stands, and what it comes to."""
    with open(file, encoding="utf-8") as lines:
        for line in lines.read().split("\n"):
            kind, _, rest = line.partition("\t")
            if kind in kinds:
                text, _, expected = rest.partition("\t=> ")
                yield kind, text, unescaped(expected)


def replace(name, rows, folder=FOLDER):
    """Puts rows in place of those of a table, and writes anew how many rows are right when all are."""
    path = os.path.join(folder, "stdin")
    with open(path, encoding="utf-8") as file:
        text = file.read()
    heading = re.search(rf"^# {re.escape(name)}: .*\n", text, re.M)
    end = text.find("\n\n", heading.end() - 1)
    behind = text[end + 1:] if end >= 0 else ""
    with open(path, "w", encoding="utf-8") as file:
        file.write(text[:heading.end()] + "".join(line + "\n" for line in rows) + behind)
    count_rows(folder)


def count_rows(folder=FOLDER):
    with open(os.path.join(folder, "stdin"), encoding="utf-8") as file:
        count = sum(1 for line in file if line.strip("\n") and not line.startswith("#"))
    with open(os.path.join(folder, "stdout"), "w", encoding="utf-8") as file:
        file.write(f"{count} rows are right\n")
