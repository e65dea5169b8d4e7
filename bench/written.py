"""What the scripts that make one file of a crate, or rows of `text_cases`, have in common: where they stand, and that they are printed
or written."""
import os
import sys

TOP = os.path.dirname(os.path.dirname(os.path.abspath(__file__)))
ROWS = "crates/text_cases/stdin"


def give(path, text):
    """Prints a text, or with --write puts it into the file of that path below the top."""
    if sys.argv[1:] == ["--write"]:
        with open(os.path.join(TOP, path), "w", encoding="utf-8") as file:
            file.write(text)
    else:
        print(text, end="")


def escaped(text):
    """A text as a word of a row: its escapes are those of `case_text`."""
    return "".join({"\\": "\\\\", "\n": "\\n", "\r": "\\r", "\t": "\\t"}.get(it, it) for it in text)


def with_rows(text, heading, rows):
    """The table with these rows under a heading, in place of those that stand there."""
    lines = text.split("\n")
    first = lines.index(heading) + 1
    last = first
    while lines[last] and not lines[last].startswith("#"):
        last += 1
    return "\n".join([*lines[:first], *rows, *lines[last:]])


def give_rows(heading, rows):
    """Prints rows of `text_cases`, or with --write puts them under their heading."""
    if sys.argv[1:] == ["--write"]:
        with open(os.path.join(TOP, ROWS), encoding="utf-8") as file:
            table = file.read()
        give(ROWS, with_rows(table, heading, rows))
    else:
        print("\n".join(rows))
