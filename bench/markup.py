#!/usr/bin/env python3
"""Times what is shown of hostile pages, and their pairing, at 128 KiB and at 2 MiB.

  bench/markup.py crates/text_cases/out/text_cases

For each page: the seconds of processor time at 2 MiB, and how much longer a byte takes there than at 128 KiB. Of each the best
of some rounds counts, so that other work on the machine disturbs little. A page is a row of `text_cases`; what the program takes
to start and to read the row is timed on a row that asks for the page's length alone, and taken off.
"""
import sys

from row_tables import escaped
from timing import best

SMALL, LARGE, ROUNDS, SMALL_ROUNDS = 1 << 17, 1 << 21, 7, 40
PAGES = ["{", "{{", "}}", "}", "[[{{", "{{}}", "{{{{a}}", "{{a|b=c}}", "<!--", "<!-- -->", "\n<!-- --> ", "\n ",
         "<nowiki>", "<nowiki></nowiki>", "<nowiki ", "<pre a", "<", "<noinclude ", "<noinclude>", "<includeonly>",
         "</onlyinclude>", "<onlyinclude>", "|", "a"]


def row(name, piece, size):
    """A row on so many bytes of a piece, as one escape where that can hold it. It says nothing of what it comes to, so it is printed."""
    copies, rest = divmod(size, len(piece))
    text = escaped(piece * copies) if "\n" in piece else f"\\({copies}:{piece})"
    return f"markup\t{name}\t{text}{escaped(piece[:rest])}\t=> \n".encode()


def seconds(program, rounds, piece, size):
    whole = best(rounds, [program], row("counts", piece, size)).processor
    return whole - best(rounds, [program], row("length", piece, size)).processor


def main():
    program = sys.argv[1]
    print(f"{'page':20} {'2 MiB':>8} {'per byte':>9}")
    for piece in PAGES:
        large = seconds(program, ROUNDS, piece, LARGE)
        small = seconds(program, SMALL_ROUNDS, piece, SMALL)
        print(f"{piece!r:20} {large:7.3f}s {large / small / (LARGE / SMALL):8.2f}x")


main()
