#!/usr/bin/env python3
"""Times searches with sets of very many parts against a search with a set of one part, on the same subject.

  bench/attack_patterns.py crates/text_cases/out/text_cases

Each search looks for a run of the set up to the end of a subject that has none, so it makes twice as many tries as the
subject has symbols, and one more. Seconds of processor time of the search alone: those of a run that reads the pattern and
looks into an empty subject are taken off, and told beside. Of each the best of some rounds counts.
"""
import sys

from timing import row_is_right

ROUNDS = 3
PARTS = 200_000
SYMBOLS = 1_000_000
CLASSES = "%d%c%p%u%x%z"


def seconds(program, kind, pattern, subject, answer):
    return row_is_right(ROUNDS, program, f"pattern\t{kind}\t0\t{pattern}\t{subject}\t=> {answer}").processor


def searches():
    """Alphabet, what the set is made of, the set's text, and the symbol of the subject, which is not in it."""
    yield "bytes", "one part", "b", "a"
    yield "bytes", "plain bytes", "b" * PARTS, "a"
    yield "bytes", "ranges", "c-z" * (PARTS // 2) + "A-Z" * (PARTS // 2), "a"
    yield "bytes", "classes", CLASSES * (PARTS // 6), "g"
    yield "points", "one part", "b", "a"
    yield "points", "plain letters", "b" * PARTS, "a"
    yield "points", "letters apart", "".join(chr(0x10000 + 2 * k) for k in range(PARTS)), "a"
    yield "points", "classes", CLASSES * (PARTS // 6), "g"


def main():
    program = sys.argv[1]
    once = {}
    print(f"{'alphabet':8} {'set':14} {'reading':>8} {'search':>8} {'times':>6}")
    for kind, name, text, symbol in searches():
        subject = symbol * SYMBOLS
        reading = seconds(program, kind, f"^[{text}]$", "", "none, 1 tries")
        rest = reading + seconds(program, kind, "^b", subject, "none, 2 tries")
        search = seconds(program, kind, f"[{text}]*$", subject, f"{SYMBOLS} {SYMBOLS}, {2 * SYMBOLS + 1} tries") - rest
        once.setdefault(kind, search)
        print(f"{kind:8} {name:14} {reading:8.3f} {search:8.3f} {search / once[kind]:6.2f}")


main()
