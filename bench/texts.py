#!/usr/bin/env python3
"""Times functions over code points: calls of `mw_ustring` over 2 MiB of mixed text beside a walk over it by std's `chars`, and
the normal forms and functions of `mw_text` at three sizes, where time is to grow as the text does.

  bench/texts.py crates/text_cases/out/text_cases

Milliseconds of processor time for one call, less those of a run that only reads the text. Of each the best of some rounds counts.
"""
import sys

from timing import LONG, answer_time, copies

ROUNDS = 3
KIB = 1024
MIXED = copies("aé€𝄞", LONG // 10) + "b"

# Calls over the mixed text: the case, and how long its answer is where that is known. `x` stands nowhere in it.
OVER_MIXED = {
    "walk": (f"ustring\twalk\t{MIXED}", None),
    "len": (f"ustring\tlen\t{MIXED}", len(str(LONG // 10 * 4 + 1))),
    "usub": (f"ustring\tsub\t{MIXED}\t2\t-2", LONG // 10 * 10 - 1),
    "ufind": (f"ustring\tfind\t{MIXED}\tx\t2\tplain", len("none, 0 tries")),
    "seek": (f"ustring\tfind\t{MIXED}\tx\t2\tpattern", len(f"none, {LONG // 10 * 4} tries")),
}
# Calls over a text that is repeated to some size: what stands before it, what is repeated, the kind, and the words around the text.
GROWING = {
    "nfc": ("", "\u0301\u0323", "ustring\tnfc", ""),
    "nfd": ("", "\u0301\u0323", "ustring\tnfd", ""),
    "split": ("", "a", "text\tsplit_tries", "\t\tpattern"),
    "parts": ("", "a", "text\tsplit_tries", "\t\tplain"),
    "trim": ("", "a", "text\ttrim", "\t[a]"),
    "encode": ("", "a", "text\tencode", ""),
    "decode": ("&#", "1", "text\tdecode", ""),
}


def call(program, case, text, count, length=None):
    return answer_time(ROUNDS, program, count, case, f"string\tlen\t{text}", length)


def growing(program, work, size):
    before, part, kind, behind = GROWING[work]
    text = before + copies(part, size // len(part.encode()))
    return call(program, f"{kind}\t{text}{behind}", text, 5)


def main():
    program = sys.argv[1]
    took = {work: call(program, case, MIXED, 20, length) for work, (case, length) in OVER_MIXED.items()}
    print(f"{'over 2 MiB':10} {'ms':>8} {'times the walk':>15}")
    print(f"{'walk':10} {took['walk']:8.2f}")
    for work in [*took][1:]:
        print(f"{work:10} {took[work]:8.2f} {took[work] / took['walk']:15.2f}")
    print(f"\n{'ms':10} {'256 KiB':>9} {'512 KiB':>9} {'1 MiB':>9} {'2 MiB':>9}")
    for work in GROWING:
        print(f"{work:10} " + " ".join(f"{growing(program, work, size * KIB):9.2f}" for size in (256, 512, 1024, 2048)))


main()
