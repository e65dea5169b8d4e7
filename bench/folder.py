#!/usr/bin/env python3
"""Times the program on generated folders of plain pages.

  bench/folder.py crates/wikiexpand/out/wikiexpand [FOLDER]

Two folders are made below FOLDER (or a temporary one): 2,000 pages of 10 KiB, and 100,000 pages of 100 bytes, the most that a
folder may hold. For each: the least processor and wall time of some runs that print one page, and the most memory of the best one.
"""
import os
import shutil
import sys
import tempfile

from timing import best


def make(folder, count, size):
    os.makedirs(folder)
    line = b"A line of plain text without marks.\n"
    text = (line * (size // len(line) + 1))[:size]
    for number in range(count):
        with open(os.path.join(folder, f"Page {number}.wiki"), "wb") as page:
            page.write(text)
    return text


def main():
    program = os.path.abspath(sys.argv[1])
    base = sys.argv[2] if len(sys.argv) > 2 else tempfile.mkdtemp()
    print(f"{'folder':32} {'processor':>9} {'wall':>8} {'MiB':>6}")
    for name, count, size in (("2,000 pages of 10 KiB", 2000, 10240), ("100,000 pages of 100 bytes", 100000, 100)):
        folder = os.path.join(base, str(count))
        text = make(folder, count, size)
        took = best(3, [program, "expand", folder, "page_7"], wanted=text)
        print(f"{name:32} {took.processor:9.2f} {took.wall:8.2f} {took.memory / (1 << 20):6.0f}")
        shutil.rmtree(folder)


if __name__ == "__main__":
    main()
