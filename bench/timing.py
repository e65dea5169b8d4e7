"""How the scripts of this folder time a program: one run with what it took, and the best of some."""
import collections
import os
import subprocess
import sys
import time

# What a run took: processor seconds, wall seconds, the most memory in bytes; and what it printed.
Run = collections.namedtuple("Run", "processor wall memory printed")


def run(words, given=b""):
    """A run of a program with these words and this standard input, which has to end with status 0."""
    began = time.perf_counter()
    running = subprocess.Popen(words, stdin=subprocess.PIPE, stdout=subprocess.PIPE)
    try:
        running.stdin.write(given)
        running.stdin.close()
    except BrokenPipeError:
        pass
    printed = running.stdout.read()
    _, status, used = os.wait4(running.pid, 0)
    running.returncode = status
    if status != 0:
        sys.exit(f"{' '.join(map(str, words))} ended with {status}")
    return Run(used.ru_utime + used.ru_stime, time.perf_counter() - began, used.ru_maxrss * 1024, printed)


def best(rounds, words, given=b"", wanted=None):
    """The least of each figure over some runs, so that other work on the machine disturbs little. Where `wanted` is told, each
    run has to print it."""
    runs = [run(words, given) for _ in range(rounds)]
    for each in runs:
        if wanted is not None and each.printed != wanted:
            sys.exit(f"{' '.join(map(str, words))} printed {each.printed[:80]!r} .., {len(each.printed)} bytes, not {wanted[:80]!r} .., {len(wanted)}")
    return Run(min(it.processor for it in runs), min(it.wall for it in runs), min(it.memory for it in runs), runs[0].printed)


# How long the texts are over which calls are timed, and how many copies of a part one escape holds: few, so that a program reads the
# text in little time.
LONG = 2 * 1024 * 1024
PART = 1024


def copies(text, count):
    """So many copies of a text, as a word of a row of `text_cases`."""
    whole, rest = divmod(count, PART)
    return f"\\({whole}:{text * PART})" + text * rest


def row_is_right(rounds, program, row):
    """The least time of `text_cases` on one row, which has to be right."""
    return best(rounds, [program], (row + "\n").encode(), b"1 rows are right\n")


def answer_time(rounds, program, count, case, reading, length=None):
    """Milliseconds that `text_cases` takes for one run of a case, less those of one that only reads. Where a length is told, its
    answer has to be so long."""
    if length is not None:
        row_is_right(1, program, f"times\t1\t{case}\t=> {length}")
    took = [best(rounds, [program], f"times\t{count}\t{it}\t=> \n".encode()).processor for it in (case, reading)]
    return 1000 * (took[0] - took[1]) / count
