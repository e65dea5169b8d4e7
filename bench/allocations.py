#!/usr/bin/env python3
"""Refuses each allocation of a run in turn: the run prints the whole, or nothing, and its status is then that of want of memory.

  bench/allocations.py [PROGRAM [STEP]]

PROGRAM is crates/wikiexpand/out/wikiexpand where it isn't named. The wiki is examples/third (modules, frames, templates, a data module), all of its
pages, with one job and with three; then a page that it doesn't have, words that are no command, and `demo`. Of each STEP allocations (1 where it isn't
named) one run refuses one, from the first that the program itself makes on. The refusal is a library of a few lines that stands before the C library's
`malloc`, made by the machine's `cc`.

It is proved of `run` (`wiki_app`) that with this status nothing was written, wherever memory lacks. This looks at the program that was built, with its
threads and the C library's own tables.
"""
import os
import subprocess
import sys
import tempfile

TOP = os.path.dirname(os.path.dirname(os.path.abspath(__file__)))
PROGRAM = os.path.join(TOP, "crates", "wikiexpand", "out", "wikiexpand")
WIKI = os.path.join(TOP, "examples", "third")
SECONDS = 60
WANT_OF_MEMORY = 6

# Counts the calls that ask for memory, and refuses that of the number in REFUSE. The count stands in the file in COUNT, in eight bytes.
REFUSAL = r"""
#define _GNU_SOURCE
#include <errno.h>
#include <fcntl.h>
#include <stdatomic.h>
#include <stdlib.h>
#include <sys/mman.h>

extern void *__libc_malloc(size_t), *__libc_calloc(size_t, size_t), *__libc_realloc(void *, size_t), *__libc_memalign(size_t, size_t);
static atomic_ulong own, *asked = &own;
static unsigned long refused;

/* (the program ends without a word to those that wait for its end, so the count stands in a file from the start) */
__attribute__((constructor)) static void begin(void) {
    const char *number = getenv("REFUSE"), *path = getenv("COUNT");
    int file = path ? open(path, O_RDWR) : -1;
    void *place = file < 0 ? MAP_FAILED : mmap(0, sizeof *asked, PROT_READ | PROT_WRITE, MAP_SHARED, file, 0);
    if (place != MAP_FAILED) asked = place;
    atomic_store(asked, 0);
    refused = number ? strtoul(number, 0, 10) : 0;
}

static int refuses(void) {
    if (atomic_fetch_add(asked, 1) + 1 != refused) return 0;
    errno = ENOMEM;
    return 1;
}

void *malloc(size_t size) { return refuses() ? 0 : __libc_malloc(size); }
void *calloc(size_t count, size_t size) { return refuses() ? 0 : __libc_calloc(count, size); }
void *realloc(void *old, size_t size) { return refuses() ? 0 : __libc_realloc(old, size); }
void *memalign(size_t to, size_t size) { return refuses() ? 0 : __libc_memalign(to, size); }
void *aligned_alloc(size_t to, size_t size) { return refuses() ? 0 : __libc_memalign(to, size); }
int posix_memalign(void **made, size_t to, size_t size) {
    if (refuses()) return ENOMEM;
    *made = __libc_memalign(to, size);
    return *made ? 0 : ENOMEM;
}
"""


def made_refusal(room):
    source, library = os.path.join(room, "refusal.c"), os.path.join(room, "refusal.so")
    with open(source, "w", encoding="utf-8") as file:
        file.write(REFUSAL)
    subprocess.run(["cc", "-O1", "-w", "-shared", "-fPIC", "-o", library, source], check=True)
    return library


def run(program, words, **more):
    ran = subprocess.run([program, *words], stdin=subprocess.DEVNULL, capture_output=True, timeout=SECONDS, env={**os.environ, **more}, check=False)
    return ran.returncode, ran.stdout, ran.stderr


def swept(program, status, words, library, room, step):
    """Refuses allocations in turn of a run that else ends with this status, and tells how many runs there were and what came of each otherwise than is
    wanted."""
    count = os.path.join(room, "count")
    with open(count, "wb") as file:
        file.write(bytes(8))
    good = run(program, words, LD_PRELOAD=library, COUNT=count)
    with open(count, "rb") as file:
        allocations = int.from_bytes(file.read(), sys.byteorder)
    if good[0] != status or not good[1] + good[2]:
        sys.exit(f"without a refusal: {good}")
    whole = without = 0
    for number in range(1, allocations + 1, step):
        answer = run(program, words, LD_PRELOAD=library, REFUSE=str(number))
        if answer == good:
            whole += 1
        elif answer == (WANT_OF_MEMORY, b"", b""):
            without += 1
        else:
            print(f"  {' '.join(words)}: where allocation {number} is refused: status {answer[0]}, {answer[1][:80]!r}, {answer[2][:200]!r}")
    runs = len(range(1, allocations + 1, step))
    print(f"{' '.join(words[:1] + words[2:])}: {allocations} allocations, {runs} refused in turn: {without} times status {WANT_OF_MEMORY} and nothing printed, {whole} times the whole, {runs - whole - without} otherwise")
    return runs - whole - without


def main(words):
    program, step = (words + [PROGRAM])[0], int((words + [PROGRAM, "1"])[1]) if len(words) > 1 else 1
    with tempfile.TemporaryDirectory() as room:
        library = made_refusal(room)
        each = [
            (0, ["expand", WIKI, "--all", "--stats"]), (0, ["expand", WIKI, "--all", "--jobs", "3"]), (1, ["expand", WIKI, "Gone"]),
            (2, ["expand", WIKI]), (0, ["demo", "3", "--jobs", "3"]),
        ]
        return 1 if sum([swept(program, status, it, library, room, step) for status, it in each]) else 0


if __name__ == "__main__":
    sys.exit(main(sys.argv[1:]))
