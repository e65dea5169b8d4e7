#!/usr/bin/env python3
"""Times a table of Lua on number keys that were chosen to collide, beside as many keys at random.

  bench/attack_keys.py crates/lua_machine_cases/out/lua_machine_cases [HOW_MANY]

The keys are found by the hash of a map whose seed is fixed (`FoldHasher` of core, folded to 32 bits, of which the lowest pick
the place in the map). So this shows what a module can do that knows how its keys are hashed: where the seed is fixed, the time
grows with the square of the number of keys; where it is drawn for each run, these keys are keys at random. A C compiler finds
the keys (`cc`, some seconds). Processor seconds are of the best of some runs, less those of the module that reads the keys and sets none; each
run fills ten tables.
"""
import os
import random
import struct
import subprocess
import sys
import tempfile

from machine_reference import shown
from timing import best

ROUNDS, STEPS, CALLS = 3, 10 ** 12, 200_000
MOST_TIMES = 3.0

# A key is hashed as two words of 8 bytes, the number of its kind among the kinds of values and the number itself. GROUP_BITS
# bits of the folded hash pick the group of 12 places, 9 of which are used on average.
FIND = r"""
#include <stdint.h>
#include <stdio.h>
#include <stdlib.h>

#define MULTIPLIER (0x9e3779b97f4a7c15ull ^ 16)
#define INITIAL 0x243f6a8885a308d3ull
#define NUMBER_KIND 2

static uint64_t folded(uint64_t a, uint64_t b) {
    unsigned __int128 product = (unsigned __int128)a * b;
    return (uint64_t)product ^ (uint64_t)(product >> 64);
}

int main(int argc, char **argv) {
    long wanted = atol(argv[1]);
    uint32_t mask = (1u << atoi(argv[2])) - 1;
    uint64_t state = folded(INITIAL ^ NUMBER_KIND, MULTIPLIER);
    for (uint64_t n = 1ull << 40; wanted > 0; n++) {
        uint64_t hash = folded(state ^ n, MULTIPLIER);
        if (((hash ^ (hash >> 32)) & mask) == 0) {
            fwrite(&n, 8, 1, stdout);
            wanted--;
        }
    }
    return 0;
}
"""


def group_bits(count):
    bits = 0
    while 9 << bits < count:
        bits += 1
    return bits


def colliding(count):
    with tempfile.TemporaryDirectory() as folder:
        source = os.path.join(folder, "find.c")
        program = os.path.join(folder, "find")
        with open(source, "w") as file:
            file.write(FIND)
        subprocess.run(["cc", "-O2", "-o", program, source], check=True)
        return subprocess.run([program, str(count), str(group_bits(count))], check=True, stdout=subprocess.PIPE).stdout


def at_random(count):
    source = random.Random(42)
    return b"".join(struct.pack("<q", source.randrange(1 << 40, 1 << 62)) for _ in range(count))


def ran(program, keys, work):
    numbers = ",".join(str(it[0]) for it in struct.iter_unpack("<q", keys))
    text = "return {f=function() local keys={" + numbers + "} for round=1,10 do local t={} for i=1,#keys do " + work + " end end return 'done' end}"
    given = f"case\tX\nmodule\tX\t{shown(text.encode())}\ninvoke\tX\tf\nrun\t{STEPS}\t{CALLS}\n"
    return best(ROUNDS, [program], given.encode(), b"X: gives done\n").processor


def seconds(program, keys):
    return ran(program, keys, "t[keys[i]]=i") - ran(program, keys, "local k=keys[i]")


def main():
    program = sys.argv[1]
    count = int(sys.argv[2]) if len(sys.argv) > 2 else 200_000
    times = {}
    for name, keys in [("at random", at_random(count)), ("colliding", colliding(count))]:
        times[name] = seconds(program, keys)
        print(f"{count:,} keys {name}: {times[name]:.3f} s")
    ratio = times["colliding"] / times["at random"]
    print(f"colliding keys take {ratio:.2f} times as long; at most {MOST_TIMES} are allowed")
    sys.exit(ratio > MOST_TIMES)


main()
