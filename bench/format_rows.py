#!/usr/bin/env python3
"""Writes the rows of the kind `format` of `text_cases` that say what C's printf makes of numbers of 64 bits.

  bench/format_rows.py [--write]     prints the rows, or writes them into the crate's table

A row has a format with one directive, a number and the text. `%f` is asked of C with the number as a
long double, whose 64 bits hold it, for a C of which this is so (x86-64).
"""
import ctypes
import itertools

from written import escaped, give_rows

libc = ctypes.CDLL(None)
NUMBERS = [0, 7, -5, 42, 255, -1, 9223372036854775807, -9223372036854775808]
FLAGS = ["", "-", "0", "+", " ", "#", "-0", "+0", " 0", "#0", "-#", "+-"]
SIZES = ["", "8", "25", ".0", ".3", "8.3", "12.9"]
UNSIGNED = "uoxX"


def shown(flags, size, letter, number):
    made = ctypes.create_string_buffer(400)
    if letter == "f":
        libc.snprintf(made, 400, f"%{flags}{size}Lf".encode(), ctypes.c_longdouble(number))
    else:
        libc.snprintf(made, 400, f"%{flags}{size}ll{letter}".encode(), ctypes.c_longlong(number))
    return made.value.decode()


def defined(flags, letter):
    """C leaves open what the other pairs mean; Lua's manual does too."""
    if letter in UNSIGNED and ("+" in flags or " " in flags):
        return False
    return not (letter in "diu" and "#" in flags)


def rows():
    every = [(f, s, l, n) for f, s, l, n in itertools.product(FLAGS, SIZES, "diuoxXf", NUMBERS) if defined(f, l)]
    step = 9
    chosen = every[::step]
    # A long double written by ctypes is rounded to 53 bits first: numbers that a double holds.
    return [(f, s, l, n) for f, s, l, n in chosen if l != "f" or float(n) == n]


def lines():
    return [f"format\t{escaped(f'%{f}{s}{l}|')}\t{n}\t=> {escaped(shown(f, s, l, n))}|" for f, s, l, n in rows()]


give_rows("# format: what C's printf makes of numbers of 64 bits, written by bench/format_rows.py", lines())
