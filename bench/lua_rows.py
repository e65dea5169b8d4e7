#!/usr/bin/env python3
"""Works out anew what the rows of `lua_number` and `lua_lexer` in `text_cases` expect, and tells each that expects something else.

  bench/lua_rows.py numbers crates/text_cases/stdin
  bench/lua_rows.py tokens crates/text_cases/stdin

The rows themselves are chosen by hand. Numbers are Python's whole numbers, which have no bound, and fractions; tokens are
those of `lua_reference.py`. Nothing here knows the crates.
"""
import re
import sys
from fractions import Fraction

import lua_reference
import row_tables

MIN, MAX = -(2 ** 63), 2 ** 63 - 1
RANGE, WHOLE, ZERO = "RANGE", "WHOLE", "ZERO"
WHITE = " \t\n\v\f\r"
DIGITS = "0123456789abcdefghijklmnopqrstuvwxyz"


# Numbers (manual 2.5.1, and 2.1 for numerals)
def in_range(value):
    return int(value) if MIN <= value <= MAX else RANGE


def quotient(a, b):
    if b == 0:
        return ZERO
    return in_range(a // b) if a % b == 0 else WHOLE


def power(a, b):
    if b >= 0:
        # (no power of another number with so large an exponent is in range)
        return in_range(a ** b) if abs(a) < 2 or b < 64 else RANGE
    if a == 0:
        return ZERO
    return a ** (b % 2) if abs(a) == 1 else WHOLE


def operations(a, b):
    return in_range(a + b), in_range(a - b), in_range(a * b), quotient(a, b), ZERO if b == 0 else a % b, power(a, b)


def numeral(text):
    """The value of a numeral as a fraction, or None. An exponent beyond all digits of the text is cut, since only the fact counts
    that the value is not whole or out of range."""
    if re.fullmatch(r"0[xX][0-9a-fA-F]+", text):
        return Fraction(int(text, 16))
    parts = re.fullmatch(r"(?=\.?[0-9])([0-9]*)\.?([0-9]*)(?:[eE]([+-]?[0-9]+))?", text)
    if not parts:
        return None
    whole, behind, exponent = parts.group(1), parts.group(2), int(parts.group(3) or 0)
    bound = len(text) + 30
    return int(whole + behind) * Fraction(10) ** (max(-bound, min(bound, exponent)) - len(behind))


def within(value):
    return int(value) if value is not None and value.denominator == 1 and MIN <= value <= MAX else None


def read_numeral(text):
    return within(numeral(text))


def signed(text):
    text = text.strip(WHITE)
    return (-1, text[1:]) if text[:1] == "-" else (1, text[1:] if text[:1] == "+" else text)


def read_number(text):
    sign, digits = signed(text)
    value = numeral(digits)
    return within(None if value is None else sign * value)


def read_in_base(text, base):
    if base == 10:
        return read_number(text)
    sign, digits = signed(text)
    if base == 16 and digits[:2] in ("0x", "0X"):
        digits = digits[2:]
    values = [DIGITS.find(digit.lower()) if digit.isascii() else -1 for digit in digits]
    if not values or any(not 0 <= value < base for value in values):
        return None
    total = 0
    for value in values:
        total = total * base + value
    return within(Fraction(sign * total))


def operations_of(text):
    return " ".join(map(str, operations(*map(int, text.split()))))


def shown_number(value):
    return "none" if value is None else str(value)


def based(text):
    base, _, digits = text.partition(" ")
    return read_in_base(digits, int(base))


# What a row of a kind comes to, by its text.
NUMBERS = {
    "operations": operations_of,
    "negated": lambda text: str(in_range(-int(text))),
    "numeral": lambda text: shown_number(read_numeral(text)),
    "number": lambda text: shown_number(read_number(text)),
    "based": lambda text: shown_number(based(text)),
    "digits": lambda text: f"{int(text)} {int(text)}",
}


# Tokens
def letter(token):
    if token.kind == "mark":
        return "W" if token.word in lua_reference.KEYWORDS else "M"
    return {"name": "N", "number": "#", "text": "T", "end": "E"}[token.kind]


def shown(text):
    try:
        return "".join(f"{letter(it)}{it.start}-{it.end}:{it.line}-{it.last}={it.word};" for it in lua_reference.tokens(text))
    except lua_reference.Fault as fault:
        return re.sub(r"fault (\d+) line (\d+)", r"!\1@\2", str(fault))


TOKENS = {"tokens": shown}


def main():
    kind, file = sys.argv[1:]
    rules = {"numbers": NUMBERS, "tokens": TOKENS}[kind]
    rows = list(row_tables.rows(file, *rules))
    wrong = [(row, wanted) for row in rows if row[2] != (wanted := rules[row[0]](row_tables.unescaped(row[1])))]
    print(f"{file}: {len(rows)} rows of {kind}, {len(wrong)} expect something else")
    for row, wanted in wrong:
        print(f"  {row}\n  should be {wanted!r}")
    return not rows or bool(wrong)


if __name__ == "__main__":
    sys.exit(main())
