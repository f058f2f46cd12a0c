#!/usr/bin/env python3
"""Quotes at the limits of their arguments, for crates/test_rows/data/quotes.

Written from the rule alone, over whole numbers and fractions of any size: the fee is the amount
times ppm millionths, rounded up; what is left is worth p / q of the other asset, from an amount at
scale s to one at scale t, rounded down. With the argument `rows` it prints the rows of quotes.txt,
each of which is scale s, scale t, p, q, ppm and amount, and with `lines` what that program is to print
of each: the row, and the quote or the refusal. It shares nothing with the crates.
"""
import sys
from fractions import Fraction
from itertools import product
from math import ceil, floor

MOST = 2**64 - 1
WORD = 2**32 - 1


def quote(s, t, p, q, ppm, amount):
    fee = ceil(Fraction(amount) * Fraction(ppm, 10**6))
    net = amount - fee
    value = Fraction(net, 10**s) * Fraction(p, q)
    out = floor(value * 10**t)
    if out > MOST:
        return "more would go out than a packet carries"
    if amount > 0 and out == 0:
        return "nothing would go out"
    return f"fee {fee} net {net} out {out}"


def rows():
    scales = [(0, 0), (0, 9), (2, 9), (255, 246)]
    prices = [(1, 1), (1, WORD), (WORD, 1), (WORD, WORD)]
    for (s, t), (p, q) in product(scales, prices):
        yield s, t, p, q, 0, MOST
        yield s, t, p, q, 1, 1_000_001
    for ppm in (0, 1, 999_999, 1_000_000):
        for amount in (0, 1, 1_000_001, MOST):
            yield 2, 9, 2, 7, ppm, amount
    yield 9, 2, 1, 1, 0, 9_999_999
    yield 9, 2, 1, 1, 0, 10_000_000
    yield 0, 9, WORD, 1, 0, MOST // WORD // 10**9
    yield 0, 9, WORD, 1, 0, MOST // WORD // 10**9 + 1
    yield 9, 0, 1, WORD, 0, WORD * 10**9 - 1
    yield 9, 0, 1, WORD, 0, WORD * 10**9


def main():
    if sys.argv[1:] not in (["rows"], ["lines"]):
        sys.exit("quotes.py rows | lines")
    for given in rows():
        row = " ".join(str(number) for number in given)
        print(row if sys.argv[1] == "rows" else f"{row}: {quote(*given)}")


if __name__ == "__main__":
    main()
