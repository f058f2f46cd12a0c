#!/usr/bin/env python3
"""Quantities of settlements, for crates/test_rows/data/quantities.

Written from the rule alone: a quantity is amount times 10 to the power of minus scale, in wholes of
an asset, and at another scale it is that many units, rounded down, as an exact fraction. With the
argument `rows` it prints the rows of scales.txt, each of which is an amount, its scale and the scale
that it is brought to, and with `lines` what that program is to print of each: the row, and the JSON of
what it comes to, or that this is too much. It shares nothing with the crates.
"""
import sys
from fractions import Fraction
from math import floor

MOST = 2**64 - 1
LONGEST = 10**38 - 1


def brought(amount, scale, to):
    units = floor(Fraction(amount, 10**scale) * 10**to)
    if units > MOST:
        return "the quantity comes to more than 64 bits hold"
    return f'{{"amount":"{units}","scale":{to}}}'


def rows():
    # nothing is nothing at each scale
    for scale, to in ((0, 0), (0, 255), (255, 0), (255, 255)):
        yield 0, scale, to
    # the same scale, at the limit and one beyond
    for scale in (0, 2, 255):
        for amount in (1, MOST, MOST + 1, LONGEST):
            yield amount, scale, scale
    # to finer scales: the greatest amount that fits, and the next
    for places in (1, 2, 7, 18, 19):
        for amount in (MOST // 10**places, MOST // 10**places + 1):
            yield amount, 0, places
            yield amount, 255 - places, 255
    for places in (20, 38, 39, 255):
        yield 1, 0, places
    # to coarser scales: the least amount that comes to a unit, and the one before
    for places in (1, 2, 9, 19, 37):
        for amount in (10**places - 1, 10**places):
            yield amount, places, 0
            yield amount, 255, 255 - places
    for places in (38, 39, 40, 255):
        yield LONGEST, places, 0
    # to coarser scales: the greatest amount that fits, and the next
    for places in (1, 9, 18):
        yield (MOST + 1) * 10**places - 1, places, 0
        yield (MOST + 1) * 10**places, places, 0
    yield LONGEST, 19, 0
    yield LONGEST, 18, 0
    yield LONGEST, 38, 19
    yield 1_999_999_999, 9, 2


def main():
    if sys.argv[1:] not in (["rows"], ["lines"]):
        sys.exit("quantities.py rows | lines")
    for given in rows():
        row = " ".join(str(number) for number in given)
        print(row if sys.argv[1] == "rows" else f"{row}: {brought(*given)}")


if __name__ == "__main__":
    main()
