#!/usr/bin/env python3
"""The rows of the benchmark: on each line the row's name, how many turns it makes, over how many books,
how many over each, how many entries stand before, and how many holds are open then. Where LARGE is in
the environment: the rows behind 16,000,000 entries alone, which take 2 GB, and 4 GB with the keys of
so many credits."""
import os


def row(name, turns, books, before, still_open=0):
    print(name, turns, books, turns // books, before, still_open)


if "LARGE" in os.environ:
    for name in ("fulfill", "release", "expire", "credit"):
        row(f"{name}_16000000", 200_000, 1, 16_000_000)
    row("settle_16000000", 380_000, 1, 16_000_000)
else:
    # so many turns that a row takes some 50 to 300 milliseconds in Rust
    row("fulfill_100", 200_000, 2_000, 100)
    for name in ("release", "expire", "credit"):
        row(f"{name}_100", 400_000, 4_000, 100)
    row("settle_100", 1_000_000, 10_000, 100)
    row("fulfill_10000", 200_000, 100, 10_000)
    for name in ("release", "expire", "credit"):
        row(f"{name}_10000", 400_000, 200, 10_000)
    row("settle_10000", 1_000_000, 500, 10_000)
    for name in ("fulfill", "release", "expire", "credit"):
        row(f"{name}_1000000", 200_000, 1, 1_000_000)
    row("settle_1000000", 800_000, 1, 1_000_000)
    for name in ("newest", "oldest"):
        row(f"{name}_1", 200_000, 1, 1_000_000, 1)
        row(f"{name}_100", 200_000, 1, 1_000_000, 100)
    row("newest_100000", 100_000, 1, 1_000_000, 100_000)
    row("oldest_100000", 30_000, 1, 1_000_000, 100_000)
