#!/usr/bin/env python3
"""The rows of the benchmark: on each line the row's name, how many entries its journal has, how many are
made in all where it has fewer, and how most of its payments end. Where LARGE is in the environment: the
rows of 16,000,000 entries alone, which take 6 GB."""
import os


def row(name, entries, ending="fulfilled"):
    print(f"{name}_{entries}", entries, min(entries, 100_000), ending)


if "LARGE" in os.environ:
    for name in ("save", "carry_over"):
        row(name, 16_000_000)
else:
    for entries in (10_000, 1_000_000):
        for name in ("save", "carry_over"):
            row(name, entries)
        row("carry_over_released", entries, "released")
