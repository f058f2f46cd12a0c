#!/usr/bin/env python3
"""The rows of the benchmark: on each line how many entries a journal has, and how many keys."""
import os

SIZES = (16_000_000,) if "LARGE" in os.environ else (10_000, 1_000_000)

for entries in SIZES:
    for keys in (1_000, 10_000):
        print(entries, keys)
