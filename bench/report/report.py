#!/usr/bin/env python3
"""The rows of the benchmark: on each line the row's name, how many turns it makes, how many peers the
book has, and how many entries."""

print("snapshot_16", 100_000, 16, 10_000)
print("snapshot_256", 8_000, 256, 10_000)
print("print_16", 40_000, 16, 10_000)
print("print_256", 4_000, 256, 10_000)
