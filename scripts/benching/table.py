#!/usr/bin/env python3
"""Prints the table of scripts/bench.sh. A line of the file that is named by the argument has
`rattle` or `rust`, a row's name, how many turns were made, their nanoseconds, and a sum. A row that
one program alone prints has no ratio."""
import sys

best = {}
sums = {}
for line in open(sys.argv[1], encoding="ascii"):
    side, row, turns, nanoseconds, told = line.split()
    spent = int(nanoseconds) / int(turns)
    best.setdefault(row, {}).setdefault(side, spent)
    best[row][side] = min(best[row][side], spent)
    if sums.setdefault(row, told) != told:
        sys.exit(f"{row}: the two programs gave different answers")

print(f"{'':30} {'Rattle':>12} {'Rust':>12} {'ratio':>6}")
for row, spent in best.items():
    times = "".join(f" {spent[side]:12.1f}" if side in spent else f"{'':13}" for side in ("rattle", "rust"))
    ratio = f" {spent['rattle'] / spent['rust']:6.2f}" if len(spent) == 2 else ""
    print(f"{row:30}{times}{ratio}")
