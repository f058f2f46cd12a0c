#!/usr/bin/env python3
"""The row of the benchmark: its name, and how many turns it makes."""

print("quote", 20_000_000)
