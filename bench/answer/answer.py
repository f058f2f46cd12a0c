#!/usr/bin/env python3
"""The rows of the benchmark: on each line the row's name, how many turns it makes, and how many desks
are made for them, each of which takes 16 packets."""

TURNS = 64_000

for name in ("head", "request", "request_and_sender", "packet", "digests", "response"):
    print(name, TURNS, 0)
for name in ("locks", "book", "forward", "answer"):
    print(name, TURNS, TURNS // 16)
