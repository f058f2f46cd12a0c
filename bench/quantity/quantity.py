#!/usr/bin/env python3
"""The rows of the benchmark: on each line the row's name, how many turns it makes, the place of an
octet that each turn varies (a digit at that place leaves a quantity a quantity), and the octets as
hex; `00` where a row reads no octets."""

TEXT = b'{"amount":"1999999999","scale":9}'
NUMBER = b'{"amount":1999999999,"scale":9}'
LONG = b'{"amount":"99999999999999999999999999999999999999","scale":255}'
MEMO = b'{ "memo" : { "to" : ["dave", 17, null] }, "scale" : 9, "amount" : "1999999999" }'

for name, octets, mark in [
    ("text", TEXT, b"999"),
    ("number", NUMBER, b"999"),
    ("long", LONG, b"999"),
    ("memo", MEMO, b"999"),
]:
    for row in ["read", "read_against_lean"]:
        print(f"{row}_{name}", 1_000_000, octets.index(mark) + 2, octets.hex())
for row in ["credited_up", "credited_down", "print"]:
    print(row, 10_000_000, 0, "00")
