#!/usr/bin/env python3
"""The rows of the benchmark: on each line the row's name, how many turns it makes, the place of an
octet that each turn varies (a letter there leaves a message a message), the most octets that a read
gives, and the octets as hex: a request, or the body of a response."""

PREPARE = bytes.fromhex(
    "0c430000000000000064" + b"20250101000030000".hex()
    + "66687aadf862bd776c8fc18b8e9f8e20089714856ee233b3902a591d0d5f2925"
    + "08" + b"test.bob".hex() + "00")
assert len(PREPARE) == 69
FRONT = b"POST /ilp HTTP/1.1\r\nHost: h\r\nAuthorization: Bearer a-token\r\nContent-Length: 69\r\n"
SHORT = FRONT + b"\r\n" + PREPARE

# 64 fields, 16,384 octets of head: 61 fields of a name and a value beside the three.
FIELDS = 61
left = 16_384 - len(FRONT) - 2
lines = []
for n in range(FIELDS):
    size = left // (FIELDS - n)
    name = b"X-Field-%02d: " % n
    lines.append(name + b"v" * (size - len(name) - 2) + b"\r\n")
    left -= size
LONG_HEAD = FRONT + b"".join(lines) + b"\r\n"
assert len(LONG_HEAD) == 16_384 and LONG_HEAD.count(b"\r\n") == 66
LONG = LONG_HEAD + PREPARE

PLACE = SHORT.index(b"ilp") + 2
print("read_one_piece", 300_000, PLACE, 100_000, SHORT.hex())
print("read_pieces_of_3", 30_000, PLACE, 3, SHORT.hex())
print("read_pieces_of_1", 15_000, PLACE, 1, SHORT.hex())
print("read_head_16384", 8_000, PLACE, 100_000, LONG.hex())
print("write_200", 2_000_000, 34, 0, PREPARE[:35].hex())
