#!/usr/bin/env python3
"""The rows of the benchmark: on each line the row's name, how many turns it makes, the place of an
octet that each turn varies (a letter at that place leaves a packet a packet), and the octets as hex."""


def string(content):
    size = len(content)
    if size < 128:
        return bytes([size]) + content
    octets = size.to_bytes((size.bit_length() + 7) // 8, "big")
    return bytes([0x80 + len(octets)]) + octets + content


def prepare(destination, data):
    condition = bytes.fromhex("66687aadf862bd776c8fc18b8e9f8e20089714856ee233b3902a591d0d5f2925")
    terms = (100).to_bytes(8, "big") + b"20250101000030000" + condition
    return b"\x0c" + string(terms + string(destination) + string(data))


LONG = b"test.hub-one.region_4.bank~7.0123456789.ABCDEFGHIJKLM.nopqrstuvwxyz.q"
assert len(LONG) == 69
DATA = bytes(n % 251 for n in range(1024))
SMALL = prepare(b"test.bob", b"")
LARGE = prepare(LONG, DATA)
FULFILL = b"\x0d" + string(bytes(32) + string(DATA[:32]))
REJECT = b"\x0e" + string(b"T01" + string(b"test.hub") + string(b"no way") + string(DATA[:2]))

BLOCK = bytes(n % 251 for n in range(32_768))

for name, packet, place in [
    ("prepare_small", SMALL, SMALL.index(b"bob")),
    ("prepare_large", LARGE, LARGE.index(LONG) + 68),
    ("fulfill", FULFILL, 2),
    ("reject", REJECT, REJECT.index(b"no way")),
]:
    for row in ["read", "read_and_write"]:
        print(f"{row}_{name}", 2_000_000, place, packet.hex())
print("append_32768", 100_000, 32_767, BLOCK.hex())
print("sha256_32", 500_000, 0, "07" * 32)
print("sha256_65536", 500, 0, "07" * 65_536)
