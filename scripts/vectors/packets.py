#!/usr/bin/env python3
"""Vectors for the tests of packets and octet strings, made from the standards alone.

Writes ILPv4 packets (RFC 0027) over the octet strings of RFC 0030, and mistakes in them. With the
argument `rows` it prints the rows of crates/test_packets/data/packets/vectors.txt, with `cuts` those of
crates/test_rows/data/packets/cuts.txt, and with `lines` what those programs are to print of each: the
packet in words (docs/PROTOCOL.md), or the fault that a reader meets first; of a row of cuts.txt, how
many fronts of the packet end too soon. So many `x` in a long field are written `<N 78>` in rows and lines, but for
an address, which `lines` has as text. With `strings` it prints the octet strings of
crates/test_values/src/tests/oer.rt. It shares nothing with the crates.
"""
import datetime
import hashlib
import re
import sys

CONDITION = hashlib.sha256(bytes(32)).digest()
ZEROS = bytes(32)
AMOUNT = (100).to_bytes(8, "big")
EXPIRY = b"20250101000030000"
BOB = b"test.bob"


def prefix(size):
    """The shortest prefix that tells a length (RFC 0030)."""
    if size < 128:
        return bytes([size])
    octets = size.to_bytes((size.bit_length() + 7) // 8, "big")
    return bytes([0x80 + len(octets)]) + octets


def string(content):
    """An octet string: the prefix of its length, and then the content (RFC 0030)."""
    return prefix(len(content)) + content


def prepare(amount=AMOUNT, expires=EXPIRY, destination=string(BOB), data=string(b""), after=b"",
            beyond=b""):
    content = amount + expires + CONDITION + destination + data + after
    return b"\x0c" + string(content) + beyond


def fulfill(data=string(b""), after=b""):
    return b"\x0d" + string(ZEROS + data + after)


def reject(code=b"F99", triggered_by=b"", message=b"", data=b""):
    return b"\x0e" + string(code + string(triggered_by) + string(message) + string(data))


def moment(expires):
    """The moment of an expiry, in milliseconds since 1970 (RFC 0027)."""
    utc = datetime.timezone.utc
    then = datetime.datetime.strptime(expires.decode() + "000", "%Y%m%d%H%M%S%f")
    since = then.replace(tzinfo=utc) - datetime.datetime(1970, 1, 1, tzinfo=utc)
    return since // datetime.timedelta(milliseconds=1)


def words(octets):
    """Octets in a line of words."""
    return octets.hex() or "-"


def told_prepare(amount=100, expires=EXPIRY, destination=BOB, data=b""):
    return (f"prepare amount {amount} expires {moment(expires)} condition {words(CONDITION)} "
            f"to {destination.decode()} data {words(data)}")


def told_fulfill(data=b""):
    return f"fulfill preimage {words(ZEROS)} data {words(data)}"


def told_reject(code=b"F99", triggered_by=b"", message=b"", data=b""):
    return (f"reject code {words(code)} by {words(triggered_by)} message {words(message)} "
            f"data {words(data)}")


def refused(name):
    """The line of a fault, whose numbers docs/PROTOCOL.md lists."""
    names = ["Truncated", "BadPrefix", "TooLong", "UnknownType", "Trailing", "BadExpiry",
             "BadAddress", "FieldTooLong"]
    return f"refused {names.index(name) + 1} {name}"


def short(text):
    """A text with `<N 78>` for many `x` in hexadecimal."""
    return re.sub("(78){100,}", lambda run: f"<{len(run.group()) // 2} 78>", text)


def within(size, most, told, fault="FieldTooLong"):
    """The line of a field of this size."""
    return told if size <= most else refused(fault)


def vectors():
    """Each packet, or what is none, and the line that is printed of it."""
    yield prepare(), told_prepare()
    amount = 2**56 + 2
    yield prepare(amount=amount.to_bytes(8, "big")), told_prepare(amount=amount)
    last, zed = b"99991231235959999", b"private.Zed-0.a_~"
    yield (prepare(amount=b"\xff" * 8, expires=last, destination=string(zed)),
           told_prepare(amount=2**64 - 1, expires=last, destination=zed))
    yield fulfill(), told_fulfill()
    yield reject(), told_reject()
    fields = (b"T01", b"test.hub", b"no way", b"\x00\xff")
    yield reject(*fields), told_reject(*fields)
    yield from beginnings()
    yield from wrong_prepares()
    yield from wrong_fulfills()
    yield from long_fields()


def beginnings():
    for fault, whole in [
        ("Truncated", b""),
        ("Truncated", b"\x0c"),
        ("UnknownType", b"\x0f"),
        ("UnknownType", b"\x0f\0"),
        ("UnknownType", b"\x0b" + string(b"")),
        ("BadPrefix", b"\x0d\x80"),
        ("BadPrefix", b"\x0e\x81\x05"),
        ("TooLong", b"\x0c\x83"),
    ]:
        yield whole, refused(fault)


def wrong_prepares():
    for fault, whole in [
        ("Trailing", prepare(beyond=b"\0")),
        ("Trailing", prepare(after=b"\0")),
        ("Truncated", prepare(data=b"")),
        # The content ends too soon, and an octet follows the packet: the outer faults come first.
        ("Trailing", prepare(data=b"", beyond=b"\0")),
        ("BadPrefix", prepare(destination=b"\x81\x08" + BOB)),
        ("BadAddress", prepare(destination=string(b"test..bob"))),
        ("BadAddress", prepare(destination=string(b""))),
        # The destination is no address, and the data's prefix is wrong.
        ("BadAddress", prepare(destination=string(b"test."), data=b"\x80")),
        ("BadExpiry", prepare(expires=b"20230229000030000")),
        ("BadExpiry", prepare(expires=b"2025010100003000x")),
        # The expiry and the destination are wrong: the expiry comes first.
        ("BadExpiry", prepare(expires=b"20250101246000000", destination=string(b"bob"))),
    ]:
        yield whole, refused(fault)


def wrong_fulfills():
    for fault, whole in [
        ("Trailing", fulfill(after=b"\0")),
        ("Truncated", fulfill(data=b"\x02\x01")),
        ("BadPrefix", fulfill(data=b"\x81\x01\0")),
        ("TooLong", fulfill(data=b"\x83")),
    ]:
        yield whole, refused(fault)


def long_fields():
    # The content of the last has 65,535 octets, the most that an octet string may have.
    for size in (127, 128, 255, 256, 32767, 32768, 65500):
        data = b"x" * size
        yield fulfill(data=string(data)), within(size, 32767, told_fulfill(data))
    for size in (32767, 32768):
        data = b"x" * size
        yield prepare(data=string(data)), within(size, 32767, told_prepare(data=data))
        yield reject(data=data), within(size, 32767, told_reject(data=data))
    for size in (8191, 8192):
        message = b"x" * size
        yield reject(message=message), within(size, 8191, told_reject(message=message))
    for size in (1023, 1024):
        address = b"x" * size
        yield reject(triggered_by=address), within(size, 1023, told_reject(triggered_by=address))
    for size in (1023, 1024):
        address = b"g." + b"x" * (size - 2)
        yield (prepare(destination=string(address)),
               within(size, 1023, told_prepare(destination=address), "BadAddress"))


def cuts():
    """Packets that peers, and engines through peers, hand each other."""
    hub = b"test.hub"
    for amount in (100, 0, 1, 50, 2**64 - 1):
        yield prepare(amount=amount.to_bytes(8, "big"))
    yield prepare(expires=b"20250101000029000")
    yield prepare(amount=bytes(8), destination=string(b"peer.settle"), data=string(b"hi"))
    yield fulfill()
    yield fulfill(data=string(b"ok"))
    yield reject()
    yield reject(b"F05", hub, b"wrong condition")
    yield reject(b"F08", hub, b"amount too large", AMOUNT + (10).to_bytes(8, "big"))
    # The length of the whole and of the data in two octets, and in three.
    yield fulfill(data=string(b"x" * 128))
    yield reject(b"T01", hub, b"x" * 256, b"x" * 256)


def strings():
    """Octet strings of the octets 0, 1, .. 250, 0, 1, .., their heads and their tails."""
    for size in (0, 127, 128, 255, 256, 65535):
        whole = string(bytes(n % 251 for n in range(size)))
        print("   ", size, whole[:6].hex(" "), "..", whole[-2:].hex(" "), "of", len(whole))


def main():
    if sys.argv[1:] == ["rows"]:
        for whole, _ in vectors():
            print(short(whole.hex()))
    elif sys.argv[1:] == ["lines"]:
        for _, line in vectors():
            print(short(line))
        for whole in cuts():
            print(f"{whole.hex()}: of {len(whole)} proper prefixes {len(whole)} are truncated")
    elif sys.argv[1:] == ["cuts"]:
        for whole in cuts():
            print(whole.hex())
    elif sys.argv[1:] == ["strings"]:
        strings()
    else:
        sys.exit("packets.py rows | cuts | lines | strings")


if __name__ == "__main__":
    main()
