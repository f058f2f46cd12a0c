"""Packets and octets with mistakes: cut, doubled, mangled, or wrong in one field. What they come to is
for the model to say."""
import random
from collections.abc import Callable
from dataclasses import replace

from long_runs.packets import (Fulfill, Packet, Prepare, Reject, expiry_digits, prefix, string, wrapped)


# ---- any octets

def cut(chance: random.Random, octets: bytes) -> bytes:
    return octets[:chance.randint(0, max(len(octets) - 1, 0))]


def doubled(_: random.Random, octets: bytes) -> bytes:
    return octets + octets


def lengthened(chance: random.Random, octets: bytes) -> bytes:
    return octets + chance.randbytes(chance.randint(1, 3))


def changed(chance: random.Random, octets: bytes) -> bytes:
    """A few octets are others."""
    made = bytearray(octets)
    for _ in range(chance.choice([1, 1, 1, 2, 4])):
        if made:
            made[chance.randrange(len(made))] = chance.choice([0, 32, 48, 128, 255, chance.randrange(256)])
    return bytes(made)


def flipped(chance: random.Random, octets: bytes) -> bytes:
    """One bit is another."""
    place = chance.randrange(8 * len(octets)) if octets else 0
    return bytes(octet ^ (1 << place % 8 if n == place // 8 else 0) for n, octet in enumerate(octets))


def inserted(chance: random.Random, octets: bytes) -> bytes:
    place = chance.randint(0, len(octets))
    return octets[:place] + chance.randbytes(1) + octets[place:]


def without_one(chance: random.Random, octets: bytes) -> bytes:
    place = chance.randint(0, max(len(octets) - 1, 0))
    return octets[:place] + octets[place + 1:]


def junk(chance: random.Random, _: bytes) -> bytes:
    return chance.randbytes(chance.randint(1, 120))


Mistake = Callable[[random.Random, bytes], bytes]
MANGLES: tuple[Mistake, ...] = (cut, cut, doubled, lengthened, changed, changed, flipped, flipped,
                                inserted, without_one, junk)


def mangled(chance: random.Random, octets: bytes) -> bytes:
    return chance.choice(MANGLES)(chance, octets)


# ---- one field of a Prepare

def parts(prepare: Prepare) -> list[bytes]:
    return [prepare.amount.to_bytes(8, "big"), expiry_digits(prepare.expires), prepare.condition,
            string(prepare.destination), string(prepare.data)]


def longer_prefix(content: bytes) -> bytes:
    """The length in more octets than it takes, or in more than there may be."""
    size = len(content)
    begin = bytes([0x81, size]) if size < 128 else b"\x82" + size.to_bytes(2, "big")
    if 128 <= size and 256 <= size:
        begin = b"\x83" + size.to_bytes(3, "big")
    return begin + content


def wrong_expiry(chance: random.Random) -> bytes:
    return chance.choice([
        b"20230229000000000", b"19000229000000000", b"20250431000000000", b"20251301000000000",
        b"20250001000000000", b"20250100000000000", b"20250101240000000", b"20250101006000000",
        b"20250101000060000", b"2025010100003000x", b"+2250101000030000", b" 0250101000030000",
        b"20250132000000000", b"00000230000000000"])


def wrong_address(chance: random.Random) -> bytes:
    return chance.choice([
        b"", b"test", b"test.", b"test..a", b".test.a", b"bob.a", b"Test.a", b"test.a b", b"test.a.",
        b"test4.a", b"test.\xc3\xa9", b"test.a/b", b"test." + 1_019 * b"a", b"test.a\n"])


def with_wrong_field(chance: random.Random, prepare: Prepare) -> bytes:
    """A Prepare that is wrong in one field, or in what holds it together."""
    fields = parts(prepare)
    match chance.randrange(12):
        case 0 | 1:
            fields[1] = wrong_expiry(chance)
        case 2 | 3:
            fields[3] = string(wrong_address(chance))
        case 4:
            fields[3] = chance.choice([b"\x80", b"\x83\0\0\1"]) + prepare.destination
        case 5:
            fields[3] = longer_prefix(prepare.destination)
        case 6:
            fields[4] = chance.choice([b"\x80", b"\x81", b"\x82\1", b"\xff", longer_prefix(prepare.data)])
        case 7:
            fields.append(chance.randbytes(1))
        case 8:
            del fields[chance.randrange(5)]
        case 9:
            content = b"".join(fields)
            return b"\x0c" + longer_prefix(content)
        case 10:
            content = b"".join(fields)
            return bytes([chance.choice([0, 11, 13, 14, 15, 140])]) + prefix(len(content)) + content
        case _:
            # Two mistakes, of which the first counts.
            fields[1], fields[3] = wrong_expiry(chance), string(wrong_address(chance))
    return wrapped(12, b"".join(fields))


def too_long_field(chance: random.Random, packet: Packet) -> bytes:
    """A packet one of whose fields has just as many octets as it may have, or one more."""
    more = chance.choice([0, 1])
    data = chance.randbytes(1) * (32_767 + more)
    if isinstance(packet, Reject) and chance.random() < 0.7:
        if chance.random() < 0.5:
            return replace(packet, message=b"m" * (8_191 + more)).octets()
        return replace(packet, triggered_by=b"t" * (1_023 + more)).octets()
    return replace(packet, data=data).octets()


def other_packet(chance: random.Random) -> bytes:
    """A packet that is no Prepare."""
    if chance.random() < 0.5:
        return Fulfill(bytes(32), chance.randbytes(chance.randint(0, 9))).octets()
    return Reject(b"F99", b"test.x", b"no").octets()
