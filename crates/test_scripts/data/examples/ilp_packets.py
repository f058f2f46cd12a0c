"""Packets of the Interledger Protocol, version 4 (RFC 0027), as octets (OER, RFC 0030): written and read.

prepare.py and receiver.py use it. It needs Python 3.9 and nothing else.
"""
from __future__ import annotations

import argparse
import datetime
import hashlib
import re
from dataclasses import dataclass
from typing import Union

MOST_AMOUNT = 2**64 - 1
MOST_PACKET, MOST_DATA, MOST_MESSAGE, MOST_ADDRESS = 65_535, 32_767, 8_191, 1_023

# An address (RFC 0015): a scheme, and segments behind it.
ADDRESS = re.compile(r"(?:g|private|example|peer|self|test[123]?|local)(?:\.[A-Za-z0-9_~-]+)+", re.ASCII)

EPOCH = datetime.datetime(1970, 1, 1)
MILLISECOND = datetime.timedelta(milliseconds=1)


class BadPacket(ValueError):
    """Octets that are no packet, or a field that none can have."""


def preimage_of(text: str) -> bytes:
    """The 32 octets that an argument of a program names."""
    try:
        octets = bytes.fromhex(text)
    except ValueError:
        octets = b""
    if len(octets) != 32:
        raise argparse.ArgumentTypeError("a preimage is 64 hexadecimal digits")
    return octets


def digest(preimage: bytes) -> bytes:
    """The condition that a preimage meets."""
    return hashlib.sha256(preimage).digest()


# ---- packets

@dataclass(frozen=True)
class Prepare:
    """An amount in units of the account's asset, when it expires in milliseconds since 1970 (UTC), and
    for whom it is."""

    amount: int
    expires: int
    condition: bytes
    destination: str
    data: bytes = b""

    def octets(self) -> bytes:
        """As it goes over the wire."""
        if not 0 <= self.amount <= MOST_AMOUNT:
            raise BadPacket(f"an amount is 0 to {MOST_AMOUNT}")
        if len(self.condition) != 32:
            raise BadPacket("a condition has 32 octets")
        return packet(12, self.amount.to_bytes(8, "big") + expiry(self.expires) + self.condition
                      + string(address(self.destination)) + string(limited(self.data, MOST_DATA)))


@dataclass(frozen=True)
class Fulfill:
    """The preimage of the Prepare's condition: the receiver has the packet."""

    preimage: bytes
    data: bytes = b""

    def octets(self) -> bytes:
        """As it goes over the wire."""
        if len(self.preimage) != 32:
            raise BadPacket("a preimage has 32 octets")
        return packet(13, self.preimage + string(limited(self.data, MOST_DATA)))


@dataclass(frozen=True)
class Reject:
    """Why a packet comes back, and from whom."""

    code: str
    triggered_by: str = ""
    message: str = ""
    data: bytes = b""

    def octets(self) -> bytes:
        """As it goes over the wire."""
        code = self.code.encode("latin-1")
        if len(code) != 3:
            raise BadPacket("a code has 3 octets")
        by = limited(self.triggered_by.encode("latin-1"), MOST_ADDRESS)
        message = limited(self.message.encode(), MOST_MESSAGE)
        return packet(14, code + string(by) + string(message) + string(limited(self.data, MOST_DATA)))


Packet = Union[Prepare, Fulfill, Reject]


# ---- writing

def string(content: bytes) -> bytes:
    """An octet string: its length in as few octets as can be, and then its octets."""
    size = len(content)
    if size < 128:
        return bytes([size]) + content
    length = size.to_bytes((size.bit_length() + 7) // 8, "big")
    return bytes([0x80 + len(length)]) + length + content


def packet(kind: int, content: bytes) -> bytes:
    """A type, and its content as one octet string."""
    return bytes([kind]) + string(content)


def limited(octets: bytes, most: int) -> bytes:
    """Refuses a field that is too long."""
    if len(octets) > most:
        raise BadPacket(f"a field has {len(octets)} octets, and may have {most}")
    return octets


def address(text: str) -> bytes:
    """Refuses what is no address."""
    if len(text) > MOST_ADDRESS or ADDRESS.fullmatch(text) is None:
        raise BadPacket(f"{text!r} is no ILP address, such as test.bob.shop")
    return text.encode("ascii")


def expiry(moment: int) -> bytes:
    """A moment as YYYYMMDDHHMMSSmmm."""
    try:
        then = EPOCH + moment * MILLISECOND
    except OverflowError:
        raise BadPacket("an expiry lies in the years 1 to 9999") from None
    return b"%04d" % then.year + then.strftime("%m%d%H%M%S").encode() + b"%03d" % (then.microsecond // 1000)


# ---- reading

class Fields:
    """Octets that are read from the front."""

    def __init__(self, octets: bytes) -> None:
        self.octets = octets
        self.place = 0

    def take(self, count: int) -> bytes:
        """The next so many octets."""
        taken = self.octets[self.place:self.place + count]
        if len(taken) < count:
            raise BadPacket("the packet ends too soon")
        self.place += count
        return taken

    def string(self, most: int) -> bytes:
        """The content of the next octet string, which may have so many octets."""
        size = self.take(1)[0]
        if size >= 0x80:
            length = self.take(size - 0x80)
            size = int.from_bytes(length, "big")
            if size < 128 or length[0] == 0:
                raise BadPacket("a length is written in more octets than it needs")
        return limited(self.take(size), most)

    def end(self) -> None:
        """Nothing is left."""
        if self.place < len(self.octets):
            raise BadPacket("octets come after the packet")


def moment_of(digits: bytes) -> int:
    """The moment that the digits of an expiry name."""
    try:
        if re.fullmatch(rb"[0-9]{17}", digits) is None:
            raise ValueError
        then = datetime.datetime.strptime(digits.decode() + "000", "%Y%m%d%H%M%S%f")
    except ValueError:
        raise BadPacket(f"{digits!r} is no expiry") from None
    return (then - EPOCH) // MILLISECOND


def read_prepare(fields: Fields) -> Prepare:
    """The fields of a Prepare."""
    amount, expires = int.from_bytes(fields.take(8), "big"), moment_of(fields.take(17))
    condition, destination = fields.take(32), fields.string(MOST_ADDRESS).decode("latin-1")
    address(destination)
    return Prepare(amount, expires, condition, destination, fields.string(MOST_DATA))


def read_fulfill(fields: Fields) -> Fulfill:
    """The fields of a Fulfill."""
    return Fulfill(fields.take(32), fields.string(MOST_DATA))


def read_reject(fields: Fields) -> Reject:
    """The fields of a Reject, whose texts may be any octets."""
    code, by = fields.take(3).decode("latin-1"), fields.string(MOST_ADDRESS).decode("latin-1")
    message = fields.string(MOST_MESSAGE).decode(errors="replace")
    return Reject(code, by, message, fields.string(MOST_DATA))


READERS = {12: read_prepare, 13: read_fulfill, 14: read_reject}


def read_packet(octets: bytes) -> Packet:
    """The packet that these octets are."""
    outer = Fields(octets)
    kind, content = outer.take(1)[0], outer.string(MOST_PACKET)
    outer.end()
    if kind not in READERS:
        raise BadPacket(f"{kind} is no type of a packet")
    fields = Fields(content)
    read = READERS[kind](fields)
    fields.end()
    return read
