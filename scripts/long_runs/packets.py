"""Packets by the rules (RFC 0027, RFC 0030, RFC 0015): how they are written, and what is read of any
octets."""
import re
from dataclasses import dataclass

MOST = 2**64 - 1
MOST_DATA, MOST_MESSAGE, MOST_ADDRESS = 32_767, 8_191, 1_023

# Moments in milliseconds since 1970: the year 0000 begins, 9999 ends.
FIRST_MOMENT, LAST_MOMENT = -62_167_219_200_000, 253_402_300_799_999
DAY = 86_400_000

TRUNCATED, BAD_PREFIX, TOO_LONG, UNKNOWN_TYPE, TRAILING = 1, 2, 3, 4, 5
BAD_EXPIRY, BAD_ADDRESS, FIELD_TOO_LONG, NOT_PREPARE = 6, 7, 8, 10
FAULTS = {TRUNCATED: "Truncated", BAD_PREFIX: "BadPrefix", TOO_LONG: "TooLong",
          UNKNOWN_TYPE: "UnknownType", TRAILING: "Trailing", BAD_EXPIRY: "BadExpiry",
          BAD_ADDRESS: "BadAddress", FIELD_TOO_LONG: "FieldTooLong", NOT_PREPARE: "NotPrepare"}

SCHEMES = ("g", "private", "example", "peer", "self", "test", "test1", "test2", "test3", "local")
ADDRESS = re.compile(rb"(?:%s)(?:\.[A-Za-z0-9_~-]+)+" % "|".join(SCHEMES).encode())


class Faulty(Exception):
    """Octets that are no packet, by the number of their first fault."""

    def __init__(self, number: int) -> None:
        super().__init__(FAULTS[number])
        self.number = number


@dataclass(frozen=True)
class Prepare:
    amount: int
    expires: int
    condition: bytes
    destination: bytes
    data: bytes = b""

    def octets(self) -> bytes:
        return wrapped(12, self.amount.to_bytes(8, "big") + expiry_digits(self.expires)
                       + self.condition + string(self.destination) + string(self.data))


@dataclass(frozen=True)
class Fulfill:
    preimage: bytes
    data: bytes = b""

    def octets(self) -> bytes:
        return wrapped(13, self.preimage + string(self.data))


@dataclass(frozen=True)
class Reject:
    code: bytes
    triggered_by: bytes = b""
    message: bytes = b""
    data: bytes = b""

    def octets(self) -> bytes:
        return wrapped(14, self.code + string(self.triggered_by) + string(self.message)
                       + string(self.data))


Packet = Prepare | Fulfill | Reject


# ---- octet strings (RFC 0030)

def prefix(size: int) -> bytes:
    """The one prefix of a length of at most 65,535."""
    if size < 128:
        return bytes([size])
    return bytes([0x81, size]) if size < 256 else b"\x82" + size.to_bytes(2, "big")


def string(content: bytes) -> bytes:
    return prefix(len(content)) + content


def wrapped(kind: int, content: bytes) -> bytes:
    """A packet of this type."""
    return bytes([kind]) + string(content)


def read_string(octets: bytes) -> tuple[bytes, bytes]:
    """The content of the octet string at the front, and what follows it."""
    if not octets:
        raise Faulty(TRUNCATED)
    first = octets[0]
    if first == 0x80:
        raise Faulty(BAD_PREFIX)
    if first >= 0x83:
        raise Faulty(TOO_LONG)
    more = first - 0x80 if first > 0x80 else 0
    if len(octets) < 1 + more:
        raise Faulty(TRUNCATED)
    size = int.from_bytes(octets[1:1 + more], "big") if more else first
    if octets[:1 + more] != prefix(size):
        raise Faulty(BAD_PREFIX)
    content, rest = octets[1 + more:1 + more + size], octets[1 + more + size:]
    if len(content) < size:
        raise Faulty(TRUNCATED)
    return content, rest


# ---- expiries

def days_before(year: int) -> int:
    """The days of the years from 0000 up to this one, without it."""
    before = year - 1
    return 365 * year + before // 4 - before // 100 + before // 400 + 1


def is_leap(year: int) -> bool:
    return year % 4 == 0 and (year % 100 != 0 or year % 400 == 0)


def days_of(year: int) -> list[int]:
    """How many days each month of a year has."""
    return [31, 29 if is_leap(year) else 28, 31, 30, 31, 30, 31, 31, 30, 31, 30, 31]


def read_expiry(digits: bytes) -> int:
    """The moment that 17 digits name."""
    if not re.fullmatch(rb"[0-9]{17}", digits):
        raise Faulty(BAD_EXPIRY)
    year, month, day = int(digits[:4]), int(digits[4:6]), int(digits[6:8])
    hour, minute, second = int(digits[8:10]), int(digits[10:12]), int(digits[12:14])
    in_year = 1 <= month <= 12 and 1 <= day <= days_of(year)[month - 1]
    if not in_year or hour > 23 or minute > 59 or second > 59:
        raise Faulty(BAD_EXPIRY)
    days = days_before(year) - days_before(1970) + sum(days_of(year)[:month - 1]) + day - 1
    return days * DAY + ((hour * 60 + minute) * 60 + second) * 1000 + int(digits[14:])


def expiry_digits(moment: int) -> bytes:
    """The 17 digits of a moment."""
    days, rest = divmod(moment - FIRST_MOMENT, DAY)
    # A year has at most 366 days, so this one is at most a few years early.
    year = days // 366
    while days_before(year + 1) <= days:
        year += 1
    left = days - days_before(year)
    months = days_of(year)
    month = next(m for m in range(12) if left < sum(months[:m + 1]))
    day = left - sum(months[:month]) + 1
    minutes, milliseconds = divmod(rest, 60_000)
    return (f"{year:04}{month + 1:02}{day:02}{minutes // 60:02}{minutes % 60:02}"
            f"{milliseconds // 1000:02}{milliseconds % 1000:03}").encode()


# ---- packets

def is_address(octets: bytes) -> bool:
    return len(octets) <= MOST_ADDRESS and ADDRESS.fullmatch(octets) is not None


def is_scheme(octets: bytes) -> bool:
    return octets in [scheme.encode() for scheme in SCHEMES]


class Fields:
    """The content of a packet, which is read from left to right."""

    def __init__(self, content: bytes) -> None:
        self.left = content

    def fixed(self, size: int) -> bytes:
        if len(self.left) < size:
            raise Faulty(TRUNCATED)
        field, self.left = self.left[:size], self.left[size:]
        return field

    def string(self, most: int) -> bytes:
        content, self.left = read_string(self.left)
        if len(content) > most:
            raise Faulty(FIELD_TOO_LONG)
        return content

    def address(self) -> bytes:
        content, self.left = read_string(self.left)
        if not is_address(content):
            raise Faulty(BAD_ADDRESS)
        return content

    def end(self) -> None:
        if self.left:
            raise Faulty(TRAILING)


def read_packet(octets: bytes) -> Packet:
    """The packet that these octets are, or their first fault."""
    if not octets:
        raise Faulty(TRUNCATED)
    if octets[0] not in (12, 13, 14):
        raise Faulty(UNKNOWN_TYPE)
    content, rest = read_string(octets[1:])
    if rest:
        raise Faulty(TRAILING)
    fields = Fields(content)
    packet: Packet
    if octets[0] == 12:
        packet = Prepare(int.from_bytes(fields.fixed(8), "big"), read_expiry(fields.fixed(17)),
                         fields.fixed(32), fields.address(), fields.string(MOST_DATA))
    elif octets[0] == 13:
        packet = Fulfill(fields.fixed(32), fields.string(MOST_DATA))
    else:
        packet = Reject(fields.fixed(3), fields.string(MOST_ADDRESS),
                        fields.string(MOST_MESSAGE), fields.string(MOST_DATA))
    fields.end()
    return packet


def read_prepare(octets: bytes) -> Prepare:
    """The Prepare that these octets are, or their first fault."""
    packet = read_packet(octets)
    if not isinstance(packet, Prepare):
        raise Faulty(NOT_PREPARE)
    return packet
