"""Quantities of settlements by the rules (RFC 0038), and corrections: what is read of any text, and what is credited of
it at the scale of an account."""
import json
import re
from dataclasses import dataclass
from typing import NoReturn

from long_runs.packets import MOST

NOT_JSON, BAD_AMOUNT, BAD_SCALE, TOO_LARGE = 31, 32, 33, 34
# Of a correction; it has no number that is printed.
BAD_REASON = 0


class BadQuantity(Exception):
    """A text that is no quantity, by the number of its first fault."""

    def __init__(self, number: int) -> None:
        super().__init__(str(number))
        self.number = number


@dataclass(frozen=True)
class Quantity:
    amount: int
    scale: int


@dataclass(frozen=True)
class Number:
    """A number as it is written."""

    text: str

    def whole(self) -> int | None:
        """Its value, where it is written as a whole one of at most 64 bits."""
        if re.fullmatch("[0-9]{1,20}", self.text) and int(self.text) <= MOST:
            return int(self.text)
        return None


def refuse(_: str) -> NoReturn:
    """NaN and the infinities are no JSON (RFC 8259, section 6)."""
    raise BadQuantity(NOT_JSON)


def read_json(octets: bytes) -> object:
    """A JSON text whose numbers stay as they are written; of two members of one name the last
    counts."""
    try:
        return json.loads(octets.decode("utf-8"), parse_int=Number, parse_float=Number,
                          parse_constant=refuse)
    except (ValueError, RecursionError):
        raise BadQuantity(NOT_JSON) from None


def read_amount(member: object) -> int:
    if isinstance(member, str) and re.fullmatch("[0-9]{1,38}", member):
        return int(member)
    whole = member.whole() if isinstance(member, Number) else None
    if whole is None:
        raise BadQuantity(BAD_AMOUNT)
    return whole


def read_scale(member: object) -> int:
    whole = member.whole() if isinstance(member, Number) else None
    if whole is None or whole > 255:
        raise BadQuantity(BAD_SCALE)
    return whole


def read_quantity(octets: bytes) -> Quantity:
    """The quantity that a text says, or its first fault."""
    value = read_json(octets)
    if not isinstance(value, dict):
        raise BadQuantity(NOT_JSON)
    amount = read_amount(value.get("amount"))
    return Quantity(amount, read_scale(value.get("scale")))


@dataclass(frozen=True)
class Correction:
    quantity: Quantity
    lowers: bool
    reason: bytes


def read_correction(octets: bytes) -> Correction:
    """The correction that a text says, or its first fault."""
    value = read_json(octets)
    if not isinstance(value, dict):
        raise BadQuantity(NOT_JSON)
    amount, reason = value.get("amount"), value.get("reason")
    if not isinstance(amount, str) or re.fullmatch("-?[0-9]{1,38}", amount) is None:
        raise BadQuantity(BAD_AMOUNT)
    scale = read_scale(value.get("scale"))
    try:
        told = reason.encode() if isinstance(reason, str) else b""
    except UnicodeEncodeError:
        # A lone surrogate.
        raise BadQuantity(NOT_JSON) from None
    if not 1 <= len(told) <= 128 or any(octet < 32 or octet == 127 for octet in told):
        raise BadQuantity(BAD_REASON)
    return Correction(Quantity(int(amount.lstrip("-")), scale), amount.startswith("-"), told)


def credited(quantity: Quantity, scale: int) -> int:
    """What a quantity comes to in units of this scale, rounded down."""
    units = quantity.amount * 10**scale // 10**quantity.scale
    if units > MOST:
        raise BadQuantity(TOO_LARGE)
    return units


def written(amount: int, scale: int) -> bytes:
    """A quantity as the connector writes it."""
    return f'{{"amount":"{amount}","scale":{scale}}}'.encode()
