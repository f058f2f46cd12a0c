"""The packets that alice sends, and what must become of each."""
import secrets
from dataclasses import dataclass
from itertools import cycle
from time import time_ns

from ilp_packets import Prepare, digest

# In seconds: when a packet expires.
EXPIRES = 60.0

SHOP = "test.south.bob.shop"


@dataclass(frozen=True)
class Outcome:
    """How a packet ends: by which code of whom it is rejected, if it is, and which books held it."""

    code: str = ""
    by: str = ""
    message: str = ""
    held_by: tuple[str, ...] = ()

    def __str__(self) -> str:
        return f"{self.code} {self.message} by {self.by}" if self.code else "fulfilled"


PAID = Outcome(held_by=("north", "south"))
NO_PREIMAGE = Outcome("F05", "test.south.bob", "no preimage for this condition", ("north", "south"))
NOBODY_AT_SOUTH = Outcome("F02", "test.south", "unreachable", ("north",))
NOBODY = Outcome("F02", "test.north", "unreachable")
TOO_LARGE = Outcome("F08", "test.north", "amount too large")
TOO_SMALL = Outcome("R01", "test.north", "insufficient source amount")
TOO_LATE = Outcome("R00", "test.north", "timed out")
NO_MONEY = Outcome("T04", "test.north", "insufficient liquidity")


@dataclass(frozen=True)
class Payment:
    """A packet, and what must become of it."""

    amount: int
    outcome: Outcome = PAID
    destination: str = SHOP
    seconds: float = EXPIRES
    preimage: bytes = bytes(32)

    def prepare(self) -> Prepare:
        """The packet, as of now."""
        expires = time_ns() // 1_000_000 + round(self.seconds * 1000)
        return Prepare(self.amount, expires, digest(self.preimage), self.destination)


def paid(amount: int) -> Payment:
    """A packet that bob fulfills."""
    return Payment(amount, preimage=secrets.token_bytes(32))


# One above north's `max_packet`, and one of which the fee leaves nothing.
LARGE, SMALL = 10_001, 1


def rejected() -> list[Payment]:
    """One packet for each reason to reject it."""
    return [Payment(500, NO_PREIMAGE, preimage=secrets.token_bytes(32)),
            Payment(500, NOBODY_AT_SOUTH, "test.south.carol"),
            Payment(500, NOBODY, "test.west.dave"),
            Payment(LARGE, TOO_LARGE),
            Payment(SMALL, TOO_SMALL),
            Payment(500, TOO_LATE, seconds=-1.0)]


def mixed(amounts: list[int]) -> list[Payment]:
    """Packets of these amounts, which come in fours, with one among each four that must be rejected."""
    payments: list[Payment] = []
    faulty = cycle(rejected())
    for place, amount in enumerate(amounts, start=1):
        payments.append(paid(amount))
        if place % 4 == 2:
            payments.append(next(faulty))
    return payments


# By the fees and prices of the two configurations the last packet of each of these takes what north owes
# south, and what south owes bob, to 400.00 EUR or more, so that a settlement is due then and not before.
FIRST = [*(100 + 10 * place for place in range(79)), 9000]
SECOND = [9000, 9000, 9000, 10_000]
THIRD = [*(1900 + 10 * place for place in range(15)), 10_000]


def preimages_of(payments: list[Payment]) -> list[bytes]:
    """What bob has the preimages of."""
    return [one.preimage for one in payments if one.outcome == PAID]


def counted(payments: list[Payment]) -> str:
    """How many are fulfilled, and how many are rejected by whom, with which codes."""
    outcomes = [payment.outcome for payment in payments]
    text = f"{outcomes.count(PAID)} fulfilled"
    for by in dict.fromkeys(outcome.by for outcome in outcomes if outcome.code):
        codes = [outcome.code for outcome in outcomes if outcome.by == by]
        rejected_by = "by" if " rejected " in text else "rejected by"
        text += f", {len(codes)} {rejected_by} {by} ({' '.join(dict.fromkeys(codes))})"
    return text
