"""What the journals of all periods of a hub come to, beside what its peers and engines saw."""
from collections import defaultdict
from dataclasses import dataclass, field
from pathlib import Path

from cases.case import Differs, expect, expect_that
from hub_hours.peers import SCALE, Flow, Seen
from killing.period_books import PeriodBook, beside, book_of, expect_following, octets_of


@dataclass
class Booked:
    """What the periods have booked of a peer, as it saw it."""

    sent: Flow = field(default_factory=Flow)
    received: Flow = field(default_factory=Flow)
    credited: dict[str, int] = field(default_factory=dict)
    asked: dict[str, int] = field(default_factory=dict)
    confirmed: set[str] = field(default_factory=set)
    undone: set[str] = field(default_factory=set)


class Books:
    """All periods, one behind the other, of which only the last one is kept in memory."""

    def __init__(self, journal: Path, peers: list[str]) -> None:
        self.peers = peers
        self.booked: dict[str, Booked] = defaultdict(Booked)
        self.fees, self.count = 0, 0
        self.last = self.read(octets_of(beside(journal, "0")) or octets_of(journal))
        while (text := octets_of(beside(journal, str(self.last.period + 1)))) is not None:
            self.go_on(text)
        # The journal is of the last period, or there is one alone.
        if octets_of(beside(journal, "0")) is not None:
            self.go_on(octets_of(journal))

    def go_on(self, text: bytes | None) -> None:
        """The next period, which follows the last one."""
        book = self.read(text)
        expect_following(self.last, book, self.peers)
        self.last = book

    def read(self, text: bytes | None) -> PeriodBook:
        """Reads a period, and adds what it has booked."""
        if text is None:
            raise Differs("a journal is not there")
        book = book_of(text)
        self.count += book.count - len(book.head)
        self.fees += book.sums["fees"]
        for preimage, hold in book.passed:
            self.booked[hold.sender].sent.add(hold.amount, bytes.fromhex(preimage))
            self.booked[hold.receiver].received.add(hold.out, bytes.fromhex(preimage))
        for (peer, key), (amount, *told) in book.credits.items():
            expect("the scale of a credit, and nothing of a correction", told, [SCALE])
            self.booked[peer].credited[bytes.fromhex(key).decode("ascii")] = amount
        for key, (peer, amount) in book.asked_for().items():
            self.booked[peer].asked[key] = amount
        for what, numbers in (("confirmed", book.confirmed_asks), ("undone", book.undone_asks)):
            for number in numbers:
                getattr(self.booked[book.asks[number][0]], what).add(book.keys[number])
        return book

    # ---- beside what was seen

    def expect_seen(self, name: str, seen: Seen) -> None:
        """What a peer and its engine saw is what the periods have, to the unit, and so is its balance."""
        booked = self.booked[name]
        expect(f"{name}: the Fulfills that its senders got", seen.sent, booked.sent)
        expect(f"{name}: those that its server gave", seen.received, booked.received)
        expect(f"{name}: the settlements that are credited", seen.credited, booked.credited)
        still_open = {self.last.keys[number] for number in self.last.open_asks}
        expect(f"{name}: settlements that were asked for and not booked",
               {key: amount for key, amount in seen.asked.items() if booked.asked.get(key) != amount}, {})
        expect(f"{name}: settlements that were booked, and neither asked for nor open",
               set(booked.asked) - set(seen.asked) - still_open, set())
        expect(f"{name}: settlements that were confirmed and not accepted", booked.confirmed - seen.accepted, set())
        expect(f"{name}: those that were accepted, and are neither confirmed nor open",
               seen.accepted - booked.confirmed - still_open, set())
        expect(f"{name}: settlements that were undone and not refused", booked.undone - seen.refused, set())
        paid = sum(amount for key, amount in booked.asked.items() if key not in booked.undone)
        expect(f"{name}: its balance", self.last.balances[name],
               seen.received.units - seen.sent.units + sum(seen.credited.values()) - paid)

    def expect_fees(self) -> None:
        """All that senders paid went to receivers, but for the fees."""
        sent, received = (sum(getattr(one, way).units for one in self.booked.values()) for way in ("sent", "received"))
        expect("the fees of all periods", self.fees, sent - received)

    def expect_many(self, least: int) -> None:
        """There were so many periods at least."""
        periods = self.last.period + 1
        expect_that(f"there were {periods} periods, and not {least}", periods >= least)
