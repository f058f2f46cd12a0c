"""What a journal says, read by the rules of docs/PROTOCOL.md alone."""
import hashlib
import re
from collections import Counter
from collections.abc import Callable
from dataclasses import dataclass

from cases.case import Differs, expect, expect_that

# Which way a correction moves a balance.
SIGNS = {"rises": 1, "falls": -1}

# What a book keeps under a key: the quantity; of a correction its direction and, in hexadecimal, its reason too.
KeptCredit = tuple[int, int] | tuple[int, int, str, str]

FORM = re.compile(rb"ilp-journal (?:1|2 (?P<period>[1-9]\d*))\n")


def period_in(journal: bytes) -> int:
    """The number of the period that a journal's text is of."""
    found = FORM.match(journal)
    if found is None:
        raise Differs("a journal has not the first line of one")
    return int(found["period"] or 0)


def entries_in(journal: bytes) -> bytes:
    """The lines of entries of a journal's text, which must be whole."""
    period_in(journal)
    lines = journal.partition(b"\n")[2]
    entries, _, last = lines.removesuffix(b"\n").rpartition(b"\n")
    entries += b"\n" if entries else b""
    expect("the last line of a journal", last + lines[-1:], b"end %d\n" % entries.count(b"\n"))
    return entries


def entries_kept(journal: bytes | None, log: bytes | None) -> bytes:
    """The lines of entries that a journal and its log have together, as a sudden stop left them."""
    entries = entries_in(journal) if journal is not None else b""
    if log is None:
        return entries
    whole = log.partition(b"\0")[0]
    lines = whole[:whole.rfind(b"\n") + 1].split(b"\n", 2)
    expect("how many lines of its head a log has", len(lines), 3)
    if goes_on_from(log, journal):
        return entries + lines[2]
    # One of an older text has nothing that the journal has not.
    expect_that("a log is of another journal, which is not there", journal is not None)
    return entries


def goes_on_from(log: bytes, journal: bytes | None) -> bool:
    """Whether a log goes on from this text of a journal, or from none."""
    return log.partition(b"\n")[0].split()[-1] == hashlib.sha256(journal or b"").hexdigest().encode()


@dataclass(frozen=True)
class Hold:
    """What an entry of a hold says."""

    sender: str
    receiver: str
    amount: int
    fee: int
    out: int
    condition: str


class Book:
    """A book of alice and bob in one asset, that is reckoned from entries, one after the other."""

    def __init__(self) -> None:
        # The lines of its entries.
        self.text = b""
        self.count = 0
        self.balances: Counter[str] = Counter()
        self.sums: Counter[str] = Counter()
        self.holds: dict[int, Hold] = {}
        # By preimage; by peer and key; by number, peer and amount.
        self.fulfills: dict[str, Hold] = {}
        self.credits: dict[tuple[str, str], KeptCredit] = {}
        self.asks: dict[int, tuple[str, int]] = {}
        self.open_asks: set[int] = set()
        # The numbers of reports that were given, by how many entries there were.
        self.reports: dict[int, list[int]] = {}
        # What is done with an entry, by what it is.
        self.ways: dict[str, Callable[..., None]] = {
            "hold": self.hold, "fulfilled": self.fulfilled, "released": self.released, "credited": self.credited,
            "corrected": self.corrected, "asked": self.asked, "confirmed": self.confirmed, "undone": self.undone}

    def reported(self, numbers: list[int]) -> None:
        """A report of the connector, which may have booked more than its journal has by now."""
        self.reports[numbers[9]] = numbers
        self.check_report()

    def check_report(self) -> None:
        """Compares the report of so many entries, if one was given."""
        if self.count in self.reports:
            expect(f"the report of {self.count} entries", self.reports.pop(self.count), self.numbers())

    def extend(self, entries: bytes) -> None:
        """Goes on with the entries of a later journal, which must have all of this one."""
        expect_that(f"of {self.count} entries that were there some are lost or changed", entries.startswith(self.text))
        for line in entries[len(self.text):].decode().splitlines():
            self.add(line)
        self.text = entries
        expect(f"reports of more than the {self.count} entries that are there", self.reports, {})

    def add(self, line: str) -> None:
        """The next entry."""
        _moment, _actor, what, *fields = line.split(" ")
        try:
            self.ways[what](*fields)
        except (KeyError, TypeError, ValueError):
            raise Differs(f"the entry {self.count} can't be: {line!r}") from None
        self.count += 1
        self.check_report()

    def numbers(self) -> list[int]:
        """The numbers of a report of these entries."""
        sent = Counter(hold.sender for hold in self.holds.values())
        names = ("alice", "bob")
        return [*(self.balances[name] for name in names), *(sent[name] for name in names),
                sum(hold.amount for hold in self.holds.values()),
                *(self.sums[what] for what in ("fees", "bought", "sold", "settled")), self.count, len(self.fulfills)]

    # ---- entries

    def hold(self, sender: str, receiver: str, amount: str, fee: str, out: str, _deadline: str, condition: str) -> None:
        """What went on."""
        self.holds[self.count] = Hold(sender, receiver, int(amount), int(fee), int(out), condition)
        self.balances[sender] -= int(amount)

    def fulfilled(self, number: str, preimage: str) -> None:
        """What was answered so."""
        hold = self.holds.pop(int(number))
        expect(f"the condition of the hold {number}", hold.condition,
               hashlib.sha256(bytes.fromhex(preimage)).hexdigest())
        self.note_fulfilled(preimage, hold)
        self.balances[hold.receiver] += hold.out
        self.sums["fees"] += hold.fee
        self.sums["bought"] += hold.amount - hold.fee
        self.sums["sold"] += hold.out

    def note_fulfilled(self, preimage: str, hold: Hold) -> None:
        """Keeps a hold that was fulfilled by this."""
        expect_that(f"the preimage {preimage} was there before", preimage not in self.fulfills)
        self.fulfills[preimage] = hold

    def released(self, number: str, *_cause: str) -> None:
        """What came to nothing."""
        hold = self.holds.pop(int(number))
        self.balances[hold.sender] += hold.amount

    def credited(self, peer: str, key: str, amount: str, scale: str, units: str) -> None:
        """What a peer paid."""
        self.expect_new(peer, key)
        self.credits[peer, key] = int(amount), int(scale)
        self.settle(peer, int(units))

    def corrected(self, peer: str, key: str, amount: str, scale: str, units: str, way: str, reason: str) -> None:
        """A balance that was corrected."""
        self.expect_new(peer, key)
        self.credits[peer, key] = int(amount), int(scale), way, reason
        self.settle(peer, SIGNS[way] * int(units))

    def expect_new(self, peer: str, key: str) -> None:
        """No credit and no correction of a peer's has a key yet."""
        expect_that(f"the key {key} of {peer} is booked twice", (peer, key) not in self.credits)

    def asked(self, peer: str, amount: str) -> None:
        """What a peer is to be paid."""
        self.asks[self.count] = peer, int(amount)
        self.open_asks.add(self.count)
        self.settle(peer, -int(amount))

    def confirmed(self, number: str) -> None:
        """A settlement that its engine accepted."""
        self.open_asks.remove(int(number))

    def undone(self, number: str) -> None:
        """One that it refused."""
        self.open_asks.remove(int(number))
        peer, amount = self.asks[int(number)]
        self.settle(peer, amount)

    def settle(self, peer: str, units: int) -> None:
        """A balance that moves by what is settled."""
        self.balances[peer] += units
        self.sums["settled"] += units
