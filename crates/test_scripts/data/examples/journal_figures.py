"""What the entries of journals come to over time: balances, packets an hour, and what is open.

report_page.py uses it. It needs Python 3.11, and amounts_and_times.py, charts.py and journal_reading.py beside it.
"""
from __future__ import annotations

from collections import Counter
from collections.abc import Callable, Iterable
from dataclasses import dataclass

from amounts_and_times import MOST_MOMENT
from charts import Columns
from journal_reading import Entry, NoJournal, Part, entries_of

HOUR = 3_600_000
HEAD = ("opened", "known", "pending")
PACKETS, FULFILLED = "packets", "fulfilled"
# Which way a correction moves a balance.
SIGNS = {"rises": 1, "falls": -1}


@dataclass
class Account:
    """A peer's balance over time, and what is open of the packets that it sent."""

    columns: Columns
    balance: int = 0
    least: int = 0
    most: int = 0
    holds: int = 0
    held: int = 0
    is_noted: bool = False

    def note(self, moment: int) -> None:
        """The balance from a moment on."""
        if not self.is_noted:
            self.least = self.most = self.balance
        self.is_noted = True
        self.least, self.most = min(self.least, self.balance), max(self.most, self.balance)
        self.columns.note(moment, self.balance)


@dataclass(frozen=True)
class Hold:
    """A packet that went on: who pays how much for it, and who gets how much."""

    sender: str
    receiver: str
    amount: int
    out: int


@dataclass(frozen=True)
class Settlement:
    """A settlement to a peer, and the moment since when it is known."""

    peer: str
    amount: int
    key: str
    since: int


@dataclass
class Period:
    """A period, from its first entry on."""

    number: int
    begin: int
    brought_forward: int = 0
    entries: int = 0


class Figures:
    """What the entries come to, one after the other. Of a peer that the configuration lacks the name alone is kept."""

    def __init__(self, run: str, names: Iterable[str], most_columns: int) -> None:
        self.run = run
        self.accounts = {name: Account(Columns(most_columns)) for name in names}
        self.unknown: set[str] = set()
        self.entries = self.first = self.last = 0
        self.hours: dict[int, Counter[str]] = {}
        self.periods: list[Period] = []
        # Of this period, by their numbers: packets that are held, and settlements that are open.
        self.holds: dict[int, Hold] = {}
        self.asks: dict[int, Settlement] = {}
        # By their keys, the settlements that were open before it.
        self.open_before: dict[str, Settlement] = {}
        # The number of the entry that is taken up.
        self.number = 0
        # What is done with an entry, by what it is.
        self.ways: dict[str, Callable[..., None]] = {
            "hold": self.hold, "fulfilled": self.fulfilled, "released": self.released, "credited": self.credited,
            "corrected": self.corrected, "known": self.known, "asked": self.asked, "confirmed": self.confirmed,
            "undone": self.undone, "opened": self.opened, "pending": self.pending}

    # ---- periods

    def read(self, part: Part) -> None:
        """Takes up the entries of a period."""
        self.open_before = {one.key: one for one in self.asks.values()}
        self.reset()
        in_head = True
        for entry in entries_of(part):
            self.begin(part.period, entry)
            if in_head and entry.what not in HEAD:
                self.note_all()
                in_head = False
            self.take(entry)
        if in_head:
            self.note_all()

    def reset(self) -> None:
        """A period begins with nothing but what its head says."""
        self.holds, self.asks = {}, {}
        for account in self.accounts.values():
            account.balance = account.holds = account.held = 0

    def begin(self, number: int, entry: Entry) -> None:
        """The next entry of a period, which may be its first."""
        self.last = max(self.last, min(entry.moment, MOST_MOMENT))
        if self.entries == 0:
            self.first = self.last
        if entry.number == 0:
            self.periods.append(Period(number, self.last))
        self.number = entry.number
        self.entries += 1
        self.periods[-1].entries += 1
        self.periods[-1].brought_forward += entry.what in HEAD

    def take(self, entry: Entry) -> None:
        """What an entry says."""
        try:
            self.ways[entry.what](*entry.fields)
        except (KeyError, TypeError, ValueError):
            raise NoJournal(f"the entry {entry.number} of the period {self.periods[-1].number} can't be: "
                            f"{entry.what}") from None

    def note_all(self) -> None:
        """The balances with which a period begins."""
        for account in self.accounts.values() if self.entries else ():
            account.note(self.last)

    # ---- entries

    def account(self, name: str) -> Account:
        """A peer's account; one that the configuration lacks has none that is kept."""
        if name not in self.accounts:
            self.unknown.add(name)
            return Account(Columns(1))
        return self.accounts[name]

    def move(self, name: str, units: int) -> None:
        """A balance that moves."""
        account = self.account(name)
        account.balance += units
        account.note(self.last)

    def count(self, what: str) -> None:
        """One more in this hour."""
        self.hours.setdefault(self.last // HOUR, Counter())[what] += 1

    def hold(self, sender: str, receiver: str, amount: str, _fee: str, out: str, *_others: str) -> None:
        """A packet went on."""
        self.holds[self.number] = Hold(sender, receiver, int(amount), int(out))
        self.change_held(sender, 1, int(amount))
        self.move(sender, -int(amount))
        self.count(PACKETS)

    def change_held(self, sender: str, holds: int, units: int) -> None:
        """More is held of a sender, or less."""
        account = self.account(sender)
        account.holds += holds
        account.held += units

    def end_of(self, number: str) -> Hold:
        """A packet that is held no longer."""
        hold = self.holds.pop(int(number))
        self.change_held(hold.sender, -1, -hold.amount)
        return hold

    def fulfilled(self, number: str, _preimage: str) -> None:
        """It was fulfilled."""
        hold = self.end_of(number)
        self.move(hold.receiver, hold.out)
        self.count(FULFILLED)

    def released(self, number: str, *cause: str) -> None:
        """It was not."""
        hold = self.end_of(number)
        self.move(hold.sender, hold.amount)
        self.count(cause_of(*cause))

    def credited(self, peer: str, _key: str, _amount: str, _scale: str, units: str) -> None:
        """A peer settled."""
        self.move(peer, int(units))

    def corrected(self, peer: str, _key: str, _amount: str, _scale: str, units: str, way: str, _reason: str) -> None:
        """A balance was corrected."""
        self.move(peer, SIGNS[way] * int(units))

    def asked(self, peer: str, amount: str) -> None:
        """A settlement to a peer was asked for."""
        period, number = self.periods[-1].number, self.number
        key = f"{self.run}.{period}-{number}" if period else f"{self.run}-{number}"
        self.asks[number] = Settlement(peer, int(amount), key, self.last)
        self.move(peer, -int(amount))

    def confirmed(self, number: str) -> None:
        """It was accepted."""
        del self.asks[int(number)]

    def undone(self, number: str) -> None:
        """It was refused."""
        ask = self.asks.pop(int(number))
        self.move(ask.peer, ask.amount)

    def opened(self, peer: str, balance: str) -> None:
        """A balance was brought forward."""
        self.account(peer).balance = int(balance)

    def known(self, *_fields: str) -> None:
        """A key was."""

    def pending(self, peer: str, amount: str, key: str) -> None:
        """An open settlement was; an earlier period says since when it is open."""
        text = bytes.fromhex(key).decode("ascii")
        new = Settlement(peer, int(amount), text, self.last)
        self.asks[self.number] = self.open_before.get(text, new)


def cause_of(cause: str, code: str = "") -> str:
    """Why a packet was not fulfilled: the code of a peer's Reject as a text, where it is of letters and digits.

    >>> cause_of("Late"), cause_of("Peer", "543034"), cause_of("Peer", "000000")
    ('Late', 'T04', '000000')
    """
    text = bytes.fromhex(code).decode("latin-1")
    return cause if not code else text if text.isascii() and text.isalnum() else code
