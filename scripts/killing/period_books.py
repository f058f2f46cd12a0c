"""What the journals of a connector's periods say, one behind the other, read by the rules of docs/PROTOCOL.md alone."""
from collections import Counter
from collections.abc import Iterable
from pathlib import Path

from cases.case import Differs, expect
from cases.program import RUN
from killing.books import SIGNS, Book, Hold, KeptCredit, entries_in, entries_kept, goes_on_from, period_in


class PeriodBook(Book):
    """The book of a period, which may begin with what an earlier one has brought forward."""

    def __init__(self, period: int) -> None:
        super().__init__()
        self.period = period
        # Keys that were brought forward, each with what stands behind it; by number, the key of a settlement.
        self.known: dict[tuple[str, str], list[str]] = {}
        self.keys: dict[int, str] = {}
        # The numbers of settlements that engines accepted and refused.
        self.confirmed_asks: list[int] = []
        self.undone_asks: list[int] = []
        # How those that keep their keys are brought forward, in order.
        self.kept: list[str] = []
        # What stands before its first entry of another kind.
        self.head: list[str] = []
        # What was fulfilled, in order, each with its preimage.
        self.passed: list[tuple[str, Hold]] = []
        self.ways |= {"opened": self.opened, "known": self.brought_key, "pending": self.pending}

    def add(self, line: str) -> None:
        """The next entry."""
        what = " ".join(line.split(" ")[2:])
        if what.startswith(("opened ", "known ", "pending ")):
            expect(f"the entries before {what!r} that were not brought forward", self.count, len(self.head))
            self.head.append(what)
        super().add(line)

    # ---- entries

    def note_fulfilled(self, preimage: str, hold: Hold) -> None:
        """Keeps a hold that was fulfilled by this, be it for the first time or not."""
        self.passed.append((preimage, hold))

    def opened(self, peer: str, balance: str) -> None:
        """A balance that was brought forward."""
        self.settle(peer, int(balance))

    def brought_key(self, peer: str, key: str, amount: str, scale: str, units: str, *correction: str) -> None:
        """A key that was, of a credit or of a correction, which has a direction and a reason more."""
        self.expect_new(peer, key)
        way, reason = correction or ("rises", "00")
        expect(f"what a known key says {correction}", (way in SIGNS, bytes.fromhex(reason) != b""), (True, True))
        self.known[peer, key] = [amount, scale, units, *correction]
        self.kept.append(" ".join(("known", peer, key, amount, scale, units, *correction)))

    def credited(self, peer: str, key: str, amount: str, scale: str, units: str) -> None:
        """What a peer paid."""
        super().credited(peer, key, amount, scale, units)
        self.kept.append(f"known {peer} {key} {amount} {scale} {units}")

    def corrected(self, peer: str, key: str, amount: str, scale: str, units: str, way: str, reason: str) -> None:
        """A balance that was corrected."""
        super().corrected(peer, key, amount, scale, units, way, reason)
        self.kept.append(f"known {peer} {key} {amount} {scale} {units} {way} {reason}")

    def expect_new(self, peer: str, key: str) -> None:
        """No entry has a key of a peer's, and none was brought forward."""
        super().expect_new(peer, key)
        expect(f"the key {key} of {peer} before", self.known.get((peer, key)), None)

    def pending(self, peer: str, amount: str, key: str) -> None:
        """A settlement that was open."""
        self.keys[self.count] = bytes.fromhex(key).decode("ascii")
        self.asks[self.count] = peer, int(amount)
        self.open_asks.add(self.count)

    def asked(self, peer: str, amount: str) -> None:
        """What a peer is to be paid."""
        self.keys[self.count] = f"{RUN}{f'.{self.period}' if self.period else ''}-{self.count}"
        super().asked(peer, amount)

    def confirmed(self, number: str) -> None:
        """A settlement that its engine accepted."""
        super().confirmed(number)
        self.confirmed_asks.append(int(number))

    def undone(self, number: str) -> None:
        """One that it refused."""
        super().undone(number)
        self.undone_asks.append(int(number))

    # ---- what comes behind it

    def head_behind(self, peers: Iterable[str]) -> list[str]:
        """What the next period begins with, for a configuration of these peers in order."""
        opened = [f"opened {peer} {self.balances[peer]}" for peer in peers if self.balances[peer] != 0]
        pending = [f"pending {self.asks[number][0]} {self.asks[number][1]} {self.keys[number].encode().hex()}"
                   for number in sorted(self.open_asks)]
        return opened + self.kept + pending

    def asked_for(self) -> dict[str, tuple[str, int]]:
        """Peer and amount of each settlement that is asked for or open, by its key."""
        return {key: self.asks[number] for number, key in self.keys.items()}


def book_of(journal: bytes | None, log: bytes | None = None) -> PeriodBook:
    """The book of a journal and its log. A text that isn't there is that of an opening."""
    book = PeriodBook(period_in(journal) if journal is not None else 0)
    book.extend(entries_kept(journal, log) if log is not None or journal is None else entries_in(journal))
    return book


def expect_following(ended: PeriodBook, next_one: PeriodBook, peers: Iterable[str]) -> None:
    """A period begins with what the one before has brought forward."""
    expect("the period behind one", next_one.period, ended.period + 1)
    expect(f"holds that were open at the end of the period {ended.period}", ended.holds, {})
    expect(f"the head of the period {next_one.period}", next_one.head, ended.head_behind(peers))


def read_standing(journal: Path) -> tuple[bytes | None, bytes | None, PeriodBook | None]:
    """The text and the log of the period that goes on; and the book of the one before, where its log was set aside and
    its text does not take the journal's place yet."""
    text, log, ended = (octets_of(path) for path in (journal, beside(journal, "log"), beside(journal, "ended")))
    if ended is None or not goes_on_from(ended, text):
        return text, log, None
    if (following := octets_of(beside(journal, "next"))) is not None:
        return following, log, book_of(text, ended)
    expect("the log beside one that was set aside", log, None)
    return text, ended, None


class Periods:
    """The books of a journal and of all periods before it, each of which follows the one before."""

    def __init__(self, peers: Iterable[str] = ("alice", "bob")) -> None:
        self.peers = list(peers)
        self.books: list[PeriodBook] = []

    def read(self, journal: Path) -> None:
        """Reads the periods that have ended since, and the one that goes on. A log counts as a start reads it."""
        text, log, aside = read_standing(journal)
        now = book_of(text, log)
        kept = now.period if aside is None else now.period - 1
        ended = [self.ended(journal, period) for period in range(max(len(self.books) - 1, 0), kept)]
        for book in [*ended, *([aside] if aside is not None else []), now]:
            self.follow(book)

    def ended(self, journal: Path, period: int) -> PeriodBook:
        """The book of a period that has ended."""
        kept = octets_of(beside(journal, str(period)))
        if kept is None:
            raise Differs(f"the period {period} has ended, and its text is not kept")
        return book_of(kept)

    def follow(self, book: PeriodBook) -> None:
        """One more period, or the last one again, which has gone on."""
        if self.books and self.books[-1].period == book.period:
            lost = not book.text.startswith(self.books[-1].text)
            expect(f"whether entries of the period {book.period} are lost or changed", lost, False)
            self.books.pop()
        if self.books:
            expect_following(self.books[-1], book, self.peers)
        else:
            expect("the first period", book.period, 0)
        self.books.append(book)

    @property
    def last(self) -> PeriodBook:
        """The period that goes on."""
        return self.books[-1]

    def entries(self) -> int:
        """How many entries there are that were not brought forward."""
        return sum(book.count - len(book.head) for book in self.books)

    def fulfills(self) -> dict[str, Hold]:
        """What was fulfilled in all periods, by its preimage, by which nothing else was."""
        passed = [one for book in self.books for one in book.passed]
        found = dict(passed)
        expect("how many preimages stand there", len(found), len(passed))
        return found

    def credits(self) -> dict[tuple[str, str], KeptCredit]:
        """What was credited and corrected in all periods, by peer and key."""
        credited = [one for book in self.books for one in book.credits.items()]
        found = dict(credited)
        expect("how many keys are credited", len(found), len(credited))
        return found

    def asked_for(self) -> dict[str, tuple[str, int]]:
        """Peer and amount of each settlement that was asked for in a period, by its key."""
        return {key: ask for book in self.books for key, ask in book.asked_for().items()}

    def sums(self) -> Counter[str]:
        """The sums of fees, and of what was bought and sold, of all periods."""
        return sum((Counter({what: book.sums[what] for what in ("fees", "bought", "sold")}) for book in self.books),
                   Counter[str]())


def octets_of(path: Path) -> bytes | None:
    """What a file has, if it is there."""
    return path.read_bytes() if path.exists() else None


def beside(journal: Path, kind: str) -> Path:
    """The file of this kind beside a journal."""
    return journal.with_name(f"{journal.name}.{kind}")
