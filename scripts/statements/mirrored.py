"""Two books of one peering by chance, each the other's mirror but for what was planted, and what must be found."""
import hashlib
import random
from collections import Counter
from collections.abc import Iterable, Iterator
from dataclasses import dataclass, field

from killing.period_books import book_of

# A peer of each book is the other one, and a second one stands behind it.
NAMES = {"ours": ("them", "shop"), "theirs": ("us", "bank")}
RUNS = {"ours": "hub", "theirs": "spoke"}
BEGIN = 1_795_723_200_000


def configuration(names: Iterable[str], scale: int, run: str = "hub") -> str:
    """A configuration of these peers, of which a statement takes no more."""
    peers = "".join(f'[[peer]]\nname = "{name}"\nasset = "USD/{scale}"\nleast = -1000\n' for name in names)
    return f'run = "{run}"\n[[asset]]\ncode = "USD"\nscale = {scale}\n{peers}'


@dataclass(frozen=True)
class Happening:
    """An entry of a book to come: when, in which book, what it begins or ends, and its fields."""

    moment: int
    book: str
    thread: int
    what: str
    fields: str


@dataclass
class Books:
    """What happens in both, and the groups and sums that are to be found."""

    chance: random.Random
    scale: int
    shared_conditions: bool = False
    happenings: list[Happening] = field(default_factory=list)
    counts: Counter[str] = field(default_factory=Counter)
    sums: Counter[str] = field(default_factory=Counter)
    threads: int = 0
    moment: int = BEGIN
    # A moment at which nothing ends.
    cut: int = BEGIN

    # ---- what happens

    def expect(self, group: str, units: int) -> None:
        """One more of a group."""
        self.counts[group] += 1
        self.sums[group] += units

    def amount(self) -> int:
        """An amount that no other has, unless conditions are shared too."""
        if self.shared_conditions:
            return self.chance.choice((1, 5))
        return self.threads + self.chance.randrange(1, 10**15) * 10**4

    def begin(self, book: str, what: str, fields: str) -> None:
        """An entry that begins something, or stands alone."""
        self.happenings.append(Happening(self.moment, book, self.threads, what, fields))

    def end(self, book: str, what: str, fields: str = "") -> None:
        """An entry that ends it, some time later."""
        moment = self.moment + self.chance.randrange(1, 50)
        self.happenings.append(Happening(moment, book, self.threads, what, fields))

    def next_thread(self) -> None:
        """Something new happens, some time later."""
        self.threads += 1
        self.moment += self.chance.randrange(0, 100)

    def packet(self, sender: str, receiver: str, amount: int, ends: str, out: int | None = None) -> None:
        """A packet from one book to the other, with its end at the sender's and at the receiver's: `f` and `r` are
        fulfilled and released, `o` is open, and `-` has no entry at all. The sender may say another amount out."""
        preimage = bytes(32) if self.shared_conditions else self.chance.randbytes(32)
        condition = hashlib.sha256(preimage).hexdigest()
        out = amount if out is None else out
        for book, end in zip((sender, receiver), ends):
            other, behind = NAMES[book]
            if end != "-":
                says = (f"{behind} {other} {out + 3} 3 {out}" if book == sender
                        else f"{other} {behind} {amount} 1 {amount - 1}")
                self.begin(book, "hold", f"{says} {self.moment + 30_000} {condition}")
            if end in "fr":
                self.end(book, *(("fulfilled", preimage.hex()) if end == "f" else ("released", "Peer 543034")))

    def settlement(self, payer: str, receiver: str, amount: int, end: str, credited: int | None,
                   key: str | None = None) -> None:
        """A settlement from one book to the other: `c` and `u` are confirmed and undone, `o` is open, and `-` was not
        asked for. It is credited under the payer's key, unless another is given."""
        if end != "-":
            self.begin(payer, "asked", f"{NAMES[payer][0]} {amount}")
        if end in "cu":
            self.end(payer, {"c": "confirmed", "u": "undone"}[end])
        if credited is not None:
            self.begin(receiver, "credited", f"{NAMES[receiver][0]} {key or 'KEY'} {credited} {self.scale} {credited}")

    def correction(self, book: str, amount: int, way: str) -> None:
        """A correction of a book's own, which rises or falls."""
        key, reason = (text.encode().hex() for text in (f"own{self.threads}", "charged back"))
        self.begin(book, "corrected", f"{NAMES[book][0]} {key} {amount} {self.scale} {amount} {way} {reason}")

    # ---- texts

    def texts(self) -> dict[str, str]:
        """Both journals, in order of time."""
        return self.texts_of(self.happenings, 0, {book: [] for book in NAMES})

    def texts_of_periods(self) -> Iterator[dict[str, str]]:
        """Both journals of what happened before the cut, and both of the next period. No hold may be open there."""
        ended = [one for one in self.happenings if one.moment < self.cut]
        earlier = self.texts_of(ended, 0, {book: [] for book in NAMES})
        yield earlier
        last = {one.book: one.moment for one in sorted(ended, key=lambda one: one.moment)}
        heads = {book: [f"{last[book]} 0 {line}" for line in book_of(text.encode()).head_behind(NAMES[book])]
                 for book, text in earlier.items()}
        yield self.texts_of([one for one in self.happenings if one.moment >= self.cut], 1, heads)

    def texts_of(self, happenings: list[Happening], period: int, heads: dict[str, list[str]]) -> dict[str, str]:
        """Both journals of a period, which begins with what was brought forward."""
        keys: dict[int, str] = {}
        numbered: dict[str, list[tuple[int, Happening]]] = {book: [] for book in NAMES}
        for happening in sorted(happenings, key=lambda one: one.moment):
            book, entries = happening.book, numbered[happening.book]
            number = len(heads[book]) + len(entries)
            if happening.what == "asked":
                keys[happening.thread] = f"{RUNS[book]}{f'.{period}' if period else ''}-{number}".encode().hex()
            entries.append((number, happening))
        first = f"ilp-journal 2 {period}" if period else "ilp-journal 1"
        return {book: "\n".join([first, *heads[book], *lines_of(entries, keys),
                                 f"end {len(heads[book]) + len(entries)}\n"]) for book, entries in numbered.items()}


def lines_of(entries: list[tuple[int, Happening]], keys: dict[int, str]) -> Iterator[str]:
    """The lines of entries, by their numbers."""
    begun: dict[int, int] = {}
    for number, one in entries:
        ends = one.thread in begun
        begun.setdefault(one.thread, number)
        fields = f"{begun[one.thread]} {one.fields}".rstrip() if ends else one.fields
        yield f"{one.moment} 0 {one.what} {fields}".replace("KEY", keys.get(one.thread, "6b"))


# ---- what may happen, each with the group that must have it, and its sum

def packets_by_chance(books: Books, sender: str, receiver: str, faults: bool) -> None:
    """A packet that went well, or one that did not."""
    amount, other = books.amount() + 1, books.amount() + 1
    only = {book: f"only {book}" for book in NAMES}
    good = [("ff", "alike", 0), ("ff", "alike", 0), ("rr", "alike", 0), ("oo", "open", -amount), ("r-", "quiet", 0)]
    bad = [("rf", "other ends", -amount), ("fr", "other ends", amount), ("fo", "other ends", 0),
           ("ro", "other ends", -amount), ("-f", only[receiver], -amount), ("f-", only[sender], amount),
           ("-r", only[receiver], 0), ("FF", "other amounts", other - amount)]
    ends, group, units = books.chance.choice(good + bad * faults)
    books.packet(sender, receiver, amount, ends.lower(), other if ends == "FF" else None)
    books.expect(group, units)


def settlements_by_chance(books: Books, payer: str, receiver: str, faults: bool) -> None:
    """A settlement that went well, or one that did not."""
    amount, other, own = books.amount(), books.amount(), f"key{books.threads}".encode().hex()
    only = {book: f"only {book}" for book in NAMES}
    good = [("c", amount, None, "alike", 0), ("c", amount, own, "alike", 0), ("o", amount, own, "alike", 0),
            ("o", None, None, "open", -amount), ("u", None, None, "quiet", 0)]
    bad = [("c", None, None, only[payer], -amount), ("-", amount, own, only[receiver], amount),
           ("u", amount, None, "other ends", amount), ("c", other, None, "other amounts", other - amount)]
    end, credited, key, group, units = books.chance.choice(good + bad * faults)
    books.settlement(payer, receiver, amount, end, credited, key)
    books.expect(group, units)


def corrections_by_chance(books: Books, book: str, _other: str, faults: bool) -> None:
    """A correction of one book, where there are faults to be taken back."""
    if faults:
        amount, way = books.amount(), books.chance.choice(("rises", "falls"))
        books.correction(book, amount, way)
        books.expect(f"only {book}", amount if way == "rises" else -amount)


def books_by_chance(seed: int, faults: bool, shared_conditions: bool = False) -> Books:
    """Books of some packets and settlements both ways, with some faults and corrections or none."""
    chance = random.Random(seed)
    books = Books(chance, chance.choice((0, 2, 9)), shared_conditions)
    for place in range(chance.randrange(0, 40)):
        if place == 10:
            books.moment = books.cut = books.moment + 1000
        books.next_thread()
        sides = chance.sample(sorted(NAMES), 2)
        way = chance.choices((packets_by_chance, settlements_by_chance, corrections_by_chance), (4, 4, 1))[0]
        way(books, *sides, faults)
    return books
