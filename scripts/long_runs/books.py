"""The book by its rules: a plain list of entries, every number of which is summed up by a walk over
the list whenever it is asked for. Nothing is kept beside the list."""
import hashlib
from collections import Counter
from collections.abc import Iterator
from dataclasses import dataclass, field

from long_runs.configurations import Configuration
from long_runs.packets import LAST_MOMENT, MOST, Fulfill, Packet, Prepare, Reject
from long_runs.quantities import BadQuantity, Quantity, credited

# How many settlements to a peer may be open at once.
MOST_OPEN_ASKS = 4


# ---- entries

@dataclass(frozen=True)
class Hold:
    moment: int
    sender: int
    receiver: int
    amount: int
    fee: int
    out: int
    deadline: int
    condition: bytes


@dataclass(frozen=True)
class Fulfilled:
    moment: int
    hold: int


@dataclass(frozen=True)
class Released:
    moment: int
    hold: int
    cause: str


@dataclass(frozen=True)
class Credited:
    moment: int
    peer: int
    key: bytes
    quantity: Quantity
    units: int
    # Of a correction its reason, and whether the balance falls by it.
    reason: bytes | None = None
    lowers: bool = False

    @property
    def moved(self) -> int:
        """By how much the balance rises, or falls."""
        return -self.units if self.lowers else self.units

    def is_same(self, other: "Credited") -> bool:
        """Whether one is the other, told again."""
        return (self.quantity, self.reason, self.lowers) == (other.quantity, other.reason, other.lowers)


@dataclass(frozen=True)
class Asked:
    moment: int
    peer: int
    amount: int


@dataclass(frozen=True)
class Closed:
    moment: int
    ask: int
    accepted: bool


Entry = Hold | Fulfilled | Released | Credited | Asked | Closed


class Refused(Exception):
    """A call that is refused: by which name, with which numbers."""

    def __init__(self, name: str, *numbers: int) -> None:
        super().__init__(name, *numbers)
        self.name = name
        self.numbers = numbers


@dataclass(frozen=True)
class Quote:
    fee: int
    net: int
    out: int


def quote(one: Configuration, sender: int, receiver: int, amount: int) -> Quote:
    """What is taken of an amount, and what goes on of it."""
    fee = -(-amount * one.peers[sender].fee_ppm // 1_000_000)
    net = amount - fee
    source, target = one.peers[sender].asset, one.peers[receiver].asset
    out = net
    if source != target:
        if (source, target) not in one.prices:
            raise Refused("NoPrice")
        p, q = one.prices[source, target]
        out = net * p * 10**one.assets[target].scale // (q * 10**one.assets[source].scale)
    if out > MOST:
        raise Refused("OutTooLarge")
    if out == 0 and amount > 0:
        raise Refused("RoundsToNothing")
    return Quote(fee, net, out)


def meets(condition: bytes, preimage: bytes) -> bool:
    return hashlib.sha256(preimage).digest() == condition


@dataclass
class Book:
    """A configuration and the list; notes count what came to its very edge."""

    configuration: Configuration
    entries: list[Entry] = field(default_factory=list)
    notes: Counter[str] = field(default_factory=Counter)

    # ---- walks

    def closer(self, number: int) -> int | None:
        """The first entry that ends this hold or this settlement."""
        for place, entry in enumerate(self.entries):
            if isinstance(entry, (Fulfilled, Released)) and entry.hold == number:
                return place
            if isinstance(entry, Closed) and entry.ask == number:
                return place
        return None

    def ended(self) -> set[int]:
        """The numbers of all holds and settlements that are ended."""
        return {entry.ask if isinstance(entry, Closed) else entry.hold for entry in self.entries
                if isinstance(entry, (Fulfilled, Released, Closed))}

    def open_holds(self) -> Iterator[tuple[int, Hold]]:
        ended = self.ended()
        return ((number, entry) for number, entry in enumerate(self.entries)
                if isinstance(entry, Hold) and number not in ended)

    def open_asks(self) -> Iterator[tuple[int, Asked]]:
        ended = self.ended()
        return ((number, entry) for number, entry in enumerate(self.entries)
                if isinstance(entry, Asked) and number not in ended)

    def counted_holds(self) -> Iterator[Hold]:
        """The holds that are fulfilled or open."""
        released = {entry.hold for entry in self.entries if isinstance(entry, Released)}
        return (entry for number, entry in enumerate(self.entries)
                if isinstance(entry, Hold) and number not in released)

    def fulfilled_holds(self) -> list[Hold]:
        return [self.hold_at(entry.hold) for entry in self.entries if isinstance(entry, Fulfilled)]

    def hold_at(self, number: int) -> Hold:
        entry = self.entries[number]
        assert isinstance(entry, Hold)
        return entry

    def effect(self, entry: Entry, peer: int) -> int:
        """By how much an entry moves a peer's balance."""
        match entry:
            case Hold(sender=sender, amount=amount) if sender == peer:
                return -amount
            case Released(hold=number) if self.hold_at(number).sender == peer:
                return self.hold_at(number).amount
            case Fulfilled(hold=number) if self.hold_at(number).receiver == peer:
                return self.hold_at(number).out
            case Credited(peer=who) if who == peer:
                return entry.moved
            case Asked(peer=who, amount=amount) if who == peer:
                return -amount
            case Closed(ask=number, accepted=False):
                asked = self.entries[number]
                assert isinstance(asked, Asked)
                return asked.amount if asked.peer == peer else 0
        return 0

    def balance(self, peer: int) -> int:
        return sum(self.effect(entry, peer) for entry in self.entries)

    def total_in(self, asset: int) -> int:
        """What fulfilled and open holds took in an asset."""
        peers = self.configuration.peers
        return sum(hold.amount for hold in self.counted_holds() if peers[hold.sender].asset == asset)

    def total_out(self, asset: int) -> int:
        """What they give in an asset."""
        peers = self.configuration.peers
        return sum(hold.out for hold in self.counted_holds() if peers[hold.receiver].asset == asset)

    def room(self) -> int:
        """How many entries are left beside those that end what is open."""
        holds = sum(1 for _ in self.open_holds())
        asks = sum(1 for _ in self.open_asks())
        return self.configuration.journal - len(self.entries) - holds - asks

    def moment(self, now: int) -> int:
        """The moment of a call: the time, and never before the last entry's."""
        last = self.entries[-1].moment if self.entries else 0
        cut = min(max(now, 0), LAST_MOMENT)
        if cut < last:
            self.notes["a clock that went back"] += 1
        return max(cut, last)

    # ---- calls

    def add(self, entry: Entry) -> int:
        self.entries.append(entry)
        return len(self.entries) - 1

    def terms(self, sender: int, prepare: Prepare, moment: int) -> Hold:
        """The hold of a Prepare at a moment, or the first reason against it beside the book's sums."""
        one = self.configuration
        peer = one.peers[sender]
        if prepare.amount > peer.greatest:
            raise Refused("AmountTooLarge", peer.greatest)
        receiver = one.route(prepare.destination)
        if receiver is None:
            raise Refused("NoRoute")
        if receiver == sender:
            raise Refused("BackToSender")
        if prepare.expires <= moment:
            raise Refused("Expired")
        if prepare.expires - one.window <= moment:
            raise Refused("TooShort")
        quoted = quote(one, sender, receiver, prepare.amount)
        deadline = min(prepare.expires - one.window, moment + one.max_hold)
        return Hold(moment, sender, receiver, prepare.amount, quoted.fee, quoted.out, deadline,
                    prepare.condition)

    def check_sums(self, hold: Hold) -> None:
        """Refuses a hold for which there is no room in the journal, the totals or the balance."""
        peers = self.configuration.peers
        room = self.room()
        if room < 2:
            raise Refused("Full")
        taken = self.total_in(peers[hold.sender].asset) + hold.amount
        given = self.total_out(peers[hold.receiver].asset) + hold.out
        if taken > MOST or given > MOST:
            self.notes["totals beyond the most, "
                       + ("of both" if min(taken, given) > MOST else
                          "of amounts in" if taken > MOST else "of amounts out")] += 1
            raise Refused("TotalFull")
        balance = self.balance(hold.sender)
        if balance - hold.amount < peers[hold.sender].least:
            raise Refused("BelowLeast", balance)
        self.notes["the last room, of a hold"] += room == 2
        self.notes["totals just full"] += MOST in (taken, given)
        self.notes["a balance at its least"] += balance - hold.amount == peers[hold.sender].least

    def note_hold(self, hold: Hold, prepare: Prepare) -> None:
        one = self.configuration
        greatest = one.peers[hold.sender].greatest
        self.notes["an amount of the sender's greatest"] += prepare.amount == greatest
        self.notes["one millisecond until the deadline"] += hold.deadline == hold.moment + 1
        self.notes["a deadline by the expiry"] += hold.deadline < hold.moment + one.max_hold
        self.notes["a deadline by the longest hold"] += hold.deadline < prepare.expires - one.window
        self.notes["a price"] += one.asset_of(hold.sender) != one.asset_of(hold.receiver)
        fitting = [prefix for prefix in one.routes
                   if prefix and prepare.destination.startswith(prefix.encode())]
        self.notes["several prefixes at the front of an address"] += len(fitting) > 1

    def hold(self, sender: int, prepare: Prepare, now: int) -> tuple[int, Hold]:
        hold = self.terms(sender, prepare, self.moment(now))
        self.check_sums(hold)
        self.note_hold(hold, prepare)
        return self.add(hold), hold

    def is_open(self, number: int, kind: type[Hold] | type[Asked]) -> None:
        """Refuses a number that names nothing of this kind, or what is ended."""
        if number >= len(self.entries) or not isinstance(self.entries[number], kind):
            raise Refused("NotOpen")
        closer = self.closer(number)
        if closer is not None:
            raise Refused("NotOpen", closer)

    def answer(self, number: int, reply: Packet | None, now: int) -> tuple[int, Entry]:
        """Ends a hold by what came back, if it is open; without a packet nothing came."""
        self.is_open(number, Hold)
        hold = self.hold_at(number)
        moment = self.moment(now)
        entry: Entry
        if moment >= hold.deadline:
            entry = Released(moment, number, "Late")
        elif isinstance(reply, Fulfill) and meets(hold.condition, reply.preimage):
            entry = Fulfilled(moment, number)
        elif isinstance(reply, Fulfill):
            entry = Released(moment, number, "WrongPreimage")
        elif isinstance(reply, Reject):
            entry = Released(moment, number, f"Peer {reply.code.hex()}")
        else:
            entry = Released(moment, number, "NoReply")
        self.notes["a Fulfill at the deadline"] += moment == hold.deadline and isinstance(reply, Fulfill)
        self.notes["a Fulfill just before the deadline"] += (
            moment == hold.deadline - 1 and isinstance(entry, Fulfilled))
        return self.add(entry), entry

    def expire(self, now: int) -> tuple[int, int]:
        """Releases the open hold of the least deadline that has come, of several the first."""
        moment = self.moment(now)
        due = sorted((hold.deadline, number) for number, hold in self.open_holds()
                     if hold.deadline <= moment)
        if not due:
            earliest = min((hold.deadline for _, hold in self.open_holds()), default=None)
            self.notes["a sweep just before a deadline"] += earliest == moment + 1
            raise Refused("NoneDue")
        deadline, number = due[0]
        self.notes["a sweep at a deadline"] += deadline == moment
        self.notes["a sweep of equal deadlines"] += sum(other == deadline for other, _ in due) > 1
        return self.add(Released(moment, number, "Late")), number

    def kept(self, peer: int, key: bytes) -> int | None:
        """The entry that a key of a peer names."""
        for place, entry in enumerate(self.entries):
            if isinstance(entry, Credited) and (entry.peer, entry.key) == (peer, key):
                return place
        return None

    def credit(self, peer: int, key: bytes, quantity: Quantity, now: int) -> tuple[int, int, bool]:
        """The entry, its units, and whether it is new."""
        try:
            units = credited(quantity, self.configuration.asset_of(peer).scale)
        except BadQuantity:
            raise Refused("TooLarge") from None
        kept = self.kept(peer, key)
        if kept is not None:
            entry = self.entries[kept]
            assert isinstance(entry, Credited)
            if entry.quantity != quantity:
                self.notes["a known key with an equal worth"] += entry.units == units
                raise Refused("KeyTaken", kept)
            return kept, entry.units, False
        room = self.room()
        if room < 1:
            raise Refused("Full")
        self.notes["the last room, of a credit"] += room == 1
        self.notes["a credit of nothing"] += units == 0
        self.notes["a key that another peer has"] += any(
            isinstance(entry, Credited) and entry.key == key for entry in self.entries)
        return self.add(Credited(self.moment(now), peer, key, quantity, units)), units, True

    def ask(self, peer: int, now: int) -> tuple[int, int]:
        """Takes what is due to a peer's engine: the entry and the amount."""
        open_asks = [(number, asked) for number, asked in self.open_asks() if asked.peer == peer]
        if len(open_asks) >= MOST_OPEN_ASKS:
            number, asked = open_asks[0]
            raise Refused("StillOpen", number, asked.amount)
        one, balance = self.configuration.peers[peer], self.balance(peer)
        if one.threshold is None or one.settle_to is None or balance < one.threshold:
            self.notes["an ask one below the threshold"] += one.threshold == balance + 1
            raise Refused("NotDue", balance)
        room = self.room()
        if room < 2:
            raise Refused("Full")
        amount = min(balance - one.settle_to, one.most_settled)
        self.notes["the last room, of an ask"] += room == 2
        self.notes["an ask at the threshold"] += balance == one.threshold
        self.notes["an ask for the most"] += balance - one.settle_to > one.most_settled
        self.notes["an ask beside open ones"] += bool(open_asks)
        return self.add(Asked(self.moment(now), peer, amount)), amount

    def close(self, number: int, accepted: bool, now: int) -> int:
        self.is_open(number, Asked)
        return self.add(Closed(self.moment(now), number, accepted))
