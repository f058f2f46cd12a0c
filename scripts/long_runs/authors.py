"""Random scripts, whose lines are drawn at the edges of the book that they have come to."""
import hashlib
import random
from collections.abc import Callable
from dataclasses import dataclass, field

from long_runs.books import Asked, Book, Hold
from long_runs.configurations import Configuration
from long_runs.mistakes import mangled, other_packet, too_long_field, with_wrong_field
from long_runs.packets import FIRST_MOMENT, LAST_MOMENT, MOST, Fulfill, Prepare, Reject, is_address
from long_runs.texts import drawn_json, drawn_noise

START = 1_735_689_600_000  # 2025-01-01T00:00:00Z
BEYOND_ALL = 10**15 - 1
MOST_LONG_PACKETS = 3


def near(chance: random.Random, number: int) -> int:
    return number + chance.choice([-1, 0, 0, 1])


def of_any_size(chance: random.Random) -> int:
    """A number whose length is drawn first."""
    return chance.getrandbits(chance.randint(1, 64))


@dataclass
class Author:
    """Draws the next line of a script over the book that its model has come to."""

    chance: random.Random
    configuration: Configuration
    book: Book
    preimages: dict[bytes, bytes] = field(default_factory=dict)
    long_packets: int = 0
    clock: int = 0

    def __post_init__(self) -> None:
        chance = self.chance
        self.clock = chance.choice([START] * 40 + [0, LAST_MOMENT - 10**7])
        # How often each verb comes differs from script to script.
        self.verbs: dict[Callable[[], str], float] = {
            self.hold: chance.choice([20, 30, 60]), self.answer: chance.choice([5, 25, 30]),
            self.expire: chance.choice([0, 4, 10]), self.credit: chance.choice([1, 10, 25]),
            self.ask: chance.choice([0, 5, 20]), self.close: chance.choice([2, 6, 14]),
            self.report: 2}
        self.keys = [*"abcd", "k-1", "!~", "K" * 128, "K" * 127]
        self.largest = chance.choice([5, 40, 10**6, MOST, MOST])
        self.steps_back = chance.random() < 0.5

    def line(self) -> bytes:
        """The next line, with a mistake now and then."""
        if self.chance.random() < 0.04:
            return drawn_noise(self.chance, self.configuration, self.at())
        verb = self.chance.choices(list(self.verbs), list(self.verbs.values()))[0]
        return verb().encode()

    # ---- moments

    def last(self) -> int:
        """Below this no moment is any more."""
        entries = self.book.entries
        return max(self.clock, entries[-1].moment if entries else 0)

    def at(self) -> int:
        """The time of a line."""
        chance = self.chance
        draw = chance.random()
        if draw < 0.5:
            self.clock = self.last() + chance.choice([0, 0, 1, 10, chance.randint(0, 3_000)])
            return min(self.clock, LAST_MOMENT)
        if draw < 0.8:
            return self.last()
        if draw < 0.9 and self.steps_back:
            return max(self.last() - chance.choice([1, 1_000, chance.randint(0, 10**6), 10**13]), 0)
        if draw < 0.96:
            return self.at_a_deadline()
        if draw < 0.9602:
            return chance.choice([BEYOND_ALL, LAST_MOMENT, LAST_MOMENT + 1])
        return self.last()

    def at_a_deadline(self) -> int:
        """A deadline of an open hold, or a millisecond beside it."""
        deadlines = sorted(hold.deadline for _, hold in self.book.open_holds())
        if not deadlines:
            return self.last()
        deadline = deadlines[0] if self.chance.random() < 0.7 else self.chance.choice(deadlines)
        return max(deadline + self.chance.choice([-1, -1, 0, 0, 1]), 0)

    def digits(self, number: int, most: int) -> str:
        """A number, with zeros in front now and then."""
        return str(number).zfill(most) if self.chance.random() < 0.03 else str(number)

    # ---- holds

    def peer(self) -> int:
        return self.chance.randrange(len(self.configuration.peers))

    def name(self, peer: int) -> str:
        return self.configuration.peers[peer].name

    def hold(self) -> str:
        chance, at, sender = self.chance, self.at(), self.peer()
        prepare = self.prepare(sender, at)
        octets = prepare.octets()
        draw = chance.random()
        if draw < 0.02:
            octets = mangled(chance, octets)
        elif draw < 0.06:
            octets = with_wrong_field(chance, prepare)
        elif draw < 0.065:
            octets = other_packet(chance)
        elif draw < 0.067 and self.long_packets < MOST_LONG_PACKETS:
            self.long_packets += 1
            octets = too_long_field(chance, prepare)
        return f"hold {self.digits(at, 15)} {self.name(sender)} {self.hex(octets or chr(0).encode())}"

    def hex(self, octets: bytes) -> str:
        return octets.hex().upper() if self.chance.random() < 0.05 else octets.hex()

    def prepare(self, sender: int, at: int) -> Prepare:
        destination = self.destination(sender)
        moment = max(at, self.last() if self.book.entries else 0)
        size = self.chance.choice([0, 0, 0, 0, 1, 20, 127, 128, 255, 256])
        return Prepare(self.amount(sender, destination), self.expires(moment), self.condition(),
                       destination, self.chance.randbytes(size))

    def condition(self) -> bytes:
        """The digest of octets that the script knows, mostly."""
        if self.chance.random() < 0.05:
            return self.chance.randbytes(32)
        preimage = bytes(32) if self.chance.random() < 0.1 else self.chance.randbytes(32)
        condition = hashlib.sha256(preimage).digest()
        self.preimages[condition] = preimage
        return condition

    def expires(self, moment: int) -> int:
        """Mostly late enough; else just too soon, or at an end of the calendar."""
        chance, one = self.chance, self.configuration
        drawn = chance.choice([
            *[moment + one.window + chance.randint(1, 60_000)] * 9,
            moment + one.window + one.max_hold + chance.choice([-1, 0, 1, 10**6]),
            moment + one.window + chance.choice([1, 1, 2, 5]),
            moment + one.window + chance.choice([1, 1, 2, 5]) * 1_000,
            chance.choice([moment + one.window, moment, moment + 1, moment - 1]),
            chance.choice([LAST_MOMENT, FIRST_MOMENT, -1, 0, moment + 10**10])
            if chance.random() < 0.3 else moment + one.window + 10_000])
        return min(max(drawn, FIRST_MOMENT), LAST_MOMENT)

    def destination(self, sender: int) -> bytes:
        """An address that mostly goes to another peer."""
        routes = self.configuration.routes
        others = [prefix for prefix, peer in routes.items() if peer != sender]
        prefixes = others if others and self.chance.random() < 0.95 else list(routes)
        drawn = self.any_destination(prefixes)
        if self.configuration.route(drawn) == sender and self.chance.random() < 0.8:
            drawn = self.any_destination(prefixes)
        return drawn

    def any_destination(self, prefixes: list[str]) -> bytes:
        """An address at a prefix, or under it, beside it, or anywhere."""
        chance = self.chance
        begin = chance.choice(prefixes)
        drawn = f"{begin}.{chance.choice(['x', 'a', 'a.b', 'Z_~-0'])}"
        if chance.random() < 0.12:
            drawn = chance.choice([f"{begin}x", f"{begin}-.a", begin[:-1], chance.choice(
                ["g.none", "peer.settle", "peer.a", "local.x", "test.a.b"])])
        elif chance.random() < 0.4:
            drawn = begin
        if not is_address(drawn.encode()):
            drawn = chance.choice([f"test.{peer}" for peer in "abc"] + ["test.a.b.c"])
        return drawn.encode()

    def amount(self, sender: int, destination: bytes) -> int:
        """Small, or just what a balance, a total or a packet has room for."""
        chance, one = self.chance, self.configuration
        peer = one.peers[sender]
        draw = chance.random()
        room = self.book.balance(sender) - peer.least
        if draw < 0.5:
            drawn = chance.randint(0, max(min(self.largest, 10**7, peer.greatest, room), 0))
        elif draw < 0.6:
            drawn = near(chance, room) if chance.random() < 0.5 else room // chance.choice([2, 3, 10])
        elif draw < 0.66:
            drawn = self.left_of_totals(sender, destination)
        elif draw < 0.7:
            drawn = near(chance, peer.greatest)
        elif draw < 0.74:
            drawn = chance.choice([0, 1, 2, MOST, MOST - 1])
        else:
            drawn = min(of_any_size(chance), self.largest)
        return min(max(drawn, 0), MOST)

    def left_of_totals(self, sender: int, destination: bytes) -> int:
        """What is left of the totals of the two assets, about."""
        one = self.configuration
        receiver = one.route(destination)
        left = MOST - self.book.total_in(one.peers[sender].asset)
        if receiver is not None and one.asset_of(receiver) == one.asset_of(sender):
            left = min(left, MOST - self.book.total_out(one.peers[receiver].asset))
        return near(self.chance, left)

    # ---- answers and sweeps

    def number(self, kind: type[Hold] | type[Asked]) -> int:
        """An open one mostly; else an ended one, another entry, or none."""
        chance, entries = self.chance, self.book.entries
        openly = [number for number, _ in
                  (self.book.open_holds() if kind is Hold else self.book.open_asks())]
        if openly and chance.random() < 0.9:
            return chance.choice(openly)
        draw = chance.random()
        if draw < 0.6:
            return chance.choice([n for n, entry in enumerate(entries) if isinstance(entry, kind)] or [0])
        if draw < 0.9:
            return chance.randint(0, len(entries))
        return chance.choice([len(entries), len(entries) + 1, 999_999_999, 4_294_967])

    def answer(self) -> str:
        number, at = self.number(Hold), self.at()
        return f"answer {self.digits(at, 15)} {self.digits(number, 9)} {self.reply(number)}"

    def reply(self, number: int) -> str:
        """What came back for a hold."""
        chance, entries = self.chance, self.book.entries
        hold = entries[number] if number < len(entries) else None
        known = self.preimages.get(hold.condition) if isinstance(hold, Hold) else None
        right = Fulfill(known or chance.randbytes(32), chance.randbytes(chance.choice([0, 0, 3, 130])))
        draw = chance.random()
        if draw < 0.6:
            return self.hex(right.octets())
        if draw < 0.68:
            return self.hex(Fulfill(chance.choice([bytes(32), chance.randbytes(32)])).octets())
        reject = Reject(chance.choice([b"F99", b"T01", b"\0\xff\x80", chance.randbytes(3)]),
                        chance.choice([b"", b"test.x", chance.randbytes(3)]), b"no" * chance.randint(0, 90))
        if draw < 0.82:
            return self.hex(reject.octets())
        if draw < 0.88:
            return "none"
        if draw < 0.885 and self.long_packets < MOST_LONG_PACKETS:
            self.long_packets += 1
            return self.hex(too_long_field(chance, chance.choice([right, reject])))
        if draw < 0.9:
            return self.hex(Prepare(1, self.last(), bytes(32), b"test.a").octets())
        return self.hex(mangled(chance, chance.choice([right, reject]).octets()) or bytes(1))

    def expire(self) -> str:
        at = self.at_a_deadline() if self.chance.random() < 0.5 else self.at()
        return f"expire {self.digits(at, 15)}"

    # ---- settlements

    def credit(self) -> str:
        chance, peer = self.chance, self.peer()
        if chance.random() < 0.5:
            key = chance.choice(self.keys)
        else:
            key = f"{chance.getrandbits(20)}"
            self.keys.append(key)
        text = drawn_json(chance, self.configuration, peer, self.book, key)
        return f"credit {self.digits(self.at(), 15)} {self.name(peer)} {key} {text}"

    def ask(self) -> str:
        """Of a peer whose settlement may be due, mostly."""
        peers = [n for n, one in enumerate(self.configuration.peers) if one.threshold is not None]
        peer = self.chance.choice(peers) if peers and self.chance.random() < 0.9 else self.peer()
        return f"ask {self.digits(self.at(), 15)} {self.name(peer)}"

    def close(self) -> str:
        number = self.number(Asked)
        answer = self.chance.choice(["yes", "yes", "no"])
        return f"close {self.digits(self.at(), 15)} {self.digits(number, 9)} {answer}"

    def report(self) -> str:
        return "report"
