"""Clients of a connector that runs: peers that send packets, and engines that tell settlements and send
messages. Their messages are whole, cut, doubled, joined, mangled or junk."""
import hashlib
import random
from collections.abc import Callable
from dataclasses import dataclass, field

from cases.messages import now

from long_runs.authors import Author
from long_runs.exchanges import Model, Outcome, Unsure, shared_quantity
from long_runs.mistakes import cut, junk, mangled, other_packet, too_long_field, with_wrong_field
from long_runs.outside import LATE, SETTLE, SETTLE_CONDITION
from long_runs.packets import LAST_MOMENT, Fulfill, Prepare
from long_runs.quantities import Quantity, written
from long_runs.texts import NOT_QUANTITIES, any_quantity, as_text, correction_text

HOUR = 3_600_000
# Far from all edges, even where a digit of it is another.
AMPLY = 2 * HOUR + 33 * 60_000 + 17_123
MOST_AMOUNT = 1_000_000


@dataclass(frozen=True)
class Message:
    """Octets for one side, and what may come of them."""

    at_peers: bool
    octets: bytes
    outcomes: list[Outcome]
    kind: str


@dataclass
class Sender:
    """Draws messages of its peers. One that sends alone may come to any edge of the book."""

    chance: random.Random
    model: Model
    peers: list[int]
    alone: bool
    key: str
    # To whom those who are not alone send nothing.
    apart: frozenset[int] = frozenset()
    keys: list[bytes] = field(default_factory=list)
    author: Author = field(init=False)

    def __post_init__(self) -> None:
        self.author = Author(self.chance, self.model.configuration, self.model.book)
        if not self.alone:
            self.author.largest = min(self.author.largest, MOST_AMOUNT)

    def message(self) -> Message:
        """The next one that is determined."""
        ways: dict[Callable[[], tuple[bool, bytes]], float] = {
            self.packet: 50, self.wrong_packet: 9, self.message_from: 5, self.late: 0.2,
            self.settlement: 10, self.correction: 4, self.message_to: 5, self.report: 1, self.wrong_request: 9,
            self.mangled: 13, self.cut: 4, self.joined: 4, self.junk: 2}
        while True:
            way = self.chance.choices(list(ways), list(ways.values()))[0]
            at_peers, octets = way()
            try:
                with self.model.lock:
                    outcomes = self.model.outcomes(at_peers, octets, now(), self.alone)
            except Unsure:
                continue
            return Message(at_peers, octets, outcomes, way.__name__)

    # ---- the form of a request

    def request(self, target: str, body: bytes, *fields: str, line: str | None = None,
                length: list[str] | None = None) -> bytes:
        """A request in one of the forms that it may have."""
        chance = self.chance
        lengths = [f"Content-Length: {len(body)}"] if length is None else length
        lines = ["Host: h", *fields, *lengths]
        if chance.random() < 0.2:
            lines.insert(chance.randint(0, len(lines)), chance.choice(
                ["X:", "Accept: */*", "Expect: 100-continue", "X-Y: \u00e9\t\"q\"", "Connection: keep-alive",
                 "Content-Type: text/plain", "!#$%&'*+-.^_`|~: 1"]))
        if chance.random() < 0.1:
            lines = [one.replace(":", chance.choice([":", ": \t ", ":"]), 1) + chance.choice(["", " ", "\t"])
                     for one in lines]
        if chance.random() < 0.1:
            lines = [one[:one.find(":")].upper() + one[one.find(":"):] for one in lines]
        chance.shuffle(lines)
        begin = line or f"POST {target} HTTP/1.{chance.choice([0, 1, 1, 1])}"
        end = "\n" if chance.random() < 0.1 else "\r\n"
        empty = end * chance.choice([1, 2]) if chance.random() < 0.05 else ""
        return (empty + end.join([begin, *lines, "", ""])).encode("latin-1") + body

    def at_peers(self, peer: int, body: bytes) -> tuple[bool, bytes]:
        token = self.model.configuration.peers[peer].token
        scheme = self.chance.choice(["Bearer", "Bearer", "bearer", "BEARER", "bEaReR"])
        return True, self.request("/ilp", body, f"Authorization: {scheme} {token}")

    def at_engines(self, target: str, body: bytes, *fields: str) -> tuple[bool, bytes]:
        return False, self.request(target, body, *fields)

    # ---- packets

    def prepare(self, peer: int) -> Prepare:
        chance = self.chance
        destination = self.author.destination(peer)
        while not self.alone and self.model.configuration.route(destination) in self.apart:
            destination = self.author.destination(peer)
        preimage = chance.randbytes(32)
        condition = hashlib.sha256(preimage).digest() if chance.random() < 0.95 else chance.randbytes(32)
        data = bytes([chance.choice([0, 0, 9, chance.randrange(20)])]) + preimage + chance.randbytes(
            chance.choice([0, 0, 5, 60, 300]))
        moment = now()
        expires = chance.choice([moment + AMPLY] * 20 + [
            moment - HOUR, moment + 30_000, LAST_MOMENT, 0, moment + 24 * HOUR])
        return Prepare(self.amount(peer, destination), expires, condition, destination, data)

    def amount(self, peer: int, destination: bytes) -> int:
        if not self.alone and self.chance.random() < 0.9:
            return self.chance.randint(0, self.chance.choice([9, 1_000, MOST_AMOUNT]))
        return self.author.amount(peer, destination)

    def packet(self) -> tuple[bool, bytes]:
        peer = self.chance.choice(self.peers)
        return self.at_peers(peer, self.prepare(peer).octets())

    def wrong_packet(self) -> tuple[bool, bytes]:
        chance, peer = self.chance, self.chance.choice(self.peers)
        prepare = self.prepare(peer)
        body = chance.choice([
            lambda: with_wrong_field(chance, prepare), lambda: with_wrong_field(chance, prepare),
            lambda: mangled(chance, prepare.octets()), lambda: mangled(chance, prepare.octets()),
            lambda: other_packet(chance),
            lambda: too_long_field(chance, prepare if chance.random() < 0.5 else Fulfill(bytes(32)))])()
        return self.at_peers(peer, body)

    def message_from(self) -> tuple[bool, bytes]:
        """A message of a peer for its engine here, which may be none."""
        chance, peer = self.chance, self.chance.choice(self.peers)
        amount = chance.choice([0] * 9 + [1])
        condition = SETTLE_CONDITION if chance.random() < 0.9 else chance.randbytes(32)
        expires = now() + chance.choice([AMPLY] * 9 + [-HOUR])
        size = chance.choice([0, 1, 9, 300, 32_767 if chance.random() < 0.1 else 40])
        data = chance.randbytes(size)
        return self.at_peers(peer, Prepare(amount, expires, condition, SETTLE, data).octets())

    def late(self) -> tuple[bool, bytes]:
        """A packet whose receiver answers after the deadline."""
        peer = self.chance.choice(self.peers)
        prepare = self.prepare(peer)
        expires = now() + self.model.configuration.window + 400
        octets = Prepare(1, expires, prepare.condition, prepare.destination, LATE).octets()
        return self.at_peers(peer, octets)

    # ---- what engines say

    def settlement(self) -> tuple[bool, bytes]:
        """A settlement under a key of its own, a known one, or one that others tell too."""
        chance, peer = self.chance, self.chance.choice(self.peers)
        name, scale = self.model.configuration.peers[peer].name, self.model.configuration.asset_of(peer).scale
        shared = sorted(self.model.shared_keys)
        if shared and chance.random() < 0.3:
            key = chance.choice(shared)
            quantity = shared_quantity(key)
            return self.at_engines(f"/accounts/{name}/settlements", written(quantity.amount, quantity.scale),
                                   f"Idempotency-Key: {key.decode('latin-1')}")
        key = self.own_key()
        quantity = any_quantity(chance, scale) if chance.random() < 0.4 else shared_quantity(key)
        text = as_text(chance, quantity)
        if chance.random() < 0.1:
            text = chance.choice(NOT_QUANTITIES)
        return self.at_engines(f"/accounts/{name}/settlements", text.encode(), *self.naming(key))

    def own_key(self) -> bytes:
        """A key that nobody else tells: a new one, or one of the last."""
        chance = self.chance
        if not self.keys or chance.random() < 0.7:
            made = f"{self.key}-{len(self.keys)}".encode()
            self.keys.append(made + chance.choice([b"", b" x", b"\xff~", b"k" * (128 - len(made))]))
        return chance.choice(self.keys[-3:])

    def naming(self, key: bytes) -> list[str]:
        """The line of a key, mostly."""
        fields = [f"Idempotency-Key: {key.decode('latin-1')}"]
        if self.chance.random() < 0.08:
            return self.chance.choice([[], fields * 2, ["Idempotency-Key:"], ["Idempotency-Key: " + "k" * 129]])
        return fields

    def correction(self) -> tuple[bool, bytes]:
        """A correction of a balance under a key of its own or a known one, also that of a settlement."""
        chance, peer = self.chance, self.chance.choice(self.peers)
        one, key = self.model.configuration, self.own_key()
        scale = one.asset_of(peer).scale
        quantity = any_quantity(chance, scale) if chance.random() < 0.2 else shared_quantity(key)
        if self.alone and chance.random() < 0.3:
            # Down to the least, or about there.
            room = self.model.book.balance(peer) - one.peers[peer].least
            quantity = Quantity(max(room + chance.choice([-1, 0, 0, 1]), 0), scale)
        text = correction_text(chance, quantity)
        return self.at_engines(f"/accounts/{one.peers[peer].name}/corrections", text.encode(), *self.naming(key))

    def message_to(self) -> tuple[bool, bytes]:
        chance = self.chance
        name = chance.choice(self.model.configuration.peers).name
        size = chance.choice([0, 1, 9, 300, chance.choice([32_767, 32_768]) if chance.random() < 0.2 else 40])
        return self.at_engines(f"/accounts/{name}/messages", chance.randbytes(size))

    def report(self) -> tuple[bool, bytes]:
        return self.at_engines("/report", self.chance.choice([b"", b"{}"]))

    # ---- what is wrong

    def any_good(self) -> tuple[bool, bytes]:
        return self.chance.choice([self.packet, self.packet, self.packet, self.message_from, self.settlement,
                                   self.settlement, self.correction, self.message_to, self.report])()

    def mangled(self) -> tuple[bool, bytes]:
        at_peers, octets = self.any_good()
        return at_peers, mangled(self.chance, octets)

    def cut(self) -> tuple[bool, bytes]:
        at_peers, octets = self.any_good()
        return at_peers, cut(self.chance, octets)

    def joined(self) -> tuple[bool, bytes]:
        """A message and another one behind it, of which nothing may come."""
        at_peers, octets = self.any_good()
        return at_peers, octets + self.any_good()[1]

    def junk(self) -> tuple[bool, bytes]:
        at_peers = self.chance.random() < 0.5
        if self.chance.random() < 0.2:
            octet = bytes([self.chance.choice(b"A /\r\n\0\x80")])
            return at_peers, octet * self.chance.choice([1, 16_384, 40_000])
        return at_peers, junk(self.chance, b"")

    def wrong_request(self) -> tuple[bool, bytes]:
        """A request that is refused for how it is made."""
        chance, peer = self.chance, self.chance.choice(self.peers)
        body = self.prepare(peer).octets() if chance.random() < 0.8 else b"\x0c"
        token = f"Authorization: Bearer {self.model.configuration.peers[peer].token}"
        shown = chance.choice([[token], [token], [], [token, token]])
        size = f"Content-Length: {len(body)}"
        return chance.choice([
            lambda: (True, self.request(chance.choice(["/", "/ilp/", "/ilp?x", "/ILP", "*", "http://h/ilp",
                                                       "/report"]), body, *shown)),
            lambda: (True, self.request("", body, *shown, line=chance.choice(
                ["GET /ilp HTTP/1.1", "post /ilp HTTP/1.1", "PUT /ilp HTTP/1.0", "POST /ilp HTTP/1.2",
                 "POST  /ilp HTTP/1.1", "POST /ilp", "POST /ilp HTTP/1.1 ", "@ /ilp HTTP/1.1"]))),
            lambda: (True, self.request("/ilp", body, chance.choice(
                ["X: y", "Authorization: Bearer nobody's", token + "x", token.replace("Bearer ", "Bearer  "),
                 token.replace("Bearer", "Basic"), token.replace("Bearer ", "Bearer"),
                 "Authorization: Bearer"]))),
            lambda: (True, self.request("/ilp", body, token, token)),
            lambda: (True, self.request("/ilp", body, token, length=chance.choice(
                [[], [size, size], ["Transfer-Encoding: chunked"], [size, "Transfer-Encoding: identity"],
                 ["Content-Length: 65537"], ["Content-Length: 9" + "9" * 30], ["Content-Length: -1"],
                 ["Content-Length: 1 2"], ["Content-Length:"], [size + "x"], ["Content-Length: 0"],
                 [f"Content-Length: 000{len(body)}"], [f"Content-Length: {len(body) + 1}"],
                 [f"Content-Length: {len(body) - 1}"]]))),
            lambda: (True, self.request("/ilp", body, token, *chance.choice(
                [["X: " + "a" * 17_000], [f"X{n}: y" for n in range(61)], [f"X{n}: y" for n in range(80)],
                 ["X : y"], [" X: y"], [": y"], ["X"], ["X: a\0b"], ["X: a\x7fb"], ["X: " + "a" * 15_000]]))),
            lambda: (False, self.request(chance.choice(
                ["/", "/accounts", "/accounts/nobody/settlements", "/accounts/alice/settlement", "/reports",
                 "/accounts//messages", "/report?x", "/ilp"]), b"{}", *chance.choice(
                     [[], ["Idempotency-Key: k"]]))),
        ])()
