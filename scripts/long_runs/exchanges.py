"""What a connector that runs answers to any octets at either side, by the rules, and what that does to
its book and has others be sent (docs/PROTOCOL.md)."""
import re
import threading
from collections import Counter
from dataclasses import dataclass, field, replace

from cases.messages import response
from connections import JSON, TEXT

from long_runs.books import Book, Closed, Credited, Asked, Fulfilled, Hold, Refused, Released, meets
from long_runs.configurations import Configuration
from long_runs.outside import (LATE, LONGEST_MESSAGE, SETTLE, SETTLE_CONDITION, ZEROS, EngineStandIn, Seen,
                               engine_answer, handed, reply_to, reply_to_message)
from long_runs.packets import Faulty, Fulfill, Prepare, Reject, read_prepare
from long_runs.quantities import BadQuantity, Quantity, credited, read_correction, read_quantity, written
from long_runs.reports import report
from long_runs.requests import Request, Status, read_request

# The Reject of each refusal of a hold, and of what came of it.
REJECTS = {
    "AmountTooLarge": (b"F08", b"amount too large"), "NoRoute": (b"F02", b"unreachable"),
    "BackToSender": (b"F02", b"unreachable"), "NoPrice": (b"F02", b"unreachable"),
    "Expired": (b"R00", b"timed out"), "TooShort": (b"R02", b"insufficient timeout"),
    "RoundsToNothing": (b"R01", b"insufficient source amount"), "OutTooLarge": (b"F03", b"invalid amount"),
    "Full": (b"T03", b"connector busy"), "TotalFull": (b"T04", b"insufficient liquidity"),
    "BelowLeast": (b"T04", b"insufficient liquidity"), "Late": (b"R00", b"timed out"),
    "WrongPreimage": (b"F05", b"wrong condition"), "NoReply": (b"T01", b"peer unreachable"),
    "NotNothing": (b"F03", b"invalid amount"), "NoEngine": (b"F02", b"unreachable")}

# By so many units a balance may fall of those who don't send alone, whose leasts are far away.
MOST_LOWERED = 10**6

# How far a moment must lie from an edge, in milliseconds, for both sides to be sure of it.
SURE = 15_000

BEARER = re.compile(rb"bearer (.+)", re.IGNORECASE | re.DOTALL)


class Unsure(Exception):
    """What comes of it hangs on the time or on what others send."""


@dataclass(frozen=True)
class Effect:
    """What was done beside the answer: a hold and how it ended, a credit, and what others were sent."""

    hold: Hold | None = None
    cause: str | None = None
    credit: Credited | None = None
    sent: tuple[str, Prepare] | None = None
    told: tuple[str, bytes] | None = None


@dataclass(frozen=True)
class Outcome:
    """An answer octet for octet, and its effect. Of a report beside other senders there is nothing."""

    octets: bytes
    effect: Effect = Effect()
    is_report: bool = False


@dataclass
class Model:
    """The connector by its rules. Several senders may ask it at once: only what hangs on nobody else's
    order is asked of the book's sums, which those who send `alone` do."""

    configuration: Configuration
    reachable: frozenset[str]
    seen: Seen
    shared_keys: frozenset[bytes] = frozenset()
    has_one_sender: bool = False
    lock: threading.RLock = field(default_factory=threading.RLock)
    sent: Counter[tuple[str, int, bytes, bytes, bytes]] = field(default_factory=Counter)
    told: Counter[tuple[str, bytes]] = field(default_factory=Counter)
    book: Book = field(init=False)

    def __post_init__(self) -> None:
        self.book = Book(self.configuration)

    # ---- what may be answered

    def outcomes(self, at_peers: bool, octets: bytes, now: int, alone: bool) -> list[Outcome]:
        """Each outcome that the rules allow: one, where they determine it."""
        try:
            request = read_request(octets)
        except Status as status:
            return [Outcome(response(code)) for code in status.codes]
        found = (self.at_peers(request, now, alone) if at_peers else self.at_engines(request, now, alone))
        return found + [Outcome(response(400))] if request.doubtful else found

    def at_peers(self, request: Request, now: int, alone: bool) -> list[Outcome]:
        if request.target != b"/ilp":
            return [Outcome(response(404))]
        shown = [BEARER.fullmatch(value) for value in request.values(b"authorization")]
        tokens = {peer.token.encode(): n for n, peer in enumerate(self.configuration.peers)}
        if len(shown) != 1 or shown[0] is None or shown[0][1] not in tokens:
            return [Outcome(response(401))]
        try:
            prepare = read_prepare(request.body)
        except Faulty:
            return [Outcome(response(400))]
        return self.forward(tokens[shown[0][1]], prepare, now, alone)

    def reject(self, name: str, data: bytes = b"") -> bytes:
        code, text = REJECTS[name]
        return response(200, Reject(code, self.configuration.address.encode(), text, data).octets())

    def forward(self, sender: int, prepare: Prepare, now: int, alone: bool) -> list[Outcome]:
        """What a peer is answered to a Prepare."""
        if prepare.destination == SETTLE:
            return [self.message_from(sender, prepare, now)]
        late = prepare.data.startswith(LATE)
        near = min(abs(prepare.expires - now), abs(prepare.expires - self.configuration.window - now))
        if near < SURE and not late:
            raise Unsure
        try:
            hold = self.book.terms(sender, prepare, now)
            if alone:
                self.book.check_sums(hold)
        except Refused as refused:
            data = b""
            if refused.name == "AmountTooLarge":
                data = prepare.amount.to_bytes(8, "big") + refused.numbers[0].to_bytes(8, "big")
            first = Outcome(self.reject(refused.name, data))
        else:
            first = self.passed_on(prepare, hold)
            if late and first.effect.sent is not None:
                # Its peer answers after the deadline, and keeps no account of it.
                first = Outcome(self.reject("Late"), Effect(hold, "Late"))
        # What is late may have waited for a worker for too long, or for a peer that is away.
        return [first, Outcome(self.reject("TooShort"))] if late else [first]

    def passed_on(self, prepare: Prepare, hold: Hold) -> Outcome:
        """What comes of a hold by what its receiver says."""
        name = self.configuration.peers[hold.receiver].name
        if name not in self.reachable:
            return Outcome(self.reject("NoReply"), Effect(hold, "NoReply"))
        out = Prepare(hold.out, 0, prepare.condition, prepare.destination, prepare.data)
        reply = reply_to(prepare.data).packet
        if reply is None:
            return Outcome(self.reject("NoReply"), Effect(hold, "NoReply", sent=(name, out)))
        if isinstance(reply, Reject):
            cause = f"Peer {reply.code.hex()}"
            return Outcome(response(200, reply.octets()), Effect(hold, cause, sent=(name, out)))
        if not meets(prepare.condition, reply.preimage):
            return Outcome(self.reject("WrongPreimage"), Effect(hold, "WrongPreimage", sent=(name, out)))
        return Outcome(response(200, reply.octets()), Effect(hold, sent=(name, out)))

    def message_from(self, sender: int, prepare: Prepare, now: int) -> Outcome:
        """What a peer is answered to a message for its engine here."""
        peer = self.configuration.peers[sender]
        if prepare.amount != 0:
            return Outcome(self.reject("NotNothing"))
        if prepare.condition != SETTLE_CONDITION:
            return Outcome(self.reject("WrongPreimage"))
        if abs(prepare.expires - now) < SURE:
            raise Unsure
        if prepare.expires <= now:
            return Outcome(self.reject("Expired"))
        if peer.engine is None:
            return Outcome(self.reject("NoEngine"))
        effect = Effect(told=(peer.name, prepare.data))
        _, answer = engine_answer(prepare.data)
        if answer is None:
            return Outcome(self.reject("NoReply"), effect)
        return Outcome(response(200, Fulfill(ZEROS, answer).octets()), effect)

    def at_engines(self, request: Request, now: int, alone: bool) -> list[Outcome]:
        if request.target == b"/report":
            known = response(200, report(self.book).encode(), TEXT) if self.has_one_sender else b""
            return [Outcome(known, is_report=True)]
        if request.target == b"/close":
            raise Unsure
        found = re.fullmatch(rb"/accounts/([^/]*)/(settlements|corrections|messages)", request.target)
        peer = self.configuration.peer_of(found[1].decode("latin-1")) if found else None
        if found is None or peer is None:
            return [Outcome(response(404))]
        if found[2] == b"messages":
            return [self.message_to(peer, request.body)]
        return [self.payment(peer, request, now, alone, is_correction=found[2] == b"corrections")]

    def message_to(self, peer: int, body: bytes) -> Outcome:
        """What an engine is answered to a message for its peer's engine."""
        name = self.configuration.peers[peer].name
        if len(body) > LONGEST_MESSAGE or name not in self.reachable:
            return Outcome(response(502))
        effect = Effect(sent=(name, Prepare(0, 0, SETTLE_CONDITION, SETTLE, body)))
        reply = reply_to_message(body).packet
        if not isinstance(reply, Fulfill) or reply.preimage != ZEROS:
            return Outcome(response(502), effect)
        return Outcome(response(201, reply.data), effect)

    def payment(self, peer: int, request: Request, now: int, alone: bool, is_correction: bool) -> Outcome:
        """What is answered to a settlement that an engine tells, or to a correction."""
        keys = request.values(b"idempotency-key")
        if len(keys) != 1 or not 1 <= len(keys[0]) <= 128:
            return Outcome(response(400))
        scale = self.configuration.asset_of(peer).scale
        try:
            told = read_correction(request.body) if is_correction else None
            quantity = told.quantity if told is not None else read_quantity(request.body)
            units = credited(quantity, scale)
        except BadQuantity:
            return Outcome(response(400))
        entry = Credited(now, peer, keys[0], quantity, units)
        if told is not None:
            entry = replace(entry, reason=told.reason, lowers=told.lowers)
        created = response(201, written(entry.moved, scale), JSON)
        if keys[0] in self.shared_keys:
            if is_correction or quantity != shared_quantity(keys[0]):
                raise Unsure
            return Outcome(created, Effect(credit=entry))
        return self.payment_alone(entry, created, alone)

    def payment_alone(self, entry: Credited, created: bytes, alone: bool) -> Outcome:
        """The same of a key that nobody else tells meanwhile."""
        kept = self.book.kept(entry.peer, entry.key)
        if kept is not None:
            known = self.book.entries[kept]
            assert isinstance(known, Credited)
            return Outcome(created if known.is_same(entry) else response(409))
        if alone and self.book.room() < 1:
            return Outcome(response(503))
        if entry.lowers and not alone and entry.units > MOST_LOWERED:
            raise Unsure
        balance, least = self.book.balance(entry.peer), self.configuration.peers[entry.peer].least
        if entry.lowers and alone and balance - entry.units < least:
            return Outcome(response(403, short_of(balance, least, self.configuration.asset_of(entry.peer).scale), JSON))
        return Outcome(created, Effect(credit=entry))

    # ---- what was done

    def apply(self, effect: Effect) -> None:
        """Books an effect, and keeps what others were to be sent."""
        book = self.book
        if effect.hold is not None:
            number = book.add(effect.hold)
            if effect.cause is None:
                book.add(Fulfilled(effect.hold.moment, number))
            else:
                book.add(Released(effect.hold.moment, number, effect.cause))
        if effect.credit is not None and book.kept(effect.credit.peer, effect.credit.key) is None:
            book.add(effect.credit)
        if effect.sent is not None:
            self.sent[handed(*effect.sent)] += 1
        if effect.told is not None:
            self.told[effect.told] += 1

    def with_settlements(self, engines: list[EngineStandIn]) -> Book:
        """The book with what engines were asked for, and what they answered."""
        with self.lock, self.seen.lock:
            whole = Book(self.configuration, list(self.book.entries))
            for engine in engines:
                peer = self.configuration.peer_of(engine.name)
                assert peer is not None
                for one in engine.settlements.values():
                    number = whole.add(Asked(0, peer, one.amount))
                    if one.accepted is not None:
                        whole.add(Closed(0, number, one.accepted))
        return whole


def short_of(balance: int, least: int, scale: int) -> bytes:
    """What is said of a balance that a correction would take below its least."""
    return f'{{"balance":"{balance}","least":"{least}","scale":{scale}}}'.encode()


def shared_quantity(key: bytes) -> Quantity:
    """What all tell under a key that several engines' clients use at once."""
    return Quantity(key[-1] * 1_000 + key[-2], key[-1] % 7)
