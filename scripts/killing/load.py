"""Who sends packets, tells of settlements and corrects balances, all at once, and keeps what was answered; and how
peers and engines answer."""
import contextlib
import json
import random
import re
import socket
import threading
from collections.abc import Callable
from dataclasses import dataclass, field
from functools import partial
from hashlib import sha256
from typing import TypeVar

from cases.case import Differs, expect
from cases.messages import bearer, created, now, packet, post, request, response
from cases.program import RUN, Setup
from cases.stand_ins import ACCEPTS, Behaviour, Received, StandIn, status
from connections import quantity
from killing.books import KeptCredit
from packets import reject
from scenes import T00, fulfill

Way = TypeVar("Way")

# How many send for each peer, and in units the most of a packet and of a settlement.
SENDERS = {"alice": 4, "bob": 2}
MOST_SENT, MOST_CREDITED = 50, 2000

# How often of a hundred what is told is a settlement, and a correction by which a balance rises, or falls; and why.
SETTLES, RISES, FALLS = "", "rises", "falls"
TOLD = {SETTLES: 80, RISES: 10, FALLS: 10}
REASON = "by chance"

SCALE = 2
EXPIRES = 30_000

# What a packet's data say that its peer does, with how often that comes of a hundred.
FULFILLS, REJECTS, LATE, NEVER = b"f", b"r", b"l", b"n"
WAYS = {FULFILLS: 85, REJECTS: 5, LATE: 8, NEVER: 2}

# In seconds: what an answer that is late takes, and one that never comes.
LATER, GONE = 0.03, 0.5

ASKED = re.compile(r"/accounts/(\w+)/settlements")


# ---- peers and engines

def answers_by_data(received: Received, link: socket.socket, stop: threading.Event) -> None:
    """A peer that does what the packet's data say: a letter, and the 32 octets by which it is fulfilled."""
    way, preimage = received.body[-33:-32], received.body[-32:]
    if way == NEVER:
        stop.wait(GONE)
        return
    if way == LATE:
        stop.wait(LATER)
    link.sendall(response(200, reject(b"F99") if way == REJECTS else fulfill(preimage)))


def answers_by_chance(generator: random.Random) -> Behaviour:
    """An engine that mostly accepts."""
    ways = {ACCEPTS: 75, status(503): 10, gone: 10, status(422): 5}

    def behave(received: Received, link: socket.socket, stop: threading.Event) -> None:
        behaviour = ACCEPTS if received.target == "/accounts" else chosen(generator, ways)
        behaviour(received, link, stop)
    return behave


def gone(_: Received, link: socket.socket, stop: threading.Event) -> None:
    """Says nothing for a while, and closes."""
    stop.wait(GONE)


def chosen(generator: random.Random, ways: dict[Way, int]) -> Way:
    """One of these, each as often as it says."""
    return generator.choices(list(ways), list(ways.values()))[0]


def taken(stand_in: StandIn) -> list[Received]:
    """What a stand-in got since the last look."""
    with stand_in.came:
        received, stand_in.received = stand_in.received, []
    return received


@dataclass(frozen=True)
class Ask:
    """A settlement that an engine was asked for: whose, under which key, and of how much."""

    peer: str
    key: str
    amount: int

    @property
    def number(self) -> int:
        """The number of its entry, in the first period."""
        return int(self.key.removeprefix(f"{RUN}-"))


def asks_of(engine: StandIn) -> list[Ask]:
    """Those of which an engine heard since the last look."""
    asks = []
    for received in taken(engine):
        if (found := ASKED.fullmatch(received.target)) is not None:
            key = received.octets.partition(b"Idempotency-Key: ")[2].partition(b"\r\n")[0]
            told = json.loads(received.body)
            expect("the scale of a settlement", told["scale"], SCALE)
            asks.append(Ask(found[1], key.decode("ascii"), int(told["amount"])))
    return asks


# ---- who sends

@dataclass(frozen=True)
class Fulfilled:
    """A packet for which its sender got a Fulfill, with its preimage in hexadecimal."""

    sender: str
    receiver: str
    amount: int
    preimage: str


@dataclass(frozen=True)
class Credit:
    """A settlement of which a peer's engine tells, or a correction of the peer's balance."""

    peer: str
    key: str
    amount: int
    way: str = SETTLES

    @property
    def octets(self) -> bytes:
        """The request by which it is told."""
        what = "corrections" if self.way else "settlements"
        body = {"amount": str(self.moved), "scale": SCALE} | ({"reason": REASON} if self.way else {})
        return request(f"/accounts/{self.peer}/{what}", f"Idempotency-Key: {self.key}", body=json.dumps(body).encode())

    @property
    def moved(self) -> int:
        """By how much the balance rises, or falls."""
        return -self.amount if self.way == FALLS else self.amount

    @property
    def kept(self) -> KeptCredit:
        """What a book keeps under its key."""
        return (self.amount, SCALE, self.way, REASON.encode().hex()) if self.way else (self.amount, SCALE)


def credit_by_chance(peer: str, generator: random.Random) -> Credit:
    """A new one."""
    return Credit(peer, generator.randbytes(8).hex(), generator.randint(1, MOST_CREDITED), chosen(generator, TOLD))


@dataclass
class Answered:
    """What was answered since the last look, and the settlements of which no answer told."""

    fulfills: list[Fulfilled] = field(default_factory=list)
    credits: list[Credit] = field(default_factory=list)
    unanswered: list[Credit] = field(default_factory=list)
    faults: list[str] = field(default_factory=list)


class Load:
    """Threads that send packets and tell of settlements until they are stopped."""

    def __init__(self, setup: Setup, generator: random.Random) -> None:
        self.setup = setup
        self.generator = generator
        self.answered = Answered()
        # Some of the credits that were answered, which are told again.
        self.known: list[Credit] = []
        self.stop = threading.Event()
        self.threads: list[threading.Thread] = []

    def start(self) -> None:
        """Begins."""
        self.stop.clear()
        works = [partial(self.send, peer) for peer, count in SENDERS.items() for _ in range(count)]
        works += [partial(self.credit, peer) for peer in SENDERS]
        self.threads = [threading.Thread(target=self.repeat, args=(work,), daemon=True) for work in works]
        for thread in self.threads:
            thread.start()

    def end(self) -> None:
        """Waits until all of them have ended. What can't be an answer is refused."""
        self.stop.set()
        for thread in self.threads:
            thread.join()
        for fault in self.answered.faults:
            raise Differs(fault)

    def repeat(self, work: Callable[[random.Random], None]) -> None:
        """Does it again and again, with a generator of its own."""
        generator = random.Random(self.generator.random())
        while not self.stop.is_set():
            work(generator)

    def ask(self, port: int, octets: bytes) -> bytes:
        """What is answered, if anything is."""
        try:
            return post(port, octets)
        except (OSError, Differs):
            return b""

    def refuse(self, what: str, answer: bytes) -> None:
        """Keeps an answer that is none as a fault."""
        self.answered.faults.append(f"{what} was answered {answer!r}")

    def send(self, sender: str, generator: random.Random) -> None:
        """Sends a packet to the other peer."""
        receiver, token = ("bob", self.setup.token) if sender == "alice" else ("alice", self.setup.bob_token)
        amount, preimage = generator.randint(0, MOST_SENT), generator.randbytes(32)
        octets = packet(amount, now() + EXPIRES, chosen(generator, WAYS) + preimage, f"test.{receiver}".encode(),
                        sha256(preimage).digest())
        answer = self.ask(self.setup.peers_port, request("/ilp", bearer(token), body=octets))
        if answer == response(200, fulfill(preimage)):
            self.answered.fulfills.append(Fulfilled(sender, receiver, amount, preimage.hex()))
        elif answer.startswith(b"HTTP/1.1") and not answer.startswith(b"HTTP/1.1 200") or answer == response(200, T00):
            self.refuse("a packet", answer)

    def credit(self, peer: str, generator: random.Random) -> None:
        """Tells of a settlement or a correction: again of one that got no answer or is known, or of another."""
        # Another thread may have taken the last one.
        with contextlib.suppress(IndexError):
            self.tell(self.answered.unanswered.pop())
            return
        if self.known and generator.random() < 0.2:
            self.tell(generator.choice(self.known))
        else:
            self.tell(credit_by_chance(peer, generator))

    def tell(self, one: Credit) -> bool:
        """Tells of it; whether it was booked by now. A balance may be too low for a fall."""
        answer = self.ask(self.setup.engines_port, one.octets)
        if one.way == FALLS and answer.startswith(b"HTTP/1.1 403 "):
            return False
        if answer == created(quantity(one.moved, SCALE)):
            self.answered.credits.append(one)
            self.known = [*self.known[-9:], one]
            return True
        self.answered.unanswered.append(one)
        if answer.startswith(b"HTTP/1.1") and not answer.startswith(b"HTTP/1.1 201"):
            self.refuse(f"{one}", answer)
        return False
