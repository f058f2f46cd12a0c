"""A peer of a hub: its server, its senders and its engine, in a process of its own, and what they saw."""
import contextlib
import json
import multiprocessing
import os
import random
import socket
import threading
import time
from collections.abc import Callable
from dataclasses import dataclass, field
from functools import partial
from hashlib import sha256
from multiprocessing.connection import Connection
from multiprocessing.synchronize import Event

from cases.case import Differs
from cases.messages import HERE, bearer, created, now, packet, post, request, response
from cases.stand_ins import Received, read_request
from connections import quantity
from packets import reject
from scenes import T01, fulfill

SCALE = 2
EXPIRES = 30_000

# How many threads send packets, and serve those that come; and in units the amounts of packets, and of settlements.
SENDERS, SERVERS, ENGINES = 8, 8, 2
AMOUNTS, CREDITS = (2, 50), (1, 2_000)

# In seconds: how long an answer may take, which a period's end is no reason for; and between two settlements that an
# engine tells of.
ANSWERED, BETWEEN = 25.0, 0.3

# How often a settlement is a new one.
NEW = 0.25

# What a packet's data say that its receiver does: a letter before the preimage.
FULFILLS, REJECTS, CLOSES, LATE = b"f", b"r", b"c", b"l"
WAYS = {FULFILLS: 86, REJECTS: 5, CLOSES: 2, LATE: 7}
LATER = 0.05

# What an engine says of a settlement: yes, no, or neither at first and then yes.
YES, NO, LATER_YES = "yes", "no", "later"
SAYINGS = {YES: 80, NO: 2, LATER_YES: 18}


@dataclass
class Flow:
    """Packets that were fulfilled: how many, their units, and their preimages added up as numbers."""

    count: int = 0
    units: int = 0
    preimages: int = 0

    def add(self, units: int, preimage: bytes) -> None:
        """One more."""
        self.count += 1
        self.units += units
        self.preimages = (self.preimages + int.from_bytes(preimage, "big")) % 2**256


@dataclass
class Seen:
    """What a peer and its engine saw."""

    # Fulfills that its senders got, and that its server gave.
    sent: Flow = field(default_factory=Flow)
    received: Flow = field(default_factory=Flow)
    # The units of each settlement that the hub credited, by its key; and of each that it asked for, and of those which
    # the engine accepted and refused.
    credited: dict[str, int] = field(default_factory=dict)
    asked: dict[str, int] = field(default_factory=dict)
    accepted: set[str] = field(default_factory=set)
    refused: set[str] = field(default_factory=set)
    # Packets that were rejected, as is well.
    rejected: int = 0
    # What can't be an answer.
    faults: list[str] = field(default_factory=list)


@dataclass(frozen=True)
class Place:
    """A peer's name, the names of those to whom it sends, and the token that it shows."""

    name: str
    others: tuple[str, ...]
    token: str
    peers_port: int
    engines_port: int


class Peer:
    """A peer in its own process."""

    def __init__(self, place: Place, listener: socket.socket, engine: socket.socket, stop: Event, seed: int) -> None:
        self.place, self.listener, self.engine, self.stop = place, listener, engine, stop
        self.generator = random.Random(seed)
        self.seen = Seen()
        self.lock = threading.Lock()

    def run(self, ends: Connection) -> None:
        """Sends until it is stopped, and serves until it is told to end. Then it tells what it saw."""
        for _ in range(SERVERS):
            threading.Thread(target=self.serve, args=(self.listener, self.answer), daemon=True).start()
        for _ in range(ENGINES):
            threading.Thread(target=self.serve, args=(self.engine, self.settle), daemon=True).start()
        works = [self.send] * SENDERS + [self.credit]
        threads = [threading.Thread(target=self.repeat, args=(work, self.generator.random())) for work in works]
        for thread in threads:
            thread.start()
        for thread in threads:
            thread.join()
        ends.send("stopped")
        ends.recv()
        with self.lock:
            ends.send(self.seen)

    def repeat(self, work: Callable[[random.Random], None], seed: float) -> None:
        """Does it again and again."""
        generator = random.Random(seed)
        while not self.stop.is_set():
            work(generator)

    # ---- who sends

    def fault(self, what: str) -> None:
        """Keeps what can't be."""
        with self.lock:
            self.seen.faults.append(f"{self.place.name}: {what}")

    def send(self, generator: random.Random) -> None:
        """Sends a packet to another peer."""
        place = self.place
        amount, preimage = generator.randint(*AMOUNTS), generator.randbytes(32)
        way = generator.choices(list(WAYS), list(WAYS.values()))[0]
        octets = packet(amount, now() + EXPIRES, way + preimage, f"test.{generator.choice(place.others)}".encode(),
                        sha256(preimage).digest())
        try:
            answer = post(place.peers_port, request("/ilp", bearer(place.token), body=octets), ANSWERED)
        except (OSError, Differs) as why:
            self.fault(f"a packet had no answer: {why}")
            return
        wanted = {REJECTS: reject(b"F99"), CLOSES: T01}.get(way, fulfill(preimage))
        if answer != response(200, wanted):
            self.fault(f"a packet of {way!r} was answered {answer!r}")
            return
        with self.lock:
            if wanted == fulfill(preimage):
                self.seen.sent.add(amount, preimage)
            else:
                self.seen.rejected += 1

    def credit(self, generator: random.Random) -> None:
        """Tells of a settlement, a new one or again one that is known."""
        seen, place = self.seen, self.place
        if seen.credited and generator.random() > NEW:
            key = generator.choice(list(seen.credited))
            amount = seen.credited[key]
        else:
            key, amount = generator.randbytes(8).hex(), generator.randint(*CREDITS)
        octets = request(f"/accounts/{place.name}/settlements", f"Idempotency-Key: {key}", body=quantity(amount, SCALE))
        try:
            answer = post(place.engines_port, octets, ANSWERED)
        except (OSError, Differs) as why:
            self.fault(f"a settlement had no answer: {why}")
            return
        if answer == created(quantity(amount, SCALE)):
            seen.credited[key] = amount
        else:
            self.fault(f"a settlement was answered {answer!r}")
        time.sleep(BETWEEN)

    # ---- what it serves

    def serve(self, listener: socket.socket, behave: Callable[[Received, socket.socket], None]) -> None:
        """Serves one connection after the other."""
        while True:
            link, _ = listener.accept()
            with link, contextlib.suppress(OSError):
                link.settimeout(ANSWERED)
                if (received := read_request(link)) is not None:
                    behave(received, link)

    def answer(self, received: Received, link: socket.socket) -> None:
        """A packet, by what its data say."""
        way, preimage = received.body[-33:-32], received.body[-32:]
        if way == CLOSES:
            return
        if way == REJECTS:
            link.sendall(response(200, reject(b"F99")))
            return
        if way == LATE:
            time.sleep(LATER)
        link.sendall(response(200, fulfill(preimage)))
        with self.lock:
            # Behind the octets of type and length, which are two in a packet of this length.
            self.seen.received.add(int.from_bytes(received.body[2:10], "big"), preimage)

    def settle(self, received: Received, link: socket.socket) -> None:
        """A settlement, of which it says the same each time that it is asked for under its key."""
        if received.target != f"/accounts/{self.place.name}/settlements":
            link.sendall(response(201))
            return
        key = received.octets.partition(b"Idempotency-Key: ")[2].partition(b"\r\n")[0].decode("ascii")
        amount, seen = int(json.loads(received.body)["amount"]), self.seen
        saying = random.Random(key).choices(list(SAYINGS), list(SAYINGS.values()))[0]
        with self.lock:
            is_first = key not in seen.asked
            if seen.asked.setdefault(key, amount) != amount:
                seen.faults.append(f"{self.place.name}: {key} was asked for with {seen.asked[key]} and with {amount}")
        if saying == LATER_YES and is_first:
            link.sendall(b"HTTP/1.1 503 Later\r\nContent-Length: 0\r\n\r\n")
            return
        with self.lock:
            (seen.refused if saying == NO else seen.accepted).add(key)
        link.sendall(b"HTTP/1.1 422 No\r\nContent-Length: 0\r\n\r\n" if saying == NO else response(201))


@dataclass
class Running:
    """A peer's process."""

    name: str
    process: multiprocessing.Process
    ends: Connection
    stop: Event

    def await_stopped(self) -> None:
        """Waits until its senders have stopped."""
        if not self.ends.poll(2 * ANSWERED):
            raise Differs(f"the senders of {self.name} have not stopped")
        self.ends.recv()

    def end(self) -> Seen:
        """What it saw, once all is over."""
        self.ends.send("end")
        seen: Seen = self.ends.recv()
        self.process.join()
        return seen

    def kill(self) -> None:
        """Ends it, whatever it does."""
        self.process.kill()


def listening() -> socket.socket:
    """A socket at a free port of this machine."""
    return socket.create_server((HERE, 0), backlog=1024)


def run_peer(place: Place, listener: socket.socket, engine: socket.socket, seed: int) -> Running:
    """Starts a peer's process."""
    here, there = multiprocessing.Pipe()
    stop = multiprocessing.Event()

    def run() -> None:
        Peer(place, listener, engine, stop, seed).run(there)
        # Its servers wait for whoever comes.
        os._exit(0)

    process = multiprocessing.get_context("fork").Process(target=partial(run), daemon=True)
    process.start()
    return Running(place.name, process, here, stop)
