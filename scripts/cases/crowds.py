"""Thousands of connections at once, whose other side one thread serves: clients, and a peer's server."""
import heapq
import itertools
import resource
import selectors
import socket
import threading
import time
from collections.abc import Callable, Iterable
from contextlib import suppress
from dataclasses import dataclass, field

from cases.case import Differs, expect_that
from cases.laboratory import Laboratory
from cases.messages import HERE, connect
from cases.stand_ins import length_of

# How many descriptors this process needs beside those of a crowd and of a hall.
OWN_FILES = 256


def room_for(wanted: int, each: int) -> int:
    """How many of so many there may be, where each takes so many of the descriptors of this process."""
    limit, _ = resource.getrlimit(resource.RLIMIT_NOFILE)
    return min(wanted, (limit - OWN_FILES) // each)


# ---- clients

@dataclass
class Client:
    """A connection on which a request was sent, and what came of it so far."""

    link: socket.socket
    sent: float
    octets: bytearray = field(default_factory=bytearray)
    # When the other side closed or reset it.
    ended: float | None = None

    @property
    def answer(self) -> bytes:
        """What was answered."""
        return bytes(self.octets)

    def read(self) -> None:
        """Takes in what has come."""
        try:
            while more := self.link.recv(65_536):
                self.octets += more
        except BlockingIOError:
            return
        except ConnectionError:
            pass
        self.ended = time.monotonic()


class Crowd:
    """Clients that each send a request, and wait for their answers at once."""

    def __init__(self, laboratory: Laboratory) -> None:
        self.laboratory = laboratory
        self.clients: list[Client] = []
        self.selector = selectors.DefaultSelector()
        laboratory.stack.callback(self.selector.close)

    def send(self, port: int, octets: bytes) -> Client:
        """One more, which is accepted or waits for that, and whose whole request is sent."""
        link = self.laboratory.keep(connect(port))
        link.sendall(octets)
        link.setblocking(False)
        client = Client(link, time.monotonic())
        self.clients.append(client)
        self.selector.register(link, selectors.EVENT_READ, client)
        return client

    def send_all(self, port: int, requests: Iterable[bytes]) -> list[Client]:
        """One more for each of these."""
        return [self.send(port, octets) for octets in requests]

    def look(self, within: float = 0.0) -> None:
        """Takes in what has come, and waits so long for it where nothing has."""
        for key, _ in self.selector.select(within):
            client: Client = key.data
            client.read()
            if client.ended is not None:
                self.selector.unregister(client.link)
                client.link.close()

    def await_ended(self, clients: list[Client], within: float) -> None:
        """Waits until the other side has closed all of these."""
        end = time.monotonic() + within
        while (left := sum(client.ended is None for client in clients)) > 0:
            expect_that(f"within {within} seconds {left} of {len(clients)} connections had no end",
                        time.monotonic() < end)
            self.look(0.05)

    def await_any(self, clients: list[Client], within: float) -> Client:
        """The first of these that the other side has closed, once there is one."""
        end = time.monotonic() + within
        while (first := next((client for client in clients if client.ended is not None), None)) is None:
            expect_that(f"within {within} seconds none of {len(clients)} connections had an end",
                        time.monotonic() < end)
            self.look(0.05)
        return first


# ---- a peer's server

# What is sent to a client, each so many seconds after its request came. The connection is closed behind the last.
Answer = list[tuple[float, bytes]]

# What a request is answered; an empty one is never answered.
Behaviour = Callable[[bytes], Answer]

SILENCE: Answer = []


def at_once(octets: bytes) -> Answer:
    """The answer of these octets."""
    return [(0.0, octets)]


def octet_by_octet(octets: bytes, pace: float) -> Answer:
    """The same, one octet behind the other."""
    return [(pace * place, bytes([octet])) for place, octet in enumerate(octets, start=1)]


@dataclass
class Guest:
    """A connection that a hall has, and the octets of its request so far."""

    link: socket.socket
    octets: bytearray = field(default_factory=bytearray)

    def body(self) -> bytes | None:
        """The body of its request, once that is whole."""
        head, found, body = bytes(self.octets).partition(b"\r\n\r\n")
        return body if found and len(body) >= length_of(head) else None


class Hall:
    """A server at a free port of this machine, whose connections, thousands of them, share one thread."""

    def __init__(self, laboratory: Laboratory, behaviour: Behaviour | None = None) -> None:
        self.behaviour = behaviour or (lambda _: SILENCE)
        self.bodies: list[bytes] = []
        self.came = threading.Condition()
        self.stop = threading.Event()
        self.order = itertools.count()
        self.due: list[tuple[float, int, socket.socket, bytes, bool]] = []
        self.guests: set[socket.socket] = set()
        self.silent: list[socket.socket] = []
        self.told: Answer = SILENCE
        self.listener = socket.create_server((HERE, 0), backlog=4096)
        self.listener.setblocking(False)
        self.port: int = self.listener.getsockname()[1]
        self.thread = threading.Thread(target=self.serve, daemon=True)
        self.thread.start()
        laboratory.stack.callback(self.close)

    def serve(self) -> None:
        """Serves until it is closed, and closes all of its connections then."""
        with selectors.DefaultSelector() as selector:
            selector.register(self.listener, selectors.EVENT_READ)
            while not self.stop.is_set():
                wait = self.due[0][0] - time.monotonic() if self.due else 0.02
                for key, _ in selector.select(min(0.02, max(0.0, wait))):
                    if key.data is None:
                        self.accept(selector)
                    else:
                        self.read(selector, key.data)
                self.tell_silent()
                self.send_due()
        for link in [self.listener, *self.guests]:
            link.close()

    def accept(self, selector: selectors.BaseSelector) -> None:
        """Accepts whoever waits."""
        with suppress(BlockingIOError):
            while True:
                link, _ = self.listener.accept()
                link.setblocking(False)
                link.setsockopt(socket.IPPROTO_TCP, socket.TCP_NODELAY, 1)
                self.guests.add(link)
                selector.register(link, selectors.EVENT_READ, Guest(link))

    def read(self, selector: selectors.BaseSelector, guest: Guest) -> None:
        """Reads what has come of a request, and has it answered once it is whole."""
        try:
            more = guest.link.recv(65_536)
        except OSError:
            more = b""
        guest.octets += more
        body = guest.body()
        if more and body is None:
            return
        selector.unregister(guest.link)
        if body is None:
            self.leave(guest.link)
            return
        self.answer(guest.link, self.behaviour(body))
        with self.came:
            self.bodies.append(body)
            self.came.notify_all()

    def answer(self, link: socket.socket, answer: Answer) -> None:
        """Has this be sent in time."""
        now = time.monotonic()
        if not answer:
            self.silent.append(link)
        for place, (after, octets) in enumerate(answer, start=1):
            heapq.heappush(self.due, (now + after, next(self.order), link, octets, place == len(answer)))

    def send_due(self) -> None:
        """Sends what is due. Whoever has gone is told nothing."""
        while self.due and self.due[0][0] <= time.monotonic():
            _, _, link, octets, is_last = heapq.heappop(self.due)
            with suppress(OSError):
                link.send(octets)
            if is_last:
                self.leave(link)

    def tell_silent(self) -> None:
        """Answers those that had no answer, once there is one."""
        while self.told and self.silent:
            self.answer(self.silent.pop(0), self.told)

    def speak(self, octets: bytes) -> None:
        """Answers this from now on to all that had no answer, and to those that come."""
        self.told = at_once(octets)

    def leave(self, link: socket.socket) -> None:
        """Closes a connection."""
        self.guests.discard(link)
        link.close()

    def await_count(self, count: int, within: float = 10.0) -> None:
        """Waits until so many requests came."""
        end = time.monotonic() + within
        with self.came:
            while len(self.bodies) < count:
                left = end - time.monotonic()
                if left <= 0:
                    raise Differs(f"{len(self.bodies)} requests came within {within} seconds, and not {count}")
                self.came.wait(left)

    def close(self) -> None:
        """Closes the port and all connections, as the system does for a server that is killed."""
        self.stop.set()
        self.thread.join()
