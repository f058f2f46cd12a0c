"""Stand-ins for peers' servers and settlement engines, which keep what they get."""
import socket
import threading
import time
from collections.abc import Callable
from dataclasses import dataclass, field

from cases.case import Differs
from cases.messages import HERE, response
from packets import reject
from scenes import FULFILL


@dataclass(frozen=True)
class Received:
    """A request that a stand-in got: its octets, its target and its body, and when it was there by the monotonic
    clock."""

    octets: bytes
    target: str
    body: bytes
    came: float = field(default_factory=time.monotonic, compare=False)


# What a stand-in does with a request, on its connection, until it is told to stop.
Behaviour = Callable[[Received, socket.socket, threading.Event], None]


def answers(octets: bytes, after: float = 0.0) -> Behaviour:
    """Answers these octets, after so many seconds."""
    def behave(_: Received, link: socket.socket, stop: threading.Event) -> None:
        stop.wait(after)
        link.sendall(octets)
    return behave


def answers_packet(octets: bytes, after: float = 0.0) -> Behaviour:
    """Answers 200 with a packet."""
    return answers(response(200, octets), after)


def status(code: int) -> Behaviour:
    """Answers a status alone."""
    return answers(f"HTTP/1.1 {code} So\r\nContent-Length: 0\r\n\r\n".encode())


FULFILLS = answers_packet(FULFILL)
REJECTS = answers_packet(reject(b"F99"))
ACCEPTS = answers(response(201))


def never_answers(_: Received, link: socket.socket, stop: threading.Event) -> None:
    """Keeps the connection and says nothing."""
    stop.wait()


def closes(_: Received, link: socket.socket, stop: threading.Event) -> None:
    """Says nothing, and closes the connection."""


def drips(octets: bytes) -> Behaviour:
    """Answers one octet a second."""
    def behave(_: Received, link: socket.socket, stop: threading.Event) -> None:
        for octet in octets:
            link.sendall(bytes([octet]))
            if stop.wait(1.0):
                return
    return behave


def in_turn(*behaviours: Behaviour) -> Behaviour:
    """Behaves in each of these ways once, and in the last from then on."""
    left, lock = list(behaviours), threading.Lock()

    def behave(received: Received, link: socket.socket, stop: threading.Event) -> None:
        with lock:
            behaviour = left.pop(0) if len(left) > 1 else left[0]
        behaviour(received, link, stop)
    return behave


def together(count: int, behaviour: Behaviour, within: float = 10.0) -> Behaviour:
    """Behaves so once there are so many requests, and closes each if they don't come in time."""
    barrier = threading.Barrier(count)

    def behave(received: Received, link: socket.socket, stop: threading.Event) -> None:
        try:
            barrier.wait(within)
        except threading.BrokenBarrierError:
            return
        behaviour(received, link, stop)
    return behave


def engine_of(settles: Behaviour = ACCEPTS, account: Behaviour = ACCEPTS,
              message: Behaviour = closes) -> Behaviour:
    """An engine, by what it does with settlements, accounts and messages."""
    def behave(received: Received, link: socket.socket, stop: threading.Event) -> None:
        if received.target == "/accounts":
            account(received, link, stop)
        elif received.target.endswith("/messages"):
            message(received, link, stop)
        else:
            settles(received, link, stop)
    return behave


def length_of(head: bytes) -> int:
    """The Content-Length of a head."""
    for line in head.split(b"\r\n"):
        name, _, value = line.partition(b":")
        if name.lower() == b"content-length":
            return int(value)
    return 0


def read_request(link: socket.socket) -> Received | None:
    """A whole request, or nothing where the connection ends before it does."""
    octets = b""
    while b"\r\n\r\n" not in octets:
        more = link.recv(65_536)
        if not more:
            return None
        octets += more
    head, _, body = octets.partition(b"\r\n\r\n")
    while len(body) < length_of(head):
        more = link.recv(65_536)
        if not more:
            return None
        body += more
    target = head.split(b" ", 2)[1].decode("latin-1")
    return Received(head + b"\r\n\r\n" + body, target, body)


class StandIn:
    """A server at a free port of this machine, whose connections have a thread each."""

    def __init__(self, behaviour: Behaviour) -> None:
        self.behaviour = behaviour
        self.received: list[Received] = []
        self.came = threading.Condition()
        self.stop = threading.Event()
        self.listener = socket.create_server((HERE, 0), backlog=1024)
        self.port: int = self.listener.getsockname()[1]
        threading.Thread(target=self.accept, daemon=True).start()

    def accept(self) -> None:
        """Accepts connections until the stand-in is closed."""
        while not self.stop.is_set():
            try:
                link, _ = self.listener.accept()
            except OSError:
                return
            threading.Thread(target=self.meet, args=(link,), daemon=True).start()

    def meet(self, link: socket.socket) -> None:
        """Reads a request, keeps it and behaves."""
        with link:
            link.settimeout(60.0)
            try:
                received = read_request(link)
                if received is not None:
                    self.keep(received)
                    self.behaviour(received, link, self.stop)
            except OSError:
                # The connector went away, which what it tells its own clients shows.
                return

    def keep(self, received: Received) -> None:
        """Keeps a request, and wakes who waits for it."""
        with self.came:
            self.received.append(received)
            self.came.notify_all()

    def of(self, target: str) -> list[Received]:
        """The requests for a target so far."""
        with self.came:
            return [one for one in self.received if one.target == target]

    def await_count(self, target: str, count: int, within: float = 5.0) -> list[Received]:
        """The requests for a target, once there are so many."""
        end = time.monotonic() + within
        with self.came:
            while True:
                found = [one for one in self.received if one.target == target]
                if len(found) >= count:
                    return found
                left = end - time.monotonic()
                if left <= 0:
                    raise Differs(f"{len(found)} requests for {target} came within {within} "
                                  f"seconds, and not {count}")
                self.came.wait(left)

    def close(self) -> None:
        """Ends what the stand-in does, and frees its port."""
        self.stop.set()
        # What waits in accept wakes by the shutdown.
        try:
            self.listener.shutdown(socket.SHUT_RDWR)
        except OSError:
            pass
        self.listener.close()


class FullHouse:
    """A port that takes no connection: its queue is full, and nobody accepts."""

    def __init__(self) -> None:
        self.listener = socket.create_server((HERE, 0), backlog=0)
        self.port: int = self.listener.getsockname()[1]
        self.waiting = [self.knock() for _ in range(8)]

    def knock(self) -> socket.socket:
        """A connection that nobody will accept."""
        link = socket.socket()
        link.setblocking(False)
        link.connect_ex((HERE, self.port))
        return link

    def close(self) -> None:
        """Frees the port."""
        for link in [*self.waiting, self.listener]:
            link.close()


# The ports that were given: the system may find one free twice.
GIVEN: set[int] = set()


def free_port() -> int:
    """A port at which nobody listens, another one each time."""
    while True:
        with socket.socket() as probe:
            probe.bind((HERE, 0))
            port: int = probe.getsockname()[1]
        if port not in GIVEN:
            GIVEN.add(port)
            return port
