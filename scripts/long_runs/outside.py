"""Peers and engines outside of the connector, which answer by a rule over what they are handed, so
that the model knows what they will say."""
import hashlib
import json
import socket
import threading
import time
from collections import Counter
from dataclasses import dataclass, field

from cases.messages import HERE, now, sent
from cases.stand_ins import Received, StandIn
from connections import JSON, OCTETS

from long_runs.packets import Faulty, Fulfill, Packet, Prepare, Reject, read_packet, read_prepare

LATE = b"late!"
ZEROS = bytes(32)
SETTLE = b"peer.settle"
SETTLE_CONDITION = hashlib.sha256(ZEROS).digest()
OVERTIME = 0.1
LONGEST_MESSAGE = 32_767


@dataclass(frozen=True)
class Said:
    """What a peer writes, and the Fulfill or the Reject that the connector is to find in that, if any."""

    octets: bytes
    packet: Fulfill | Reject | None = None


def message(code: int, body: bytes, length: int | None = None, *fields: str) -> bytes:
    """A response with a status, and a Content-Length of its body or another."""
    lines = [f"HTTP/1.1 {code} So", f"Content-Length: {len(body) if length is None else length}", *fields,
             "", ""]
    return "\r\n".join(lines).encode() + body


def says(packet: Fulfill | Reject) -> Said:
    return Said(message(200, packet.octets()), packet)


def rubbish(body: bytes) -> Said:
    """Octets that are no packet, but by chance."""
    try:
        packet: Packet | None = read_packet(body)
    except Faulty:
        packet = None
    return Said(message(200, body), None if isinstance(packet, Prepare) else packet)


def reply_to(data: bytes) -> Said:
    """What a peer says to a Prepare: its first octet says how, the next 32 are the preimage."""
    how = data[0] % 20 if data else 0
    preimage = (data[1:33] + ZEROS)[:32]
    right = Fulfill(preimage, data[33:73])
    octets = right.octets()
    wrong = Fulfill(bytes([preimage[0] ^ 1]) + preimage[1:], data[33:40])
    match how:
        case 8:
            return says(wrong)
        case 9 | 10:
            return says(Reject(preimage[:3], data[1:9], data[9:40], data[40:50]))
        case 11:
            return rubbish(data[::-1][:60])
        case 12:
            return Said(b"")
        case 13:
            return Said(message([500, 404, 201, 202, 204, 302, 100][preimage[0] % 7], octets))
        case 14:
            return Said(message(200, Prepare(1, 0, ZEROS, b"test.a").octets()))
        case 15:
            return Said(message(200, octets, len(octets) + 1))
        case 16:
            return Said(message(200, octets + b"\0"))
        case 17:
            return Said(message(200, octets, None, "Transfer-Encoding: chunked"))
        case 18:
            return Said(b"HTTP/1.0 200 Ok\n\n" + octets, right)
        case 19:
            return Said(b"hello\r\n\r\n" + octets)
    return says(right)


def reply_to_message(data: bytes) -> Said:
    """What a peer says to a message of the connector's engine."""
    how = data[0] % 10 if data else 0
    match how:
        case 6:
            return says(Fulfill(b"\1" + bytes(31), data))
        case 7:
            return says(Reject(b"F02"))
        case 8:
            return Said(b"")
        case 9:
            return Said(message(503, Fulfill(ZEROS, data).octets()))
    return says(Fulfill(ZEROS, data[::-1]))


def engine_answer(body: bytes) -> tuple[bytes, bytes | None]:
    """What an engine writes to a message, and the answer that it gives so, if any."""
    how = body[0] % 10 if body else 0
    match how:
        case 5:
            return message(500, body), None
        case 6:
            return b"", None
        case 7:
            return message(200, bytes(LONGEST_MESSAGE + 1)), None
        case 8:
            return message(204, b""), b""
        case 9:
            return message(299, bytes(LONGEST_MESSAGE)), bytes(LONGEST_MESSAGE)
    return message(200, body[::-1]), body[::-1]


@dataclass
class Seen:
    """What all stand-ins saw."""

    lock: threading.Lock = field(default_factory=threading.Lock)
    prepares: Counter[tuple[str, int, bytes, bytes, bytes]] = field(default_factory=Counter)
    messages: Counter[tuple[str, bytes]] = field(default_factory=Counter)
    problems: list[str] = field(default_factory=list)

    def problem(self, text: str) -> None:
        with self.lock:
            self.problems.append(text[:600])


def handed(name: str, prepare: Prepare) -> tuple[str, int, bytes, bytes, bytes]:
    return name, prepare.amount, prepare.condition, prepare.destination, prepare.data


class PeerStandIn:
    """The server of a peer."""

    def __init__(self, name: str, seen: Seen, max_hold: int) -> None:
        self.name, self.seen, self.max_hold = name, seen, max_hold
        self.out_token, self.out_path = f"to-{name}", "/ilp"
        self.server = StandIn(self.behave)

    @property
    def host(self) -> str:
        return f"{HERE}:{self.server.port}"

    def behave(self, received: Received, link: socket.socket, stop: threading.Event) -> None:
        wanted = sent(self.out_path, self.server.port, OCTETS, received.body,
                      f"Authorization: Bearer {self.out_token}")
        if received.octets != wanted:
            self.seen.problem(f"{self.name} was sent {received.octets!r}, and not {wanted!r}")
        try:
            prepare = read_prepare(received.body)
        except Faulty as faulty:
            self.seen.problem(f"{self.name} was sent {faulty}: {received.body.hex()}")
            return
        if not 0 < prepare.expires <= now() + self.max_hold:
            self.seen.problem(f"{self.name} was sent a Prepare that expires at {prepare.expires}")
        self.answer(prepare, link, stop)

    def answer(self, prepare: Prepare, link: socket.socket, stop: threading.Event) -> None:
        if prepare.data.startswith(LATE):
            stop.wait(max(prepare.expires / 1000 - time.time(), 0) + OVERTIME)
            link.sendall(says(Fulfill(ZEROS)).octets)
            return
        with self.seen.lock:
            self.seen.prepares[handed(self.name, prepare)] += 1
        settles = prepare.destination == SETTLE
        said = reply_to_message(prepare.data) if settles else reply_to(prepare.data)
        link.sendall(said.octets)


@dataclass
class Settlement:
    """A settlement that an engine was asked for; an answer comes after so many tries."""

    number: int
    amount: int
    tries: int = 0
    accepted: bool | None = None


class EngineStandIn:
    """The settlement engine of a peer."""

    def __init__(self, name: str, scale: int, run: str, seen: Seen) -> None:
        self.name, self.scale, self.run, self.seen = name, scale, run, seen
        self.settlements: dict[str, Settlement] = {}
        self.accounts = 0
        self.server = StandIn(self.behave)

    @property
    def host(self) -> str:
        return f"{HERE}:{self.server.port}"

    def behave(self, received: Received, link: socket.socket, _: threading.Event) -> None:
        if received.target == "/accounts":
            self.account(received, link)
        elif received.target == f"/accounts/{self.name}/messages":
            self.check(received, sent(received.target, self.server.port, OCTETS, received.body))
            with self.seen.lock:
                self.seen.messages[self.name, received.body] += 1
            link.sendall(engine_answer(received.body)[0])
        elif received.target == f"/accounts/{self.name}/settlements":
            link.sendall(self.settle(received))
        else:
            self.seen.problem(f"the engine of {self.name} was asked for {received.target}")

    def check(self, received: Received, wanted: bytes) -> None:
        if received.octets != wanted:
            self.seen.problem(f"the engine of {self.name} was sent {received.octets!r}, and not {wanted!r}")

    def account(self, received: Received, link: socket.socket) -> None:
        """There is none the first time, and then there is."""
        body = f'{{"id":"{self.name}"}}'.encode()
        self.check(received, sent("/accounts", self.server.port, JSON, body))
        with self.seen.lock:
            self.accounts += 1
            first = self.accounts == 1
        link.sendall(message(503 if first else 409, b""))

    def settle(self, received: Received) -> bytes:
        """The n-th settlement is accepted at once, or after a second try, or refused."""
        key = next((line.split(": ")[1] for line in received.octets.decode("latin-1").split("\r\n")
                    if line.startswith("Idempotency-Key: ")), "")
        self.check(received, sent(received.target, self.server.port, JSON, received.body,
                                  f"Idempotency-Key: {key}"))
        with self.seen.lock:
            told = json.loads(received.body)
            amount = int(told["amount"])
            place = len(self.settlements)
            one = self.settlements.setdefault(key, Settlement(place, amount))
            one.tries += 1
            wanted = f'{{"amount":"{one.amount}","scale":{self.scale}}}'.encode()
            if received.body != wanted or not key.startswith(f"{self.run}-") or one.accepted is not None:
                self.seen.problems.append(f"the settlement {key} of {self.name}: {received.body!r}, "
                                          f"tried {one.tries} times, accepted: {one.accepted}")
            return self.answer(one)

    def answer(self, one: Settlement) -> bytes:
        how = one.number % 4
        if how in (1, 3) and one.tries == 1:
            return message(503 if how == 1 else 409, b"") if one.number % 8 < 4 else b""
        one.accepted = how != 2
        return message(400 if how == 2 else 201 if how == 0 else 204, b"")
