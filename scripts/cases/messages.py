"""Packets and HTTP messages at the time of this machine, and the client that posts them."""
import datetime
import socket
import time
from collections.abc import Iterable

from cases.case import Differs
from connections import JSON, OCTETS, head, prepare
from packets import CONDITION

HERE = "127.0.0.1"
EPOCH = datetime.datetime(1970, 1, 1)


def now() -> int:
    """The time of this machine, in milliseconds since 1970."""
    return time.time_ns() // 1_000_000


def expiry(moment: int) -> bytes:
    """A moment as the digits of an expiry (RFC 0027)."""
    then = EPOCH + datetime.timedelta(milliseconds=moment)
    return then.strftime("%Y%m%d%H%M%S").encode() + b"%03d" % (moment % 1000)


def moment_of(digits: bytes) -> int:
    """The moment that the digits of an expiry name."""
    then = datetime.datetime.strptime(digits.decode() + "000", "%Y%m%d%H%M%S%f")
    return (then - EPOCH) // datetime.timedelta(milliseconds=1)


def packet(amount: int, expires: int, data: bytes = b"", destination: bytes = b"test.bob",
           condition: bytes = CONDITION) -> bytes:
    """A Prepare that expires at a moment."""
    return prepare(amount, expiry(expires), condition, destination, data)


def soon(amount: int = 50, data: bytes = b"", destination: bytes = b"test.bob",
         milliseconds: int = 30_000) -> bytes:
    """A Prepare that expires in so many milliseconds."""
    return packet(amount, now() + milliseconds, data, destination)


def request(target: str, *fields: str, body: bytes = b"", line: str | None = None,
            length: Iterable[str] | None = None) -> bytes:
    """A request, with the Content-Length of its body unless other lines are given for that."""
    if length is None:
        length = [f"Content-Length: {len(body)}"]
    lines = [line or f"POST {target} HTTP/1.1", "Host: h", *fields, *length, "", ""]
    return "\r\n".join(lines).encode("latin-1") + body


def bearer(token: str) -> str:
    """The line that shows a token."""
    return f"Authorization: Bearer {token}"


def response(code: int, body: bytes = b"", kind: str = OCTETS) -> bytes:
    """The response that the connector writes."""
    return head(code, kind, body).encode() + body


def created(body: bytes) -> bytes:
    """The response to a settlement that is credited."""
    return response(201, body, JSON)


def sent(target: str, port: int, kind: str, body: bytes, *line: str) -> bytes:
    """The request that the connector sends to a port of this machine."""
    lines = [f"POST {target} HTTP/1.1", f"Host: {HERE}:{port}", f"Content-Type: {kind}",
             f"Content-Length: {len(body)}", *line, "Connection: close", "", ""]
    return "\r\n".join(lines).encode() + body


# ---- the client

def connect(port: int, within: float = 5.0) -> socket.socket:
    """A connection to a port of this machine."""
    return socket.create_connection((HERE, port), timeout=within)


def read_to_end(link: socket.socket, within: float = 5.0) -> bytes:
    """What comes until the other side closes or resets, which it must do within so many seconds."""
    end = time.monotonic() + within
    octets = bytearray()
    while (left := end - time.monotonic()) > 0:
        link.settimeout(left)
        try:
            more = link.recv(65_536)
        except TimeoutError:
            break
        except ConnectionError:
            return bytes(octets)
        if not more:
            return bytes(octets)
        octets += more
    raise Differs(f"no end of an answer after {within} seconds, of which came {bytes(octets)!r}")


def post(port: int, octets: bytes, within: float = 5.0, half_closed: bool = False) -> bytes:
    """What a port answers to these octets; half closed, nothing can follow them."""
    with connect(port, within) as link:
        link.sendall(octets)
        if half_closed:
            link.shutdown(socket.SHUT_WR)
        return read_to_end(link, within)


def seconds_since(start: float) -> float:
    """How long it is since a moment of the monotonic clock."""
    return time.monotonic() - start
