"""Clients that send on behind what is answered: they get the answer whole, and are closed soon after it."""
import socket
import threading
import time
from concurrent.futures import ThreadPoolExecutor
from dataclasses import dataclass

from cases.case import Differs, case, expect, expect_that
from cases.laboratory import (END, Laboratory, close, expect_end, expect_report_at_once, expect_served,
                              packet_request, post_close)
from cases.messages import HERE, bearer, connect, read_to_end, request, response, seconds_since, soon
from cases.program import secret
from cases.stand_ins import FULFILLS, answers_packet
from packets import fulfill, string

TEN_MILLION = 10_000_000
LONGEST_BODY = 65_536
TEN_MILLION_MORE = f"Content-Length: {TEN_MILLION}"

# In seconds: how long a refused client is still listened to at most, and how long it tries to send.
LINGERS = 1.0
TRIES = 6.0


def post_all_first(what: str, port: int, head: bytes, octets: int) -> bytes:
    """What is answered to a client that sends a head and so many octets before it reads. It may be
    closed before it has sent all; the answer came before that."""
    with connect(port, 10.0) as link:
        try:
            link.sendall(head)
            link.sendall(bytes(octets))
        except (BrokenPipeError, ConnectionResetError):
            pass
        except OSError as fault:
            raise Differs(f"{what}: it could not be sent: {fault!r}") from None
        return read_to_end(link)


@case
def refused_before_the_body(laboratory: Laboratory) -> None:
    """A client that sends ten million octets before it reads gets the status of its refusal whole."""
    program = laboratory.serve(FULFILLS)
    setup = program.setup
    shows, long = bearer(setup.token), [TEN_MILLION_MORE]
    target, key = "/accounts/bob/settlements", "Idempotency-Key: k"
    chunks = "Transfer-Encoding: chunked"
    rows = [
        ("413", setup.peers_port, 413, request("/ilp", shows, length=long)),
        ("405", setup.peers_port, 405, request("/ilp", shows, length=long, line="PUT /ilp HTTP/1.1")),
        ("411", setup.peers_port, 411, request("/ilp", shows, chunks, length=[])),
        ("400", setup.peers_port, 400, request("/ilp", shows, length=long * 2)),
        ("431", setup.peers_port, 431, b"POST /ilp HTTP/1.1\r\nX: " + b"a" * 20_000),
        ("413 to an engine", setup.engines_port, 413, request(target, key, length=long)),
        ("405 to an engine", setup.engines_port, 405,
         request(target, key, length=long, line=f"PUT {target} HTTP/1.1")),
        ("411 to an engine", setup.engines_port, 411, request(target, chunks, length=[])),
    ]
    for what, port, status, head in rows:
        expect(what, post_all_first(what, port, head, TEN_MILLION), response(status))
    expect_served(program)
    close(program)


@case
def refused_with_the_longest_body(laboratory: Laboratory) -> None:
    """So it is with the longest body that a request may have, whether it is read or not."""
    program = laboratory.serve(FULFILLS)
    setup = program.setup
    length = [f"Content-Length: {LONGEST_BODY}"]
    rows = [
        ("401", setup.peers_port, 401, request("/ilp", bearer(secret()), length=length)),
        ("404", setup.peers_port, 404, request("/nowhere", length=length)),
        ("no packet", setup.peers_port, 400, request("/ilp", bearer(setup.token), length=length)),
        ("404 to an engine", setup.engines_port, 404,
         request("/accounts/carol/settlements", "Idempotency-Key: k", length=length)),
        ("no key", setup.engines_port, 400, request("/accounts/bob/settlements", length=length)),
    ]
    for what, port, status, head in rows:
        expect(what, post_all_first(what, port, head, LONGEST_BODY), response(status))
    expect_served(program)
    close(program)


# ---- who goes on after the answer

@dataclass(frozen=True)
class Pace:
    """How a client goes on: so many octets at once, and a pause in seconds."""

    octets: int
    pause: float


PACES = [Pace(65_536, 0.01), Pace(1024, 0.001), Pace(1, 0.1), Pace(0, 0.1)]


def send_until_closed(link: socket.socket, pace: Pace, closed: threading.Event) -> None:
    """Sends on at this pace until the other side has closed, or for some seconds."""
    start = time.monotonic()
    while seconds_since(start) < TRIES and not closed.wait(pace.pause):
        try:
            link.sendall(bytes(pace.octets))
        except OSError:
            return


def begin_refused(laboratory: Laboratory, port: int) -> list[socket.socket]:
    """A client of each pace, twice, whose request is refused as it stands."""
    links = [laboratory.connect(port) for _ in PACES * 2]
    for link in links:
        link.sendall(request("/ilp", length=[TEN_MILLION_MORE]))
    return links


def go_on(link: socket.socket, pace: Pace) -> tuple[bytes, float]:
    """What a refused client is answered that goes on sending, and how long after that it is closed."""
    closed = threading.Event()
    link.settimeout(TRIES)
    with ThreadPoolExecutor(1) as pool:
        sending = pool.submit(send_until_closed, link, pace, closed)
        try:
            link.recv(1, socket.MSG_PEEK)
            answered = time.monotonic()
            octets = read_to_end(link, TRIES)
            # By the end of what is read, or by a write that fails, whichever comes later.
            if pace.octets:
                sending.result()
            return octets, seconds_since(answered)
        finally:
            closed.set()


def going_on(laboratory: Laboratory, engines: bool) -> None:
    """Eight clients of a side that go on after their refusal are closed about a second later."""
    program = laboratory.serve(FULFILLS)
    port = program.setup.engines_port if engines else program.setup.peers_port
    links = begin_refused(laboratory, port)
    with ThreadPoolExecutor(8) as pool:
        told = [pool.submit(go_on, link, pace) for link, pace in zip(links, PACES * 2)]
        expect_report_at_once(program)
        expect_served(program)
        for pace, one in zip(PACES * 2, told):
            octets, seconds = one.result()
            expect(f"{pace}: what is answered", octets, response(413))
            expect_that(f"{pace}: closed {seconds:.2f} seconds after the answer",
                        seconds < LINGERS + 1.0)
    close(program)


@case
def peers_that_go_on(laboratory: Laboratory) -> None:
    """Clients that go on sending a body after 413, whatever their pace, at the side of the peers."""
    going_on(laboratory, engines=False)


@case
def engines_that_go_on(laboratory: Laboratory) -> None:
    """As many at the side of the engines."""
    going_on(laboratory, engines=True)


@case
def end_beside_clients_that_go_on(laboratory: Laboratory) -> None:
    """They keep nobody from the end either."""
    program = laboratory.serve(FULFILLS)
    links = begin_refused(laboratory, program.setup.peers_port)
    # Served after them, so that they were accepted by then.
    expect_served(program)
    with ThreadPoolExecutor(8) as pool:
        told = [pool.submit(go_on, link, pace) for link, pace in zip(links, PACES * 2)]
        post_close(program)
        expect_end(program, alice=0, bob=0, within=LINGERS + END)
        for pace, one in zip(PACES * 2, told):
            expect(f"{pace}: what is answered", one.result()[0], response(413))


# ---- octets behind a body

# A Fulfill that doesn't fit into what a client takes at once who has room for so many octets.
LONG_FULFILL = fulfill(string(bytes(30_000)))
ROOM = 2_048


def narrow(laboratory: Laboratory, port: int) -> socket.socket:
    """A connection of a client that has little room for what it doesn't read."""
    link = laboratory.keep(socket.socket())
    link.setsockopt(socket.SOL_SOCKET, socket.SO_RCVBUF, ROOM)
    link.settimeout(TRIES)
    link.connect((HERE, port))
    return link


@case
def octets_behind_a_body(laboratory: Laboratory) -> None:
    """Octets behind a body are ignored: a client with little room gets its answer whole, whether they come before
    the answer or while it is on its way, and however many do."""
    program = laboratory.serve(answers_packet(LONG_FULFILL, after=0.2))
    whole = packet_request(program, soon(5))
    for count, behind in enumerate([b"\r\n", bytes(200_000)], start=1):
        early, late = (narrow(laboratory, program.setup.peers_port) for _ in range(2))
        for link in (early, late):
            link.sendall(whole)
        laboratory.bob.await_count("/ilp", 2 * count)
        early.sendall(behind)
        late.recv(1, socket.MSG_PEEK)
        late.sendall(behind)
        for what, link in (("before", early), ("behind", late)):
            expect_that(f"{len(behind)} octets {what} the answer's beginning: it does not come whole",
                        read_to_end(link) == response(200, LONG_FULFILL))
    close(program, alice=-20, bob=20)
