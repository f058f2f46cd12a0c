"""Clients that are slow, many, gone, or half closed."""
import socket
import struct
import threading
import time
from concurrent.futures import ThreadPoolExecutor

from cases.case import Differs, case, expect, expect_that, expect_within
from cases.laboratory import (AT_ONCE, Laboratory, close, credit, expect_end, expect_served,
                              packet_request, post_close, send_packet)
from cases.messages import (connect, created, post, read_to_end, request, response,
                            seconds_since, soon)
from cases.program import Program
from cases.stand_ins import FULFILLS, Received, answers_packet
from connections import quantity
from scenes import FULFILL

# A request has 10 seconds; what is measured here may begin before its acceptance, and end after it
# was dropped.
LEAST_WAIT, MOST_WAIT = 9.5, 12.5
THOUSAND = 1000

# In seconds: for how long a packet's turn may be held up.
TURN = 10.0


# ---- slow ones

def await_drop(link: socket.socket) -> tuple[float, bytes]:
    """How long the other side keeps a connection on which no more is said, and what it says."""
    start = time.monotonic()
    octets = read_to_end(link, MOST_WAIT + 5)
    return seconds_since(start), octets


def drip_until_dropped(link: socket.socket, octets: bytes) -> tuple[float, bytes]:
    """The same for one on which an octet is said each second."""
    start = time.monotonic()
    link.settimeout(1.0)
    for octet in octets[:int(MOST_WAIT) + 5]:
        try:
            link.send(bytes([octet]))
            told = link.recv(1024)
            return seconds_since(start), told
        except TimeoutError:
            continue
        except ConnectionError:
            return seconds_since(start), b""
    raise Differs("a client that drips was not dropped")


@case
def slow_clients(laboratory: Laboratory) -> None:
    """Who stops anywhere, or drips, is dropped after 10 seconds without an answer."""
    program = laboratory.serve(FULFILLS)
    setup = program.setup
    whole = packet_request(program, soon())
    long_body = request("/accounts/bob/messages", body=bytes(1000))
    begun = [("nothing", setup.peers_port, b""), ("half a head", setup.peers_port, whole[:30]),
             ("half a body", setup.peers_port, whole[:-5]), ("an engine", setup.engines_port, b""),
             ("an engine's half body", setup.engines_port, long_body[:-5])]
    with ThreadPoolExecutor(7) as pool:
        waits = []
        for what, port, octets in begun:
            link = laboratory.connect(port)
            link.sendall(octets)
            waits.append((what, pool.submit(await_drop, link)))
        for what, port in [("drips", setup.peers_port), ("an engine drips", setup.engines_port)]:
            link = laboratory.connect(port)
            waits.append((what, pool.submit(drip_until_dropped, link, long_body)))
        expect_served(program)
    for what, wait in waits:
        seconds, octets = wait.result()
        expect_within(f"{what}: seconds until it is dropped", seconds, LEAST_WAIT, MOST_WAIT)
        expect(f"{what}: what is answered", octets, b"")
    close(program)


@case
def client_that_does_not_read(laboratory: Laboratory) -> None:
    """Clients that never read their answers keep nobody waiting, and not the end either."""
    program = laboratory.serve(answers_packet(FULFILL))
    for _ in range(12):
        link = laboratory.keep(socket.socket())
        link.setsockopt(socket.SOL_SOCKET, socket.SO_RCVBUF, 2048)
        link.settimeout(5.0)
        link.connect(("127.0.0.1", program.setup.peers_port))
        link.sendall(packet_request(program, soon(1)))
    laboratory.bob.await_count("/ilp", 12)
    expect_served(program)
    close(program, alice=-12, bob=12)


@case
def waiting_for_its_turn(laboratory: Laboratory) -> None:
    """A whole request that waits for its turn longer than 10 seconds is answered."""
    program = laboratory.serve(answers_packet(FULFILL, after=6.0), in_flight=1)
    with ThreadPoolExecutor(3) as pool:
        replies = list(pool.map(lambda _: send_packet(program, soon(1), 30.0), "abc"))
    expect("three packets", replies, [response(200, FULFILL)] * 3)
    close(program, alice=-3, bob=3)


# ---- many

def served_at_once(program: Program) -> None:
    """The packets of eight clients are fulfilled, all within a moment."""
    start = time.monotonic()
    with ThreadPoolExecutor(8) as pool:
        replies = list(pool.map(lambda _: send_packet(program, soon(1)), range(8)))
    took = seconds_since(start)
    expect("eight packets", replies, [response(200, FULFILL)] * 8)
    expect_that(f"eight packets took {took:.2f} seconds", took < AT_ONCE)


def drip(links: list[socket.socket], stop: threading.Event) -> None:
    """Says an octet on each connection each second."""
    for octet in b"POST /ilp HTTP/1.1\r\nHost: somewhere\r\n":
        for link in links:
            try:
                link.send(bytes([octet]))
            except OSError:
                continue
        if stop.wait(1.0):
            return


def beside_a_thousand(laboratory: Laboratory, engines: bool, dripping: bool) -> None:
    """Beside a thousand clients of a side, packets, a credit and the end are served at once."""
    program = laboratory.serve(FULFILLS)
    setup = program.setup
    port = setup.engines_port if engines else setup.peers_port
    links = [laboratory.connect(port) for _ in range(THOUSAND)]
    stop = threading.Event()
    laboratory.stack.callback(stop.set)
    if dripping:
        threading.Thread(target=drip, args=(links, stop), daemon=True).start()
    for _ in range(3):
        served_at_once(program)
    start = time.monotonic()
    expect("a credit", credit(program, 1), created(quantity(1, 2)))
    post_close(program)
    took = seconds_since(start)
    expect_that(f"a credit and the close took {took:.2f} seconds", took < AT_ONCE)
    expect_end(program, alice=-24, bob=25)


@case
def thousand_silent_peers(laboratory: Laboratory) -> None:
    """A thousand peers that say nothing."""
    beside_a_thousand(laboratory, engines=False, dripping=False)


@case
def thousand_dripping_peers(laboratory: Laboratory) -> None:
    """A thousand peers that say an octet a second."""
    beside_a_thousand(laboratory, engines=False, dripping=True)


@case
def thousand_silent_engines(laboratory: Laboratory) -> None:
    """A thousand engines that say nothing."""
    beside_a_thousand(laboratory, engines=True, dripping=False)


@case
def thousand_dripping_engines(laboratory: Laboratory) -> None:
    """A thousand engines that say an octet a second."""
    beside_a_thousand(laboratory, engines=True, dripping=True)


def is_closed(link: socket.socket) -> bool:
    """Whether the other side has closed, without waiting."""
    link.setblocking(False)
    try:
        return link.recv(1) == b""
    except BlockingIOError:
        return False
    except ConnectionError:
        return True


@case
def oldest_goes(laboratory: Laboratory) -> None:
    """Of 1,100 connections at a side the oldest go, until 1,024 wait."""
    program = laboratory.serve(FULFILLS)
    start = time.monotonic()
    links = [laboratory.connect(program.setup.peers_port) for _ in range(1100)]
    # The last of those that are to go is closed, or the case ends by its own limit.
    oldest = read_to_end(links[75], 5.0)
    expect("what the oldest are answered", oldest, b"")
    expect_that("the connections were too slow for this case", seconds_since(start) < 8.0)
    gone = [place for place, link in enumerate(links) if is_closed(link)]
    expect("which connections are closed", gone, list(range(76)))
    expect_served(program)
    close(program)


# ---- gone, or half closed

@case
def half_closed(laboratory: Laboratory) -> None:
    """A client that has shut its side for writing gets its answer."""
    program = laboratory.serve(answers_packet(FULFILL, after=0.5))
    setup = program.setup
    expect("a packet", send_packet(program, soon(), half_closed=True), response(200, FULFILL))
    settlement = request("/accounts/alice/settlements", "Idempotency-Key: k", body=quantity(7, 2))
    expect("a settlement", post(setup.engines_port, settlement, half_closed=True),
           created(quantity(7, 2)))
    expect("/close", post(setup.engines_port, request("/close"), half_closed=True), response(200))
    expect_end(program, alice=-43, bob=50)


def reset(link: socket.socket) -> None:
    """Closes a connection by a reset."""
    link.setsockopt(socket.SOL_SOCKET, socket.SO_LINGER, struct.pack("ii", 1, 0))
    link.close()


def shut_and_reset(link: socket.socket) -> None:
    """Shuts a connection's side for writing, and resets it then: a write to it may be a SIGPIPE."""
    link.shutdown(socket.SHUT_WR)
    reset(link)


@case
def client_that_goes_away(laboratory: Laboratory) -> None:
    """A hold whose client has gone is booked and answered all the same, and no SIGPIPE comes."""
    program = laboratory.serve(answers_packet(FULFILL, after=0.5))
    for count, leave in enumerate([socket.socket.close, reset, shut_and_reset], start=1):
        link = connect(program.setup.peers_port)
        link.sendall(packet_request(program, soon()))
        laboratory.bob.await_count("/ilp", count)
        leave(link)
    expect_served(program)
    program.expect_running()
    close(program, alice=-150, bob=150)


@case
def reset_before_its_turn(laboratory: Laboratory) -> None:
    """A packet whose client has reset its connection while it waited for its turn is not begun."""
    goes_on = threading.Event()

    def behave(received: Received, link: socket.socket, stop: threading.Event) -> None:
        goes_on.wait(TURN)
        FULFILLS(received, link, stop)
    program = laboratory.serve(behave, in_flight=1)
    port = program.setup.peers_port
    links = []
    for amount in (1, 10, 100):
        links.append(laboratory.connect(port))
        links[-1].sendall(packet_request(program, soon(amount)))
        laboratory.bob.await_count("/ilp", 1)
        # Answered behind the packet, and behind a reset before it, which have been seen by then.
        expect("a refused request", post(port, request("/nowhere")), response(404))
        if amount == 10:
            reset(links.pop())
    goes_on.set()
    expect("the others", [read_to_end(link) for link in links], [response(200, FULFILL)] * 2)
    expect("how many packets bob has", len(laboratory.bob.of("/ilp")), 2)
    close(program, alice=-101, bob=101)


@case
def resets(laboratory: Laboratory) -> None:
    """Clients that reset at any place of their requests, a hundred of them."""
    program = laboratory.serve(FULFILLS)
    whole = packet_request(program, soon(0))
    for place in range(100):
        link = connect(program.setup.peers_port)
        link.sendall(whole[:len(whole) * place // 99])
        reset(link)
    program.expect_running()
    expect_served(program)
    close(program)
