"""Strangers: connections of nobody in particular that are many, idle, or slow."""
import itertools
import resource
import socket
import threading
import time
from collections import deque
from concurrent.futures import ThreadPoolExecutor

from cases.case import case, expect, expect_that
from cases.clients import is_closed
from cases.laboratory import (AT_ONCE, Laboratory, close, credit, expect_end, expect_packet,
                              expect_report_at_once, expect_served, packet_request, post_close)
from cases.messages import (HERE, bearer, connect, created, post, read_to_end, request, response,
                            seconds_since, soon)
from cases.program import Program, secret
from cases.stand_ins import FULFILLS
from connections import quantity
from scenes import FULFILL, T01

# Of a program whose open files are few: how many it may have, and how many strangers knock in all, by
# rounds. This process holds as many of them at once as it may.
FEW = 256
STRANGERS, LEAST_STRANGERS, ROUND = 5000, 1000, 100
OWN_FILES = 512

# Who drips says an octet so often, in seconds.
PACE = 0.005
DRIPPING = 200


# ---- many

def knock(laboratory: Laboratory, port: int) -> socket.socket:
    """A connection that need not be accepted yet."""
    link = laboratory.keep(socket.socket())
    link.setblocking(False)
    link.connect_ex((HERE, port))
    return link


def most_strangers() -> int:
    """How many strangers this process can hold at once."""
    limit, _ = resource.getrlimit(resource.RLIMIT_NOFILE)
    most = min(STRANGERS, limit - OWN_FILES)
    expect_that(f"this case needs {LEAST_STRANGERS + OWN_FILES} open files, and has {limit}",
                most >= LEAST_STRANGERS)
    return most


def knock_in_rounds(laboratory: Laboratory, program: Program, ports: list[int]) -> list[socket.socket]:
    """Strangers at these ports, and a packet and a report after each round of them; those of the end."""
    links: deque[socket.socket] = deque(maxlen=most_strangers())
    sides = itertools.cycle(ports)
    start = time.monotonic()
    for number in range(STRANGERS // ROUND):
        for _ in range(ROUND):
            if len(links) == links.maxlen:
                links[0].close()
            links.append(knock(laboratory, next(sides)))
        expect_served(program, amount=1)
        # Who knocked before it at the other side is accepted by then, too.
        expect_report_at_once(program)
        if number == LEAST_STRANGERS // ROUND - 1:
            expect("what the first stranger is answered", read_to_end(links[0]), b"")
            expect_that("the strangers were too slow for this case", seconds_since(start) < 8.0)
    expect_that("the last stranger is closed", not is_closed(links[-1]))
    return list(links)


def await_most_open(links: list[socket.socket], most: int, within: float = 20.0) -> None:
    """Waits until all but so many of these connections are closed by the other side. One that found no
    room with the system knocks again by itself, some seconds later."""
    end = time.monotonic() + within
    while (left := sum(not is_closed(link) for link in links)) > most:
        expect_that(f"of {len(links)} strangers {left} are still there", time.monotonic() < end)
        time.sleep(0.05)


def expect_all_at_once(program: Program) -> None:
    """A credit, a report and the close are answered, each within a moment."""
    start = time.monotonic()
    expect("a credit", credit(program, 1), created(quantity(1, 2)))
    expect_report_at_once(program)
    post_close(program)
    took = seconds_since(start)
    expect_that(f"a credit, a report and the close took {took:.2f} seconds", took < 3 * AT_ONCE)


def beside_strangers(laboratory: Laboratory, peers: bool, engines: bool) -> None:
    """With few open files all are served beside idle strangers at these sides, of whom the oldest go."""
    program = laboratory.serve(FULFILLS, descriptors=FEW)
    setup = program.setup
    ports = [setup.peers_port] * peers + [setup.engines_port] * engines
    links = knock_in_rounds(laboratory, program, ports)
    await_most_open(links, FEW)
    expect_all_at_once(program)
    expect_end(program, alice=-(STRANGERS // ROUND), bob=STRANGERS // ROUND + 1)


@case
def strangers_of_peers(laboratory: Laboratory) -> None:
    """With 256 open files, 5,000 strangers at the side of the peers."""
    beside_strangers(laboratory, peers=True, engines=False)


@case
def strangers_of_engines(laboratory: Laboratory) -> None:
    """As many at the side of the engines."""
    beside_strangers(laboratory, peers=False, engines=True)


@case
def strangers_at_both_sides(laboratory: Laboratory) -> None:
    """As many, at either side in turn."""
    beside_strangers(laboratory, peers=True, engines=True)


def await_served(program: Program, within: float = 10.0) -> None:
    """Waits until a packet is fulfilled; till then there may be no descriptor for the peer."""
    end = time.monotonic() + within
    setup = program.setup
    while True:
        reply = post(setup.peers_port, packet_request(program, soon(0)), within)
        if reply == response(200, FULFILL):
            return
        expect("a packet before it serves on", reply, response(200, T01))
        expect_that(f"it does not serve on within {within} seconds", time.monotonic() < end)


@case
def descriptors_used_up(laboratory: Laboratory) -> None:
    """With 64 descriptors and 200 connections it waits without working, and then serves on."""
    program = laboratory.serve(FULFILLS, descriptors=64)
    links = [knock(laboratory, program.setup.peers_port) for _ in range(200)]
    before = program.processor_seconds()
    time.sleep(3.0)
    used = program.processor_seconds() - before
    program.expect_running()
    for link in links:
        link.close()
    await_served(program)
    for _ in range(10):
        expect_served(program)
    expect_that(f"it used {used:.2f} seconds of the processor in 3", used < 1.5)
    expect_that(f"it said {len(program.error_lines())} lines", len(program.error_lines()) < 20)
    close(program)


# ---- slow

def post_by_octets(port: int, octets: bytes) -> bytes:
    """What is answered to a request whose octets come one by one."""
    with connect(port) as link:
        link.setsockopt(socket.IPPROTO_TCP, socket.TCP_NODELAY, 1)
        try:
            for octet in octets:
                link.send(bytes([octet]))
                time.sleep(PACE)
        except ConnectionError:
            # The rest is not wanted; the answer came before.
            pass
        return read_to_end(link)


@case
def requests_octet_by_octet(laboratory: Laboratory) -> None:
    """What comes octet by octet is served, or refused, as what comes at once."""
    program = laboratory.serve(FULFILLS)
    setup = program.setup
    peers, engines, shows = setup.peers_port, setup.engines_port, bearer(setup.token)
    key = f"Idempotency-Key: {setup.key}"
    rows = [
        ("a packet", peers, packet_request(program, soon(7)), response(200, FULFILL)),
        ("GET", peers, request("/ilp", shows, line="GET /ilp HTTP/1.1"), response(405)),
        ("no length", peers, request("/ilp", shows, length=[]), response(411)),
        ("another token", peers, request("/ilp", bearer(secret()), body=soon()), response(401)),
        ("rubbish", peers, b"hello\r\n\r\n", response(400)),
        ("another target", engines, request("/nowhere", body=b"{}"), response(404)),
        ("a settlement", engines,
         request("/accounts/bob/settlements", key, body=quantity(5, 2)), created(quantity(5, 2)))]
    with ThreadPoolExecutor(len(rows)) as pool:
        replies = list(pool.map(lambda row: post_by_octets(row[1], row[2]), rows))
    for (what, _, _, told), reply in zip(rows, replies):
        expect(what, reply, told)
    close(program, alice=-7, bob=12)


# A head of so many fields that has no end yet, in whose last value octets may follow.
LONG_FRONT = (b"POST /ilp HTTP/1.1\r\n" + b"".join(b"X%d: %s\r\n" % (number, b"a" * 200)
                                                  for number in range(50)) + b"X: ")


def drip_on(links: list[socket.socket], stop: threading.Event) -> None:
    """Says an octet of a head on each connection, again and again."""
    while not stop.wait(PACE):
        for link in links:
            try:
                link.send(b"a")
            except OSError:
                continue


@case
def dripping_heads(laboratory: Laboratory) -> None:
    """Beside 200 strangers whose heads grow octet by octet, half of them long ones, each packet is
    fulfilled within a second."""
    program = laboratory.serve(FULFILLS)
    links = [laboratory.connect(program.setup.peers_port) for _ in range(DRIPPING)]
    for link in links:
        link.setsockopt(socket.IPPROTO_TCP, socket.TCP_NODELAY, 1)
    for link in links[::2]:
        link.sendall(LONG_FRONT)
    stop = threading.Event()
    laboratory.stack.callback(stop.set)
    threading.Thread(target=drip_on, args=(links, stop), daemon=True).start()
    start = time.monotonic()
    packets = 0
    while seconds_since(start) < 6.0:
        before = time.monotonic()
        expect_packet("a packet", program, soon(1), FULFILL)
        packets += 1
        took = seconds_since(before)
        expect_that(f"packet {packets} took {took:.2f} seconds", took < 1.0)
    open_still = sum(not is_closed(link) for link in links)
    expect_all_at_once(program)
    expect_that(f"of 200 strangers only {open_still} dripped on", open_still == DRIPPING)
    expect_end(program, alice=-packets, bob=packets + 1)
