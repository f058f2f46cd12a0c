"""The end: what was accepted is answered or closed in time, nobody is accepted any more, and the
program exits."""
import errno
import os
import select
import socket
import struct
import threading
import time
from concurrent.futures import ThreadPoolExecutor

from cases.case import case, expect, expect_that, expect_within
from cases.disks import library_of
from cases.laboratory import (AT_ONCE, END, Laboratory, close, credit, expect_end, expect_served,
                              packet_request, post_close, send_packet)
from cases.lines import KEPT_OPEN, MORE, split_report
from cases.messages import (HERE, bearer, connect, created, post, read_to_end, request, response,
                            seconds_since, soon)
from cases.program import Program, Setup, numbers_in, secret
from cases.stand_ins import FULFILLS, answers_packet, engine_of, never_answers, status
from connections import MESSAGE, TEXT, quantity
from scenes import FULFILL, R00, T01

SETTLEMENTS = "/accounts/bob/settlements"

# In seconds: the longest hold of some cases, what is still served after a close beside it, and what a
# response and an engine's call have.
HOLD = 2.0
MARGIN = 10.0
RESPONSE = 10.0
CALL = 10.0

# In seconds: what a connection takes to close for slow_close.c.
SLOW = 2.0


def expect_end_since(program: Program, start: float, most: float, alice: int = 0,
                     bob: int = 0) -> None:
    """It ends with a report of these balances, so many seconds after the close at most."""
    expect_end(program, alice, bob, within=max(most - seconds_since(start), 0.1))
    expect_within("seconds from the close to the end", seconds_since(start), 0.0, most)


def await_nobody_accepted(program: Program) -> None:
    """Waits a moment at most until no side takes a connection, while the program is still there."""
    end = time.monotonic() + AT_ONCE
    for port in (program.setup.peers_port, program.setup.engines_port):
        while is_accepted(port):
            expect_that("a port still takes connections", time.monotonic() < end)
            time.sleep(0.05)
    program.expect_running()


def is_accepted(port: int) -> bool:
    """Whether a port takes a connection."""
    try:
        connect(port).close()
        return True
    except OSError:
        return False


# ---- packets

@case
def end_at_rest(laboratory: Laboratory) -> None:
    """Sweeper and settler that rest for a minute keep the end waiting no longer than any."""
    program = laboratory.serve(FULFILLS, engine_of(), sweep_ms=60_000, settle_ms=60_000)
    expect_served(program, amount=1)
    start = time.monotonic()
    close(program, alice=-1, bob=1)
    expect_within("seconds from the close to the end", seconds_since(start), 0.0, END)


@case
def end_beside_a_packet(laboratory: Laboratory) -> None:
    """A packet that is on its way at the close is answered, and then comes the end."""
    program = laboratory.serve(answers_packet(FULFILL, after=2.0), sweep_ms=60_000)
    with ThreadPoolExecutor(1) as pool:
        answer = pool.submit(send_packet, program, soon(), 10.0)
        laboratory.bob.await_count("/ilp", 1)
        post_close(program)
        expect("the packet", answer.result(), response(200, FULFILL))
    expect_end(program, alice=-50, bob=50)


@case
def end_beside_a_silent_peer(laboratory: Laboratory) -> None:
    """A packet that is on its way to a peer that says nothing is timed out, and then comes the end; till
    then nobody is accepted."""
    program = laboratory.serve(never_answers, max_hold_ms=int(HOLD * 1000))
    with ThreadPoolExecutor(1) as pool:
        answer = pool.submit(send_packet, program, soon(), 10.0)
        laboratory.bob.await_count("/ilp", 1)
        start = time.monotonic()
        post_close(program)
        await_nobody_accepted(program)
        expect("the packet", answer.result(), response(200, R00))
    expect_end_since(program, start, HOLD + END)


@case
def close_beside_waiting_packets(laboratory: Laboratory) -> None:
    """A close is answered and nobody is accepted any more, though packets wait for places. What has not
    begun after the longest hold and ten seconds is closed unanswered, and nothing of it is booked."""
    program = laboratory.serve(never_answers, in_flight=4, max_hold_ms=int(HOLD * 1000))
    links = [laboratory.connect(program.setup.peers_port) for _ in range(20)]
    for link in links:
        link.sendall(packet_request(program, soon(1, milliseconds=60_000)))
    laboratory.bob.await_count("/ilp", 1)
    start = time.monotonic()
    post_close(program)
    expect_that("the close was not answered at once", seconds_since(start) < AT_ONCE)
    await_nobody_accepted(program)
    replies = [read_to_end(link, 40.0) for link in links]
    expect_within("seconds until the last is answered or closed", seconds_since(start),
                  HOLD + MARGIN - 1.0, HOLD + MARGIN + HOLD + 1.0)
    expect("what they are answered", set(replies), {response(200, R00), b""})
    begun = replies.count(response(200, R00))
    expect("how many packets bob has", len(laboratory.bob.of("/ilp")), begun)
    expect_end(program, alice=0, bob=0)


# ---- connections

@case
def end_beside_connections(laboratory: Laboratory) -> None:
    """What was accepted before the close is answered if it comes soon; no more comes in."""
    program = laboratory.serve(FULFILLS)
    setup = program.setup
    early = laboratory.connect(setup.peers_port)
    silent = laboratory.connect(setup.peers_port)
    # Served after the two, so that both were accepted by then.
    expect_served(program)
    start = time.monotonic()
    post_close(program)
    early.sendall(packet_request(program, soon(5)))
    expect("a packet on an early connection", read_to_end(early), response(200, FULFILL))
    expect("what the silent one is answered", read_to_end(silent, END), b"")
    expect_end_since(program, start, END + 1, alice=-5, bob=5)
    expect_that("its port still takes connections", not is_accepted(setup.peers_port))


@case
def end_beside_half_requests(laboratory: Laboratory) -> None:
    """Strangers that have sent half a head or half a body are closed a second after the close."""
    program = laboratory.serve(FULFILLS)
    setup = program.setup
    whole = packet_request(program, soon())
    told = request("/accounts/bob/settlements", "Idempotency-Key: k", body=quantity(7, 2))
    begun = [(setup.peers_port, whole[:30]), (setup.peers_port, whole[:-5]),
             (setup.engines_port, told[:30]), (setup.engines_port, told[:-5])]
    links = []
    for port, octets in begun:
        links.append(laboratory.connect(port))
        links[-1].sendall(octets)
    # Served after them at either side, so that they were accepted by then.
    expect_served(program)
    expect("a credit", credit(program, 1), created(quantity(1, 2)))
    start = time.monotonic()
    post_close(program)
    for link in links:
        expect("what a half request is answered", read_to_end(link, 1.0 + AT_ONCE), b"")
    expect_end_since(program, start, 1.0 + END, bob=1)


def longest_report() -> list[str]:
    """The tables with which a report has most lines: 63 more assets, and 254 more peers."""
    lines = []
    for number in range(1, 64):
        lines += ["[[asset]]", f'code = "A{number}"', "scale = 2"]
    for number in range(254):
        lines += ["[[peer]]", f'name = "p{number}"', 'asset = "USD/2"', f'token = "{secret()}"',
                  f'out_token = "{secret()}"', f'host = "{HERE}:1"', "least = 0"]
    return lines


def narrow_link(laboratory: Laboratory, port: int) -> socket.socket:
    """A connection on which the longest report does not fit unless some of it is read."""
    link = laboratory.keep(socket.socket())
    link.setsockopt(socket.SOL_SOCKET, socket.SO_RCVBUF, 1)
    link.setsockopt(socket.IPPROTO_TCP, socket.TCP_MAXSEG, 88)
    link.settimeout(5.0)
    link.connect((HERE, port))
    return link


@case
def end_beside_a_client_that_does_not_read(laboratory: Laboratory) -> None:
    """Who reads nothing of a long response keeps the end waiting for 10 seconds at most; who reads late
    gets it whole."""
    program = laboratory.start(Setup(further=longest_report()))
    program.await_listening()
    links = [narrow_link(laboratory, program.setup.engines_port) for _ in range(2)]
    for link in links:
        link.sendall(request("/report"))
    for link in links:
        expect_that("no report begins", link.recv(1, socket.MSG_PEEK) != b"")
    start = time.monotonic()
    post_close(program)
    # The response has no more room by now, and waits.
    time.sleep(1.0)
    late = read_to_end(links[0], RESPONSE)
    expect("the exit status", program.end(RESPONSE + END - seconds_since(start)), 0)
    text = program.output()
    expect("the lines of the report", len(text.splitlines()), 2 * 256 + 5 * 64 + 2)
    expect("the report to who reads late", late, response(200, text.encode(), TEXT))


# How many clients knock at each side, and how often each does behind the close's answer.
KNOCKING, KNOCKS = 4, 20


def knock(port: int, answered: threading.Event) -> list[str]:
    """Connects one time after the other, and so often behind the close's answer: what came of those then."""
    late = []
    while len(late) < KNOCKS:
        is_late = answered.is_set()
        try:
            link = connect(port)
            # Without a trace, so that there are ports for the next.
            link.setsockopt(socket.SOL_SOCKET, socket.SO_LINGER, struct.pack("ii", 1, 0))
            link.close()
            came = "accepted"
        except OSError as fault:
            came = errno.errorcode.get(fault.errno or 0, repr(fault))
        if is_late:
            late.append(came)
    return late


@case
def nobody_behind_the_close(laboratory: Laboratory) -> None:
    """Once a close is answered both sides refuse who connects, though many do all the time; so it is behind each answer
    of two that close at once."""
    for count in (1, 2, 1, 2):
        program, answered = laboratory.serve(FULFILLS), threading.Event()
        ports = [program.setup.peers_port, program.setup.engines_port]
        with ThreadPoolExecutor(2 * KNOCKING + count) as pool:
            knocking = [pool.submit(knock, port, answered) for port in ports * KNOCKING]
            links = [laboratory.connect(program.setup.engines_port) for _ in range(count)]
            for link in links:
                link.sendall(request("/close"))
            # The first that is answered.
            select.select(links, [], [], END)
            answered.set()
            expect("what comes of who connects then", [one.result() for one in knocking],
                   [["ECONNREFUSED"] * KNOCKS] * len(knocking))
            for link in links:
                expect("/close", read_to_end(link), response(200))
        expect_end(program, alice=0, bob=0)


def answer_if_any(port: int, octets: bytes) -> bytes:
    """What a port answers, if it takes a connection at all."""
    try:
        return post(port, octets)
    except OSError:
        return b""


@case
def two_closes(laboratory: Laboratory) -> None:
    """Closes that come together are each answered, or find nobody there."""
    program = laboratory.serve(FULFILLS)
    with ThreadPoolExecutor(8) as pool:
        told = set(pool.map(lambda _: answer_if_any(program.setup.engines_port, request("/close")),
                            range(8)))
    expect_that(f"what closes were answered: {told}", response(200) in told)
    expect_that(f"what closes were answered: {told}", told <= {response(200), b""})
    expect_end(program, alice=0, bob=0)


@case
def end_beside_a_slow_worker(laboratory: Laboratory) -> None:
    """A worker that is busy while the last connections are taken in hears of the end all the same, here one that
    takes two seconds to close the connection of a half closed client. This is left out where there is no C compiler."""
    folder = laboratory.folder()
    if (library := library_of("slow_close.c", folder)) is None:
        return
    slow = folder / "slow"
    program = laboratory.run(Program(laboratory.binary, laboratory.folder(), Setup(),
                                     environment={"LD_PRELOAD": str(library), "SLOW_CLOSE": str(slow)}))
    program.await_listening()
    busy, link = (laboratory.connect(program.setup.engines_port) for _ in range(2))
    slow.touch()
    busy.sendall(request("/report"))
    busy.shutdown(socket.SHUT_WR)
    expect_that("no report came", read_to_end(busy).startswith(b"HTTP/1.1 200 OK"))
    link.sendall(request("/close"))
    start = time.monotonic()
    expect("/close", read_to_end(link, SLOW + END), response(200))
    expect_end_since(program, start, SLOW + END)


# ---- engines

@case
def end_beside_a_silent_engine(laboratory: Laboratory) -> None:
    """An engine that says nothing of a settlement is waited for a second or two; the settlement stays
    open."""
    program = laboratory.serve(FULFILLS, engine_of(never_answers), settle_ms=50)
    expect("a credit", credit(program, 1000), created(quantity(1000, 2)))
    laboratory.engine.await_count(SETTLEMENTS, 1)
    start = time.monotonic()
    post_close(program)
    expect_end_since(program, start, END, bob=200)
    program.await_told(f"warn settlement 1 with bob: {KEPT_OPEN}{MORE}", within=0.0)


@case
def end_beside_an_engine_that_refuses(laboratory: Laboratory) -> None:
    """The wait for the next settlement keeps nobody from the end."""
    program = laboratory.serve(FULFILLS, engine_of(status(400)), settle_ms=20)
    expect("a credit", credit(program, 1000), created(quantity(1000, 2)))
    program.await_told(r"warn settlement 3 with bob of 800: refused .+ waits 2 seconds")
    start = time.monotonic()
    post_close(program)
    expect_end_since(program, start, END, bob=1000)
    expect("how often the engine was asked", len(laboratory.engine.of(SETTLEMENTS)), 2)


@case
def end_beside_a_message(laboratory: Laboratory) -> None:
    """A message to an engine that says nothing is T01, 10 seconds after it was asked at the latest."""
    program = laboratory.serve(FULFILLS, engine_of(message=never_answers), levels=False)
    setup = program.setup
    body = soon(0, MESSAGE, b"peer.settle")
    with ThreadPoolExecutor(1) as pool:
        told = pool.submit(post, setup.peers_port,
                           request("/ilp", bearer(setup.bob_token), body=body), CALL + END)
        laboratory.engine.await_count("/accounts/bob/messages", 1)
        start = time.monotonic()
        post_close(program)
        expect("bob's message", told.result(), response(200, T01))
    expect_end_since(program, start, CALL + END)


# ---- the report, and no report

@case
def terminated(laboratory: Laboratory) -> None:
    """SIGTERM ends it, by that signal, and without a report."""
    program = laboratory.serve(FULFILLS)
    expect_served(program)
    program.terminate()
    expect("the exit status", program.end(2.0), -15)
    expect("standard output", program.output(), "")


def expect_report_among_lines(laboratory: Laboratory, output: int) -> None:
    """Where its standard output fails, the report is on standard error, and the status is 3."""
    bob = laboratory.stand_in(FULFILLS)
    program = laboratory.start(Setup(bob=bob.port), output=output)
    program.await_listening()
    expect_served(program, amount=10)
    expect("a credit", credit(program, 5), created(quantity(5, 2)))
    post_close(program)
    expect("the exit status", program.end(END), 3)
    expect("the report", numbers_in(split_report(program.errors())[1]),
           [-10, 15, 0, 0, 0, 0, 10, 10, 5, 3, 1])


@case
def report_to_a_full_device(laboratory: Laboratory) -> None:
    """A report for which standard output has no room follows on standard error."""
    with open("/dev/full", "wb") as full:
        expect_report_among_lines(laboratory, full.fileno())


@case
def report_to_a_closed_pipe(laboratory: Laboratory) -> None:
    """So does one that nobody reads, and no SIGPIPE comes."""
    reading, writing = os.pipe()
    os.close(reading)
    with os.fdopen(writing, "wb", buffering=0):
        expect_report_among_lines(laboratory, writing)
