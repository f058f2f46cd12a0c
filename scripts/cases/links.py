"""Peers' servers that answer late, wrongly, or not at all."""
import time
from dataclasses import dataclass

from cases.case import case, expect, expect_that, expect_within
from cases.laboratory import (AT_ONCE, Laboratory, close, expect_packet, expect_served, post_close,
                              send_packet)
from cases.lines import BAD_200, HELD
from cases.messages import HERE, response, seconds_since, soon
from cases.program import Program
from cases.stand_ins import (FULFILLS, Behaviour, answers, closes, drips, in_turn,
                             never_answers)
from connections import prepare
from scenes import F99, FULFILL, R00, T01

# Of a packet that expires in three seconds, the hold ends after two, by the window.
SHORT = 3000
LEAST_HOLD, MOST_HOLD = 1.7, 3.2

OK = "HTTP/1.1 200 OK\r\n"


@dataclass(frozen=True)
class Fault:
    """An answer that is none, and the level and the form of the text with which it is told."""

    what: str
    behaviour: Behaviour
    level: str
    why: str


def no_http(what: str, behaviour: Behaviour) -> Fault:
    """What can't be used as HTTP."""
    return Fault(what, behaviour, "warn", "no response of HTTP: .+")


def other_status(code: int, octets: bytes) -> Fault:
    """A status that is no answer."""
    return Fault(f"status {code}", answers(octets), "warn", f"status {code}")


def no_packet(what: str, octets: bytes) -> Fault:
    """A 200 without a Fulfill or a Reject."""
    return Fault(what, answers(octets), "error", BAD_200 + HELD)


FAULTS = [
    no_http("100,000 octets",
            answers(f"{OK}Content-Length: 100000\r\n\r\n".encode() + bytes(100_000))),
    no_http("100,000 octets without a length", answers(f"{OK}\r\n".encode() + bytes(100_000))),
    no_http("a head without an end", answers(OK.encode() + b"X: " + b"a" * 20_000)),
    no_http("65 fields", answers((OK + "X: a\r\n" * 65 + "\r\n").encode())),
    no_http("no HTTP", answers(b"hello")),
    no_http("nothing", closes),
    no_http("an end in the body", answers(f"{OK}Content-Length: 36\r\n\r\n".encode() + FULFILL)),
    no_http("two lengths",
            answers((OK + "Content-Length: 35\r\n" * 2 + "\r\n").encode() + FULFILL)),
    other_status(500, b"HTTP/1.1 500 No\r\nContent-Length: 35\r\n\r\n" + FULFILL),
    other_status(201, b"HTTP/1.1 201 Made\r\nContent-Length: 35\r\n\r\n" + FULFILL),
    other_status(100, b"HTTP/1.1 100 Go on\r\n\r\n" + response(200, FULFILL)),
    other_status(302, b"HTTP/1.1 302 Found\r\nLocation: /\r\nContent-Length: 0\r\n\r\n"),
    no_packet("chunks", f"{OK}Transfer-Encoding: chunked\r\n\r\n23\r\n".encode() + FULFILL
              + b"\r\n0\r\n\r\n"),
    no_packet("a body under a Transfer-Encoding",
              f"{OK}Transfer-Encoding: identity\r\n\r\n".encode() + FULFILL),
    no_packet("a body that is no packet", response(200, b"\x0c")),
    no_packet("rubbish", response(200, b"hello")),
    no_packet("a Prepare", response(200, prepare())),
    no_packet("an octet after a Fulfill", response(200, FULFILL + b"a")),
    no_packet("an empty body", response(200)),
]


@case
def faults_of_a_peer(laboratory: Laboratory) -> None:
    """What is no answer is T01 at once, and the hold is released."""
    program = laboratory.serve(in_turn(*(fault.behaviour for fault in FAULTS), FULFILLS))
    for fault in FAULTS:
        start = time.monotonic()
        expect_packet(fault.what, program, soon(), T01)
        took = seconds_since(start)
        expect_that(f"{fault.what}: it took {took:.2f} seconds", took < 2.0)
    expect_served(program, amount=50)
    close(program, alice=-50, bob=50)


@case
def odd_answers_of_a_peer(laboratory: Laboratory) -> None:
    """Answers that count: with octets after the body, with no length, in small letters."""
    rows = [("octets after the body", response(200, FULFILL) + b"hello"),
            ("no length", f"{OK}\r\n".encode() + FULFILL),
            ("small letters", f"{OK}content-length:  35  \r\n\r\n".encode() + FULFILL),
            ("HTTP/1.0 and line feeds", b"HTTP/1.0 200 OK\nContent-Length: 35\n\n" + FULFILL)]
    program = laboratory.serve(in_turn(*(answers(octets) for _, octets in rows)))
    for what, _ in rows:
        expect_packet(what, program, soon(), FULFILL)
    close(program, alice=-200, bob=200)


@case
def peer_that_is_not_there(laboratory: Laboratory) -> None:
    """A peer at whose port nobody listens is T01 at once."""
    program = laboratory.serve()
    for _ in range(3):
        start = time.monotonic()
        expect_packet("a packet", program, soon(), T01)
        took = seconds_since(start)
        expect_that(f"it took {took:.2f} seconds", took < 1.0)
    program.await_told(f"warn peer bob at {HERE}:{program.setup.bob}: not reached: connection refused")
    close(program)


def expect_late(program: Program, what: str) -> None:
    """A packet comes back as timed out, when its hold is late and no later."""
    start = time.monotonic()
    octets = soon(milliseconds=SHORT)
    expect(what, send_packet(program, octets, 10.0), response(200, R00))
    expect_within(f"{what}: seconds", seconds_since(start), LEAST_HOLD, MOST_HOLD)


@case
def late_peers(laboratory: Laboratory) -> None:
    """A peer that never answers, or drips, is R00 at the deadline."""
    rows = [("never answers", never_answers), ("drips", drips(response(200, F99)))]
    for what, behaviour in rows:
        program = laboratory.serve(behaviour)
        expect_late(program, what)
        close(program)


@case
def peer_that_takes_no_connection(laboratory: Laboratory) -> None:
    """A connection is given up after a second, though the packet has half a minute."""
    program = laboratory.serve(laboratory.full_house().port)
    start = time.monotonic()
    expect_packet("a packet", program, soon(), T01)
    expect_within("seconds", seconds_since(start), 0.9, 1.0 + AT_ONCE)
    program.await_told(f"warn peer bob at {HERE}:{program.setup.bob}: not reached: timed out")
    close(program)


@case
def longest_hold(laboratory: Laboratory) -> None:
    """A packet that expires late is held for the longest hold, though the sweeper rests."""
    program = laboratory.serve(never_answers, max_hold_ms=2000, sweep_ms=60_000)
    start = time.monotonic()
    expect("a packet", send_packet(program, soon(), 10.0), response(200, R00))
    expect_within("seconds", seconds_since(start), LEAST_HOLD, MOST_HOLD)
    close(program)


@case
def peer_that_comes_late(laboratory: Laboratory) -> None:
    """What a peer answers after the deadline is not booked, and it ends soon after a close."""
    program = laboratory.serve(answers(response(200, FULFILL), after=4.0), sweep_ms=60_000)
    expect_late(program, "an answer after the deadline")
    post_close(program)
    expect("the exit status", program.end(2.5), 0)
