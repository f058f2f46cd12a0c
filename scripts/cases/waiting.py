"""Work that waits for a peer, and work that waits for nobody."""
import time
from concurrent.futures import ThreadPoolExecutor

from cases.case import case, expect, expect_that, expect_within
from cases.laboratory import (AT_ONCE, END, Laboratory, close, credit, packet_request, post_close,
                              send_packet)
from cases.messages import bearer, created, post, request, response, seconds_since, soon
from cases.program import Program, Setup
from cases.stand_ins import FULFILLS, answers_packet, never_answers
from connections import quantity
from scenes import FULFILL


def packet_of_bob(program: Program, octets: bytes, within: float = 5.0) -> bytes:
    """What bob is answered to a packet."""
    setup = program.setup
    return post(setup.peers_port, request("/ilp", bearer(setup.bob_token), body=octets), within)


def expect_at_once(what: str, start: float) -> None:
    """It took no longer than a moment."""
    took = seconds_since(start)
    expect_that(f"{what} took {took:.2f} seconds", took < AT_ONCE)


@case
def flood_to_a_silent_peer(laboratory: Laboratory) -> None:
    """Beside forty packets to a peer that says nothing, all that waits for nobody is served at once, and
    so is another sender's packet."""
    alice = laboratory.stand_in(FULFILLS)
    bob = laboratory.stand_in(never_answers)
    setup = Setup(alice=alice.port, bob=bob.port, top={"in_flight": 4, "max_hold_ms": 20_000})
    program = laboratory.start(setup)
    program.await_listening()
    for _ in range(40):
        link = laboratory.connect(setup.peers_port)
        link.sendall(packet_request(program, soon(1)))
    bob.await_count("/ilp", 2)
    start = time.monotonic()
    expect("a credit", credit(program, 7), created(quantity(7, 2)))
    expect_at_once("a credit", start)
    start = time.monotonic()
    report = post(setup.engines_port, request("/report"))
    expect_that("no report came", report.startswith(b"HTTP/1.1 200 OK"))
    expect_at_once("a report", start)
    start = time.monotonic()
    expect("a packet of bob", packet_of_bob(program, soon(5, destination=b"test.alice")),
           response(200, FULFILL))
    expect_at_once("a packet of bob", start)
    expect("how many of alice's packets bob has", len(bob.of("/ilp")), 2)
    start = time.monotonic()
    post_close(program)
    expect_at_once("the close", start)


@case
def half_of_what_is_in_flight(laboratory: Laboratory) -> None:
    """One sender's packets have half of what may be in flight, and no more, however many there are."""
    program = laboratory.serve(never_answers, in_flight=9, max_hold_ms=20_000)
    for _ in range(20):
        link = laboratory.connect(program.setup.peers_port)
        link.sendall(packet_request(program, soon(1)))
    laboratory.bob.await_count("/ilp", 4)
    # Served after them, so that a fifth would have gone out by then.
    expect("a credit", credit(program, 7), created(quantity(7, 2)))
    expect("how many packets bob has", len(laboratory.bob.of("/ilp")), 4)


@case
def senders_take_turns(laboratory: Laboratory) -> None:
    """With one place for both, the packets of two senders go out in turn, though one sent all of his
    before."""
    slow = answers_packet(FULFILL, after=0.3)
    alice, bob = laboratory.stand_in(slow), laboratory.stand_in(slow)
    setup = Setup(alice=alice.port, bob=bob.port, top={"in_flight": 1})
    program = laboratory.start(setup)
    program.await_listening()
    ended: list[str] = []

    def from_alice(_: int) -> bytes:
        told = send_packet(program, soon(1), 20.0)
        ended.append("alice")
        return told

    def from_bob(_: int) -> bytes:
        told = packet_of_bob(program, soon(1, destination=b"test.alice"), 20.0)
        ended.append("bob")
        return told

    with ThreadPoolExecutor(10) as pool:
        told = [pool.submit(from_alice, number) for number in range(6)]
        bob.await_count("/ilp", 1)
        told += [pool.submit(from_bob, number) for number in range(3)]
        expect("all packets", [one.result() for one in told], [response(200, FULFILL)] * 9)
    places = [place for place, name in enumerate(ended) if name == "bob"]
    expect_that(f"the packets ended in this order: {ended}", places[-1] <= 7)
    close(program, alice=-3, bob=3)


@case
def two_face_to_face(laboratory: Laboratory) -> None:
    """Two connectors that are each other's peers, with receivers that take 0.2 seconds: sixty packets
    through both, half of them either way, are all fulfilled."""
    slow = answers_packet(FULFILL, after=0.2)
    one = Setup(alice=laboratory.stand_in(slow).port,
                routes={"test.one": "alice", "test.other": "bob"})
    other = Setup(alice=laboratory.stand_in(slow).port, bob=one.peers_port,
                  routes={"test.other": "alice", "test.one": "bob"},
                  bob_token=one.to_bob, to_bob=one.bob_token)
    one.bob = other.peers_port
    programs = [laboratory.start(setup) for setup in (one, other)]
    for program in programs:
        program.await_listening()

    def send(number: int) -> bytes:
        place = number % 2
        destination = (b"test.other", b"test.one")[place]
        return send_packet(programs[place], soon(1, destination=destination), 30.0)

    start = time.monotonic()
    with ThreadPoolExecutor(60) as pool:
        told = list(pool.map(send, range(60)))
    expect("sixty packets", told, [response(200, FULFILL)] * 60)
    expect_within("seconds", seconds_since(start), 0.0, 25.0)
    for program in programs:
        close(program, within=END)
