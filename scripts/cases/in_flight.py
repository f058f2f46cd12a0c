"""Packets that are in flight, thousands of them and slow ones, of which none holds another up."""
import time
from concurrent.futures import ThreadPoolExecutor

from cases.case import case, expect, expect_that, expect_within
from cases.crowds import Answer, Crowd, Hall, octet_by_octet, room_for
from cases.disks import Disk
from cases.ending import MARGIN, await_nobody_accepted
from cases.journals import Kept
from cases.laboratory import (AT_ONCE, END, Laboratory, close, credit, expect_end, expect_report_at_once,
                              packet_request, post_close, send_packet)
from cases.log_faults import AGAIN, await_fulfilled
from cases.messages import HERE, bearer, created, post, request, response, seconds_since, soon
from cases.operating import own_limit
from cases.program import Program, Setup, numbers_in, secret
from cases.stand_ins import FULFILLS, engine_of, free_port
from cases.telling import files_wanted, in_flight_by
from cases.telling_of_the_book import rejects_told
from connections import ANSWER, MESSAGE, quantity
from packets import reject
from scenes import FULFILL, R00, T01, fulfill

T03 = reject(b"T03", b"test.hub", b"connector busy")

# In seconds: what a packet takes that nothing holds up, with what this machine may take beside other work.
HEALTHY = 0.3

# In milliseconds: holds that no case waits for.
LONG = 60_000

# How many may be in flight where nothing else is said; of one sender, or to one receiver, half of them at most.
IN_FLIGHT = 4096
HALF = IN_FLIGHT // 2


# ---- who sends

def carol_of(setup: Setup, port: int) -> str:
    """Adds a third peer to a configuration, whose server is at this port; the token that she shows."""
    token, out_token = secret(), secret()
    setup.further += setup.peer("carol", token, out_token, f"{HERE}:{port}", None)
    setup.further += ["[[route]]", 'prefix = "test.carol"', 'peer = "carol"']
    return token


def packet_of(token: str, octets: bytes) -> bytes:
    """The request with which whoever shows this token sends a packet."""
    return request("/ilp", bearer(token), body=octets)


def beside(laboratory: Laboratory, bob: Hall, **top: int | str) -> Setup:
    """Alice, whose server fulfills at once, and bob, whose server is this one."""
    return Setup(alice=laboratory.stand_in(FULFILLS).port, bob=bob.port, top=top)


def start(laboratory: Laboratory, setup: Setup) -> Program:
    """A connector that listens."""
    program = laboratory.start(setup)
    program.await_listening()
    return program


def start_with_carol(laboratory: Laboratory, bob: Hall, **top: int | str) -> tuple[Program, str]:
    """A connector of alice and bob as above, and of carol, and the token that she shows."""
    setup = beside(laboratory, bob, **top)
    carol = carol_of(setup, free_port())
    return start(laboratory, setup), carol


def close_beside_carol(program: Program) -> None:
    """It ends with status 0. The report has lines of a third peer."""
    post_close(program)
    expect("the exit status", program.end(END), 0)


def expect_healthy(program: Program, count: int) -> None:
    """So many packets of bob to alice, one behind the other, are each fulfilled, and nothing holds them up."""
    setup = program.setup
    for number in range(1, count + 1):
        octets = packet_of(setup.bob_token, soon(1, destination=b"test.alice"))
        before = time.monotonic()
        expect(f"packet {number} to alice", post(setup.peers_port, octets), response(200, FULFILL))
        took = seconds_since(before)
        expect_that(f"packet {number} to alice took {took:.3f} seconds", took < HEALTHY)


def await_accepted(program: Program, connections: int, within: float = 20.0) -> None:
    """Waits until the connector has so many connections, of peers and to peers."""
    end = time.monotonic() + within
    while (found := program.descriptors()) < connections:
        expect_that(f"it has {found} open files, and {connections} connections", time.monotonic() < end)
        time.sleep(0.02)


# ---- a peer that is silent, slow, or gone

@case
def nobody_is_held_up(laboratory: Laboratory) -> None:
    """Beside 3,000 packets of two senders to one peer that says nothing, of which half of what may be in flight goes
    on to it, a third sender's packets to another peer are answered as fast as ever, and so is the close."""
    bob = Hall(laboratory)
    program, carol = start_with_carol(laboratory, bob, workers=4, max_hold_ms=LONG)
    crowd, port = Crowd(laboratory), program.setup.peers_port
    for _ in range(1500):
        crowd.send(port, packet_request(program, soon(1, milliseconds=LONG)))
        crowd.send(port, packet_of(carol, soon(1, milliseconds=LONG)))
    bob.await_count(HALF)
    await_accepted(program, len(crowd.clients) + HALF)
    expect_healthy(program, 100)
    expect("how many packets bob has", len(bob.bodies), HALF)
    crowd.look()
    expect("how many of the others were answered", sum(client.ended is not None for client in crowd.clients), 0)
    start_of_close = time.monotonic()
    post_close(program)
    expect_within("seconds until the close was answered", seconds_since(start_of_close), 0.0, AT_ONCE)


@case
def octets_of_a_slow_peer(laboratory: Laboratory) -> None:
    """Answers that come octet by octet are handed on as those that come at once, and hold up no other packets."""
    bob = Hall(laboratory, lambda _: octet_by_octet(response(200, FULFILL), 0.01))
    program = start(laboratory, beside(laboratory, bob, workers=1))
    crowd = Crowd(laboratory)
    slow = crowd.send_all(program.setup.peers_port, [packet_request(program, soon(1)) for _ in range(50)])
    bob.await_count(50)
    expect_healthy(program, 20)
    crowd.look()
    expect("how many of bob's answers came before", sum(client.ended is not None for client in slow), 0)
    crowd.await_ended(slow, 10.0)
    expect("bob's answers", {client.answer for client in slow}, {response(200, FULFILL)})
    close(program, alice=-30, bob=30)


@case
def responses_of_a_slow_peer(laboratory: Laboratory) -> None:
    """Responses of each form that come octet by octet are whole with the same octet as at once: nothing waits for the
    connection's end but what lasts until then."""
    bodies = [fulfill(data=octets * 20) for octets in (b"\0\0", b"\1\1", b"\0\1", b"\1\0", b"\r\n")]
    length = f"Content-Length: {len(bodies[0])}"
    heads = [f"HTTP/1.1 200 OK\r\n{length}\r\n\r\n", f"\r\n\nHTTP/1.1 200 OK\n{length}\n\n"]
    rows = [(head.encode() + body, False, body) for head in heads for body in bodies]
    rows += [(b"HTTP/1.1 200 OK\r\nTransfer-Encoding: chunked\r\n\r\n", False, T01),
             (b"HTTP/1.1 200 OK\r\nX: y\r\n\r\n" + bodies[0], True, bodies[0])]

    def behave(octets: bytes) -> Answer:
        told, lasts, _ = rows[int(octets[-2:])]
        return [*octet_by_octet(told, 0.005), (0.6 if lasts else 20.0, b"")]

    bob = Hall(laboratory, behave)
    program, crowd = start(laboratory, beside(laboratory, bob, workers=1)), Crowd(laboratory)
    clients = [crowd.send(program.setup.peers_port, packet_request(program, soon(1, b"%02d" % number)))
               for number in range(len(rows))]
    crowd.await_ended(clients, 5.0)
    for (told, _, answer), client in zip(rows, clients):
        expect(f"what is answered behind {told!r}", client.answer, response(200, answer))
    fulfilled = len(rows) - 1
    close(program, alice=-fulfilled, bob=fulfilled)


@case
def killed_peer(laboratory: Laboratory) -> None:
    """Where a peer's server is killed that has 2,000 packets, their senders are told within a second that it is not
    reached, and nothing moved."""
    bob = Hall(laboratory)
    program = start(laboratory, beside(laboratory, bob, max_hold_ms=LONG))
    crowd = Crowd(laboratory)
    waiting = crowd.send_all(program.setup.peers_port,
                             [packet_request(program, soon(1, milliseconds=LONG)) for _ in range(2000)])
    bob.await_count(2000)
    bob.close()
    killed = time.monotonic()
    crowd.await_ended(waiting, 5.0)
    expect_within("seconds until the last was answered", seconds_since(killed), 0.0, 1.0)
    expect("what they are answered", {client.answer for client in waiting}, {response(200, T01)})
    expect_healthy(program, 1)
    close(program, alice=1, bob=-1)


@case
def close_with_many_in_flight(laboratory: Laboratory) -> None:
    """With 4,096 packets of one sender in flight to a peer that says nothing, a close is answered at once, and all is
    over once they are timed out. With few open files there are fewer."""
    limit, hold = own_limit(), 15.0
    most = min(in_flight_by(limit, 4, 2 * IN_FLIGHT), room_for(2 * IN_FLIGHT, 1))
    count = most // 2
    bob = Hall(laboratory)
    setup = Setup(bob=bob.port, top={"in_flight": most, "max_hold_ms": int(1000 * hold)})
    program = laboratory.start(setup, descriptors=min(limit, files_wanted(4, most)))
    program.await_listening()
    crowd = Crowd(laboratory)
    first = time.monotonic()
    waiting = crowd.send_all(setup.peers_port, [packet_request(program, soon(1)) for _ in range(count)])
    bob.await_count(count, within=hold)
    start_of_close = time.monotonic()
    expect_that(f"the packets took {start_of_close - first:.1f} seconds, too long for this case",
                start_of_close < first + hold)
    post_close(program)
    expect_within("seconds until the close was answered", seconds_since(start_of_close), 0.0, AT_ONCE)
    await_nobody_accepted(program)
    crowd.await_ended(waiting, hold + MARGIN)
    expect("what they are answered", {client.answer for client in waiting}, {response(200, R00)})
    expect_end(program, alice=0, bob=0)
    expect("how many entries there are", numbers_in(program.output())[9:], [2 * count, 0])
    expect_within("seconds from the close to the end", seconds_since(start_of_close), 0.0, hold + END)


# ---- whose reply is whose

@case
def replies_in_another_order(laboratory: Laboratory) -> None:
    """Of packets that one peer answers in another order each sender gets the reply to its own, be they one behind the
    other or a hundred at once."""
    def behave(octets: bytes) -> Answer:
        # The last three octets of the data say after how many hundredths of a second it is answered.
        return [(int(octets[-3:]) / 100, response(200, fulfill(data=octets[-3:])))]

    program, carol = start_with_carol(laboratory, Hall(laboratory, behave), workers=1)
    crowd, port = Crowd(laboratory), program.setup.peers_port
    late = crowd.send(port, packet_request(program, soon(1, b"060")))
    early = crowd.send(port, packet_of(carol, soon(2, b"010")))
    crowd.await_ended([late, early], 5.0)
    expect("the first one's reply", late.answer, response(200, fulfill(data=b"060")))
    expect("the second one's reply", early.answer, response(200, fulfill(data=b"010")))
    expect_that("the second one's reply came last", (early.ended or 0.0) < (late.ended or 0.0))
    names = [b"%03d" % number for number in range(100, 0, -1)]
    many = crowd.send_all(port, [packet_request(program, soon(0, name)) for name in names])
    crowd.await_ended(many, 5.0)
    for client, name in zip(many, names):
        expect("one of a hundred replies", client.answer, response(200, fulfill(data=name)))
    close_beside_carol(program)


@case
def late_and_early(laboratory: Laboratory) -> None:
    """A reply that comes before the hold's time is over is handed on. One that comes later finds nothing: its sender
    was told when the time was over, and nothing moved."""
    def behave(octets: bytes) -> Answer:
        return [(1.5 if octets.endswith(b"late") else 0.5, response(200, FULFILL))]

    bob = Hall(laboratory, behave)
    program = laboratory.serve(bob.port, max_hold_ms=1000)
    crowd, port = Crowd(laboratory), program.setup.peers_port
    late, early = crowd.send_all(port, [packet_request(program, soon(2, data)) for data in (b"late", b"early")])
    crowd.await_ended([late, early], 5.0)
    expect("what the early one's sender is told", early.answer, response(200, FULFILL))
    expect("what the late one's sender is told", late.answer, response(200, R00))
    expect_within("seconds until the late one's sender is told", (late.ended or 0.0) - late.sent, 0.9, 1.4)
    time.sleep(1.0)
    close(program, alice=-2, bob=2)


# ---- limits

@case
def turned_away(laboratory: Laboratory) -> None:
    """Where more than 1,024 whole requests wait, the newest of the sender with most is told that the connector is
    busy, and that of another is kept, which has the next turn."""
    bob = Hall(laboratory)
    program, carol = start_with_carol(laboratory, bob, in_flight=2, max_hold_ms=LONG)
    crowd, port = Crowd(laboratory), program.setup.peers_port
    of_alice = packet_request(program, soon(1, milliseconds=LONG))
    first = crowd.send(port, of_alice)
    bob.await_count(1)
    waiting = crowd.send_all(port, [of_alice] * 1024)

    def expect_newest_goes(one_more: bytes) -> None:
        newest = waiting.pop()
        waiting.append(crowd.send(port, one_more))
        crowd.await_ended([newest], 5.0)
        expect("what the newest is answered", newest.answer, response(200, T03))

    for _ in range(20):
        expect_newest_goes(of_alice)
    expect_newest_goes(packet_of(carol, soon(1, milliseconds=LONG)))
    hers = waiting.pop()
    for _ in range(20):
        expect_newest_goes(of_alice)
    crowd.look()
    expect("how many of those that wait had an end", [one for one in [*waiting, hers] if one.ended is not None], [])
    bob.speak(response(200, FULFILL))
    crowd.await_ended([first, hers, *waiting], 30.0)
    expect("what all of them are answered", {one.answer for one in [first, hers, *waiting]}, {response(200, FULFILL)})
    expect("how many had a turn before carol", sum((one.ended or 0.0) < (hers.ended or 0.0) for one in waiting), 0)
    close_beside_carol(program)
    expect("the Rejects that lines tell of", rejects_told(program, "alice"), {"T03": 41})


@case
def turned_away_messages(laboratory: Laboratory) -> None:
    """So are messages of an engine, by 503; what waits for nobody is served at that side all the same."""
    bob = Hall(laboratory)
    program = laboratory.serve(bob.port, engine_of(), levels=False, in_flight=2, max_hold_ms=LONG)
    crowd, port = Crowd(laboratory), program.setup.engines_port
    message = request("/accounts/bob/messages", body=MESSAGE)
    first = crowd.send(port, message)
    bob.await_count(1)
    waiting = crowd.send_all(port, [message] * 1024)
    for _ in range(10):
        newest = waiting.pop()
        waiting.append(crowd.send(port, message))
        crowd.await_ended([newest], 5.0)
        expect("what the newest is answered", newest.answer, response(503))
    newest = waiting.pop()
    expect("a credit", credit(program, 7), created(quantity(7, 2)))
    crowd.await_ended([newest], 5.0)
    expect("what the newest is answered beside a credit", newest.answer, response(503))
    crowd.look()
    expect("how many others had an end", [one for one in [first, *waiting] if one.ended is not None], [])
    bob.speak(response(200, fulfill(data=ANSWER)))
    crowd.await_ended([first, *waiting], 30.0)
    expect("what they are answered", {one.answer for one in [first, *waiting]}, {response(201, ANSWER)})
    close(program, bob=7)


@case
def too_many_octets(laboratory: Laboratory) -> None:
    """With 16 in flight there is room for 131,072 octets, and for half of that of one sender: of his long packets
    three go on, of 20,000 octets each, and others' small packets beside them."""
    bob = Hall(laboratory)
    program, carol = start_with_carol(laboratory, bob, in_flight=16, max_hold_ms=3000)
    crowd, port = Crowd(laboratory), program.setup.peers_port
    long = crowd.send_all(port, [packet_request(program, soon(1, bytes(20_000))) for _ in range(7)])
    bob.await_count(3)
    small = crowd.send(port, packet_of(carol, soon(1)))
    bob.await_count(4)
    expect_healthy(program, 10)
    expect("how many octets the data of bob's packets have", [len(body) // 10_000 for body in bob.bodies], [2, 2, 2, 0])
    crowd.await_ended([small, *long], 12.0)
    expect("what they are answered", {client.answer for client in [small, *long]}, {response(200, R00)})
    expect("how many packets bob has in the end", len(bob.bodies), 8)
    close_beside_carol(program)


# ---- a ring, and a busy disk

def ring(laboratory: Laboratory) -> list[Program]:
    """Three connectors, each of which sends what it has no other route for to the next one. Packets for test.home go
    from the first to the last, which has a server for them."""
    home = laboratory.stand_in(FULFILLS)
    setups = [Setup(routes={"": "bob"}) for _ in range(3)]
    for setup, after in zip(setups, setups[1:] + setups[:1]):
        setup.bob, after.token = after.peers_port, setup.to_bob
    carol_of(setups[-1], home.port)
    setups[-1].further += ["[[route]]", 'prefix = "test.home"', 'peer = "carol"']
    programs = [laboratory.start(setup) for setup in setups]
    for program in programs:
        program.await_listening()
    return programs


def homing(program: Program) -> float:
    """The seconds that a packet takes through the ring, which is fulfilled."""
    before = time.monotonic()
    answer = send_packet(program, soon(1, destination=b"test.home"), 10.0)
    expect("a packet through the ring", answer, response(200, FULFILL))
    return seconds_since(before)


@case
def packet_without_a_home(laboratory: Laboratory) -> None:
    """In a ring of three connectors a packet that none has a route for goes round until too little of its time is
    left, and holds up nothing: packets beside it and after it take no longer than before."""
    programs = ring(laboratory)
    first = programs[0]
    before = max(homing(first) for _ in range(10))
    lost = soon(1, destination=b"test.nowhere", milliseconds=30_000)
    short = reject(b"R02", b"test.hub", b"insufficient timeout")
    with ThreadPoolExecutor(8) as pool:
        told = [pool.submit(send_packet, first, lost, 40.0) for _ in range(8)]
        beside = max(homing(first) for _ in range(10))
        answers = {one.result() for one in told}
    expect("what is told of it", answers, {response(200, short)})
    after = max(homing(first) for _ in range(10))
    expect_that(f"packets took {before:.3f} seconds before, {beside:.3f} beside and {after:.3f} after it",
                max(beside, after) < before + HEALTHY)
    for program in programs:
        post_close(program)
        expect("the exit status", program.end(END), 0)


@case
def sync_while_busy(laboratory: Laboratory) -> None:
    """While the disk is busy with the entries of a packet, one worker or another holds and hands on others, and none is
    told of. This is left out where there is no C compiler."""
    for workers in (1, 2):
        if (disk := Disk.of(laboratory)) is not None:
            expect_held(laboratory, disk, workers)


@case
def credit_while_busy(laboratory: Laboratory) -> None:
    """While the disk is busy with the entry of a credit, its worker serves others, and its engine is told behind that.
    This is left out where there is no C compiler."""
    if (disk := Disk.of(laboratory)) is None:
        return
    kept = Kept(laboratory, Setup(bob=laboratory.stand_in(FULFILLS).port, top={"workers": 1, "window_ms": 20_000}))
    program = kept.serve(environment=disk.environment())
    crowd, setup, begun = Crowd(laboratory), program.setup, disk.syncs()
    told = request("/accounts/bob/settlements", f"Idempotency-Key: {setup.key}", body=quantity(7, 2))
    disk.busy.touch()
    try:
        crowd.send(setup.engines_port, told)
        disk.await_sync(begun)
        expect_report_at_once(program)
        crowd.look()
        expect("whether the engine was told", crowd.clients[0].ended is not None, False)
    finally:
        disk.busy.unlink()
    crowd.await_ended(crowd.clients, AGAIN)
    expect("what the engine is told", crowd.clients[0].answer, created(quantity(7, 2)))
    close(program, bob=7)


def expect_held(laboratory: Laboratory, disk: Disk, workers: int) -> None:
    """So many workers hold a hundred packets while the disk is busy with the entries of one, for less than half of the
    window."""
    top = {"workers": workers, "window_ms": 20_000}
    kept = Kept(laboratory, Setup(bob=laboratory.stand_in(FULFILLS).port, top=top))
    program = kept.serve(environment=disk.environment())
    crowd, port, begun = Crowd(laboratory), program.setup.peers_port, disk.syncs()
    disk.busy.touch()
    try:
        crowd.send(port, packet_request(program, soon(1)))
        disk.await_sync(begun)
        crowd.send_all(port, [packet_request(program, soon(1)) for _ in range(100)])
        await_fulfilled(program, 101)
        crowd.look()
        expect("how many were told", sum(client.ended is not None for client in crowd.clients), 0)
    finally:
        disk.busy.unlink()
    crowd.await_ended(crowd.clients, AGAIN)
    expect("the answers", {client.answer for client in crowd.clients}, {response(200, FULFILL)})
    close(program, alice=-101, bob=101)
