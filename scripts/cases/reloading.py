"""A configuration that is read again while its connector runs (`POST /reload`): what is taken, and what is not."""
import os
import re
import time
from dataclasses import replace

from cases.case import case, expect, expect_that, expect_within
from cases.crowds import Client, Crowd, Hall
from cases.disks import Disk
from cases.in_flight import carol_of, packet_of
from cases.journals import SETTLEMENTS, Kept, keys_of
from cases.laboratory import (AT_ONCE, END, Laboratory, close, credit, expect_packet, packet_request, post_close,
                              send_packet)
from cases.lines import NO_NEXT
from cases.messages import bearer, created, post, request, response, seconds_since, soon
from cases.program import Program, Setup, secret
from cases.running_periods import (HOLD, HOLD_MS, LATE, await_kept, await_period, ended_lines, expect_end_of,
                                   expect_follow, expect_timed_out, hold_one, of_bob, send_of_bob, small)
from cases.stand_ins import ACCEPTS, FULFILLS, engine_of, free_port, in_turn, never_answers, status
from connections import ANSWER, F02, MESSAGE, TEXT, quantity
from scenes import FULFILL, R00, fulfill

# What is answered where a configuration is in force.
TAKEN = "ok 2 peers 1 assets 2 routes\n"
TAKEN_WITH_CAROL = "ok 3 peers 1 assets 3 routes\n"

# In seconds: by when it is answered, where nothing is in flight.
RELOADED = 4.0

RELOAD = request("/reload")


# ---- what cases do

def write(program: Program, setup: Setup) -> None:
    """Has the configuration's file have another text."""
    program.configuration.write_text(setup.text())
    program.configuration.chmod(0o600)


def reload(program: Program, within: float = RELOADED) -> bytes:
    """What is answered to who asks that it be read again."""
    return post(program.setup.engines_port, RELOAD, within)


def expect_taken(program: Program, setup: Setup, told: str = TAKEN) -> None:
    """Another configuration is read and in force."""
    write(program, setup)
    expect("what is answered to a reload", reload(program), response(200, told.encode(), TEXT))
    program.await_told(f"info configuration: read again, and in force: {told.strip()}")


def line_of_refusal(program: Program, octets: bytes) -> str:
    """The line by which a reload was refused, which is told on standard error too."""
    line = octets.partition(b"\r\n\r\n")[2].decode("ascii")
    expect("the answer to a reload", octets, response(409, line.encode(), TEXT))
    expect_that(f"it is no line: {line!r}", line.endswith("\n") and line.count("\n") == 1)
    told = f"read again, and not taken: {line.strip()}: the one before stays in force"
    expect("how often a line says so", program.warnings().count(told), 1)
    return line


def expect_not_taken(program: Program, setup: Setup, line: str, is_whole: bool = True) -> None:
    """Another configuration is read and not taken, as a line says, of which this is all or the beginning."""
    write(program, setup)
    found = line_of_refusal(program, reload(program))
    expect("the line", found if is_whole else found[:len(line)], line)


def read_slowly(setup: Setup) -> Setup:
    """The same with a misspelt field, so that a line tells when it is read."""
    return replace(setup, top={**setup.top, "worker": 2})


def begin_reload(crowd: Crowd, program: Program, setup: Setup) -> Client:
    """One who asks that this be read again, which has been read, so that the period ends."""
    return begin_reload_of(crowd, program, read_slowly(setup).text())


def begin_reload_of(crowd: Crowd, program: Program, text: str) -> Client:
    """The same of a text with something of which a line tells."""
    program.configuration.write_text(text)
    before = len(program.warnings())
    asker = crowd.send(program.setup.engines_port, RELOAD)
    await_warnings(program, before + 1)
    return asker


def await_warnings(program: Program, count: int) -> None:
    """Waits until so many lines tell of its configuration, since that was read again."""
    end = time.monotonic() + RELOADED
    while len(program.warnings()) < count:
        expect_that(f"within {RELOADED} seconds the configuration was not read again", time.monotonic() < end)
        time.sleep(0.01)


def beside(bob: Hall, laboratory: Laboratory, **top: int | str) -> Setup:
    """Alice, whose server fulfills, and bob, who says nothing, with a short hold."""
    return Setup(alice=laboratory.stand_in(FULFILLS).port, bob=bob.port, top={"max_hold_ms": HOLD_MS, **top})


# ---- what is not taken

@case
def reload_of_a_bad_file(laboratory: Laboratory) -> None:
    """A file that isn't there, is none or has a fault is told with its place, and the configuration stays in force."""
    program = laboratory.serve(FULFILLS)
    setup = program.setup
    expect_not_taken(program, replace(setup, top={"workers": 0}),
                     "refused 23 BadValue workers: at the top: workers is to be a whole number from 1 to 64\n")
    expect_not_taken(program, replace(setup, top={"new_period_at": 96}),
                     "refused 23 BadValue new_period_at: at the top: new_period_at is to be ", is_whole=False)
    expect_not_taken(program, replace(setup, least=1),
                     'refused 27 BadLevels: [[peer]] 1 "alice": it is to have least <= 0', is_whole=False)
    expect_not_taken(program, replace(setup, routes={"test.alice": "alice", "test.bob": "dave"}), "refused ",
                     is_whole=False)
    program.configuration.write_text("workers")
    line_of_refusal(program, reload(program))
    program.configuration.unlink()
    expect("of a file that isn't there", line_of_refusal(program, reload(program)).partition(":")[0].strip(),
           "refused 20 ConfigUnread")
    expect_packet("a packet", program, soon(1), FULFILL)
    expect_taken(program, setup)
    expect("a GET", post(setup.engines_port, request("", line="GET /reload HTTP/1.1"))[:12], b"HTTP/1.1 405")
    expect("at the peers' side", post(setup.peers_port, RELOAD), response(404))
    post_close(program)
    expect_end_of(program, alice=-1, bob=1, period=1)


@case
def reload_of_a_pipe(laboratory: Laboratory) -> None:
    """A link to a named pipe in place of the file is refused, and nobody waits for it: the connector goes on, reads the
    next one that is a file, and closes."""
    program = laboratory.serve(FULFILLS)
    path, pipe = program.configuration, program.configuration.with_name("pipe")
    os.mkfifo(pipe)
    path.unlink()
    path.symlink_to(pipe)
    expect("the line", line_of_refusal(program, reload(program)),
           f'refused 20 ConfigUnread: "{path}": no plain file, and a pipe is read at a start alone\n')
    expect_packet("a packet", program, soon(1), FULFILL)
    path.unlink()
    expect_taken(program, program.setup)
    post_close(program)
    expect_end_of(program, alice=-1, bob=1, period=1)


@case
def reload_of_a_file_that_hangs(laboratory: Laboratory) -> None:
    """A file that is not read within a second is not taken. The connector goes on meanwhile, and a close is served, with
    all saved. This is left out where there is no C compiler."""
    if (disk := Disk.of(laboratory)) is None:
        return
    program = Kept(laboratory).serve(environment=disk.environment())
    disk.hung.touch()
    try:
        expect("the line", line_of_refusal(program, reload(program)),
               f'refused 20 ConfigUnread: "{program.configuration}": not read within a second\n')
        expect_packet("a packet", program, soon(1), FULFILL)
        expect_that("it is read again", b": not read within a second\n" in reload(program))
        expect_packet("another packet", program, soon(1), FULFILL)
        post_close(program)
        program.await_told(r'info journal ".+": saved with 4 entries')
    finally:
        disk.hung.unlink()
    expect_end_of(program, alice=-2, bob=2, period=0)


@case
def reload_behind_a_file_that_hung(laboratory: Laboratory) -> None:
    """What was asked for while a file hung, and is read once nobody waits for it, is nobody's: who asks then gets what
    stands there then. This is left out where there is no C compiler."""
    if (disk := Disk.of(laboratory)) is None:
        return
    program = Kept(laboratory).serve(environment=disk.environment())
    write(program, read_slowly(program.setup))
    disk.hung.touch()
    try:
        for _ in range(2):
            expect_that("it hangs", b": not read within a second\n" in reload(program))
    finally:
        disk.hung.unlink()
    await_warnings(program, 2)
    expect_taken(program, program.setup)
    post_close(program)
    expect_end_of(program, alice=0, bob=0, period=1)


@case
def reload_that_needs_a_restart(laboratory: Laboratory) -> None:
    """Its own address and run, where it listens and its workers are those of the start."""
    program = laboratory.serve(FULFILLS, workers=2)
    setup = program.setup
    rows = [("address", replace(setup, top={**setup.top, "address": "test.other"})),
            ("run", replace(setup, top={**setup.top, "run": "r2"})),
            ("listen", replace(setup, listen=f"127.0.0.1:{free_port()}")),
            ("engine_listen", replace(setup, engine_listen=f"127.0.0.1:{free_port()}")),
            ("workers", replace(setup, top={"workers": 3}))]
    for field, changed in rows:
        expect_not_taken(program, changed, f"`{field}` needs a restart\n")
    expect_packet("a packet", program, soon(1), FULFILL)
    close(program, alice=-1, bob=1)


@case
def reload_that_leaves_a_balance_out(laboratory: Laboratory) -> None:
    """A peer with a balance is not left out, nor has another asset or a `least` above it: the line names both, and the
    period goes on with all that it has. One without a balance is left out."""
    kept = Kept(laboratory)
    without = replace(kept.setup, further=[])
    carol = carol_of(kept.setup, laboratory.stand_in(FULFILLS).port)
    dave = secret()
    kept.setup.further += kept.setup.peer("dave", dave, secret(), f"127.0.0.1:{free_port()}", None)
    program = kept.serve()
    port = program.setup.peers_port
    expect("carol's packet", post(port, packet_of(carol, soon(5))), response(200, FULFILL))
    expect_not_taken(program, without, "refused 78 PeerRemoved -5: carol is left out, and has the balance -5 or ",
                     is_whole=False)
    tighter = [line.replace(f"least = {kept.setup.least}", "least = -4") for line in kept.setup.further]
    expect_not_taken(program, replace(kept.setup, further=tighter),
                     "refused 43 BelowLeast -5: carol has the balance -5, below its `least` in the next "
                     "configuration\n")
    expect("how often a line speaks of a full journal", len(program.told(rf"error {NO_NEXT}")), 0)
    expect("the periods that have ended", ended_lines(program), [])
    expect("the files", kept.files(), ["journal", "journal.lock", "journal.log"])
    expect("carol's packet", post(port, packet_of(carol, soon(5))), response(200, FULFILL))
    expect("carol's way back", send_packet(program, soon(10, destination=b"test.carol")), response(200, FULFILL))
    # Her balance is 0, and dave has had none.
    expect_taken(program, without)
    expect("carol's packet", post(port, packet_of(carol, soon(5))), response(401))
    expect("dave's packet", post(port, packet_of(dave, soon(5))), response(401))
    await_kept(program, 0)
    expect("the period that has ended", ended_lines(program), [(0, 6)])
    post_close(program)
    expect_end_of(program, alice=-10, bob=10, period=1)


# ---- what is taken

@case
def reload_of_the_same(laboratory: Laboratory) -> None:
    """The same configuration is taken too, and begins a period, with a journal and without."""
    kept = Kept(laboratory)
    program = kept.serve()
    expect_packet("a packet", program, soon(5), FULFILL)
    for period in range(1, 4):
        expect_taken(program, kept.setup)
        expect_packet("a packet", program, soon(5), FULFILL)
    post_close(program)
    expect_end_of(program, alice=-20, bob=20, period=3)
    expect("the entries of all periods", expect_follow(kept, program).entries(), 8)
    expect("the periods that have ended", ended_lines(program), [(0, 2), (1, 4), (2, 4)])


@case
def reload_without_a_journal(laboratory: Laboratory) -> None:
    """Without a journal balances and keys go on, by another fee, and nothing is kept."""
    program = laboratory.serve(FULFILLS)
    expect_packet("a packet", program, soon(50), FULFILL)
    expect("a credit", credit(program, 7), created(quantity(7, 2)))
    expect_taken(program, replace(program.setup, fee_ppm=20_000))
    expect_packet("a packet", program, soon(50), FULFILL)
    expect("the same credit", credit(program, 7), created(quantity(7, 2)))
    expect("another under its key", credit(program, 8), response(409))
    # bob is told 49 of 50, by a fee of 2 percent.
    expect("what bob was told", [int.from_bytes(one.body[2:10], "big") for one in laboratory.bob.received], [50, 49])
    expect_not_taken(program, replace(program.setup, least=-99),
                     "refused 43 BelowLeast -100: alice has the balance -100, below its `least` in the next "
                     "configuration\n")
    post_close(program)
    expect_end_of(program, alice=-100, bob=106, period=1)


@case
def reload_between_two_packets(laboratory: Laboratory) -> None:
    """A packet that is in flight when a price changes is booked by the old one, and the next of its sender, which waits
    meanwhile, by the new one."""
    bob = Hall(laboratory)
    kept = Kept(laboratory, beside(bob, laboratory))
    program, crowd = kept.serve(), Crowd(laboratory)
    first = crowd.send(program.setup.peers_port, packet_request(program, soon(50)))
    bob.await_count(1)
    dearer = replace(kept.setup, fee_ppm=20_000)
    asker = begin_reload(crowd, program, dearer)
    second = crowd.send(program.setup.peers_port, packet_request(program, soon(50)))
    expect("a credit meanwhile", credit(program, 7), created(quantity(7, 2)))
    crowd.look()
    expect("who had an end before", [one.ended for one in (first, asker, second)], [None] * 3)
    bob.speak(response(200, FULFILL))
    crowd.await_ended([first, asker, second], RELOADED)
    expect("what the senders are told", [first.answer, second.answer], [response(200, FULFILL)] * 2)
    expect("what the asker is told", asker.answer, response(200, TAKEN.encode(), TEXT))
    expect("what bob was told", [int.from_bytes(body[2:10], "big") for body in bob.bodies], [50, 49])
    post_close(program)
    expect_end_of(program, alice=-100, bob=106, period=1)
    expect("the entries of the first period", ended_lines(program), [(0, 3)])
    # The next start has the configuration as it was read.
    kept.setup = dearer
    program = kept.serve()
    post_close(program)
    expect_end_of(program, alice=-100, bob=106, period=1)


@case
def reload_with_a_new_peer(laboratory: Laboratory) -> None:
    """The token of a new peer gets 401 before, and then its packets go on, as those to it do; balances, keys and the
    tokens of others are as before, though it stands before them."""
    program = laboratory.serve(FULFILLS)
    setup = program.setup
    changed = replace(setup, further=[])
    carol = carol_of(changed, laboratory.stand_in(FULFILLS).port)
    expect("a credit", credit(program, 7), created(quantity(7, 2)))
    expect("a packet of carol's before", post(setup.peers_port, packet_of(carol, soon(5))), response(401))
    expect_taken(program, changed, TAKEN_WITH_CAROL)
    expect("a packet of carol's", post(setup.peers_port, packet_of(carol, soon(5))), response(200, FULFILL))
    expect_packet("a packet to carol", program, soon(3, destination=b"test.carol"), FULFILL)
    expect("the credit told again", credit(program, 7), created(quantity(7, 2)))
    report = post(setup.engines_port, request("/report")).partition(b"\r\n\r\n")[2].decode()
    expect("the balances", [line.split()[1:] for line in report.splitlines()[:3]],
           [["alice", "-3"], ["bob", "12"], ["carol", "-2"]])
    post_close(program)
    expect("the exit status", program.end(END), 0)


@case
def reload_that_changes_a_token(laboratory: Laboratory) -> None:
    """Packets that wait while a token changes are looked at by the new configuration: the old token of their sender
    gets 401, and those of another go on."""
    bob = Hall(laboratory)
    program = laboratory.start(beside(bob, laboratory))
    program.await_listening()
    crowd, setup = Crowd(laboratory), program.setup
    silent = hold_one(crowd, program, bob)
    changed = replace(setup, token=secret())
    asker = begin_reload(crowd, program, changed)
    old = crowd.send_all(setup.peers_port, [packet_request(program, soon(1, destination=b"test.alice"))] * 20)
    of_others = crowd.send_all(setup.peers_port, [of_bob(setup)] * 20)
    new = packet_of(changed.token, soon(1, destination=b"test.bob"))
    expect("the new token, while the old one is in force", post(setup.peers_port, new), response(401))
    crowd.look()
    expect("how many of those that wait had an end", sum(one.ended is not None for one in [*old, *of_others]), 0)
    expect_timed_out(crowd, silent)
    crowd.await_ended([asker, *old, *of_others], RELOADED)
    expect("what the asker is told", asker.answer, response(200, TAKEN.encode(), TEXT))
    expect("what the old token is told", {one.answer for one in old}, {response(401)})
    expect("what others are told", {one.answer for one in of_others}, {response(200, FULFILL)})
    bob.speak(response(200, FULFILL))
    expect("the new token", post(setup.peers_port, new), response(200, FULFILL))
    expect("the old token", send_packet(program, soon(1)), response(401))
    post_close(program)
    expect_end_of(program, alice=19, bob=-19, period=1)
    expect_that("a token is on standard error", changed.token not in program.errors())


class Halves:
    """Requests of which the first half is sent, and the second later."""

    def __init__(self, crowd: Crowd, port: int, requests: list[bytes]) -> None:
        self.crowd = crowd
        self.left = [octets[len(octets) // 2:] for octets in requests]
        self.clients = [crowd.send(port, octets[:len(octets) // 2]) for octets in requests]

    def send_rest(self) -> None:
        """Sends the second halves."""
        for client, octets in zip(self.clients, self.left):
            client.link.sendall(octets)


def with_peers_turned(setup: Setup) -> str:
    """The text of a configuration with its peers in the opposite order."""
    tables = re.split(r"(?m)^(?=\[\[)", setup.text())
    places = [place for place, table in enumerate(tables) if table.startswith("[[peer]]")]
    turned = dict(zip(places, [tables[place] for place in reversed(places)]))
    return "".join(turned.get(place, table) for place, table in enumerate(tables))


@case
def reload_that_turns_the_peers(laboratory: Laboratory) -> None:
    """Where the peers stand in another order, packets that wait whole or half are those of their senders all the same,
    and balances, keys and open settlements those of their peers."""
    bob, engine = Hall(laboratory), laboratory.stand_in(engine_of(in_turn(status(503), never_answers, ACCEPTS)))
    setup = replace(beside(bob, laboratory, settle_ms=20), engine=engine.port)
    carol = carol_of(setup, laboratory.stand_in(FULFILLS).port)
    kept = Kept(laboratory, setup)
    program, crowd, port = kept.serve(), Crowd(laboratory), setup.peers_port
    expect("a credit", credit(program, 1000), created(quantity(1000, 2)))
    engine.await_count(SETTLEMENTS, 2)
    silent = hold_one(crowd, program, bob)
    asker = begin_reload_of(crowd, program, with_peers_turned(read_slowly(setup)))
    to_alice = [packet_of(token, soon(1, destination=b"test.alice")) for token in (setup.bob_token, carol)]
    to_carol = [packet_of(token, soon(10, destination=b"test.carol")) for token in (setup.token, setup.bob_token)]
    waiting = crowd.send_all(port, [*to_alice, *to_carol] * 5)
    halves = Halves(crowd, port, [*to_alice, *to_carol])
    expect("a credit told again", credit(program, 1000), created(quantity(1000, 2)))
    crowd.await_ended([silent, asker], HOLD + LATE)
    expect("what the asker is told", asker.answer, response(200, TAKEN_WITH_CAROL.encode(), TEXT))
    halves.send_rest()
    crowd.await_ended([*waiting, *halves.clients], RELOADED)
    expect("what they are told", {one.answer for one in [*waiting, *halves.clients]}, {response(200, FULFILL)})
    expect("a credit told again", credit(program, 1000), created(quantity(1000, 2)))
    program.await_told(r"info settlement \d+ with bob of 800: confirmed")
    expect("the keys of the settlements", set(keys_of(engine)), {b"r1-1"})
    post_close(program)
    expect("the exit status", program.end(END), 0)
    # Six of each kind: alice got 12 and paid 60, bob paid 66 of the 200 that he had left, and carol got 120 and paid 6.
    expect("the balances", [line.split()[1:] for line in program.output().splitlines()[:3]],
           [["carol", "114"], ["bob", "134"], ["alice", "-48"]])


@case
def reload_without_one_who_waits(laboratory: Laboratory) -> None:
    """Packets of a peer that is left out wait whole or half, and get 401; those of others go on."""
    bob = Hall(laboratory)
    setup = beside(bob, laboratory)
    without = replace(setup, further=[])
    carol = carol_of(setup, laboratory.stand_in(FULFILLS).port)
    program = laboratory.start(setup)
    program.await_listening()
    crowd, port = Crowd(laboratory), setup.peers_port
    silent = hold_one(crowd, program, bob)
    asker = begin_reload(crowd, program, without)
    of_carol = packet_of(carol, soon(1, destination=b"test.alice"))
    waiting = [crowd.send_all(port, [octets] * 5) for octets in (of_carol, of_bob(setup))]
    halves = Halves(crowd, port, [of_carol, of_bob(setup), packet_request(program, soon(1, destination=b"test.carol"))])
    expect_timed_out(crowd, silent)
    crowd.await_ended([asker], RELOADED)
    expect("what the asker is told", asker.answer, response(200, TAKEN.encode(), TEXT))
    halves.send_rest()
    crowd.await_ended([*waiting[0], *waiting[1], *halves.clients], RELOADED)
    expect("what carol is told", {one.answer for one in waiting[0]}, {response(401)})
    expect("what bob is told", {one.answer for one in waiting[1]}, {response(200, FULFILL)})
    expect("what is told behind the second halves", [one.answer for one in halves.clients],
           [response(401), response(200, FULFILL), response(200, F02)])
    post_close(program)
    expect_end_of(program, alice=6, bob=-6, period=1)


@case
def reload_beside_messages(laboratory: Laboratory) -> None:
    """A message of an engine that is in flight at a peer is finished before the next period begins, and one that comes
    meanwhile is sent in that."""
    bob = Hall(laboratory)
    setup = beside(bob, laboratory, max_hold_ms=20_000)
    setup.engine, setup.levels = laboratory.stand_in(engine_of()).port, False
    program = laboratory.start(setup)
    program.await_listening()
    crowd, message = Crowd(laboratory), request("/accounts/bob/messages", body=MESSAGE)
    first = crowd.send(setup.engines_port, message)
    bob.await_count(1)
    asker = begin_reload(crowd, program, setup)
    second = crowd.send(setup.engines_port, message)
    expect("a credit meanwhile", credit(program, 7), created(quantity(7, 2)))
    crowd.look()
    expect("who had an end before", [one.ended for one in (first, asker, second)], [None] * 3)
    expect("how many messages bob has", len(bob.bodies), 1)
    bob.speak(response(200, fulfill(data=ANSWER)))
    crowd.await_ended([first, asker, second], RELOADED)
    expect("what the engine is told", [first.answer, second.answer], [response(201, ANSWER)] * 2)
    expect("what the asker is told", asker.answer, response(200, TAKEN.encode(), TEXT))
    post_close(program)
    expect_end_of(program, alice=0, bob=7, period=1)


@case
def two_reloads_at_once(laboratory: Laboratory) -> None:
    """While a configuration is read, and until its period begins, another is told 503; then it is taken."""
    bob = Hall(laboratory)
    program = laboratory.start(beside(bob, laboratory))
    program.await_listening()
    crowd = Crowd(laboratory)
    silent = hold_one(crowd, program, bob)
    askers = crowd.send_all(program.setup.engines_port, [RELOAD] * 5)
    end = time.monotonic() + AT_ONCE
    while len(told := [one.answer for one in askers if one.ended is not None]) < 4:
        expect_that(f"within {AT_ONCE} seconds {len(told)} were told something", time.monotonic() < end)
        crowd.look(0.05)
    expect("what the others are told", told, [response(503)] * 4)
    expect_timed_out(crowd, silent)
    crowd.await_ended(askers, RELOADED)
    expect("what one is told", [one.answer for one in askers].count(response(200, TAKEN.encode(), TEXT)), 1)
    expect_taken(program, program.setup)
    post_close(program)
    expect_end_of(program, alice=0, bob=0, period=2)


@case
def reload_while_a_period_ends(laboratory: Laboratory) -> None:
    """While a period ends by itself a reload is told 503, and it is taken in the next one."""
    bob = Hall(laboratory)
    kept = Kept(laboratory, small(bob.port, laboratory, max_hold_ms=HOLD_MS))
    program, crowd = kept.serve(), Crowd(laboratory)
    silent = hold_one(crowd, program, bob)
    # The hold and its room are 2 of the 10 entries at which it ends.
    send_of_bob(program, 4)
    expect("a reload", reload(program, AT_ONCE), response(503))
    expect_timed_out(crowd, silent)
    await_period(program, 1)
    expect_taken(program, kept.setup)
    post_close(program)
    expect_end_of(program, alice=4, bob=-4, period=2)
    expect_follow(kept, program)


@case
def reload_of_what_else_there_is(laboratory: Laboratory) -> None:
    """Paths, limits and times of the next configuration are in force too."""
    bob = Hall(laboratory)
    program = laboratory.start(beside(bob, laboratory))
    program.await_listening()
    crowd, setup = Crowd(laboratory), program.setup
    changed = replace(setup, out_path="/out", top={"max_hold_ms": 1000, "path": "/in", "in_flight": 2})
    expect_taken(program, changed)
    expect("a packet by the old path", send_packet(program, soon(1)), response(404))
    octets = soon(1, milliseconds=60_000)
    packets = [request("/in", bearer(setup.token), body=octets)] * 2
    held = crowd.send_all(setup.peers_port, packets)
    bob.await_count(1)
    crowd.await_ended(held, 2 * 1.0 + LATE)
    # One of a sender is in flight of two in all, so that the second goes on behind the first.
    expect("what they are told", [one.answer for one in held], [response(200, R00)] * 2)
    ended = sorted(one.ended or 0.0 for one in held)
    expect_within("seconds from the one to the other", ended[1] - ended[0], 0.9, 1.0 + LATE)
    post_close(program)
    expect_end_of(program, alice=0, bob=0, period=1)


@case
def close_beside_a_reload(laboratory: Laboratory) -> None:
    """A close that comes while a reload waits for what is in flight has it be told 503, and all ends in time."""
    for is_read in (True, False):
        bob = Hall(laboratory)
        kept = Kept(laboratory, beside(bob, laboratory))
        program, crowd = kept.serve(), Crowd(laboratory)
        silent = hold_one(crowd, program, bob)
        if is_read:
            asker = begin_reload(crowd, program, kept.setup)
        else:
            asker = crowd.send(program.setup.engines_port, RELOAD)
        start = time.monotonic()
        post_close(program)
        expect_within("seconds until the close was answered", seconds_since(start), 0.0, AT_ONCE)
        expect_timed_out(crowd, silent)
        crowd.await_ended([asker], HOLD + LATE)
        expect("what the asker is told", asker.answer, response(503))
        expect_end_of(program, alice=0, bob=0, period=0)
        expect("the files", kept.files(), ["journal", "journal.lock"])


@case
def asker_who_goes_away(laboratory: Laboratory) -> None:
    """One who asks and is gone before the answer hinders nobody: it is read and in force, and the next may ask."""
    bob = Hall(laboratory)
    program = laboratory.start(beside(bob, laboratory))
    program.await_listening()
    crowd = Crowd(laboratory)
    silent = hold_one(crowd, program, bob)
    asker = begin_reload(crowd, program, replace(program.setup, fee_ppm=20_000))
    crowd.selector.unregister(asker.link)
    asker.link.close()
    expect_timed_out(crowd, silent)
    program.await_told(f"info configuration: read again, and in force: {TAKEN.strip()}")
    expect_taken(program, program.setup)
    send_of_bob(program, 1)
    post_close(program)
    expect_end_of(program, alice=1, bob=-1, period=2)
