"""Periods that end while a connector runs: by themselves, beside what is in flight, and what their books come to."""
import re
import socket
import subprocess
import threading
import time
from concurrent.futures import ThreadPoolExecutor
from dataclasses import replace
from hashlib import sha256
from pathlib import Path

from cases.case import case, expect, expect_that, expect_within
from cases.crowds import Client, Crowd, Hall
from cases.disks import Disk
from cases.in_flight import packet_of
from cases.journals import SETTLEMENTS, Kept, keys_of
from cases.laboratory import (AT_ONCE, END, Laboratory, close, credit, expect_report_at_once, expect_served,
                              packet_request, post_close)
from cases.lines import ANOTHER_PERIOD, NO_NEXT, NO_PERIODS
from cases.messages import bearer, created, now, packet, post, request, response, seconds_since, soon
from cases.program import Program, Setup, numbers_in
from cases.stand_ins import ACCEPTS, FULFILLS, Received, engine_of, in_turn, never_answers
from connections import quantity
from killing.period_books import Periods
from packets import reject
from scenes import FULFILL, R00, fulfill

# In milliseconds and seconds: the longest hold of a packet at a peer that says nothing.
HOLD_MS, HOLD = 2000, 2.0

# In seconds: how long an end of a period may take beside its longest hold, how long a hold may last longer, and how
# long no other period is tried where none could begin.
BEGUN, LATE, AGAIN = 5.0, 1.5, 60.0


def ended_lines(program: Program) -> list[tuple[int, int]]:
    """The periods that have ended by the lines that tell it, and how many entries each had."""
    form = r"info journal .+: the period (\d+) has ended, and its (\d+) entries are kept as .+"
    return [(int(found[1]), int(found[2])) for line in program.lines() if (found := re.fullmatch(form, line.said))]


def await_kept(program: Program, period: int, within: float = BEGUN) -> None:
    """Waits for the line that says that the text of a period is kept, which is written while the next one runs."""
    program.await_told(rf"info journal .+: the period {period} has ended, and its \d+ entries are kept as .+",
                       within=within)


def await_period(program: Program, period: int, within: float = BEGUN) -> None:
    """Waits for the line that says that a period begins."""
    program.await_told(rf"info journal .+: the period {period} begins with its \d+ entries", within=within)


def of_bob(setup: Setup, amount: int = 1) -> bytes:
    """The request with which bob sends a packet to alice."""
    return packet_of(setup.bob_token, soon(amount, destination=b"test.alice"))


def send_of_bob(program: Program, count: int) -> None:
    """So many packets of 1 of bob's, each of which is fulfilled at once."""
    for number in range(count):
        expect(f"bob's packet {number}", post(program.setup.peers_port, of_bob(program.setup)), response(200, FULFILL))


def report_of(text: str) -> tuple[list[int], int]:
    """The numbers of a report of alice and bob, and the period that it is of."""
    lines = text.splitlines(keepends=True)
    found = re.fullmatch(r"period {44}( *\d+)\n", lines[-1]) if lines else None
    if found is None:
        return numbers_in(text), 0
    expect("how wide the last line is", len(lines[-1]), 61)
    return numbers_in("".join(lines[:-1])), int(found[1])


def expect_end_of(program: Program, alice: int, bob: int, period: int, within: float = END) -> None:
    """It ends with status 0, and prints a report of these balances in this period."""
    expect("the exit status", program.end(within), 0)
    numbers, printed = report_of(program.output())
    expect("the balances", numbers[:2], [alice, bob])
    expect("what is open and held", numbers[2:5], [0, 0, 0])
    expect("the period", printed, period)


def expect_follow(kept: Kept, program: Program) -> Periods:
    """The journals of all periods follow each other, by their texts and by `connector follows`, of each two, which were
    read by the same configuration, and of all."""
    periods = Periods()
    periods.read(kept.path)
    paths = [*(kept.beside(str(book.period)) for book in periods.books[:-1]), kept.path]
    for period, (ended, journal) in enumerate(zip(paths, paths[1:]), start=1):
        expect_follows(program, ended, journal, period)
    expect_all_follow(program, kept.path, len(paths) - 1)
    return periods


def expect_all_follow(program: Program, journal: Path, last: int) -> None:
    """`connector follows` says so of all periods of a journal up to this one, by what is kept beside them."""
    told = "".join(f"period {period} follows period {period - 1}\n" for period in range(1, last + 1))
    done = subprocess.run([str(program.binary), "follows", str(journal)], capture_output=True, text=True, timeout=20.0)
    expect("what follows says of all", (done.returncode, done.stdout, done.stderr),
           (0, told or "period 0 follows none\n", ""))


def expect_follows(program: Program, ended: Path, journal: Path, period: int) -> None:
    """`connector follows` says so of two journals."""
    words = [program.binary, "follows", program.configuration, ended, program.configuration, journal]
    done = subprocess.run([str(word) for word in words], capture_output=True, text=True, timeout=10.0)
    expect(f"what follows says of the period {period}", (done.returncode, done.stdout, done.stderr),
           (0, f"period {period} follows period {period - 1}\n", ""))


def small(bob: int, laboratory: Laboratory, journal: int = 20, percent: int = 50, **top: int | str) -> Setup:
    """Alice, whose server fulfills, and bob, whose server has this port, with a small journal whose period ends at so
    many percent."""
    return Setup(alice=laboratory.stand_in(FULFILLS).port, bob=bob,
                 top={"journal": journal, "new_period_at": percent, **top})


# ---- beside what is in flight

def hold_one(crowd: Crowd, program: Program, bob: Hall) -> Client:
    """A packet of alice's that bob's server has, and says nothing of."""
    silent = crowd.send(program.setup.peers_port, packet_request(program, soon(3, milliseconds=60_000)))
    bob.await_count(1)
    return silent


def expect_timed_out(crowd: Crowd, silent: Client) -> None:
    """It is given up at its deadline."""
    crowd.await_ended([silent], HOLD + LATE)
    expect("what the silent one's sender is told", silent.answer, response(200, R00))
    expect_within("seconds until he is told", (silent.ended or 0.0) - silent.sent, HOLD - 0.1, HOLD + LATE)


@case
def period_beside_a_silent_peer(laboratory: Laboratory) -> None:
    """Where a packet is in flight at a peer that says nothing, a period ends once that is timed out. What waits for
    nobody is served meanwhile, and packets that come wait for the next period, none of them refused."""
    bob = Hall(laboratory)
    alice = laboratory.stand_in(FULFILLS)
    setup = Setup(alice=alice.port, bob=bob.port,
                  top={"journal": 1000, "new_period_at": 1, "max_hold_ms": HOLD_MS, "in_flight": 400})
    kept = Kept(laboratory, setup)
    program, crowd = kept.serve(), Crowd(laboratory)
    silent = hold_one(crowd, program, bob)
    # The hold and its room are 2 of the 10 entries at which the period ends, and each packet has 2 more.
    send_of_bob(program, 4)
    waiting = crowd.send_all(setup.peers_port, [of_bob(setup)] * 150)
    expect("a wrong token", post(setup.peers_port, request("/ilp", bearer("x"), body=soon())), response(401))
    expect("a credit", credit(program, 7), created(quantity(7, 2)))
    expect_report_at_once(program)
    crowd.look()
    expect("how many of the others were answered", sum(one.ended is not None for one in waiting), 0)
    expect("how many packets alice's server has", len(alice.of("/ilp")), 4)
    expect_timed_out(crowd, silent)
    crowd.await_ended(waiting, BEGUN)
    expect("what the others are answered", {one.answer for one in waiting}, {response(200, FULFILL)})
    expect_that("one of the others was answered before the silent one", all(
        (one.ended or 0.0) >= (silent.ended or 0.0) - 0.1 for one in waiting))
    # A hold and its end, four packets and a credit.
    await_kept(program, 0)
    expect("the first period that has ended", ended_lines(program)[0], (0, 11))
    post_close(program)
    program.end(END)
    periods = expect_follow(kept, program)
    expect("the head of the period 1", periods.books[1].head,
           ["opened alice 4", "opened bob 3", f"known bob {setup.key.encode().hex()} 7 2 7"])
    expect("the balances in the end", [periods.last.balances[name] for name in ("alice", "bob")], [154, -147])
    expect("the entries of all periods", periods.entries(), 11 + 2 * 150)


@case
def period_with_an_open_settlement(laboratory: Laboratory) -> None:
    """A settlement of which an engine says nothing is brought forward with its key, and asked for again under it; and
    what an engine told before is answered as before in the next period."""
    engine = laboratory.stand_in(engine_of(in_turn(never_answers, ACCEPTS)))
    setup = small(laboratory.stand_in(FULFILLS).port, laboratory, journal=26, settle_ms=20)
    setup.engine = engine.port
    kept = Kept(laboratory, setup)
    program = kept.serve()
    expect("a credit", credit(program, 1000), created(quantity(1000, 2)))
    engine.await_count(SETTLEMENTS, 1)
    # The credit, the settlement and its room are 3 of the 13 entries at which the period ends.
    send_of_bob(program, 5)
    await_period(program, 1)
    await_kept(program, 0)
    expect("the period that has ended", ended_lines(program), [(0, 12)])
    # Behind the balances of alice and bob, and bob's key.
    program.await_told("info settlement 3 with bob of 800: confirmed", within=BEGUN)
    expect("the keys under which it was asked for", keys_of(engine), [b"r1-1", b"r1-1"])
    expect("the same credit", credit(program, 1000), created(quantity(1000, 2)))
    expect("another under its key", credit(program, 999), response(409))
    expect("another credit", credit(program, 1000, key="another"), created(quantity(1000, 2)))
    # Behind a head of 4, what was confirmed and the credit. bob has 200 less his packets of 5.
    program.await_told("info settlement 6 with bob of 995: confirmed", within=BEGUN)
    expect("the keys of all settlements", keys_of(engine), [b"r1-1", b"r1-1", b"r1.1-6"])
    post_close(program)
    expect_end_of(program, alice=5, bob=200, period=1)
    periods = expect_follow(kept, program)
    expect("the head of the period 1", periods.last.head,
           ["opened alice 5", "opened bob 195", f"known bob {setup.key.encode().hex()} 1000 2 1000",
            f"pending bob 800 {b'r1-1'.hex()}"])


@case
def period_that_ends_by_holds(laboratory: Laboratory) -> None:
    """Where what is open alone takes so many percent of the entries, no more is begun within a second, and nobody is
    told that the connector is busy while there is room: those that come wait, also where nothing of what is in flight
    has ended."""
    bob = Hall(laboratory)
    kept = Kept(laboratory, small(bob.port, laboratory, journal=40, percent=25, max_hold_ms=HOLD_MS))
    program, crowd = kept.serve(), Crowd(laboratory)
    first = []
    for count in range(1, 6):
        first.append(crowd.send(kept.setup.peers_port, packet_request(program, soon(1, milliseconds=60_000))))
        bob.await_count(count)
    # These five take 10 of 40 entries.
    waiting = crowd.send_all(kept.setup.peers_port, [packet_request(program, soon(1, milliseconds=60_000))] * 7)
    expect_report_at_once(program)
    crowd.await_ended(first, HOLD + LATE)
    expect("what the first are told", {one.answer for one in first}, {response(200, R00)})
    crowd.await_ended(waiting, BEGUN + 2 * HOLD + LATE)
    expect("what the others are told", {one.answer for one in waiting}, {response(200, R00)})
    post_close(program)
    program.end(END)
    expect("the entries of all periods", expect_follow(kept, program).entries(), 24)


# ---- the close

@case
def close_while_a_period_ends(laboratory: Laboratory) -> None:
    """A close that comes while a period ends is answered at once, and all is over once what is in flight is timed out,
    with a report and a journal. Packets that wait for the next period are answered in it."""
    for count in (0, 20):
        bob = Hall(laboratory)
        kept = Kept(laboratory, small(bob.port, laboratory, journal=200, percent=5, max_hold_ms=HOLD_MS))
        program, crowd = kept.serve(), Crowd(laboratory)
        silent = hold_one(crowd, program, bob)
        send_of_bob(program, 4)
        waiting = crowd.send_all(kept.setup.peers_port, [of_bob(kept.setup)] * count)
        start = time.monotonic()
        post_close(program)
        expect_within("seconds until the close was answered", seconds_since(start), 0.0, AT_ONCE)
        expect_timed_out(crowd, silent)
        crowd.await_ended(waiting, BEGUN)
        expect("what the others are answered", [one.answer for one in waiting], [response(200, FULFILL)] * count)
        expect("the exit status", program.end(HOLD + END), 0)
        expect_that("a report is not printed", program.output().startswith("balance"))
        expect("the files", [name for name in kept.files() if name in ("journal", "journal.log", "journal.new")],
               ["journal"])
        periods = expect_follow(kept, program)
        numbers, period = report_of(program.output())
        expect("the period of the report", period, periods.last.period)
        expect("the balances of the report", numbers[:2], [4 + count, -4 - count])
        expect("those of the journal", [periods.last.balances[name] for name in ("alice", "bob")], numbers[:2])


# ---- many of them

class Senders:
    """Threads that send packets either way, of which some are rejected, and what they were told."""

    def __init__(self, setup: Setup) -> None:
        self.setup = setup
        self.lock = threading.Lock()
        # By preimage: the sender and the amount.
        self.fulfilled: dict[str, tuple[str, int]] = {}
        self.rejected = 0

    def send(self, number: int) -> None:
        """The packet of this number."""
        sender, receiver = ("alice", "bob") if number % 3 else ("bob", "alice")
        token = self.setup.token if sender == "alice" else self.setup.bob_token
        preimage, amount = number.to_bytes(32, "big"), number % 17 + 2
        data = (b"r" if number % 10 == 7 else b"f") + preimage
        octets = packet(amount, now() + 30_000, data, f"test.{receiver}".encode(), sha256(preimage).digest())
        answer = post(self.setup.peers_port, request("/ilp", bearer(token), body=octets), 30.0)
        with self.lock:
            if answer == response(200, fulfill(preimage)):
                self.fulfilled[preimage.hex()] = sender, amount
            else:
                expect(f"what the packet {number} is answered", answer, response(200, reject(b"F99")))
                self.rejected += 1


def answers_as_told(received: Received, link: socket.socket, _: threading.Event) -> None:
    """A peer that fulfills by the octets of a packet, or rejects where these say so."""
    preimage = received.body[-32:]
    link.sendall(response(200, reject(b"F99") if received.body[-33:-32] == b"r" else fulfill(preimage)))


@case
def many_periods(laboratory: Laboratory) -> None:
    """Over many periods under 300 packets, of which some are rejected, each period's books follow those before, and all
    that was told stands in them once, be the log synced or not."""
    peers = [laboratory.stand_in(answers_as_told).port for _ in range(2)]
    for sync in ("group", "off"):
        setup = Setup(alice=peers[0], bob=peers[1], fee_ppm=200_000,
                      top={"journal": 64, "new_period_at": 60, "sync": sync})
        kept = Kept(laboratory, setup)
        program, senders = kept.serve(), Senders(setup)
        with ThreadPoolExecutor(12) as pool:
            list(pool.map(senders.send, range(300)))
        post_close(program)
        expect("the exit status", program.end(END), 0)
        expect("how many were fulfilled and rejected", (len(senders.fulfilled), senders.rejected), (270, 30))
        periods = expect_follow(kept, program)
        expect_fulfilled(periods, senders)
        # A period has at most 63 entries, of which 2 are its head.
        expect_that(f"there were {len(periods.books)} periods", len(periods.books) >= 600 // 62)
        expect("the entries of all periods", periods.entries(), 2 * 300)
        expect("the periods that lines tell of", [period for period, _ in ended_lines(program)],
               [book.period for book in periods.books[:-1]])
        numbers, period = report_of(program.output())
        expect("the balances of the report", numbers[:2], [periods.last.balances[name] for name in ("alice", "bob")])
        expect("the period of the report", period, periods.last.period)


def expect_fulfilled(periods: Periods, senders: Senders) -> None:
    """What senders were told stands in one of the periods, once, and nothing else does; and their balances are those
    to which that comes, with a fifth of each amount as its fee."""
    booked = {preimage: (hold.sender, hold.amount) for preimage, hold in periods.fulfills().items()}
    expect("what was fulfilled", booked, senders.fulfilled)
    balances = {"alice": 0, "bob": 0}
    for sender, amount in senders.fulfilled.values():
        balances[sender] -= amount
        balances["bob" if sender == "alice" else "alice"] += amount - fee_of(amount)
    expect("the balances", {name: periods.last.balances[name] for name in balances}, balances)
    expect("the fees", periods.sums()["fees"], sum(fee_of(amount) for _, amount in senders.fulfilled.values()))


def fee_of(amount: int) -> int:
    """A fifth, and no less."""
    return -(-amount // 5)


# ---- where none can begin, and what is told

@case
def periods_without_a_journal(laboratory: Laboratory) -> None:
    """Without a journal no period ends by itself, a line says so, and packets are answered until there is no room."""
    program = laboratory.serve(FULFILLS, journal=20, new_period_at=50)
    told = [line.said for line in program.lines()]
    expect("how many lines say that `new_period_at` is passed over", told.count(f"warn {NO_PERIODS}"), 1)
    for _ in range(8):
        expect_served(program, amount=1)
    expect("the periods that have ended", ended_lines(program), [])
    close(program, alice=-8, bob=8)


@case
def configurations_of_periods(laboratory: Laboratory) -> None:
    """`new_period_at` is a whole number from 1 to 95."""
    file = laboratory.folder() / "connector.toml"
    rows: list[tuple[int | str, bool]] = [(1, True), (95, True), (0, False), (96, False), (-1, False), ("50", False)]
    for percent, is_one in rows:
        file.write_text(Setup(top={"new_period_at": percent}).text())
        file.chmod(0o600)
        words = [str(laboratory.binary), "check", str(file)]
        done = subprocess.run(words, capture_output=True, text=True, timeout=10.0)
        told = (0, "ok 2 peers 1 assets 2 routes\n") if is_one else (1, "refused 23 BadValue new_period_at\n")
        expect(f"what is said of {percent!r}", (done.returncode, done.stdout), told)


def long_head(head: int, percent: int) -> str:
    """What is told of a head of so many entries."""
    return (f"it begins with {head} entries that were brought forward, so a new period begins only behind as many "
            f"more, and not at {percent} percent: give `journal` more")


@case
def long_heads(laboratory: Laboratory) -> None:
    """Where what is brought forward has more than half of the entries at which a period ends, a start and a check tell
    it, and the period ends behind as many more."""
    kept = Kept(laboratory, small(laboratory.stand_in(FULFILLS).port, laboratory, journal=40, percent=95))
    program = kept.serve()
    for number in range(14):
        expect("a credit", credit(program, 5, key=f"key {number}"), created(quantity(5, 2)))
    # 14 credits and 12 packets are the first 38 of 40 entries.
    send_of_bob(program, 12)
    await_period(program, 1)
    post_close(program)
    expect_end_of(program, alice=12, bob=58, period=1)
    # Two balances and the keys: 16 entries, which are more than half of 31.
    kept.setup = replace(kept.setup, top={**kept.setup.top, "new_period_at": 77})
    program = kept.serve()
    told = [line.said for line in program.lines()]
    expect("how often it is told at the start", told.count(f"warn {kept.said(long_head(16, 77))}"), 1)
    # The 31st entry is there with the eighth packet, and the 32nd; twice the head has none before.
    send_of_bob(program, 8)
    await_period(program, 2)
    await_kept(program, 1)
    expect("the period that has ended", ended_lines(program), [(1, 32)])
    post_close(program)
    expect_end_of(program, alice=20, bob=50, period=2)
    kept.expect_checked(program, long_head(16, 77))
    kept.setup = replace(kept.setup, top={**kept.setup.top, "new_period_at": 80})
    program = kept.serve()
    expect("what is told of one that has half", program.told("warn journal .+ it begins with .+"), [])
    post_close(program)
    expect_end_of(program, alice=20, bob=50, period=2)
    kept.expect_checked(program)


def expect_going_on(kept: Kept, program: Program, packets: int, why: str) -> None:
    """A period that is due does not end, as a line says and this one; packets go on, and it is not tried again."""
    program.await_told(NO_NEXT_TOLD)
    program.await_told(why)
    send_of_bob(program, packets)
    expect("how often it was tried", len(program.told(NO_NEXT_TOLD)), 1)
    expect("the periods that have ended", ended_lines(program), [])
    expect_that("the log is not there", kept.beside("log").exists())


NO_NEXT_TOLD = f"error {NO_NEXT}"


@case
def period_that_cannot_be_kept(laboratory: Laboratory) -> None:
    """Where the text of a period can't be kept, lines say why, the same period goes on with all that it has, and
    packets are answered."""
    for is_folder in (False, True):
        kept = Kept(laboratory, small(laboratory.stand_in(FULFILLS).port, laboratory, journal=40))
        program, place = kept.serve(), kept.beside("0")
        if is_folder:
            place.mkdir()
        else:
            place.write_text("another text")
        send_of_bob(program, 10)
        why = r"error can't use .+: it is a folder" if is_folder else f"error {ANOTHER_PERIOD}"
        expect_going_on(kept, program, 5, why)
        program.kill()
        expect("what stands in its place", place.is_dir() or place.read_text(), is_folder or "another text")
        if is_folder:
            place.rmdir()
        # A start has all of it, though the stop was a sudden one.
        kept.setup = replace(kept.setup, top={"journal": 40})
        program = kept.serve()
        post_close(program)
        expect_end_of(program, alice=15, bob=-15, period=0)
        expect("the entries", kept.entries(), 30)


@case
def period_on_a_full_disk(laboratory: Laboratory) -> None:
    """Where the disk is full, or broken, as a period ends, all waits. Once there is room the same one goes on with all
    that it has, also what senders were told that could not be written. This is left out where there is no C compiler."""
    for fault in ("full", "broken"):
        if (disk := Disk.of(laboratory)) is None:
            return
        bob = Hall(laboratory)
        kept = Kept(laboratory, small(bob.port, laboratory, journal=200, percent=5))
        program, crowd = kept.serve(environment=disk.environment()), Crowd(laboratory)
        in_flight = crowd.send_all(kept.setup.peers_port, [packet_request(program, soon(1)) for _ in range(5)])
        bob.await_count(5)
        here: Path = getattr(disk, fault)
        here.touch()
        # The period ends by these, which are told as wherever a log can't be written.
        bob.speak(response(200, FULFILL))
        crowd.await_ended(in_flight, BEGUN)
        expect("what the senders are told", {one.answer for one in in_flight}, {response(200, FULFILL)})
        program.await_told(NO_NEXT_TOLD)
        program.expect_running()
        here.unlink()
        program.await_told(r"info log .+: begun, and synced before anybody is told", count=2, within=2 * BEGUN)
        send_of_bob(program, 1)
        program.kill()
        program = kept.serve()
        post_close(program)
        expect("the exit status", program.end(END), 0)
        numbers, _ = report_of(program.output())
        expect("the balances behind a sudden stop", numbers[:2], [-4, 4])


@case
def period_that_is_tried_again(laboratory: Laboratory) -> None:
    """Where the text of a period can't be kept it is tried again a minute later, and not before."""
    kept = Kept(laboratory, small(laboratory.stand_in(FULFILLS).port, laboratory, journal=500, percent=4))
    program, place = kept.serve(), kept.beside("0")
    place.write_text("another text")
    send_of_bob(program, 10)
    refused = program.await_told(NO_NEXT_TOLD)[0].moment
    place.unlink()
    while not (begun := program.told(r"info journal .+: the period 1 begins with its 2 entries")):
        expect_that("the period was not tried again", time.time() < refused + AGAIN + BEGUN)
        send_of_bob(program, 1)
        time.sleep(0.5)
    expect_within("seconds until it was tried again", begun[0].moment - refused, AGAIN - 0.1, AGAIN + BEGUN)
    expect("how often it was tried before", len(program.told(NO_NEXT_TOLD)), 1)
    post_close(program)
    expect("the exit status", program.end(END), 0)
    expect_follow(kept, program)


@case
def period_that_is_refused_while_it_runs(laboratory: Laboratory) -> None:
    """So it is where the next period would have no room for what is brought forward, or for a greater number."""
    kept = Kept(laboratory, small(laboratory.stand_in(FULFILLS).port, laboratory, journal=20))
    program = kept.serve()
    for number in range(14):
        expect("a credit", credit(program, 5, key=f"key {number}"), created(quantity(5, 2)))
    post_close(program)
    expect_end_of(program, alice=0, bob=70, period=0)
    kept.path.write_text(kept.text().replace("ilp-journal 1\n", "ilp-journal 2 4294967295\n"))
    program = kept.serve()
    send_of_bob(program, 1)
    program.await_told(rf"{NO_NEXT_TOLD.replace('refused .+', 'refused 75 LastPeriod .+')}")
    send_of_bob(program, 1)
    post_close(program)
    expect_end_of(program, alice=2, bob=68, period=4294967295)


@case
def full_journal_at_a_start(laboratory: Laboratory) -> None:
    """A journal that is full at the start, or becomes so by credits alone, begins its next period, though no packet can
    be booked any more."""
    kept = Kept(laboratory, small(laboratory.stand_in(FULFILLS).port, laboratory, journal=20, percent=95))
    full = replace(kept.setup, top={"journal": 20})
    percent, kept.setup = kept.setup, full
    program = kept.serve()
    send_of_bob(program, 10)
    post_close(program)
    expect_end_of(program, alice=10, bob=-10, period=0)
    kept.setup = percent
    program = kept.serve()
    await_period(program, 1)
    send_of_bob(program, 1)
    post_close(program)
    expect_end_of(program, alice=11, bob=-11, period=1)


@case
def period_that_ends_by_credits(laboratory: Laboratory) -> None:
    """Credits alone have a period end as packets do."""
    kept = Kept(laboratory, small(laboratory.stand_in(FULFILLS).port, laboratory, journal=40))
    program = kept.serve()
    for number in range(20):
        expect("a credit", credit(program, 5, key=f"key {number}"), created(quantity(5, 2)))
    await_period(program, 1)
    post_close(program)
    expect_end_of(program, alice=0, bob=100, period=1)
