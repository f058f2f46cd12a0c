"""The log beside a journal: what a start takes from it behind a sudden stop, what is refused, and copies.
cases/log_faults.py has a log that can't be written."""
import hashlib
import json
import re
import shutil
import socket
import threading
import time
from concurrent.futures import ThreadPoolExecutor
from dataclasses import replace

from cases.case import case, expect, expect_that
from cases.conversations import report
from cases.journals import SETTLEMENTS, Kept, await_one, keys_of
from cases.laboratory import Laboratory, close, credit, expect_served, packet_request, send_packet
from cases.lines import OF_ANOTHER_TEXT
from cases.messages import HERE, created, response, soon
from cases.program import Program, Setup, numbers_in
from cases.remembered import ANOTHER_ASSET, ANOTHER_RUN, BTC, REMEMBERED, with_asset, with_run
from cases.stand_ins import (ACCEPTS, FULFILLS, Behaviour, Received, engine_of, free_port, in_turn,
                             never_answers)
from connections import quantity
from scenes import FULFILL

UNREAD = "73 JournalUnread"

# What is told on a journal that has no file yet.
ABSENT = ("not there yet, so all balances begin at 0: see that this is its path, and that no earlier start had this "
          "`run`")

# What is told on a journal beside which a log lies.
LOGGED = "a connector stopped without saving it, and {} entries come from its log"
OLDER = "its log is of an older text, and the journal has all that it has: a start removes it"

# What is told of a log that has begun, by the field `sync` of the configuration.
BEGUN = {"group": "info log {}: begun, and synced before anybody is told",
         "off": "warn log {}: begun, and left to the system to sync: a power cut may take what was told"}


def head(kept: Kept, run: str = "r1") -> str:
    """The two lines of a log that goes on from the journal as it lies there, by the configuration of a run."""
    text, entries = (kept.path.read_bytes(), kept.entries()) if kept.path.exists() else (b"", 0)
    return (f"ilp-log 1 {entries} {hashlib.sha256(text).hexdigest()}\n"
            f"run {run}; peer alice USD 2; peer bob USD 2\n")


def log_of(kept: Kept) -> str:
    """The text of the log."""
    return kept.beside("log").read_text()


def expect_begun(kept: Kept, program: Program, *said: str) -> None:
    """A start tells of the journal just this, each with its level, and then of the log, which has its head alone and
    goes on from there."""
    told = [line.said for line in program.lines()]
    listening = next(place for place, line in enumerate(told) if line.startswith("info listening at "))
    lines = [f"{level} {kept.said(text)}" for level, _, text in (line.partition(" ") for line in said)]
    begun = BEGUN[str(kept.setup.top.get("sync", "group"))].format(json.dumps(str(kept.beside("log"))))
    expect("what is told of the journal", told[:listening], [*lines, begun])
    expect("the log", log_of(kept), head(kept))


def credited(kept: Kept, *keys: str) -> Program:
    """A connector that has booked a credit of 7 of bob under each of these keys."""
    program = kept.serve()
    for key in keys:
        expect("a credit", credit(program, 7, key=key), created(quantity(7, 2)))
    return program


def killed(kept: Kept, *keys: str) -> Program:
    """The same, of one that was killed then."""
    program = credited(kept, *keys)
    program.kill()
    return program


def saved(kept: Kept, *keys: str) -> None:
    """The same, of one that was closed then: all that the journal has are such credits."""
    program = credited(kept, *keys)
    close(program, bob=7 * numbers_in(report(program))[9])


# ---- a start behind a sudden stop

def once(said: threading.Event, behaviour: Behaviour) -> Behaviour:
    """Behaves so once something is said."""
    def behave(received: Received, link: socket.socket, stop: threading.Event) -> None:
        said.wait(10.0)
        behaviour(received, link, stop)
    return behave


@case
def killed_behind_answers(laboratory: Laboratory) -> None:
    """Behind SIGKILL the next start has each packet that was answered, each credit and each settlement that was asked
    for: balances, the report, keys and numbers are as they were."""
    reported = threading.Event()
    bob = laboratory.stand_in(FULFILLS)
    engine = laboratory.stand_in(engine_of(in_turn(never_answers, once(reported, ACCEPTS))))
    kept = Kept(laboratory, Setup(bob=bob.port, engine=engine.port, top={"settle_ms": 20}))
    program = kept.serve()
    expect("the log", log_of(kept), head(kept))
    for _ in range(3):
        expect_served(program, amount=10)
    expect("a credit", credit(program, 1000), created(quantity(1000, 2)))
    engine.await_count(SETTLEMENTS, 1)
    before = report(program)
    program.kill()
    expect("the files", kept.files(), ["journal.lock", "journal.log"])
    kept.expect_checked(program, LOGGED.format(8), entries=8)

    program = kept.serve()
    expect("the report", report(program), before)
    expect_begun(kept, program, f"warn {LOGGED.format(8)}", "info begun with its 8 entries")
    expect("the files", kept.files(), ["journal", "journal.lock", "journal.log"])
    expect("the entries", kept.entries(), 8)
    expect("the same credit", credit(program, 1000), created(quantity(1000, 2)))
    expect("another under its key", credit(program, 5), response(409))
    reported.set()
    program.await_told("info settlement 7 with bob of 830: confirmed")
    expect("the keys of the settlements", keys_of(engine), [b"r1-7", b"r1-7"])
    expect_served(program, amount=4)
    close(program, alice=-34, bob=204)
    expect("the entries", kept.entries(), 11)
    expect("the files after the close", kept.files(), ["journal", "journal.lock"])


@case
def killed_again_and_again(laboratory: Laboratory) -> None:
    """Each start goes on from what the one before has left, journal and log."""
    kept = Kept(laboratory)
    for count in range(5):
        program = credited(kept, f"k{count}")
        expect_served(program, amount=1)
        program.kill()
    kept.expect_checked(program, LOGGED.format(3), entries=15)
    program = kept.serve()
    expect_begun(kept, program, f"warn {LOGGED.format(3)}", "info begun with its 15 entries")
    for count in range(5):
        expect("a credit again", credit(program, 7, key=f"k{count}"), created(quantity(7, 2)))
    close(program, alice=-5, bob=40)
    expect("the entries", kept.entries(), 15)


@case
def killed_before_anything(laboratory: Laboratory) -> None:
    """A connector that booked nothing leaves a log without entries, and the next start makes no journal."""
    kept = Kept(laboratory)
    program = kept.serve()
    expect_begun(kept, program, f"warn {ABSENT}")
    program.kill()
    kept.expect_checked(program, LOGGED.format(0), entries=0)
    program = kept.serve()
    expect_begun(kept, program, f"warn {LOGGED.format(0)}", f"warn {ABSENT}")
    expect("the files", kept.files(), ["journal.lock", "journal.log"])
    close(program)


@case
def killed_beside_open_holds(laboratory: Laboratory) -> None:
    """Holds that were open are ended by the next start, which tells of each peer to which they went on."""
    bob = laboratory.stand_in(never_answers)
    kept = Kept(laboratory, Setup(bob=bob.port))
    program = kept.serve()
    for count, amount in enumerate((50, 7), start=1):
        laboratory.connect(kept.setup.peers_port).sendall(packet_request(program, soon(amount)))
        bob.await_count("/ilp", count)
    # A hold is written with the next entry that is waited for.
    expect("a credit", credit(program, 7), created(quantity(7, 2)))
    program.kill()
    holds = ("2 holds that went on to bob were open, of 57 in all: what bob fulfilled of them it may say that it is "
             "owed; the last that was handed on may be missing here")
    kept.expect_checked(program, LOGGED.format(3), holds, entries=5)
    program = kept.serve()
    expect_begun(kept, program, f"warn {LOGGED.format(3)}", f"warn {holds}", "info begun with its 5 entries")
    expect("how the holds end", [line.split()[1:] for line in kept.text().splitlines()[4:6]],
           [["0", "released", "0", "Restart"], ["0", "released", "1", "Restart"]])
    close(program, bob=7)
    kept.expect_checked(program)


@case
def stopped_behind_a_save(laboratory: Laboratory) -> None:
    """A stop between the save of the journal and the removal of its log leaves a log of an older text: the journal has
    all of it, so a start passes it over and begins another in its place."""
    kept = Kept(laboratory)
    logs = []
    for count in range(1, 3):
        program = credited(kept, f"k{count}")
        logs.append(log_of(kept))
        close(program, bob=7 * count)
        for log in logs:
            kept.beside("log").write_text(log)
            kept.expect_checked(program, OLDER)
            program = kept.serve()
            expect_begun(kept, program, f"info {OLDER}", f"info begun with its {count} entries")
            close(program, bob=7 * count)


@case
def stopped_as_it_starts(laboratory: Laboratory) -> None:
    """So does a stop between the save of a journal at a start and its next log; and what a log began as by then goes
    with the next start."""
    bob = laboratory.stand_in(never_answers)
    kept = Kept(laboratory, Setup(bob=bob.port))
    program = kept.serve()
    laboratory.connect(kept.setup.peers_port).sendall(packet_request(program, soon(50)))
    bob.await_count("/ilp", 1)
    expect("a credit", credit(program, 7), created(quantity(7, 2)))
    program.kill()
    log = log_of(kept)
    kept.serve().kill()
    expect("the entries", kept.entries(), 3)
    kept.beside("log").write_text(log)
    kept.beside("log.new").write_text(head(kept)[:40])
    kept.expect_checked(program, OLDER)
    program = kept.serve()
    expect_begun(kept, program, f"info {OLDER}", "info begun with its 3 entries")
    expect("the files", kept.files(), ["journal", "journal.lock", "journal.log"])
    close(program, bob=7)


# ---- what a stop leaves of a text

@case
def log_that_is_torn(laboratory: Laboratory) -> None:
    """The whole lines before the first NUL count, and what a stop left behind them does not."""
    kept = Kept(laboratory)
    program = killed(kept, "k0", "k1", "k2")
    first, second, *lines = kept.beside("log").read_bytes().splitlines(keepends=True)
    rows = [(first + second + b"".join(lines), 3), (first + second + b"".join(lines)[:-1], 2),
            (first + second + b"".join(lines) + lines[0][:-1], 3), (first + second + b"".join(lines) + bytes(4096), 3),
            (first + second + lines[0] + b"\0" + lines[1] + lines[2], 1),
            (first + second + lines[0] + lines[1][:20] + b"\0" + lines[1][21:] + lines[2], 1),
            (first + second + lines[0] + lines[1][:20], 1), (first + second + lines[0][:-1], 0)]
    for text, count in rows:
        kept.path.unlink(missing_ok=True)
        kept.beside("log").write_bytes(text)
        kept.expect_checked(program, LOGGED.format(count), entries=count)
        program = kept.serve()
        expect("the balances", numbers_in(report(program))[:2], [0, 7 * count])
        expect("the log", log_of(kept), head(kept))
        expect("the entries", kept.entries() if kept.path.exists() else 0, count)
        program.kill()


# ---- what is refused

@case
def log_of_another_text(laboratory: Laboratory) -> None:
    """A journal that was put back without its log lacks what the log has: the start is refused, and nothing is
    changed."""
    kept = Kept(laboratory)
    saved(kept, "k0")
    earlier = kept.text()
    saved(kept, "k1")
    later = kept.text()
    killed(kept, "k2")
    log = log_of(kept)
    kept.path.write_text(earlier)
    kept.expect_refused(UNREAD, OF_ANOTHER_TEXT)
    kept.path.write_text(later.replace(" 2 7\n", " 2 8\n"))
    kept.expect_refused(UNREAD, OF_ANOTHER_TEXT)
    kept.path.unlink()
    kept.expect_refused(UNREAD, OF_ANOTHER_TEXT)
    # One of an earlier text too, where the journal went on otherwise.
    kept.path.write_text(later)
    kept.beside("log").write_text(log_text(kept, earlier, log.splitlines(keepends=True)[2:]))
    kept.expect_refused(UNREAD, OF_ANOTHER_TEXT)
    kept.beside("log").write_text(log)
    program = kept.serve()
    expect_begun(kept, program, f"warn {LOGGED.format(1)}", "info begun with its 3 entries")
    close(program, bob=21)


@case
def log_of_a_later_text(laboratory: Laboratory) -> None:
    """So it is where the log has no entry, but goes on from more entries than the journal has that was put back."""
    kept = Kept(laboratory)
    saved(kept, "k0")
    earlier = kept.text()
    saved(kept, "k1")
    later = kept.text()
    killed(kept)
    kept.path.write_text(earlier)
    kept.expect_refused(UNREAD, OF_ANOTHER_TEXT)
    kept.path.write_text(later)
    close(kept.serve(), bob=14)


def log_text(kept: Kept, text: str, lines: list[str]) -> str:
    """A log of these lines that goes on from this text of the journal."""
    before = kept.path.read_bytes()
    kept.path.write_text(text)
    first = head(kept)
    kept.path.write_bytes(before)
    return first + "".join(lines)


FIRST, SECOND = "`ilp-log 1 COUNT DIGEST`", "`run RUN; peer NAME CODE SCALE; ..`"


@case
def bad_head_of_a_log(laboratory: Laboratory) -> None:
    """A log without its two first lines is refused by the first of them that is none."""
    kept = Kept(laboratory)
    saved(kept, "k0")
    killed(kept, "k1")
    whole = log_of(kept)
    first, second, *_ = whole.splitlines(keepends=True)
    rest, digest = whole.removeprefix(first), first.split()[-1]
    firsts = ["", "\n", first[:-1], "\0" + first, first.replace("log 1", "log 2"), first.replace(" 1 1 ", " 1 01 "),
              first.replace(" 1 1 ", " 1 +1 "), first.replace(" 1 1 ", " 1 4294967296 "), first.replace(" 1 1 ", " 1 "),
              first.replace(digest, digest.upper()), first.replace(digest, digest[1:]), first.replace("\n", " \n")]
    rows = [(1, FIRST, "")] + [(1, FIRST, text + rest) for text in firsts]
    rows += [(2, SECOND, text) for text in (first, first + second[:-1], first + "\n" + second, first + second[1:],
                                            first + second.replace(";", "\0", 1), first + second.replace("run ", "run"))]
    for line, form, text in rows:
        kept.beside("log").write_text(text)
        kept.expect_refused(f"71 BadJournalText {line}",
                            rf"\".+/journal\.log\" line {line}: expected {re.escape(form)}, ended by LF")
    kept.beside("log").write_text(whole)
    close(kept.serve(), bob=14)


@case
def bad_line_of_a_log(laboratory: Laboratory) -> None:
    """A line of an entry that is none is told by its number in the log, and an entry that breaks a rule by its own
    too. A bad line of the journal comes first."""
    kept = Kept(laboratory)
    saved(kept, "k0", "k1")
    killed(kept, "k2", "k3", "k4")
    whole = log_of(kept)
    first, second, *entries = whole.splitlines(keepends=True)
    earlier = "1" + entries[1][entries[1].index(" "):]
    cut = entries[1][:-len(" 2 7\n")] + "\n"
    an_entry = "expected an entry, ended by LF"
    form = ("expected `MOMENT ACTOR credited PEER KEY AMOUNT SCALE CREDITED` with peers of the configuration, ended by "
            "LF")
    rows = [(["\n", *entries], "71 BadJournalText 3", 3, re.escape(an_entry)),
            ([entries[0], cut, entries[2]], "71 BadJournalText 4", 4, re.escape(form)),
            ([*entries, "end 5\n"], "71 BadJournalText 6", 6, re.escape(an_entry)),
            ([entries[0], earlier, entries[2]], "72 Unlawful 3", 4,
             "the entry 3 is not lawful: its moment lies before that of the entry before it, or outside of .+"),
            ([entries[0], entries[0]], "72 Unlawful 3", 4, "the entry 3 is not lawful: .+key.+")]
    for lines, told, line, why in rows:
        kept.beside("log").write_text("".join([first, second, *lines]))
        kept.expect_refused(told, rf"\".+/journal\.log\" line {line}: {why}")
    text = kept.text()
    kept.path.write_text(text.replace(" credited ", " created ", 1))
    kept.beside("log").write_text("".join([log_text(kept, kept.text(), ["\n"]), *entries]))
    kept.expect_refused("71 BadJournalText 2", r"\".+/journal\" line 2: expected an entry, .+")
    kept.path.write_text(text)
    kept.beside("log").write_text(whole)
    close(kept.serve(), bob=35)


@case
def another_run_behind_a_stop(laboratory: Laboratory) -> None:
    """Behind a sudden stop the log says which run has asked for what is open, and the lock does not."""
    engine = laboratory.stand_in(engine_of(in_turn(never_answers, ACCEPTS)))
    first = Setup(engine=engine.port, top={"settle_ms": 20})
    kept = Kept(laboratory, first)
    program = kept.serve()
    expect("a credit", credit(program, 1000), created(quantity(1000, 2)))
    engine.await_count(SETTLEMENTS, 1)
    program.kill()
    kept.beside("lock").write_text(REMEMBERED.format("r2", "USD 2"))
    kept.setup = with_run(first, "r2")
    kept.expect_refused(UNREAD, ANOTHER_RUN)
    kept.setup = first
    program = kept.serve()
    expect("what is remembered", kept.beside("lock").read_text(), REMEMBERED.format("r1", "USD 2"))
    program.await_told("info settlement 1 with bob of 800: confirmed")
    expect("the keys of the settlements", keys_of(engine), [b"r1-1", b"r1-1"])
    close(program, bob=200)
    kept.setup = with_run(first, "r2")
    program = kept.serve()
    expect("the second line of the log", log_of(kept).splitlines()[1], head(kept, "r2").splitlines()[1])
    close(program, bob=200)


@case
def another_asset_behind_a_stop(laboratory: Laboratory) -> None:
    """So it is of the assets of its balances."""
    first = Setup()
    kept = Kept(laboratory, first)
    killed(kept, "k0")
    kept.beside("lock").write_text(REMEMBERED.format("r1", "BTC 2"))
    kept.setup = with_asset(first, *BTC)
    kept.expect_refused(UNREAD, ANOTHER_ASSET.format("bob"))
    kept.setup = first
    close(kept.serve(), bob=7)


@case
def two_starts_on_one_log(laboratory: Laboratory) -> None:
    """Of starts that come together behind a sudden stop one goes on from the log, and the others are refused."""
    kept = Kept(laboratory, Setup())
    killed(kept, "k0", "k1")
    with ThreadPoolExecutor(4) as pool:
        programs = list(pool.map(lambda _: laboratory.start(Setup(), journal=kept.path), range(4)))
    running = await_one(programs)
    ended = [program for program in programs if program is not running]
    expect("what the others print", {program.output() for program in ended}, {f"refused {UNREAD}\n"})
    expect_begun(kept, running, f"warn {LOGGED.format(2)}", "info begun with its 2 entries")
    close(running, bob=14)


# ---- a copy

def packets_until(program: Program, stop: threading.Event, answered: list[bytes]) -> None:
    """Sends packets of 1 until it is told to stop, and keeps what they are answered."""
    while not stop.is_set():
        answered.append(send_packet(program, soon(1)))


def copy_of(laboratory: Laboratory, kept: Kept) -> Kept:
    """A copy of the journal and then of its log, with what is remembered of their run, for a connector at other
    ports."""
    listen, engine_listen = (f"{HERE}:{free_port()}" for _ in range(2))
    copy = Kept(laboratory, replace(kept.setup, listen=listen, engine_listen=engine_listen))
    shutil.copy(kept.path, copy.path)
    for kind in ("log", "lock"):
        shutil.copy(kept.beside(kind), copy.beside(kind))
    return copy


def copies_beside(laboratory: Laboratory, kept: Kept, answered: list[bytes]) -> list[tuple[int, Kept]]:
    """Three copies while packets are answered, each with how many were before."""
    copies: list[tuple[int, Kept]] = []
    end = time.monotonic() + 10.0
    while len(copies) < 3:
        before = len(answered)
        copies.append((before, copy_of(laboratory, kept)))
        while len(answered) < before + 4:
            expect_that("packets are not answered", time.monotonic() < end)
            time.sleep(0.001)
    return copies


def expect_goes_on(copy: Kept, before: int) -> list[str]:
    """A connector that begins with a copy has so many packets at least. The lines of its entries, but for those that
    end open holds."""
    program = copy.serve()
    fulfilled = numbers_in(report(program))[10]
    expect_that(f"{fulfilled} of {before} packets are in the copy", fulfilled >= before)
    expect_served(program, amount=1)
    lines = copy.text().splitlines()[1:-1]
    close(program, alice=-fulfilled - 1, bob=7 + fulfilled + 1)
    return [line for line in lines if line.split()[2::2] != ["released", "Restart"]]


@case
def copy_of_a_running_journal(laboratory: Laboratory) -> None:
    """A journal and then its log that are copied while packets go on are what another connector can go on with."""
    kept = Kept(laboratory)
    saved(kept, "k0")
    program = kept.serve()
    stop, answered = threading.Event(), list[bytes]()
    with ThreadPoolExecutor(4) as pool:
        for _ in range(4):
            pool.submit(packets_until, program, stop, answered)
        try:
            copies = copies_beside(laboratory, kept, answered)
        finally:
            stop.set()
    expect("the answers", set(answered), {response(200, FULFILL)})
    close(program, alice=-len(answered), bob=7 + len(answered))
    entries = kept.text().splitlines()[1:-1]
    for before, copy in copies:
        lines = expect_goes_on(copy, before)
        expect("the entries of a copy", lines, entries[:len(lines)])


@case
def standby_takes_over(laboratory: Laboratory) -> None:
    """Another connector goes on from a folder that has what the first's has as it is killed: an engine that tells a
    credit again is answered as before, and it is made once. A folder of an earlier moment lacks what was told since."""
    kept = Kept(laboratory)
    saved(kept, "k0")
    program = credited(kept, "k1")
    early = copy_of(laboratory, kept)
    expect("a credit", credit(program, 7, key="k2"), created(quantity(7, 2)))
    program.kill()
    close(credited(copy_of(laboratory, kept), "k2"), bob=21)
    close(early.serve(), bob=14)
