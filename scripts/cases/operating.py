"""How the program starts, and what it takes."""
import os
import re
import resource
import socket
from pathlib import Path

from cases.case import case, expect, expect_that, expect_within
from cases.laboratory import Laboratory, close, credit, expect_packet, expect_served
from cases.lines import NO_JOURNAL, WHOLE
from cases.messages import HERE, bearer, created, post, request, response, soon
from cases.program import Program, Setup
from cases.stand_ins import FULFILLS
from connections import F02, quantity
from scenes import FULFILL, T01

NO_PLACE = "it is no IP:PORT in digits"


# ---- the start

def expect_refused(laboratory: Laboratory, setup: Setup, address: str, why: str = ".+") -> None:
    """It ends at once, says which address it was and why, and serves nothing."""
    program = laboratory.start(setup)
    expect(f"{address}: the exit status", program.end(5.0), 1)
    expect(f"{address}: standard output", program.output(), "refused 66 ListenFault\n")
    told = [line.said for line in program.lines()]
    expect(f"{address}: the lines but the last", told[:-1], [NO_JOURNAL])
    expect_that(f"{address}: the last line is {told[-1]!r}",
                re.fullmatch(f"error can't listen at {re.escape(address)}: {why}", told[-1]) is not None)


@case
def address_in_use(laboratory: Laboratory) -> None:
    """An address that another has, of either side, and both sides at one."""
    with socket.create_server((HERE, 0)) as taken:
        address = f"{HERE}:{taken.getsockname()[1]}"
        expect_refused(laboratory, Setup(listen=address), address)
        expect_refused(laboratory, Setup(engine_listen=address), address)
    both = Setup()
    both.engine_listen = both.listen
    expect_refused(laboratory, both, both.listen)


@case
def address_of_no_place(laboratory: Laboratory) -> None:
    """Texts that are no address, and an address of another machine (RFC 5737)."""
    for address in ("nowhere", "localhost:7768", HERE, f"{HERE}:", f"{HERE}:65536", "256.0.0.1:7768"):
        expect_refused(laboratory, Setup(listen=address), address, NO_PLACE)
    expect_refused(laboratory, Setup(engine_listen="nowhere"), "nowhere", NO_PLACE)
    expect_refused(laboratory, Setup(listen="192.0.2.1:7768"), "192.0.2.1:7768", f"(?!{NO_PLACE}).+")


@case
def configuration_that_is_refused(laboratory: Laboratory) -> None:
    """A configuration that isn't there, or has a fault, is told as `check` tells it, without a time."""
    rows = [(laboratory.start(Setup(top={"workers": 0})), "refused 23 BadValue workers\n"),
            (laboratory.start(Setup(top={"in_flight": 0})), "refused 23 BadValue in_flight\n"),
            (laboratory.start(Setup(top={"in_flight": 65_537})), "refused 23 BadValue in_flight\n"),
            (laboratory.start(Setup(top={"sync": "of"})), "refused 23 BadValue sync\n"),
            (laboratory.start(Setup(), argument="/nowhere"), "refused 20 ConfigUnread\n")]
    for program, told in rows:
        expect("the exit status", program.end(5.0), 1)
        expect("standard output", program.output(), told)
        expect("how many lines are on standard error", len(program.error_lines()), 1)
        expect("the line as one with a time", WHOLE.fullmatch(program.error_lines()[0]), None)


@case
def thread_that_is_not_started(laboratory: Laboratory) -> None:
    """One after the other, of two workers, sweeper, settler, watcher and two intakes. Those that run end,
    or the program would not. With room for all of them it serves."""
    setup = Setup(top={"workers": 2})
    for threads in range(7):
        program = laboratory.start(setup, threads=threads)
        expect(f"{threads} threads: the exit status", program.end(5.0), 1)
        expect(f"{threads} threads: standard output", program.output(), "refused 67 SpawnFault\n")
        first, listening, *others = [line.said for line in program.lines()]
        expect("the first line", first, NO_JOURNAL)
        expect_that(f"the second line is {listening!r}", listening.startswith("info listening at "))
        expect(f"{threads} threads: other lines", others, ["error a thread can't be started"])
    program = laboratory.start(setup, threads=7)
    program.await_listening()
    expect("a credit", credit(program, 7), created(quantity(7, 2)))
    close(program, bob=7)


@case
def built_in_configuration(laboratory: Laboratory) -> None:
    """`-` is the built-in one; its ports 7768 and 7769, and bob's 7002, are to be free."""
    setup = Setup(listen=f"{HERE}:7768", engine_listen=f"{HERE}:7769", token="a-token")
    program = laboratory.start(setup, argument="-")
    program.await_listening()
    expect_packet("a packet", program, soon(), T01)
    expect("a credit", credit(program, 7), created(quantity(7, 2)))
    close(program, bob=7)


@case
def other_paths(laboratory: Laboratory) -> None:
    """Packets come in and go out by the configured paths."""
    bob = laboratory.stand_in(FULFILLS)
    setup = Setup(bob=bob.port, out_path="/out/there", top={"path": "/in"})
    program = laboratory.start(setup)
    program.await_listening()
    octets = soon(5)
    shows = bearer(setup.token)
    rows = [("/ilp", response(404)), ("/in", response(200, FULFILL))]
    for path, told in rows:
        expect(path, post(setup.peers_port, request(path, shows, body=octets)), told)
    expect("where bob got it", [one.target for one in bob.received], ["/out/there"])
    close(program, alice=-5, bob=5)


# ---- what it takes

def requests_that_book_nothing(program: Program) -> None:
    """A refused packet, a wrong token, a kept credit, and a target that asks for nothing."""
    setup = program.setup
    expect_packet("no route", program, soon(destination=b"test.carol"), F02)
    expect("a token", post(setup.peers_port, request("/ilp", bearer("x"))), response(401))
    expect("a kept credit", credit(program, 1), created(quantity(1, 2)))
    expect("no target", post(setup.engines_port, request("/reports")), response(404))


@case
def memory(laboratory: Laboratory) -> None:
    """2,000 requests that book nothing take no memory, and 2,000 packets little."""
    program = laboratory.serve(FULFILLS)
    for _ in range(50):
        requests_that_book_nothing(program)
        expect_served(program)
    before, open_before = program.memory(), program.descriptors()
    for _ in range(500):
        requests_that_book_nothing(program)
    flat = program.memory()
    for _ in range(2000):
        expect_served(program)
    after = program.memory()
    expect_that(f"2,000 requests: from {before} to {flat} KiB", flat <= before + 1024)
    expect_that(f"2,000 packets: from {flat} to {after} KiB", after <= flat + 4096)
    expect_within("descriptors beside those before", program.descriptors() - open_before, -8, 8)
    close(program, bob=1)


def raise_own_limit() -> None:
    """Gives this process as many descriptors as it may have: cases open more than a thousand."""
    _, most = resource.getrlimit(resource.RLIMIT_NOFILE)
    resource.setrlimit(resource.RLIMIT_NOFILE, (most, most))


def own_limit() -> int:
    """How many descriptors this process, and a program that it starts, may have."""
    _, most = resource.getrlimit(resource.RLIMIT_NOFILE)
    return most


def is_program(path: Path) -> bool:
    """Whether a path names something that can be run."""
    return path.is_file() and os.access(path, os.X_OK)
