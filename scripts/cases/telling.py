"""The lines that tell of the start, of peers and engines, and of work that waits."""
import os
import time
from concurrent.futures import Future, ThreadPoolExecutor

from cases.case import case, expect, expect_that, expect_within
from cases.laboratory import (Laboratory, close, credit, expect_end, expect_packet, expect_served,
                              post_close, send_packet)
from cases.lines import BAD_200, HELD, MORE, NO_JOURNAL, expect_longer_waits
from cases.links import FAULTS
from cases.messages import HERE, bearer, created, post, request, response, seconds_since, soon
from cases.program import Program, Setup, secret
from cases.stand_ins import (ACCEPTS, FULFILLS, answers, answers_packet, engine_of, free_port, in_turn,
                             never_answers, status)
from connections import ANSWER, MESSAGE, quantity
from scenes import F99, FULFILL, R00, T01, fulfill

# How many may be in flight, where nothing else is said, and how many connections may wait at a side.
IN_FLIGHT, WAITING = 4096, 1024

# How many files a program has for each worker, for each that waits, as there are two sides, or is in flight, and for
# all else: of this, one for each of two peers.
FILES_OF_A_WORKER, FILES_OF_EACH, MORE_FILES = 2, 2, 22

# In seconds: a line that is no answer to a request comes so much later at most, with what this machine
# may take beside other work.
TOLD_WITHIN = 2.0 + 1.5


def of_bob(program: Program, level: str, text: str) -> str:
    """The form of a line of this level and text on bob's server."""
    return f"{level} peer bob at {HERE}:{program.setup.bob}: {text}"


# ---- the start

@case
def line_at_the_start(laboratory: Laboratory) -> None:
    """A quiet conversation has two lines of the start, that no journal is kept and with addresses, workers
    and peers, one of its credit, and one of the close."""
    program = laboratory.serve(FULFILLS, engine_of(), workers=37, levels=False)
    setup = program.setup
    expect_served(program, amount=1)
    expect("a credit", credit(program, 1), created(quantity(1, 2)))
    close(program, alice=-1, bob=2)
    expect("the lines", [line.said for line in program.lines()],
           [NO_JOURNAL,
            f"info listening at {setup.listen} for peers and at {setup.engine_listen} for engines: "
            f"37 workers, {IN_FLIGHT} in flight with {8192 * IN_FLIGHT} octets, 2 peers, alice without an engine, bob with the engine at "
            f"{HERE}:{setup.engine}",
            f'info credit 2 of bob: 1, key "{setup.key}"',
            "info closing: no connection is accepted any more"])


def files_wanted(workers: int, in_flight: int) -> int:
    """How many open files a program may need."""
    return MORE_FILES + FILES_OF_A_WORKER * workers + FILES_OF_EACH * (WAITING + in_flight)


def in_flight_by(limit: int, workers: int, asked: int) -> int:
    """How many may be in flight, of so many that are asked for, with so many open files."""
    left = max(0, limit - MORE_FILES - FILES_OF_A_WORKER * workers)
    waiting = max(1, min(WAITING, left // 8))
    return max(1, min(asked, (left - FILES_OF_EACH * waiting) // FILES_OF_EACH))


@case
def limit_of_open_files(laboratory: Laboratory) -> None:
    """A limit that is lower than what the configuration may need is told, and by how much; the first
    lines are those of the start all the same, and say how many are in flight by that."""
    for workers, in_flight in ((4, IN_FLIGHT), (64, IN_FLIGHT), (4, 100), (1, 1)):
        wanted = files_wanted(workers, in_flight)
        for limit in (256, wanted - 1, wanted):
            program = laboratory.serve(FULFILLS, descriptors=limit, workers=workers, in_flight=in_flight)
            expect_served(program)
            close(program)
            lines = [line.said for line in program.lines()]
            what = f"{workers} workers, {in_flight} in flight, {limit} open files"
            fewer = in_flight_by(limit, workers, in_flight)
            expect_that(f"{what}: the start is told as {lines[1]!r}, and {fewer} are in flight",
                        f" {workers} workers, {fewer} in flight with {8192 * max(16, fewer)} octets, " in lines[1])
            told = [f"warn open files: {limit} at most, and this configuration may need {wanted}: "
                    f"set ulimit -n {wanted}"] if limit < wanted else []
            expect(f"{what}: the lines between the first and the last", lines[2:-1], told)


# ---- peers and engines

@case
def lines_of_faults(laboratory: Laboratory) -> None:
    """What is wrong with a peer's answer is told at once, and a 200 without an answer is an error."""
    for fault in FAULTS:
        program = laboratory.serve(fault.behaviour)
        expect_packet(fault.what, program, soon(), T01)
        program.await_told(of_bob(program, fault.level, fault.why), within=2.0)
        lines = program.told(r"\w+ peer bob at .+")
        expect(f"{fault.what}: how many lines are on bob", len(lines), 1)


@case
def lines_name_the_hold(laboratory: Laboratory) -> None:
    """A line on a packet that the peer may have fulfilled names its hold, the amount that went out and the
    condition; none on a packet that it can't have got does."""
    cut = answers(b"HTTP/1.1 200 OK\r\nContent-Length: 36\r\n\r\n" + FULFILL)
    rows = [(cut, "warn", r"no response of HTTP: [a-z ]+ \(hold 0 of 7, condition 66687aad\)"),
            (answers(response(200, b"rubbish")), "error", rf"{BAD_200} \(hold 0 of 7, condition 66687aad\)"),
            (status(503), "warn", "status 503")]
    for behaviour, level, text in rows:
        program = laboratory.serve(behaviour)
        expect_packet("a packet", program, soon(7), T01)
        program.await_told(of_bob(program, level, text), within=2.0)
        close(program)


@case
def lines_of_wrong_tokens(laboratory: Laboratory) -> None:
    """Requests without a token of a peer are told at once with their number and the address that most came
    from, and then again at longer intervals; the numbers add up at the close. No line has the token."""
    program = laboratory.serve(FULFILLS)
    marker = secret()
    form = rf"warn wrong tokens: .+ got 401, \d+ from {HERE}"
    strangers = 0
    start = time.monotonic()
    while len(program.told(form)) < 3:
        for shown in ([bearer(marker)], []):
            expect("a stranger", post(program.setup.peers_port, request("/ilp", *shown)), response(401))
            strangers += 1
        expect_that("after 8 seconds there were not three lines", seconds_since(start) < 8.0)
    expect_longer_waits("wrong tokens", program.told(form))
    expect("another stranger", post(program.setup.peers_port, request("/ilp")), response(401))
    close(program)
    said = [line.said for line in program.told(form)]
    expect("how many requests the lines tell of", sum(int(line.split(": ")[1].split()[0]) for line in said),
           strangers + 1)
    expect("how many from here", sum(int(line.split()[-3]) for line in said), strangers + 1)
    expect_that("the token is on standard error", marker not in program.errors())


@case
def lines_of_peers_that_give_no_answer(laboratory: Laboratory) -> None:
    """Nor do these: a peer in letters, one that is not there, and one that says nothing."""
    lettered = laboratory.start(Setup(bob_host="localhost:7001"))
    lettered.await_listening()
    expect_packet("to a peer in letters", lettered, soon(), T01)
    lettered.await_told("warn peer bob at localhost:7001: no IP:PORT in digits")
    absent = laboratory.serve()
    expect_packet("to a peer that is not there", absent, soon(), T01)
    absent.await_told(of_bob(absent, "warn", "not reached: connection refused"))
    silent = laboratory.serve(never_answers, max_hold_ms=1000)
    expect_packet("to a peer that says nothing", silent, soon(), R00)
    silent.await_told(of_bob(silent, "warn", f"no answer in time{HELD}"))
    for program in (lettered, absent, silent):
        close(program)
        expect("how many lines are on bob", len(program.told(r"\w+ peer bob at .*")), 1)


@case
def lines_of_a_peer_that_is_not_reached(laboratory: Laboratory) -> None:
    """They come at once, a second and then two seconds later, with how many were left out, and have no
    token, key or octet of a packet."""
    program = laboratory.serve()
    form = of_bob(program, "warn", f"not reached: [a-z ]+{MORE}")
    marker = secret()
    start = time.monotonic()
    packets = 0
    while len(lines := program.told(form)) < 3:
        expect_packet("a packet", program, soon(data=marker.encode()), T01)
        packets += 1
        expect_that(f"after 8 seconds there were only {len(lines)} lines", seconds_since(start) < 8.0)
    expect_longer_waits("peer bob", lines)
    counted = len(lines) + sum(line.left_out() for line in lines)
    expect_within("failures by the lines", counted, packets - 1, packets)
    expect_that(f"the second and the third tell of none left out: {lines}",
                lines[0].left_out() == 0 and all(line.left_out() for line in lines[1:]))
    close(program)
    errors = program.errors()
    expect_that(f"a packet is on standard error: {errors!r}",
                marker not in errors and marker.encode().hex() not in errors.lower())


@case
def peer_that_is_reached_again(laboratory: Laboratory) -> None:
    """That a peer answers again is told, once its next line would be due, with how often it failed."""
    for failures, told in [(1, "1 failure"), (3, "3 failures")]:
        program = laboratory.serve(in_turn(*[status(503)] * failures, FULFILLS))
        for _ in range(failures):
            expect_packet("a packet", program, soon(1), T01)
        answered = time.time()
        expect_packet("a packet", program, soon(1), FULFILL)
        failed = program.await_told(of_bob(program, "warn", "status 503"), within=1.0)[0].moment
        again = program.await_told(of_bob(program, "info", f"reached again, after {told}"))
        expect_within("seconds after the first line", again[0].moment - failed, 0.9, 10.0)
        expect_within("seconds after the answer", again[0].moment - answered, 0.0, TOLD_WITHIN)
        close(program, alice=-1, bob=1)
        expect("how many lines say so", len(program.told(".+ reached again, .+")), 1)


@case
def peer_that_rejects(laboratory: Laboratory) -> None:
    """A Reject is an answer: no line says that its peer fails, and one that failed is reached again."""
    program = laboratory.serve(in_turn(status(503), answers_packet(F99)))
    expect_packet("a packet", program, soon(1), T01)
    expect_packet("a packet", program, soon(1), F99)
    program.await_told(of_bob(program, "info", "reached again, after 1 failure"))
    close(program)
    expect("how many lines are on bob", len(program.told(r"\w+ peer bob at .+")), 2)


@case
def engine_that_is_reached_again(laboratory: Laboratory) -> None:
    """So it is of an engine, here of its account."""
    program = laboratory.serve(FULFILLS, engine_of(account=in_turn(status(500), ACCEPTS)), settle_ms=50)
    expect("a credit", credit(program, 1000), created(quantity(1000, 2)))
    place = f"engine of bob at {HERE}:{program.setup.engine}"
    failed = program.await_told(f"warn {place}: status 500")[0]
    again = program.await_told(f"info {place}: reached again, after 1 failure")[0]
    expect_within("seconds after the first line", again.moment - failed.moment, 0.9, 1.0 + TOLD_WITHIN)
    close(program, bob=200)
    expect("how many lines are on the engine", len(program.told(r"\w+ engine of bob at .+")), 2)


@case
def lines_of_an_engine_that_is_not_reached(laboratory: Laboratory) -> None:
    """They come at once, and then a second and two seconds later."""
    setup = Setup(engine=free_port(), top={"settle_ms": 50})
    program = laboratory.start(setup)
    program.await_listening()
    form = f"warn engine of bob at {HERE}:{setup.engine}: not reached: connection refused{MORE}"
    lines = program.await_told(form, count=3, within=8.0)
    expect_longer_waits("the engine of bob", lines)
    expect_that(f"the second and the third tell of none left out: {lines}",
                lines[0].left_out() == 0 and all(line.left_out() for line in lines[1:]))
    close(program)


# ---- waiting work, and standard error

@case
def work_that_waits(laboratory: Laboratory) -> None:
    """Work that waits for its turn is told after a second, with what is waited for, and so is that none
    waits any more."""
    slow = 5.0
    message = answers(response(200, ANSWER), after=slow)
    program = laboratory.serve(answers_packet(FULFILL, after=slow), engine_of(message=message),
                               levels=False, in_flight=4)
    setup = program.setup
    body = soon(0, MESSAGE, b"peer.settle")
    with ThreadPoolExecutor(4) as pool:
        messages = pool.submit(post, setup.peers_port,
                               request("/ilp", bearer(setup.bob_token), body=body), 20.0)
        laboratory.engine.await_count("/accounts/bob/messages", 1)
        packets: list[Future[bytes]] = [pool.submit(send_packet, program, soon(1), 20.0)
                                        for _ in range(3)]
        laboratory.bob.await_count("/ilp", 2)
        said = program.await_told(
            r"warn work waits for its turn, for \d+ seconds? now: of 4 in flight 2 wait for peer bob, "
            "1 (waits )?for the engine of bob", within=1.0 + TOLD_WITHIN)[0]
        expect("the message", messages.result(), response(200, fulfill(data=ANSWER)))
        expect("three packets", [one.result() for one in packets], [response(200, FULFILL)] * 3)
    over = program.await_told(r"info no work waits for its turn any more, after [2-9] seconds",
                              within=TOLD_WITHIN)[0]
    expect_within("seconds between the lines", over.moment - said.moment, 0.0, slow + TOLD_WITHIN)
    close(program, alice=-3, bob=3)


@case
def standard_error_that_breaks(laboratory: Laboratory) -> None:
    """It serves on where nobody reads its standard error any more."""
    reading, writing = os.pipe()
    program = laboratory.start(Setup(), errors=writing)
    os.close(writing)
    os.set_blocking(reading, True)
    with os.fdopen(reading, "rb", buffering=0) as told:
        first = told.read(1)
    expect_that("it said nothing", first != b"")
    await_connection(program)
    for _ in range(3):
        expect_packet("a packet", program, soon(), T01)
    program.expect_running()
    close(program)


@case
def standard_error_that_nobody_reads(laboratory: Laboratory) -> None:
    """It serves on, and ends, where its standard error has no room."""
    with open("/dev/full", "wb") as full:
        program = laboratory.start(Setup(), errors=full.fileno())
        # Its lines are lost, so that only a connection shows that it listens.
        await_connection(program)
        for _ in range(3):
            expect_packet("a packet", program, soon(), T01)
        expect("a credit", credit(program, 7), created(quantity(7, 2)))
        post_close(program)
        expect_end(program, alice=0, bob=7)


def await_connection(program: Program, within: float = 10.0) -> None:
    """Waits until the program answers a report."""
    end = time.monotonic() + within
    while True:
        try:
            post(program.setup.engines_port, request("/report"))
            return
        except OSError:
            expect_that(f"it does not listen within {within} seconds", time.monotonic() < end)
            time.sleep(0.01)
