"""Settlements that the server asks of engines which answer late, wrongly, or not at all, or refuse."""
import re
import time

from cases.case import case, expect, expect_that
from cases.laboratory import AT_ONCE, Laboratory, close, credit, expect_served, post_close
from cases.messages import HERE, created, seconds_since, sent
from cases.program import Program, Setup, numbers_in
from cases.stand_ins import (ACCEPTS, FULFILLS, Behaviour, StandIn, answers, closes, engine_of,
                             in_turn, never_answers, status)
from connections import JSON, quantity

SETTLEMENTS = "/accounts/bob/settlements"
ACCOUNTS = "/accounts"


def owe(laboratory: Laboratory, settles: Behaviour, account: Behaviour = ACCEPTS) -> Program:
    """A program that is to pay bob, of whose engine this is what it does."""
    program = laboratory.serve(FULFILLS, engine_of(settles, account), settle_ms=50)
    expect("a credit", credit(program, 1000), created(quantity(1000, 2)))
    return program


def expect_asked(laboratory: Laboratory, *numbers: int, amount: int = 800) -> None:
    """The engine was handed the settlement under these numbers, each time for the same amount."""
    got = laboratory.engine.await_count(SETTLEMENTS, len(numbers))
    wanted = [sent(SETTLEMENTS, laboratory.engine.port, JSON, quantity(amount, 2),
                   f"Idempotency-Key: r1-{number}") for number in numbers]
    expect("what the engine was handed", [one.octets for one in got], wanted)


@case
def settlement_tried_again(laboratory: Laboratory) -> None:
    """What says neither yes nor no leaves it open: it is tried again under the same key."""
    unknown = [status(503), answers(b"hello"), closes, status(409), status(302), status(100)]
    program = owe(laboratory, in_turn(*unknown, ACCEPTS))
    laboratory.engine.await_count(SETTLEMENTS, 7, 15.0)
    close(program, bob=200)
    expect_asked(laboratory, *[1] * 7)


@case
def settlements_in_parts(laboratory: Laboratory) -> None:
    """Several are open at once, each of `settle_max` at most. Those that an engine says neither yes nor no
    to are tried in turn."""
    settles = in_turn(*[status(503), status(503), status(503), ACCEPTS] * 4)
    program = laboratory.serve(FULFILLS, engine_of(settles), settle_max=300, settle_ms=50)
    expect("a credit", credit(program, 2000), created(quantity(2000, 2)))
    program.await_told(r"info settlement \d+ with bob of 300: confirmed", count=4, within=15.0)
    close(program, bob=800)
    expect_asked(laboratory, 1, 2, 3, 4, 1, 2, 3, 1, 2, 3, 2, 3, 2, 2, 2, 2, amount=300)


@case
def settlement_refused(laboratory: Laboratory) -> None:
    """A refusal undoes it, and the next is another, under a key of its own."""
    program = owe(laboratory, in_turn(status(400), status(422), status(204)))
    laboratory.engine.await_count(SETTLEMENTS, 3, 10.0)
    close(program, bob=200)
    expect_asked(laboratory, 1, 3, 5)


@case
def amount_of_a_refused_settlement(laboratory: Laboratory) -> None:
    """What an engine refused to pay is the peer's again."""
    program = laboratory.serve(FULFILLS, engine_of(status(400)), settle_ms=2000)
    expect("a credit", credit(program, 1000), created(quantity(1000, 2)))
    laboratory.engine.await_count(SETTLEMENTS, 1, 8.0)
    expect_served(program)
    close(program, bob=1000)
    expect_asked(laboratory, 1)


@case
def account_that_is_not_there(laboratory: Laboratory) -> None:
    """No settlement is asked for before the engine has the account; 409 says that it has."""
    accounts = in_turn(status(500), answers(b"hello"), closes, status(404), status(409))
    program = owe(laboratory, ACCEPTS, accounts)
    expect_asked(laboratory, 1)
    asked = [one.target for one in laboratory.engine.received]
    expect("what the engine was asked", asked, [ACCOUNTS] * 5 + [SETTLEMENTS])
    close(program, bob=200)


@case
def engine_that_is_not_there(laboratory: Laboratory) -> None:
    """Nothing is asked of an engine at whose port nobody listens; packets are served beside."""
    program = laboratory.serve(FULFILLS, engine_of(), settle_ms=50)
    laboratory.engine.await_count(ACCOUNTS, 1)
    laboratory.engine.close()
    expect("a credit", credit(program, 1000), created(quantity(1000, 2)))
    expect_served(program, amount=10)
    program.await_told(f"warn engine of bob at {HERE}:{program.setup.engine}: not reached: .+")
    post_close(program)
    # The settlement stays open, asked for before the packet or after it; or no turn came to it.
    expect("the exit status", program.end(2.5), 0)
    expect_that(f"the report: {program.output()!r}",
                numbers_in(program.output())[1] in (200, 210, 1010))


@case
def engine_that_never_answers(laboratory: Laboratory) -> None:
    """Packets and credits are served beside an engine that says nothing, and it ends in time."""
    program = owe(laboratory, never_answers)
    laboratory.engine.await_count(SETTLEMENTS, 1)
    expect_served(program, amount=10)
    expect("a credit", credit(program, 5, key="other"), created(quantity(5, 2)))
    close(program, alice=-10, bob=215)
    expect_asked(laboratory, 1)


@case
def engine_that_never_tells_of_an_account(laboratory: Laboratory) -> None:
    """So it is where it says nothing of the account, and no settlement is asked for."""
    program = owe(laboratory, ACCEPTS, never_answers)
    laboratory.engine.await_count(ACCOUNTS, 1)
    expect_served(program, amount=10)
    close(program, alice=-10, bob=1010)
    expect_asked(laboratory)


# ---- one that refuses

def pay_alice_in_turns(program: Program, engine: StandIn, until: float) -> int:
    """Owes alice a settlement again and again, each of which her engine is asked for at once."""
    count = 0
    while time.monotonic() < until:
        count += 1
        expect("alice's credit", credit(program, 1000 if count == 1 else 800, "alice", f"{count}"),
               created(quantity(1000 if count == 1 else 800, 2)))
        engine.await_count("/accounts/alice/settlements", count, AT_ONCE)
        time.sleep(0.5)
    return count


def waits_told(program: Program) -> list[int]:
    """How many seconds the next settlement of bob waits, line by line."""
    form = (r"warn settlement \d+ with bob of 800: refused with the status \d{3}, and the amount is "
            r"back; the next one waits (\d+) seconds?")
    return [int(found[1]) for line in program.lines() if (found := re.fullmatch(form, line.said))]


@case
def engine_that_refuses(laboratory: Laboratory) -> None:
    """An engine that refuses is asked after 1, 2, 4, .. seconds, until it accepts; another peer's
    settlements go on meanwhile."""
    refuses = in_turn(status(400), status(422), status(404), ACCEPTS, status(499), ACCEPTS)
    engine, other = laboratory.stand_in(engine_of(refuses)), laboratory.stand_in(engine_of())
    setup = Setup(engine=engine.port, engine_of_alice=other.port, top={"settle_ms": 20})
    program = laboratory.start(setup)
    program.await_listening()
    expect("a credit", credit(program, 1000), created(quantity(1000, 2)))
    engine.await_count(SETTLEMENTS, 1)
    start = time.monotonic()
    count = pay_alice_in_turns(program, other, start + 5.0)
    asked = len(engine.of(SETTLEMENTS))
    if seconds_since(start) < 6.5:
        expect_that(f"bob's engine was asked {asked} times in 5 seconds", asked <= 3)
    expect("alice's settlements", len(other.of("/accounts/alice/settlements")), count)
    engine.await_count(SETTLEMENTS, 4, 6.0)
    program.await_told(r"info settlement \d+ with bob of 800: confirmed")
    # What was refused before counts no more.
    expect("another credit", credit(program, 800, key="other"), created(quantity(800, 2)))
    engine.await_count(SETTLEMENTS, 5, AT_ONCE)
    program.await_told(r"info settlement \d+ with bob of 800: confirmed", count=2)
    expect("the waits", waits_told(program), [1, 2, 4, 1])
    expect("how often the account was asked for", len(engine.of(ACCOUNTS)), 1)
    close(program, alice=200, bob=200)
    expect("bob's settlements", len(engine.of(SETTLEMENTS)), 6)


@case
def engine_that_hangs_beside_another(laboratory: Laboratory) -> None:
    """Beside an engine that says nothing of an account, or of a settlement, another peer's is asked at
    once, again and again."""
    for silent in (engine_of(account=never_answers), engine_of(never_answers)):
        engine, other = laboratory.stand_in(silent), laboratory.stand_in(engine_of())
        setup = Setup(engine=engine.port, engine_of_alice=other.port, top={"settle_ms": 20})
        program = laboratory.start(setup)
        program.await_listening()
        expect("a credit", credit(program, 1000), created(quantity(1000, 2)))
        engine.await_count(ACCOUNTS, 1)
        start = time.monotonic()
        count = pay_alice_in_turns(program, other, start + 3.0)
        program.await_told(r"info settlement \d+ with alice of 800: confirmed", count=count)
        expect("how often the silent one was asked for the account", len(engine.of(ACCOUNTS)), 1)
        expect_that("it was asked for one settlement at most", len(engine.of(SETTLEMENTS)) <= 1)
        post_close(program)
        expect("the exit status", program.end(2.5), 0)
