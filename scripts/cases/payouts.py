"""Settlements that wait: for how long their balance has been at the threshold, and until somebody has them go on."""
import time
from dataclasses import replace

from cases.case import case, expect, expect_that, expect_within
from cases.commands import run
from cases.conversations import report
from cases.journals import SETTLEMENTS, Kept, keys_of
from cases.laboratory import AT_ONCE, Laboratory, close, credit, post_close
from cases.lines import GO_ON, PAUSED
from cases.messages import bearer, created, post, request, response, seconds_since
from cases.program import Program, Setup
from cases.reloading import RELOADED, TAKEN, expect_taken, reload
from cases.running_periods import expect_end_of, of_bob, report_of
from cases.stand_ins import ACCEPTS, Received, StandIn, answers_packet, engine_of, free_port, in_turn, status
from connections import TEXT, quantity
from packets import reject

OF_ALICE = "/accounts/alice/settlements"

# In milliseconds and seconds: how long settlements wait, also over reloads; and in milliseconds one for whose end no
# case waits.
WAIT_MS, WAIT = 1500, 1.5
LONGER_MS, LONGER = 3000, 3.0
ENDLESS_MS = 604_800_000

# In seconds: how long a peer's turns rest behind the first refusal.
FIRST_PAUSE = 1.0

# In seconds: how long a balance is below the threshold, for many turns of the settler, and how far two programs'
# clocks may differ.
DIP, EARLY = 0.6, 0.05

# In milliseconds: the rest of the settler between two turns.
REST_MS = 20

# How often another peer is paid meanwhile.
ROUNDS = 10


# ---- what cases do

class Engines:
    """Bob's engine and alice's, and a configuration of both."""

    def __init__(self, laboratory: Laboratory, wait: int | None = None) -> None:
        self.laboratory = laboratory
        self.bob, self.alice = (laboratory.stand_in(engine_of()) for _ in range(2))
        self.setup = Setup(engine=self.bob.port, engine_of_alice=self.alice.port, top={"settle_ms": REST_MS},
                           waits={} if wait is None else {"bob": wait})

    def serve(self) -> Program:
        """A program that listens."""
        program = self.laboratory.start(self.setup)
        program.await_listening()
        return program

    def pay_alice(self, program: Program, count: int = ROUNDS) -> None:
        """Owes alice a settlement again and again, each of which her engine is asked for at once."""
        before = len(self.alice.of(OF_ALICE))
        for number in range(before + 1, before + count + 1):
            give(program, 800 if before or number > 1 else 1000, "alice", f"alice-{number}")
            self.alice.await_count(OF_ALICE, number, AT_ONCE)
        await_confirmed(program, "alice", 800, before + count)


def give(program: Program, amount: int, name: str = "bob", key: str | None = None) -> None:
    """A peer has paid in so much."""
    expect(f"a credit of {name}'s", credit(program, amount, name, key), created(quantity(amount, 2)))


def await_confirmed(program: Program, name: str, amount: int, count: int = 1) -> None:
    """Waits until so many settlements of this amount are confirmed."""
    program.await_told(rf"info settlement \d+ with {name} of {amount}: confirmed", count=count)


def expect_waited(asked: Received, since: float, wait: float = WAIT, more: float = AT_ONCE) -> None:
    """A settlement was asked for so long after a moment, and not much later."""
    expect_within("seconds until a settlement was asked for", asked.came - since, wait - EARLY, wait + more)


def expect_answer(program: Program, name: str, what: str) -> None:
    """A peer's settlements are paused, or go on, and a line says so."""
    octets = post(program.setup.engines_port, request(f"/accounts/{name}/{what}"))
    expect(f"the answer to a {what}", octets, response(200))
    program.await_told(f"info {(PAUSED if what == 'pause' else GO_ON).format(name=name)}")


def paused_in(program: Program) -> tuple[list[str], str]:
    """Who is paused by the report, and what stands in it before that."""
    lines = report(program).splitlines(keepends=True)
    names = [line[10:30].strip() for line in lines if line.startswith("paused ")]
    begin = len(lines) - len(names)
    expect("the last lines of the report", lines[begin:], [f"{'paused':<10}{name:<20}{1:>30}\n" for name in names])
    return names, "".join(lines[:begin])


# ---- a wait

@case
def settlement_that_waits(laboratory: Laboratory) -> None:
    """With `settle_after_ms` a settlement is asked for once the balance was at the threshold for so long, and then for
    all that lies above `settle_to`. That of a peer without it is asked for at once."""
    engines = Engines(laboratory, WAIT_MS)
    program = engines.serve()
    start = time.monotonic()
    give(program, 1000)
    engines.pay_alice(program, 1)
    give(program, 50, key="more")
    asked = engines.bob.await_count(SETTLEMENTS, 1, WAIT + AT_ONCE)
    expect_waited(asked[0], start)
    expect_that("alice's was asked for behind bob's", engines.alice.of(OF_ALICE)[0].came < asked[0].came)
    await_confirmed(program, "bob", 850)
    close(program, alice=200, bob=200)


@case
def parts_of_a_settlement_that_waits(laboratory: Laboratory) -> None:
    """Where `settle_max` parts a settlement only the first part waits. Once the balance was below the threshold the
    next one does."""
    engines = Engines(laboratory, WAIT_MS)
    engines.setup.settle_max = 300
    program = engines.serve()
    start = time.monotonic()
    give(program, 2000)
    parts = engines.bob.await_count(SETTLEMENTS, 4, 2 * WAIT + AT_ONCE)
    expect_waited(parts[0], start)
    expect_within("seconds from the first part to the last", parts[3].came - parts[0].came, 0.0, WAIT)
    await_confirmed(program, "bob", 300, 4)
    start = time.monotonic()
    give(program, 300, key="more")
    expect_waited(engines.bob.await_count(SETTLEMENTS, 5, WAIT + AT_ONCE)[4], start)
    await_confirmed(program, "bob", 300, 5)
    close(program, bob=800)


@case
def wait_that_begins_anew(laboratory: Laboratory) -> None:
    """A balance that was below the threshold for some turns of the settler waits anew: here for a hold."""
    engines = Engines(laboratory, WAIT_MS)
    alice = laboratory.stand_in(answers_packet(reject(b"F99"), after=DIP))
    engines.setup.alice = alice.port
    program = engines.serve()
    give(program, 1000)
    expect("bob's packet", post(engines.setup.peers_port, of_bob(engines.setup)), response(200, reject(b"F99")))
    over = alice.of("/ilp")[0].came + DIP
    expect_waited(engines.bob.await_count(SETTLEMENTS, 1, WAIT + AT_ONCE)[0], over)
    await_confirmed(program, "bob", 800)
    close(program, bob=200)


@case
def refused_settlement_that_waited(laboratory: Laboratory) -> None:
    """The one that follows a refusal waits for as long as the line says, and not for `settle_after_ms` again."""
    engines = Engines(laboratory, LONGER_MS)
    engines.bob.behaviour = engine_of(in_turn(status(400), ACCEPTS))
    program = engines.serve()
    start = time.monotonic()
    give(program, 1000)
    asked = engines.bob.await_count(SETTLEMENTS, 2, LONGER + FIRST_PAUSE + AT_ONCE)
    expect_waited(asked[0], start, LONGER)
    expect_waited(asked[1], asked[0].came, FIRST_PAUSE)
    program.await_told(r"warn settlement 1 with bob of 800: refused .*the next one waits 1 second")
    await_confirmed(program, "bob", 800)
    close(program, bob=200)


@case
def rest_over_periods(laboratory: Laboratory) -> None:
    """A rest behind a refusal goes on over periods, here over reloads, for as long as the line says, and the one behind
    the next refusal is twice as long."""
    engines = Engines(laboratory)
    engines.bob.behaviour = engine_of(in_turn(status(400), status(400), ACCEPTS))
    program = engines.serve()
    give(program, 1000)
    for count, rest in ((1, FIRST_PAUSE), (2, 2 * FIRST_PAUSE)):
        refused = engines.bob.await_count(SETTLEMENTS, count)[count - 1]
        while len(engines.bob.of(SETTLEMENTS)) == count and seconds_since(refused.came) < rest + AT_ONCE:
            expect_taken(program, engines.setup)
        asked = engines.bob.await_count(SETTLEMENTS, count + 1)
        expect_waited(asked[count], refused.came, rest, RELOADED)
    program.await_told(r"warn settlement \d+ with bob of 800: refused .*the next one waits 2 seconds")
    await_confirmed(program, "bob", 800)
    post_close(program)
    expect("the exit status", program.end(AT_ONCE), 0)
    expect("the balances", report_of(program.output())[0][:2], [0, 200])


@case
def wait_over_periods(laboratory: Laboratory) -> None:
    """A wait goes on over periods, here over reloads that end each long before it is over. One that the next
    configuration alone has begins with that."""
    engines = Engines(laboratory, LONGER_MS)
    program = engines.serve()
    start = time.monotonic()
    give(program, 1000)
    while not engines.bob.of(SETTLEMENTS) and seconds_since(start) < LONGER + AT_ONCE:
        expect_taken(program, engines.setup)
    expect_waited(engines.bob.await_count(SETTLEMENTS, 1)[0], start, LONGER, RELOADED)
    await_confirmed(program, "bob", 800)
    # Without a wait it is asked for as soon as the period has begun.
    expect_taken(program, replace(engines.setup, waits={"bob": ENDLESS_MS}))
    give(program, 800, key="more")
    engines.pay_alice(program)
    expect("how many settlements bob's engine was asked for", len(engines.bob.of(SETTLEMENTS)), 1)
    expect_taken(program, replace(engines.setup, waits={}))
    engines.bob.await_count(SETTLEMENTS, 2, AT_ONCE)
    await_confirmed(program, "bob", 800, 2)
    post_close(program)
    expect("the exit status", program.end(AT_ONCE), 0)
    expect("the balances", report_of(program.output())[0][:2], [200, 200])


@case
def wait_after_a_start(laboratory: Laboratory) -> None:
    """The wait begins anew with a start. A settlement that is open by then is tried again at once."""
    engines = Engines(laboratory)
    engines.bob.behaviour = engine_of(status(503))
    kept = Kept(laboratory, engines.setup)
    program = kept.serve()
    give(program, 1000)
    engines.bob.await_count(SETTLEMENTS, 1)
    close(program, bob=200)
    engines.bob.behaviour = engine_of(ACCEPTS)
    kept.setup.waits = {"bob": ENDLESS_MS}
    program = kept.serve()
    await_confirmed(program, "bob", 800)
    give(program, 1000, key="more")
    engines.pay_alice(program)
    expect("the keys of the settlements", set(keys_of(engines.bob)), {b"r1-1"})
    close(program, alice=200, bob=1200)
    kept.setup.waits = {"bob": WAIT_MS}
    before, begun = len(engines.bob.of(SETTLEMENTS)), time.monotonic()
    program = kept.serve()
    expect_waited(engines.bob.await_count(SETTLEMENTS, before + 1, WAIT + AT_ONCE)[before], begun)
    await_confirmed(program, "bob", 1000)
    close(program, alice=200, bob=200)


@case
def waits_in_a_configuration(laboratory: Laboratory) -> None:
    """A wait is of a peer with a `threshold`, and lasts a week at most."""
    file = laboratory.folder() / "connector.toml"
    line = '[[peer]] 2 "bob": settle_after_ms is to be a whole number from 0 to 604800000'
    needs = '[[peer]] 2 "bob": threshold is missing'
    rows: list[tuple[int | str, bool, str, str]] = [
        (wait, True, "ok 2 peers 1 assets 2 routes", "") for wait in (0, 1, 604_800_000)]
    rows += [(wait, True, "refused 23 BadValue settle_after_ms", line)
             for wait in (604_800_001, 2**32, -1, '"1000"', "1.0", "true")]
    rows += [(wait, False, "refused 22 Missing threshold", needs) for wait in (0, 1000)]
    rows.append((-1, False, "refused 23 BadValue settle_after_ms", line))
    for wait, levels, told, why in rows:
        file.write_text(Setup(engine=free_port(), levels=levels, waits={"bob": wait}).text())
        file.chmod(0o600)
        code, text, errors = run(laboratory, "check", str(file))
        expect(f"what is told of {wait}", (code, text), (int(not told.startswith("ok")), f"{told}\n"))
        expect(f"the line on {wait}", errors[:len(why)] if why else errors, why)


# ---- a pause

@case
def paused_peer(laboratory: Laboratory) -> None:
    """While a peer's settlements are paused its engine is asked for none, and another's is; credits are booked. The
    report names who is paused. Once they go on it is asked at once."""
    engines = Engines(laboratory)
    program = engines.serve()
    expect("who is paused at the start", paused_in(program)[0], [])
    expect_answer(program, "bob", "pause")
    give(program, 1000)
    engines.pay_alice(program)
    expect("what bob's engine was asked for", engines.bob.of(SETTLEMENTS), [])
    names, text = paused_in(program)
    expect("who is paused", names, ["bob"])
    expect("the balances", report_of(text)[0][:2], [200, 1000])
    expect_answer(program, "alice", "pause")
    expect_answer(program, "bob", "pause")
    expect("who is paused, in order", paused_in(program)[0], ["alice", "bob"])
    expect_answer(program, "bob", "resume")
    engines.bob.await_count(SETTLEMENTS, 1, AT_ONCE)
    await_confirmed(program, "bob", 800)
    expect("who is paused still", paused_in(program)[0], ["alice"])
    close(program, alice=200, bob=200)


@case
def open_settlement_of_a_paused_peer(laboratory: Laboratory) -> None:
    """A settlement that is open is tried again, and confirmed, while the peer's are paused, and none follows it."""
    engines = Engines(laboratory)
    engines.bob.behaviour = engine_of(status(503))
    program = engines.serve()
    give(program, 1000)
    engines.bob.await_count(SETTLEMENTS, 1)
    expect_answer(program, "bob", "pause")
    engines.bob.await_count(SETTLEMENTS, len(engines.bob.of(SETTLEMENTS)) + 3)
    give(program, 1000, key="more")
    engines.bob.behaviour = engine_of(ACCEPTS)
    await_confirmed(program, "bob", 800)
    engines.pay_alice(program)
    expect("the keys of the settlements", set(keys_of(engines.bob)), {b"r1-1"})
    expect_answer(program, "bob", "resume")
    await_confirmed(program, "bob", 1000)
    close(program, alice=200, bob=200)


def turned_round(setup: Setup) -> str:
    """A configuration in which bob stands before alice."""
    head, alice, others = setup.text().split("[[peer]]\n")
    bob, route, routes = others.partition("[[route]]\n")
    return "[[peer]]\n".join((head, bob, alice)) + route + routes


@case
def pause_over_periods(laboratory: Laboratory) -> None:
    """A pause stays over reloads, also where its peer stands at another place then, and ends with the next start. What
    is printed at the close says nothing of it."""
    engines = Engines(laboratory)
    kept = Kept(laboratory, engines.setup)
    program = kept.serve()
    expect_answer(program, "bob", "pause")
    give(program, 1000)
    program.configuration.write_text(turned_round(kept.setup))
    expect("the answer to a reload", reload(program), response(200, TAKEN.encode(), TEXT))
    expect("who is paused where bob is the first", paused_in(program)[0], ["bob"])
    engines.pay_alice(program)
    expect_taken(program, kept.setup)
    names, text = paused_in(program)
    expect("who is paused, and in which period", (names, report_of(text)[1]), (["bob"], 2))
    engines.pay_alice(program)
    expect("what bob's engine was asked for", engines.bob.of(SETTLEMENTS), [])
    post_close(program)
    expect_end_of(program, alice=200, bob=1000, period=2)
    program = kept.serve()
    engines.bob.await_count(SETTLEMENTS, 1, AT_ONCE)
    expect("who is paused behind a start", paused_in(program)[0], [])
    await_confirmed(program, "bob", 800)
    post_close(program)
    expect_end_of(program, alice=200, bob=200, period=2)


@case
def requests_to_pause(laboratory: Laboratory) -> None:
    """They are of the engines' side and of a given peer, by POST; one without an engine may be paused, and one whose
    settlements go on may be told so."""
    program = laboratory.serve()
    setup = program.setup
    for what in ("pause", "resume"):
        target = f"/accounts/bob/{what}"
        for other in (f"/accounts/carol/{what}", f"/accounts//{what}", f"/accounts/{what}", f"{target}?x=1",
                      f"{target}/", target.upper(), f"{target}d"):
            expect(other, post(setup.engines_port, request(other)), response(404))
        expect(f"a GET of {what}", post(setup.engines_port, request("", line=f"GET {target} HTTP/1.1")), response(405))
        expect(f"{what} without a length", post(setup.engines_port, request(target, length=[])), response(411))
        for shown in ([], [bearer(setup.bob_token)]):
            expect(f"{what} at the peers' side", post(setup.peers_port, request(target, *shown)), response(404))
        expect("who is paused", paused_in(program)[0], [])
    for what, names in (("resume", []), ("pause", ["alice"]), ("pause", ["alice"]), ("resume", []), ("resume", [])):
        octets = post(setup.engines_port, request(f"/accounts/alice/{what}"))
        expect(f"the answer to a {what}", octets, response(200))
        expect(f"who is paused behind a {what}", paused_in(program)[0], names)
    close(program)
