"""What a journal remembers of the configuration by which it was last run: the run, and each peer's asset."""
import subprocess
from dataclasses import replace

from cases.case import case, expect
from cases.journals import SETTLEMENTS, Kept, keys_of
from cases.laboratory import END, Laboratory, close, credit, expect_served, post_close
from cases.messages import bearer, created, post, request, response, soon
from cases.program import Program, Setup
from cases.stand_ins import ACCEPTS, FULFILLS, engine_of, in_turn, never_answers
from connections import quantity
from scenes import FULFILL

UNREAD = "73 JournalUnread"
REMEMBERED = "ilp-remembered 1\nrun {}\npeer alice USD 2\npeer bob {}\nend\n"

ANOTHER_RUN = r"error journal .+: a settlement with bob is open, and it was asked for by another run than \"r2\": .+"
ANOTHER_ASSET = r"error journal .+: what it counts of {} is not in the asset of the configuration: .+"

BTC = ("BTC/2", ["[[asset]]", 'code = "BTC"', "scale = 2",
                 "[[price]]", 'from = "USD/2"', 'to = "BTC/2"', "p = 1", "q = 1",
                 "[[price]]", 'from = "BTC/2"', 'to = "USD/2"', "p = 1", "q = 1"])


USD_3 = ("USD/3", ["[[asset]]", 'code = "USD"', "scale = 3",
                   "[[price]]", 'from = "USD/2"', 'to = "USD/3"', "p = 1", "q = 1",
                   "[[price]]", 'from = "USD/3"', 'to = "USD/2"', "p = 1", "q = 1"])


def remembered(kept: Kept) -> str:
    """What the file that is locked has."""
    return kept.beside("lock").read_text()


def with_run(setup: Setup, run: str) -> Setup:
    """The same with another run."""
    return replace(setup, top={**setup.top, "run": run})


def with_asset(setup: Setup, asset: str, further: list[str]) -> Setup:
    """The same with another asset of bob's."""
    return replace(setup, asset_of_bob=asset, further=further)


def send_of_bob(program: Program, amount: int) -> None:
    """A packet of bob's, which alice's server fulfills."""
    setup = program.setup
    sent = request("/ilp", bearer(setup.bob_token), body=soon(amount, destination=b"test.alice"))
    expect("bob's packet", post(setup.peers_port, sent), response(200, FULFILL))


def expect_next_period(kept: Kept, program: Program) -> None:
    """The books are closed by the configuration of a program, and period 1 begins."""
    words = [str(program.binary), "new-period", str(program.configuration), str(kept.path)]
    done = subprocess.run(words, capture_output=True, text=True, timeout=10.0)
    expect("what new-period says", (done.returncode, done.stdout.splitlines()[-1:]), (0, ["period 1"]))


@case
def another_run_of_a_journal(laboratory: Laboratory) -> None:
    """While a settlement is open another run is refused, which would pay it under another key; then it is not."""
    engine = laboratory.stand_in(engine_of(in_turn(never_answers, ACCEPTS)))
    first = Setup(engine=engine.port, top={"settle_ms": 20})
    kept = Kept(laboratory, first)
    program = kept.serve()
    expect("what is remembered while it runs", remembered(kept), REMEMBERED.format("r1", "USD 2"))
    expect("a credit", credit(program, 1000), created(quantity(1000, 2)))
    engine.await_count(SETTLEMENTS, 1)
    close(program, bob=200, within=2 * END)
    kept.setup = with_run(first, "r2")
    kept.expect_refused(UNREAD, ANOTHER_RUN)
    expect("what is remembered after a refusal", remembered(kept), REMEMBERED.format("r1", "USD 2"))
    kept.setup = first
    program = kept.serve()
    program.await_told("info settlement 1 with bob of 800: confirmed")
    expect("the keys of the settlements", keys_of(engine), [b"r1-1", b"r1-1"])
    close(program, bob=200)
    kept.setup = with_run(first, "r2")
    close(kept.serve(), bob=200)
    expect("what is remembered of the next run", remembered(kept), REMEMBERED.format("r2", "USD 2"))


@case
def another_asset_of_a_peer(laboratory: Laboratory) -> None:
    """While a peer has a balance another asset of it is refused; of a peer without one it is not."""
    first = Setup()
    kept = Kept(laboratory, first)
    close(kept.serve())
    kept.setup = with_asset(first, *BTC)
    program = kept.serve()
    post_close(program)
    expect("the exit status", program.end(END), 0)
    expect("what is remembered", remembered(kept), REMEMBERED.format("r1", "BTC 2"))
    kept.setup = first
    program = kept.serve()
    expect("a credit", credit(program, 1000), created(quantity(1000, 2)))
    close(program, bob=1000)
    kept.setup = with_asset(first, *BTC)
    kept.expect_refused(UNREAD, ANOTHER_ASSET.format("bob"))
    expect("what is remembered after a refusal", remembered(kept), REMEMBERED.format("r1", "USD 2"))
    kept.setup = with_run(first, "r2")
    close(kept.serve(), bob=1000)


@case
def another_asset_of_a_kept_key(laboratory: Laboratory) -> None:
    """So it is while a key of the peer is kept, of an earlier period and with nothing owed: in another scale its answer
    would be another sum."""
    first = Setup(alice=laboratory.stand_in(FULFILLS).port)
    kept = Kept(laboratory, first)
    program = kept.serve()
    expect("a credit", credit(program, 1000), created(quantity(1000, 2)))
    send_of_bob(program, amount=1000)
    close(program, alice=1000, bob=0)
    expect_next_period(kept, program)
    for other in (USD_3, BTC):
        kept.setup = with_asset(first, *other)
        kept.expect_refused(UNREAD, ANOTHER_ASSET.format("bob"))
        expect("what is remembered after a refusal", remembered(kept), REMEMBERED.format("r1", "USD 2"))
    kept.setup = first
    program = kept.serve()
    expect("the key again", credit(program, 1000), created(quantity(1000, 2)))
    post_close(program)
    expect("the exit status", program.end(END), 0)


@case
def another_scale_of_an_asset(laboratory: Laboratory) -> None:
    """So is another scale, of the first peer that has a balance."""
    first = Setup(bob=laboratory.stand_in(FULFILLS).port)
    kept = Kept(laboratory, first)
    program = kept.serve()
    expect_served(program, amount=30)
    close(program, alice=-30, bob=30)
    kept.setup = replace(first, scale=3)
    kept.expect_refused(UNREAD, ANOTHER_ASSET.format("alice"))
    kept.setup = first
    close(kept.serve(), alice=-30, bob=30)


@case
def journal_that_remembers_nothing(laboratory: Laboratory) -> None:
    """What an earlier program left, or a machine that stopped while it was written, says nothing: the start goes
    on, and it is remembered anew."""
    first = Setup()
    kept = Kept(laboratory, first)
    program = kept.serve()
    expect("a credit", credit(program, 1000), created(quantity(1000, 2)))
    close(program, bob=1000)
    whole = remembered(kept)
    kept.setup = with_asset(first, *BTC)
    for text in ("", whole[:-1], whole.removesuffix("end\n"), whole[1:], "\0" * len(whole), "x" * 70_000):
        kept.beside("lock").write_text(text)
        program = kept.serve()
        post_close(program)
        expect("the exit status", program.end(END), 0)
        expect("what is remembered", remembered(kept), REMEMBERED.format("r1", "BTC 2"))
    kept.setup = first
    kept.expect_refused(UNREAD, ANOTHER_ASSET.format("bob"))
