"""The lines that tell of the book: credits, settlements, Rejects, and a journal that fills."""
import re
import time

from cases.case import case, expect, expect_that, expect_within
from cases.journals import Kept
from cases.laboratory import Laboratory, close, credit, expect_end, expect_packet, post_close
from cases.lines import KEPT_OPEN, MORE, expect_longer_waits
from cases.messages import HERE, bearer, created, post, request, response, soon
from cases.program import Program, Setup
from cases.stand_ins import FULFILLS, answers_packet, engine_of, in_turn, status
from connections import F02, F03, MESSAGE, quantity
from packets import reject
from scenes import F99, FULFILL, R00

# In seconds: a line on the journal comes so much later at most, with what this machine may take.
JOURNAL_WITHIN = 2.0 + 1.5


@case
def lines_of_credits(laboratory: Laboratory) -> None:
    """Each credit that is booked is told once, by the number of its entry, with its key; one that is told
    again is not, and one that is refused under a taken key is told with both quantities."""
    program = laboratory.serve(FULFILLS, engine_of(), levels=False)
    for _ in range(2):
        expect("a credit", credit(program, 7, key="one"), created(quantity(7, 2)))
    expect("another under its key", credit(program, 8, key="one"), response(409))
    expect("alice's", credit(program, 2**64 - 1, name="alice", key="one"),
           created(quantity(2**64 - 1, 2)))
    expect_packet("a packet", program, soon(5), FULFILL)
    odd = request("/accounts/bob/settlements", "Idempotency-Key: a b\xfe", body=quantity(1, 2))
    expect("a key of other octets", post(program.setup.engines_port, odd), created(quantity(1, 2)))
    expect("nobody's", credit(program, 8, name="carol"), response(404))
    small = request("/accounts/bob/settlements", "Idempotency-Key: small", body=quantity(9_999_999, 9))
    expect("less than a unit", post(program.setup.engines_port, small), created(quantity(0, 2)))
    close(program, alice=2**64 - 6, bob=13)
    expect("the lines on credits", [line.said for line in program.told("info credit .+")],
           ['info credit 0 of bob: 7, key "one"', f'info credit 1 of alice: {2**64 - 1}, key "one"',
            "info credit 4 of bob: 1, key 0x612062fe", 'info credit 5 of bob: 0, key "small"'])
    expect("the lines on taken keys", [line.said for line in program.told("error settlement .+")],
           ['error settlement of bob refused, and not credited: 8 at scale 2 under the key "one", which credit '
            "0 has with 7 at scale 2: see which one its engine means"])


# ---- settlements

def told_of_settlements(program: Program) -> list[str]:
    """The lines on settlements of bob, without how many were left out."""
    return [re.sub(f"{MORE}$", "", line.said)
            for line in program.told(r"\w+ settlement \d+ with bob\b.+")]


@case
def lines_of_settlements(laboratory: Laboratory) -> None:
    """A settlement that is refused is told with its status and the wait, then one that is open, and that
    it is confirmed."""
    program = laboratory.serve(
        FULFILLS, engine_of(in_turn(status(422), status(503), status(201))), settle_ms=50)
    expect("a credit", credit(program, 1000), created(quantity(1000, 2)))
    program.await_told("info settlement .+")
    close(program, bob=200)
    expect("the lines on settlements",
           [line.replace("1 seconds", "1 second") for line in told_of_settlements(program)],
           ["warn settlement 1 with bob of 800: refused with the status 422, and the amount is back; "
            "the next one waits 1 second",
            f"warn settlement 3 with bob: {KEPT_OPEN}",
            "info settlement 3 with bob of 800: confirmed"])


@case
def settlement_kept_open(laboratory: Laboratory) -> None:
    """An open settlement and its engine are told of at once, a second and two seconds later."""
    program = laboratory.serve(FULFILLS, engine_of(status(503)), settle_ms=50)
    expect("a credit", credit(program, 1000), created(quantity(1000, 2)))
    port = program.setup.engine
    for what, form in [
            ("the settlement", f"warn settlement 1 with bob: {KEPT_OPEN}{MORE}"),
            ("the engine", f"warn engine of bob at {HERE}:{port}: status 503{MORE}")]:
        lines = program.await_told(form, count=3, within=8.0)
        expect_longer_waits(what, lines[:3])
        expect_that(f"{what}: none are left out: {lines}",
                    lines[0].left_out() == 0 and all(line.left_out() for line in lines[1:3]))
    close(program, bob=200)


# ---- Rejects

def rejects_told(program: Program, name: str) -> dict[str, int]:
    """How many Rejects of each code a peer got, by the lines on standard error."""
    found: dict[str, int] = {}
    for line in program.told(f"info rejects to {name}: .+"):
        for part in line.said.rpartition(": ")[2].split(", "):
            count, _, code = part.partition(" of ")
            expect_that(f"a count that is none: {line.said!r}", count.isdigit() and count != "0")
            found[code] = found.get(code, 0) + int(count)
    return found


def packet_of_bob(program: Program, octets: bytes) -> bytes:
    """What bob is answered to a packet."""
    setup = program.setup
    return post(setup.peers_port, request("/ilp", bearer(setup.bob_token), body=octets))


@case
def lines_of_rejects(laboratory: Laboratory) -> None:
    """The Rejects that each peer got are told by their codes, at the end at the latest; who got none has
    no line."""
    program = laboratory.serve(answers_packet(F99))
    for _ in range(12):
        expect_packet("no route", program, soon(destination=b"test.carol"), F02)
    for _ in range(3):
        expect_packet("expired", program, soon(milliseconds=-1000), R00)
    expect_packet("one that bob rejects", program, soon(), F99)
    close(program)
    expect("Rejects to alice", rejects_told(program, "alice"), {"F02": 12, "R00": 3, "F99": 1})
    expect("Rejects to bob", rejects_told(program, "bob"), {})


@case
def lines_of_rejected_messages(laboratory: Laboratory) -> None:
    """So are those of messages to an engine."""
    program = laboratory.serve(FULFILLS)
    expect("a message for no engine",
           packet_of_bob(program, soon(0, MESSAGE, b"peer.settle")), response(200, F02))
    expect("a message with an amount",
           packet_of_bob(program, soon(1, MESSAGE, b"peer.settle")), response(200, F03))
    close(program)
    expect("Rejects to bob", rejects_told(program, "bob"), {"F02": 1, "F03": 1})
    expect("Rejects to alice", rejects_told(program, "alice"), {})


@case
def no_line_without_rejects(laboratory: Laboratory) -> None:
    """Where there were none, and a request was refused without a packet, no line tells of any."""
    program = laboratory.serve(FULFILLS)
    expect_packet("a packet", program, soon(1), FULFILL)
    shows = bearer(program.setup.token)
    expect("no packet", post(program.setup.peers_port, request("/ilp", shows, body=b"\x0c")),
           response(400))
    close(program, alice=-1, bob=1)
    expect("lines on Rejects", program.told("info rejects .+"), [])


@case
def codes_of_any_octets(laboratory: Laboratory) -> None:
    """A code of octets that are no text comes as it is, and makes no line of its own."""
    codes = [b"\n\x1b[", b"\xff\x00 ", b", 9", b"F9\r"]
    rejects = [reject(code) for code in codes]
    program = laboratory.serve(in_turn(*map(answers_packet, rejects)))
    for octets in rejects:
        expect_packet("a Reject", program, soon(1), octets)
    close(program)
    # That it is text in lines of known forms is seen of each case at its end.
    expect_within("lines on Rejects", len(program.told("info rejects to alice: .+")), 1, 2)
    expect("how many lines there are beside", len(program.told("(?!info rejects).+")), 3)


# ---- the journal

@case
def journal_that_fills(laboratory: Laboratory) -> None:
    """A journal of 20 entries is told once where it has 16, 18, 19 and 20."""
    program = laboratory.serve(FULFILLS, engine_of(), levels=False, journal=20)
    told = {16: "warn journal: 16 of 20 entries, 80 percent",
            18: "warn journal: 18 of 20 entries, 90 percent",
            19: "error journal: 19 of 20 entries, 95 percent",
            20: "error journal: full, with 20 of 20 entries: packets get T03, and credits 503"}
    for count in range(1, 21):
        expect("a credit", credit(program, 1, key=f"{count}"), created(quantity(1, 2)))
        if count in told:
            booked = time.time()
            line = program.await_told(re.escape(told[count]))[0]
            expect_within("seconds until it is told", line.moment - booked, -1.0, JOURNAL_WITHIN)
    expect("one too many", credit(program, 1, key="21"), response(503))
    busy = reject(b"T03", b"test.hub", b"connector busy")
    expect_packet("a packet", program, soon(), busy)
    close(program, bob=20)
    expect("the lines on the journal", [line.said for line in program.told(r"\w+ journal: .+")],
           list(told.values()))


@case
def journal_that_is_full_at_once(laboratory: Laboratory) -> None:
    """Of marks that are reached together only the last is told; two entries have no other."""
    program = laboratory.serve(FULFILLS, engine_of(), levels=False, journal=2)
    for key in ("one", "two"):
        expect("a credit", credit(program, 1, key=key), created(quantity(1, 2)))
    form = "error journal: full, with 2 of 2 entries: packets get T03, and credits 503"
    program.await_told(form)
    post_close(program)
    expect_end(program, alice=0, bob=2)
    expect("the lines on the journal", [line.said for line in program.told(r"\w+ journal: .+")], [form])


# ---- a journal that is carried over

def lines_of_a_check(kept: Kept, program: Program, entries: int) -> list[str]:
    """What `check` says on standard error of a journal of so many entries, with which a start would begin."""
    done = kept.check(program)
    expect("what check says", (done.returncode, done.stdout), (0, f"ok 2 peers 1 assets 2 routes {entries} entries\n"))
    return done.stderr.splitlines()


@case
def journal_ahead_of_the_clock(laboratory: Laboratory) -> None:
    """Where a journal's last moment lies ahead of the clock the start and `check` tell it with that moment; packets
    that expire before it are too late. A new start with it changes nothing."""
    kept = Kept(laboratory)
    moment = int((time.time() + 100) * 1000)
    kept.path.write_text(f"ilp-journal 1\n{moment} 0 credited bob 6b 7 2 7\nend 1\n")
    when = time.strftime("%Y-%m-%dT%H:%M:%S", time.gmtime(moment // 1000)) + f".{moment % 1000:03}Z"
    form = re.escape(kept.said(f"its last entry is of {when}, ")) + (
        r"\d+(\.\d{3})? seconds ahead of the clock: until then packets come too late \(R00, R02\), and a new start "
        r"with it changes nothing")
    for _ in range(2):
        program = kept.serve()
        program.await_told(f"warn {form}")
        expect_packet("a packet", program, soon(), R00)
        close(program, bob=7)
        lines = lines_of_a_check(kept, program, 1)
        expect_that(f"the lines of a check: {lines}", len(lines) == 1 and re.fullmatch(form, lines[0]) is not None)


@case
def journal_that_is_nearly_full_at_the_start(laboratory: Laboratory) -> None:
    """From 80 percent of its entries on a journal that is carried over is told by `check`, and by the start as that
    of a running connector is."""
    kept = Kept(laboratory, Setup(bob=laboratory.stand_in(FULFILLS).port, top={"journal": 5}))
    for count in range(1, 5):
        program = kept.serve()
        expect("a credit", credit(program, 1, key=f"{count}"), created(quantity(1, 2)))
        close(program, bob=count)
        told = [kept.said("it has 4 of 5 entries, and a start carries them over: give `journal` more")]
        expect(f"the lines of a check, with {count} entries", lines_of_a_check(kept, program, count),
               told if count == 4 else [])
    program = kept.serve()
    program.await_told("warn journal: 4 of 5 entries, 80 percent")
    close(program, bob=4)
