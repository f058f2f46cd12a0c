"""Corrections of balances: what each request is answered, what is booked of it and told, and what becomes of its key
over starts and periods."""
import json
import subprocess

from cases.case import case, expect, expect_that
from cases.conversations import report
from cases.journals import SETTLEMENTS, Kept
from cases.laboratory import AT_ONCE, Laboratory, close, credit, expect_packet, expect_served, post_close
from cases.lines import KEPT_AGAIN
from cases.log_faults import AGAIN, entries_of, failed, remove
from cases.messages import bearer, created, post, request, response, soon
from cases.payouts import Engines, await_confirmed, expect_answer, give
from cases.program import Program, Setup, numbers_in
from cases.running_periods import expect_end_of, expect_follow, report_of
from cases.statements import expect_ends, expect_stated
from cases.stand_ins import FULFILLS
from connections import JSON, T04, quantity

BACK = "charged back"
REFUSED = "error correction of bob refused, and not booked: "
MEANT = "see which one is meant, and for which reason"

# The least of a balance, and what lies just below it.
LEAST, BELOW = -1_000_000, "-1000001"


# An amount of the most digits.
LONG = "5".zfill(38)


# ---- what cases do

def asked(amount: str, key: str | None, reason: str = BACK, scale: int = 2, name: str = "bob") -> bytes:
    """The request of a correction."""
    body = json.dumps({"amount": amount, "scale": scale, "reason": reason}, ensure_ascii=False).encode()
    fields = [] if key is None else [f"Idempotency-Key: {key}"]
    return request(f"/accounts/{name}/corrections", *fields, body=body)


def answered(program: Program, octets: bytes) -> bytes:
    """What is answered at the engines' side."""
    return post(program.setup.engines_port, octets)


def correct(program: Program, amount: int, key: str, reason: str = BACK, name: str = "bob") -> None:
    """A balance is corrected by so many units, now or before."""
    octets = asked(str(amount), key, reason, name=name)
    expect(f"a correction by {amount}", answered(program, octets), created(quantity(amount, 2)))


def balances(program: Program) -> tuple[list[int], int, int]:
    """The balances by the report, what is settled, and how many entries there are."""
    numbers, _ = report_of(report(program))
    return numbers[:2], numbers[8], numbers[9]


def told_of(program: Program, level: str) -> list[str]:
    """The lines on corrections of a level."""
    return [line.said for line in program.told(f"{level} correction .+")]


# ---- what is answered

@case
def corrections_both_ways(laboratory: Laboratory) -> None:
    """A balance falls and rises by what is told, rounded down to the scale of the account, also to below 0 and by
    nothing. The report counts it as settled, and a line tells each."""
    program = laboratory.serve(FULFILLS, levels=False)
    expect("a credit", credit(program, 700, key="k"), created(quantity(700, 2)))
    for amount, scale, moved in (("-500", 2, -500), ("1", 1, 10), ("-1999", 3, -199), ("-19", 0, -1900), ("9", 3, 0),
                                 ("-0", 2, 0), (LONG, 2, 5)):
        octets = asked(amount, f"c{amount}", scale=scale)
        expect(f"{amount} at scale {scale}", answered(program, octets), created(quantity(moved, 2)))
    correct(program, 2**64 - 1, "most", name="alice")
    correct(program, -(2**64 - 1), "least", name="alice")
    expect_served(program, amount=3)
    expect("the balances, what is settled, and the entries", balances(program), ([-3, -1881], -1884, 12))
    close(program, alice=-3, bob=-1881)
    expect("the lines", told_of(program, "info"), [
        f'info correction 1 of bob: -500, key "c-500": "{BACK}"', f'info correction 2 of bob: 10, key "c1": "{BACK}"',
        f'info correction 3 of bob: -199, key "c-1999": "{BACK}"',
        f'info correction 4 of bob: -1900, key "c-19": "{BACK}"', f'info correction 5 of bob: 0, key "c9": "{BACK}"',
        f'info correction 6 of bob: 0, key "c-0": "{BACK}"',
        f'info correction 7 of bob: 5, key "c{LONG}": "{BACK}"',
        f'info correction 8 of alice: {2**64 - 1}, key "most": "{BACK}"',
        f'info correction 9 of alice: {1 - 2**64}, key "least": "{BACK}"'])


@case
def correction_told_again(laboratory: Laboratory) -> None:
    """The same under its key is answered as before, and booked once. Another amount, scale, direction or reason under
    it is refused, and so is a settlement; and a correction under a settlement's. Another peer has keys of its own."""
    program = laboratory.serve(levels=False)
    expect("a credit", credit(program, 700, key="paid"), created(quantity(700, 2)))
    for _ in range(3):
        correct(program, -500, "c1")
    booked = [0, 200], 200, 2
    expect("what is booked", balances(program), booked)
    for other in (asked("-501", "c1"), asked("-5", "c1", scale=0), asked("500", "c1"), asked("-500", "c1", "lost"),
                  asked("-700", "paid"), asked("700", "paid")):
        expect(f"another: {other!r}", answered(program, other), response(409))
    expect("a settlement under its key", credit(program, 500, key="c1"), response(409))
    expect("what is booked of them", balances(program), booked)
    correct(program, 1, "c1", name="alice")
    correct(program, -500, "c1")
    expect("the settlement again", credit(program, 700, key="paid"), created(quantity(700, 2)))
    close(program, alice=1, bob=200)
    expect("the first line on a refusal", told_of(program, "error")[0], f"{REFUSED}-501 at scale 2 under the key "
           f'"c1", which correction 1 has with -500 at scale 2: {MEANT}')
    said = program.told("error (settlement|correction) of bob .+")
    expect_that(f"{len(said)} lines tell of seven refusals at once", len(said) < 7)
    expect_that("lines tell of more than seven refusals", sum(line.left_out() + 1 for line in said) <= 7)


@case
def correction_under_a_key_of_a_settlement(laboratory: Laboratory) -> None:
    """Each of the two that is refused is told with what stands under the key."""
    program = laboratory.serve(levels=False)
    expect("a credit", credit(program, 7, key="k"), created(quantity(7, 2)))
    expect("a correction", answered(program, asked("-7", "k")), response(409))
    close(program, bob=7)
    expect("the line on the correction", [line.said for line in program.told("error .+")],
           [f'{REFUSED}-7 at scale 2 under the key "k", which credit 0 has with 7 at scale 2: {MEANT}'])
    program = laboratory.serve(levels=False)
    correct(program, -7, "k")
    expect("a settlement", credit(program, 7, key="k"), response(409))
    close(program, bob=-7)
    expect("the line on the settlement", [line.said for line in program.told("error .+")],
           ['error settlement of bob refused, and not credited: 7 at scale 2 under the key "k", which correction 0 has '
            "with -7 at scale 2: see which one its engine means"])


@case
def corrections_that_are_refused(laboratory: Laboratory) -> None:
    """By 404, 405, 411 and 400, for each thing that may be wrong with one; nothing is booked."""
    program = laboratory.serve(levels=False)
    setup, target, good = program.setup, "/accounts/bob/corrections", b'{"amount":"-5","scale":2,"reason":"x"}'
    key = "Idempotency-Key: k"
    for other in ("/accounts/carol/corrections", "/accounts//corrections", "/accounts/corrections", f"{target}?x=1",
                  f"{target}/", target.upper(), f"{target}s", "/accounts/bob/correction"):
        expect(other, answered(program, request(other, key, body=good)), response(404))
    for shown in ([], [bearer(setup.bob_token)]):
        expect("at the peers' side", post(setup.peers_port, request(target, key, *shown, body=good)), response(404))
    expect("a GET", answered(program, request("", key, line=f"GET {target} HTTP/1.1")), response(405))
    expect("without a length", answered(program, request(target, key, length=[])), response(411))
    for fields in ([], [key, key], ["Idempotency-Key:"], [f"Idempotency-Key: {'k' * 129}"]):
        expect(f"the key {fields}", answered(program, request(target, *fields, body=good)), response(400))
    for body in (b"", b"[]", b"-5", good[:-1], good.replace(b'"-5"', b"-5"), good.replace(b'"-5"', b"5"),
                 good.replace(b"-5", b"--5"), good.replace(b"-5", b"+5"), good.replace(b"-5", b"-"),
                 good.replace(b"-5", b""), good.replace(b"-5", b"-5.0"), good.replace(b"-5", b"-" + b"1" * 39),
                 good.replace(b"amount", b"amounts"), good.replace(b"2", b"256"), good.replace(b"2", b'"2"'),
                 good.replace(b"2", b"-2"), good.replace(b',"scale":2', b""), good.replace(b',"reason":"x"', b""),
                 good.replace(b'"x"', b'""'), good.replace(b'"x"', b"7"), good.replace(b'"x"', b"null"),
                 good.replace(b"x", b"x" * 129), good.replace(b"x", "\u00e4".encode() * 65),
                 good.replace(b"x", b"\\n"), good.replace(b"x", b"\\u007f"), good.replace(b"x", b"\\ud800"),
                 good.replace(b"x", b"\xff"), good.replace(b"-5", b"-" + b"9" * 38)):
        expect(f"the body {body!r}", answered(program, request(target, key, body=body)), response(400))
    expect("what is booked", balances(program), ([0, 0], 0, 0))
    close(program)
    expect("the lines", told_of(program, ".+"), [])


@case
def correction_below_the_least(laboratory: Laboratory) -> None:
    """The least may be reached. A fall below it is refused with both amounts, whatever is held, and its key stays free.
    A rise comes from anywhere."""
    program = laboratory.serve(levels=False)

    def refused(balance: int, least: int = LEAST) -> bytes:
        return response(403, f'{{"balance":"{balance}","least":"{least}","scale":2}}'.encode(), JSON)

    expect("below the least", answered(program, asked(BELOW, "c1")), refused(0))
    correct(program, LEAST, "c1")
    for name, amount in (("c2", "-1"), ("c2", f"-{2**64 - 1}"), ("c3", "-1")):
        expect(f"one less, as {name}", answered(program, asked(amount, name)), refused(LEAST))
    correct(program, 0, "c2")
    correct(program, -LEAST, "c1", name="alice")
    correct(program, LEAST, "c1")
    correct(program, 1, "c3")
    expect("what is booked", balances(program), ([1_000_000, LEAST + 1], 1, 4))
    correct(program, -1_999_950, "c4", name="alice")
    expect_packet("a packet of more than is left", program, soon(51), T04)
    close(program, alice=-999_950, bob=LEAST + 1)
    expect("how many lines there are", len(told_of(program, ".+")), 5)


@case
def correction_without_room(laboratory: Laboratory) -> None:
    """In a full journal a new one is answered 503, before its balance is looked at, and a known one as before."""
    program = laboratory.serve(levels=False, journal=2)
    correct(program, -5, "c1")
    correct(program, 3, "c2", name="alice")
    for amount in ("-1", BELOW, "1"):
        expect(f"one by {amount}", answered(program, asked(amount, "c3")), response(503))
    correct(program, -5, "c1")
    expect("another under a known key", answered(program, asked("-6", "c1")), response(409))
    close(program, alice=3, bob=-5)


@case
def keys_and_reasons_of_other_octets(laboratory: Laboratory) -> None:
    """Keys and reasons of 1 and 128 octets, with quotes, blanks and octets beyond ASCII, stand in the journal in
    hexadecimal, and in lines so where they have a quote or such an octet. Statements have escapes."""
    kept = Kept(laboratory)
    program = kept.serve()
    rows = (("k" * 128, "r" * 128), ("=k", "=1+1"), ("-", "-"), ('a"b', 'said "so"'), ("a b", "\u00e4\u0080"),
            ("\u00fe", " "))
    for key, reason in rows:
        correct(program, -1, key, reason)
        correct(program, -1, key, reason)
    close(program, bob=-6)
    listed = [line.split()[2:] for line in kept.text().splitlines()[1:-1]]
    expect("the journal", listed, [["corrected", "bob", key.encode("latin-1").hex(), "1", "2", "1", "falls",
                                    reason.encode().hex()] for key, reason in rows])
    expect("the lines", told_of(program, "info"), [
        f'info correction 0 of bob: -1, key "{"k" * 128}": "{"r" * 128}"',
        'info correction 1 of bob: -1, key "=k": "=1+1"', 'info correction 2 of bob: -1, key "-": "-"',
        "info correction 3 of bob: -1, key 0x612262: 0x736169642022736f22",
        "info correction 4 of bob: -1, key 0x612062: 0xc3a4c280", 'info correction 5 of bob: -1, key 0xfe: " "'])
    stated = [row.split(",") for row in expect_stated(program, kept.path, "bob")]
    expect("the keys and the reasons of some rows", [(row[13], row[15]) for row in stated[2:4]],
           [("\\x3d1+1", "\\x3dk"), ("\\x2d", "\\x2d")])


# ---- what is kept of it

def expect_known(program: Program, told: tuple[list[int], int]) -> None:
    """A fall and a rise are known by their keys, and nothing is booked of them again; nor of others under them."""
    before = balances(program)
    expect("the balances, and what is settled", before[:2], told)
    correct(program, -150, "c1")
    correct(program, 20, "c2", "lost")
    for other in (asked("-151", "c1"), asked("150", "c1"), asked("-150", "c1", "lost"), asked("20", "c2"),
                  asked("-1", "paid")):
        expect(f"another: {other!r}", answered(program, other), response(409))
    expect("a settlement under its key", credit(program, 150, key="c1"), response(409))
    expect("the settlement again", credit(program, 700, key="paid"), created(quantity(700, 2)))
    expect("what is booked of all these", balances(program), before)


def corrected(kept: Kept) -> Program:
    """A connector over a journal, with a settlement of 700 and corrections of -150 and 20 of bob's."""
    program = kept.serve()
    expect("a credit", credit(program, 700, key="paid"), created(quantity(700, 2)))
    correct(program, -150, "c1")
    correct(program, 20, "c2", "lost")
    return program


# How they stand in a journal behind moment and actor, and in the head of a later period.
FALL = f"corrected bob {b'c1'.hex()} 150 2 150 falls {BACK.encode().hex()}"
RISE = f"corrected bob {b'c2'.hex()} 20 2 20 rises {b'lost'.hex()}"
BOOKED = [f"credited bob {b'paid'.hex()} 700 2 700", FALL, RISE]
BROUGHT = ["opened bob 570", *(f"known {line.partition(' ')[2]}" for line in BOOKED)]


def entries(text: str) -> list[str]:
    """The entries of a journal's text, without moments and actors."""
    return [line.split(" ", 2)[2] for line in text.splitlines()[1:-1]]


@case
def correction_after_a_start(laboratory: Laboratory) -> None:
    """What was corrected is there behind a close and behind a sudden stop, in a journal of the first form, and so are
    its keys."""
    kept = Kept(laboratory)
    program = corrected(kept)
    expect("the entries of the log", [line.split(" ", 2)[2] for line in
                                      kept.beside("log").read_text().splitlines()[2:]], BOOKED)
    program.kill()
    program = kept.serve()
    expect_known(program, ([0, 570], 570))
    close(program, bob=570)
    expect("the form of the text", kept.text().splitlines()[0], "ilp-journal 1")
    expect("the entries", entries(kept.text()), BOOKED)
    kept.expect_checked(program)
    program = kept.serve()
    expect_known(program, ([0, 570], 570))
    close(program, bob=570)


@case
def correction_in_the_next_period(laboratory: Laboratory) -> None:
    """The next period begins with the balance, and with the keys, each with its direction and its reason: by a reload,
    and by `new-period`. A new one may follow."""
    kept = Kept(laboratory)
    program = corrected(kept)
    octets = answered(program, request("/reload"))
    expect_that(f"a reload was answered {octets!r}", octets.startswith(b"HTTP/1.1 200 "))
    expect_known(program, ([0, 570], 570))
    correct(program, -70, "c3")
    post_close(program)
    expect_end_of(program, alice=0, bob=500, period=1)
    later = FALL.replace("150", "70").replace("6331", "6333")
    expect("the period", (kept.text().splitlines()[0], entries(kept.text())), ("ilp-journal 2 1", [*BROUGHT, later]))
    command = [str(program.binary), "new-period", str(program.configuration), str(kept.path)]
    done = subprocess.run(command, capture_output=True, text=True, timeout=10.0)
    expect("what new-period says", (done.returncode, done.stdout),
           (0, "peer alice balance 0\npeer bob balance 500\nperiod 2\n"))
    expect("the next period", entries(kept.text()),
           ["opened bob 500", *BROUGHT[1:], f"known {later.partition(' ')[2]}"])
    expect_follow(kept, program)
    program = kept.serve()
    expect_known(program, ([0, 500], 500))
    correct(program, -70, "c3")
    post_close(program)
    expect_end_of(program, alice=0, bob=500, period=2)


@case
def correction_changed_by_hand(laboratory: Laboratory) -> None:
    """A line of one that lacks a field, or has a word that is none, is told by its number; one by which the balance
    would fall below its least by its entry."""
    kept = Kept(laboratory)
    program = corrected(kept)
    close(program, bob=570)
    text = kept.text()
    reason = BACK.encode().hex()
    rows = [(old, new, "71 BadJournalText 3") for old, new in (
        (" falls ", " fails "), (" falls ", " "), (f" falls {reason}", ""), (reason, ""), (reason, "c"),
        (reason, "20" * 129), (reason, f"{reason} 00"), ("150 falls", "0150 falls"),
        (FALL, FALL.replace("corrected", "credited")), (FALL, FALL.replace("bob", "carol")))]
    rows += [(BOOKED[0], BOOKED[0].replace("credited", "corrected"), "71 BadJournalText 2"),
             ("150 2 150", "150 2 151", "72 Unlawful 1"), ("150 2 150", "1000701 2 1000701", "72 Unlawful 1"),
             ("6332 20", "6331 20", "72 Unlawful 2"), ("6331 150", f"{b'paid'.hex()} 150", "72 Unlawful 1")]
    for old, new, told in rows:
        expect_that(f"{old!r} stands nowhere", old in text)
        kept.path.write_text(text.replace(old, new, 1))
        done = kept.check(program)
        expect(f"what check says of {new!r}", (done.returncode, done.stdout), (1, f"refused {told}\n"))
    kept.path.write_text(text.replace("150 2 150", "1000700 2 1000700", 1))
    kept.expect_checked(program)
    kept.path.write_text(text)
    close(kept.serve(), bob=570)


@case
def correction_that_is_not_kept(laboratory: Laboratory) -> None:
    """While the log can't be written a correction is answered 503, and once it can, the same again 201: it is booked
    once."""
    kept, program, _ = failed(laboratory, remove)
    for _ in range(2):
        expect("a correction", answered(program, asked("-5", "c1")), response(503))
    kept.beside("log.new").rmdir()
    program.await_told(KEPT_AGAIN, within=AGAIN)
    correct(program, -5, "c1")
    expect("how often it stands in the log", entries_of(kept).count("corrected"), 1)
    program.kill()
    program = kept.serve()
    correct(program, -5, "c1")
    program.kill()


# ---- statements and payouts

@case
def statement_of_corrections(laboratory: Laboratory) -> None:
    """A statement has them with their amounts, below 0 where the balance fell, with key and reason, also where one key
    is sought."""
    kept = Kept(laboratory, Setup(bob=laboratory.stand_in(FULFILLS).port))
    program = corrected(kept)
    expect_served(program, amount=5)
    rows = expect_stated(program, kept.path, "bob")
    expect_ends(rows, "0.00", "5.75")
    expect("the rows", [row.split(",")[6:] for row in rows[2:4]],
           [["corrected", "", "-1.50", "", "1.50", "5.50", "", BACK, "", "c1"],
            ["corrected", "", "0.20", "0.20", "", "5.70", "", "lost", "", "c2"]])
    command = [str(program.binary), "statement", str(program.configuration), "--key", "c1", str(kept.path), "bob"]
    done = subprocess.run(command, capture_output=True, text=True, timeout=10.0)
    lines = done.stdout.splitlines()
    expect("how many lines there are of one key", (done.returncode, len(lines)), (0, 5))
    expect("its line", lines[2].split()[1:], ["1", "corrected", "-", "-1.50", "-", "1.50", "5.50", "-", "-", "c1",
                                              "charged\\x20back"])
    expect("its total", lines[-1], "total corrected 1 -1.50")
    close(program, alice=-5, bob=575)


@case
def payout_behind_a_correction(laboratory: Laboratory) -> None:
    """What a correction takes below the threshold is not paid out once payouts go on, and one that takes the balance up
    to it is."""
    engines = Engines(laboratory)
    program = engines.serve()
    expect_answer(program, "bob", "pause")
    give(program, 1000, key="wrong")
    correct(program, -1000, "c1", "bob did not pay this")
    expect_answer(program, "bob", "resume")
    engines.pay_alice(program)
    expect("what bob's engine was asked for", engines.bob.of(SETTLEMENTS), [])
    correct(program, 999, "c2")
    engines.pay_alice(program)
    expect("what it was asked for below the threshold", engines.bob.of(SETTLEMENTS), [])
    correct(program, 1, "c3")
    engines.bob.await_count(SETTLEMENTS, 1, AT_ONCE)
    await_confirmed(program, "bob", 800)
    expect("the balance", numbers_in(report(program))[:2], [200, 200])
    close(program, alice=200, bob=200)
