#!/usr/bin/env python3
"""Scenes of a server over links in memory, made from the standards and the rules alone.

Connections carry HTTP messages (RFC 9110, RFC 9112) with packets (RFC 0035), settlements and
messages of settlement engines (RFC 0038); what comes of them, and of a settler's turns, is by
docs/PROTOCOL.md. With the argument `scenes` it prints crates/test_scenes/data/connections.txt, in
which `<N DIGITS>` stands for N times the digits, and with `lines` what the program is to print of
them: the second part of crates/test_scenes/stdout, behind that of scenes.py. It shares nothing with
the crates.
"""
import sys
from itertools import groupby

from packets import CONDITION, string
from scenes import (ALICE, BOB, F99, FULFILL, HANDED, ONES, R00, START, T00, T01, actor, answered,
                    asked, balances, clock, closed, fulfill, held, own_reject, report_lines,
                    shown, totals)

F02 = own_reject(b"F02", b"unreachable")
F03 = own_reject(b"F03", b"invalid amount")
F05 = own_reject(b"F05", b"wrong condition")
T04 = own_reject(b"T04", b"insufficient liquidity")
MESSAGE, ANSWER = b"hi", b"ok"
MOST = 2**64 - 1


# ---- HTTP

STATUSES = {
    200: ("OK", "Ok"), 201: ("Created", "Created"), 400: ("Bad Request", "BadRequest"),
    401: ("Unauthorized", "Unauthorized"), 403: ("Forbidden", "Forbidden"), 404: ("Not Found", "NotFound"),
    405: ("Method Not Allowed", "MethodNotAllowed"), 409: ("Conflict", "Conflict"),
    411: ("Length Required", "LengthRequired"), 413: ("Content Too Large", "ContentTooLarge"),
    431: ("Request Header Fields Too Large", "FieldsTooLarge"),
    502: ("Bad Gateway", "BadGateway"), 503: ("Service Unavailable", "Unavailable")}
OWN = {401: ["WWW-Authenticate: Bearer"], 405: ["Allow: POST"]}
OCTETS, JSON, TEXT = "application/octet-stream", "application/json", "text/plain"


def head(code, kind, body):
    lines = [f"HTTP/1.1 {code} {STATUSES[code][0]}", *OWN.get(code, [])]
    if body:
        lines.append(f"Content-Type: {kind}")
    lines += [f"Content-Length: {len(body)}", "Connection: close", ""]
    return "".join(line + "\r\n" for line in lines)


def digits(octets):
    """Hexadecimal digits; of more than 128 octets, runs of 9 and more are told by their lengths."""
    if len(octets) <= 128:
        return octets.hex()
    runs = ((f"{octet:02x}", len(list(run))) for octet, run in groupby(octets))
    return "".join(f"<{n} {one}>" if n >= 9 else one * n for one, n in runs)


def response(code, body=b"", kind=OCTETS, handled=None):
    """What became of a connection, and the response."""
    begin = [handled or f"Done({STATUSES[code][1]})", *shown(head(code, kind, body))]
    if kind == TEXT:
        return begin + shown(body.decode())
    return begin + [f"body: {body.decode() if kind == JSON else digits(body)}"]


def post(target, *fields, body=b"", length=None, line=None):
    """The lines of a request, as a scene has them."""
    if length is None:
        length = [f"Content-Length: {len(body)}"]
    lines = [line or f"POST {target} HTTP/1.1", "Host: h", *fields, *length]
    if body:
        text = body.startswith(b"{") or body.isalpha()
        lines += ["", f"text {body.decode()}" if text else f"hex {digits(body)}"]
    return lines


# ---- steps: what goes in, and what is printed

def step(first, lines, told):
    return [f"-- {first}", *lines], told


def at_peers(told, *fields, target="/ilp", first="ilp", **request):
    return step(first, post(target, *fields, **request), told)


def packet(told, octets, token="a-token", reply=None, scheme="Bearer", first="ilp", **request):
    """A packet, which is answered by 200 with a packet, or else as `told` says."""
    told = told + response(200, reply) if reply is not None else told
    return at_peers(told, f"Authorization: {scheme} {token}", first=first, body=octets, **request)


def at_engines(told, target, *fields, **request):
    return step("engine", post(target, *fields, **request), told)


def quantity(amount, scale):
    return f'{{"amount":"{amount}","scale":{scale}}}'.encode()


def settled(told, body, key="k", name="alice", credited=None, moment=START):
    """A settlement, which is credited at a moment, or else refused as `told` says."""
    if credited is not None:
        told = clock(*moments(moment)) + response(201, quantity(credited, 2), JSON)
    return at_engines(told, f"/accounts/{name}/settlements", f"Idempotency-Key: {key}", body=body)


def moments(moment):
    return [] if moment is None else [moment]


def report(alice, bob, paid, credited, entries, fulfilled, **request):
    """The report of the book, at the side of the engines."""
    lines = report_lines(alice, bob, paid, credited, entries, fulfilled)
    body = "".join(line + "\n" for line in lines)
    return at_engines(response(200, body.encode(), TEXT), "/report", **request)


def message(told, body=MESSAGE, name="bob"):
    return at_engines(told, f"/accounts/{name}/messages", body=body)


def for_engine(amount=0, expires=b"20250101000030000", condition=CONDITION, data=MESSAGE):
    """A Prepare with a message for the settlement engine of the connector."""
    return prepare(amount, expires, condition, b"peer.settle", data)


def prepare(amount=100, expires=b"20250101000030000", condition=CONDITION, destination=b"test.bob",
            data=b""):
    content = amount.to_bytes(8, "big") + expires + condition + string(destination) + string(data)
    return b"\x0c" + string(content)


def handed(peer=BOB, body=MESSAGE):
    """What a peer is handed for a message: its Prepare expires after the longest hold."""
    packet = for_engine(data=body)
    return [f"peer {peer} is handed, up to {START + 30_000}:", f"packet: {digits(packet)}"]


def engine_handed(peer=BOB):
    return [f"the engine is handed of peer {peer}:", f"message: {MESSAGE.hex()}"]


def turn(peer, *told):
    return step(f"turn {peer}", [], list(told))


def account(peer, answer):
    return f"the engine is asked for the account of peer {peer}: {answer}"


def settling(reply, number=1, amount=800):
    return f"the engine is asked for {amount} at scale 2 to peer 1 under r1-{number}: {reply}"


# ---- what is booked

def credited(number, amount, peer=ALICE, by=0, at=START):
    return [f"entry {number} of {by} at {at}", f"credited {amount} to {peer}"]


def credit_record(number, amount, peer=ALICE):
    return f"Record {{ number: {number}, what: Credited {{ peer: {peer}, amount: {amount} }} }}"


def close_record(number, ask, accepted, amount=800):
    return (f"Record {{ number: {number}, what: Closed {{ ask: {ask}, peer: 1, amount: {amount}, "
            f"accepted: {accepted} }} }}")


def closing(number, ask, what, at):
    return [f"entry {number} of 2 at {at}", f"{what} {ask}"]


def asking(number, at, amount=800):
    return [f"entry {number} of 2 at {at}", f"Ask {{ peer: 1, amount: {amount} }}"]


def balance(alice, bob):
    return [f"balances {alice} {bob}"]


NOTHING = actor(0, 0) + actor(2, 0) + balance(0, 0)


def scene(name, steps, booked, act="both", over="two_peers.toml", journal=(), **given):
    """A scene whose book begins with these lines of a journal's text."""
    given = {"clock": f"{START} {START}", "turns": f"{START + 1} {START + 2}", **given}
    lines = [f"act {act}", f"over {over}"]
    lines += [f"{word} {value if isinstance(value, str) else digits(value)}"
              for word, value in given.items() if value is not None]
    lines += [f"journal {line}" for line in journal]
    ins = lines + [line for ins, _ in steps for line in ins]
    return name, ins, [line for _, told in steps for line in told] + booked


# ---- the side of the peers

P1 = prepare()
HELD = clock(START) + asked(prepare(expires=HANDED)) + clock(START)
ONE_PACKET = (actor(0, 2, answered(1, 0)) + actor(2, 0) + held(0) + closed(1, 0) + balances(100))
A_TOKEN = "Authorization: Bearer a-token"


def status(code):
    return response(code)


REFUSED_PACKETS = [
    packet(status(405), P1, line="GET /ilp HTTP/1.1"),
    packet(status(411), P1, length=[]),
    packet(status(413), P1, length=["Content-Length: 65537"]),
    packet(status(401), P1, token="c-token"),
    packet(status(401), P1, token="to-alice"),
    packet(status(401), P1, scheme="Basic"),
    packet(status(401), P1, scheme="Bearer "),
    at_peers(status(401), body=P1),
    at_peers(status(401), A_TOKEN, A_TOKEN, body=P1),
    at_peers(status(401), A_TOKEN, "Authorization: Bearer b-token", body=P1),
    packet(status(400), b"\x0c"),
    packet(status(400), FULFILL),
    packet(status(400), F99),
    packet(status(400), b""),
    packet(status(400), P1[:-1], length=["Content-Length: 69"]),
] + [packet(status(404), P1, target=target)
     for target in ("/", "/ilp/", "/Ilp", "/ilp?x=1", "http://h/ilp", "/close", "/report",
                    "/accounts/bob/messages")]

AT_ONCE = b"20250101000000000"
ORDERED = [
    packet(clock(START), for_engine(1, AT_ONCE, ONES), reply=F03),
    packet(clock(START), for_engine(0, AT_ONCE, ONES), reply=F05),
    packet(clock(START), for_engine(0, AT_ONCE), reply=R00),
    packet(clock(START), for_engine(0, b"20250101000000001"), reply=F02),
    packet(clock(START), for_engine(1), token="b-token", reply=F03),
    packet(clock(START), for_engine(0, condition=ONES), token="b-token", reply=F05),
    packet(clock(START), for_engine(0, AT_ONCE), token="b-token", reply=R00),
    packet(clock(START) + engine_handed(), for_engine(0, b"20250101000000001"), token="b-token",
           reply=fulfill(data=ANSWER)),
]


def to_engine(name, reply, answer):
    """A message of bob's engine, which the engine here answers so, if it does."""
    steps = [packet(clock(START) + engine_handed(), for_engine(), token="b-token", reply=reply)]
    return scene(name, steps, NOTHING, replies=answer)


CUT = head(200, OCTETS, FULFILL)[:40]
LONG_MESSAGE = bytes(32_767)


def many_fields(told, count):
    """A packet of alice in a request whose head has so many fields."""
    return at_peers(told, A_TOKEN, *["a: b"] * (count - 3), body=P1)


def cut(name, body, reply):
    """A packet of alice that bob fulfills, over a connection that fails at each octet."""
    lines = post("/ilp", A_TOKEN, body=body)
    size = len("".join(line + "\r\n" for line in lines[:lines.index("")])) + 2 + len(body)
    written = len(head(200, OCTETS, reply)) + len(reply)
    told = [f"{size} of {size} reads that fail are told, with nothing written and nothing booked",
            "Done(Ok)",
            f"{written} of {written} writes that fail are told, with the octets before written and "
            f"the packet booked"]
    booked = (f"Booked {{ share: {2 * written + 2}, records: {written + 1}, "
              f"entries: {2 * written + 2} }}")
    return scene(name, [step("ilp", lines, told)], [booked], act="cut", over="lending.toml",
                 clock=None, turns=None, bob=reply)


PEERS = [
    scene("a packet", [packet(HELD, P1, reply=FULFILL)], ONE_PACKET, bob=FULFILL),
    scene("a small bearer, and a packet beyond the balance",
          [packet(HELD, P1, scheme="bearer", reply=FULFILL),
           packet(clock(START), prepare(1), scheme="BEARER", reply=T04)],
          ONE_PACKET, bob=FULFILL),
    scene("a packet that bob rejects", [packet(HELD, P1, reply=F99)],
          actor(0, 2, answered(1, 0, "Peer([70, 57, 57])")) + actor(2, 0) + held(0)
          + closed(1, 0, "Peer([70, 57, 57])") + balances(0), bob=F99),
    scene("what is refused at the side of the peers", REFUSED_PACKETS, NOTHING, bob=FULFILL,
          replies=ANSWER),
    scene("a message to the engine",
          [packet(clock(START) + engine_handed(), for_engine(), token="b-token",
                  reply=fulfill(data=ANSWER)),
           packet(clock(START), for_engine(), reply=F02)], NOTHING, replies=ANSWER),
    scene("what is refused of messages to the engine, in order", ORDERED, NOTHING, replies=ANSWER),
    to_engine("an engine that gives no answer", T01, None),
    to_engine("an engine that answers nothing", fulfill(), "<0 00>"),
    to_engine("an engine's longest answer", fulfill(data=b"\x5a" * 32_767), b"\x5a" * 32_767),
    to_engine("an engine's answer that is too long", T01, b"\x5a" * 32_768),
    scene("a read that fails",
          [packet(["Fault(Read)", "body: "], P1, first="ilp failing 0"),
           packet(["Fault(Read)", "body: "], P1, first="ilp failing 100"),
           packet(HELD, P1, reply=FULFILL)], ONE_PACKET, bob=FULFILL),
    scene("a write that fails",
          [packet(HELD + ["Fault(Write)", *shown(CUT), "body: "], P1, first="ilp narrow 40"),
           packet(clock(START), prepare(1), reply=T04)], ONE_PACKET, bob=FULFILL),
    cut("an exchange that fails at each octet", P1, FULFILL),
    scene("as many fields as a head may have, and one more",
          [many_fields(status(431), 65), many_fields(HELD + response(200, FULFILL), 64)],
          ONE_PACKET, bob=FULFILL),
]

# ---- the side of the engines

ROW = quantity(1_999_999_999, 9)
LONG_KEY = "k" * 128
SETTLEMENTS = "/accounts/alice/settlements"
BAD_QUANTITIES = [
    b"hello", b"[]", b"{", b"{}", b'{"amount":"5"}', b'{"scale":2}', b'{"amount":"","scale":2}',
    b'{"amount":"-1","scale":2}', b'{"amount":5.0,"scale":2}', b'{"amount":1e3,"scale":2}',
    quantity("1" * 39, 255), b'{"amount":"5","scale":256}', b'{"amount":"5","scale":"2"}',
    quantity(MOST + 1, 2), quantity(2**61, 0),
]
KEYS = [
    at_engines(status(400), SETTLEMENTS, body=ROW),
    at_engines(status(400), SETTLEMENTS, "Idempotency-Key: k", "Idempotency-Key: k", body=ROW),
    at_engines(status(400), SETTLEMENTS, "Idempotency-Key:", body=ROW),
    settled(status(400), ROW, key=LONG_KEY + "k"),
    settled([], ROW, key=LONG_KEY, credited=199),
    settled([], quantity(5, 2), key=LONG_KEY, name="bob", credited=5),
    settled([], quantity(7, 2), key="a key", credited=7),
]
FOUND_NOWHERE = ["/", "/ilp", "/report/", "/Report", "/Close", "/close/", "/close?x", "/accounts",
                 "/accounts/alice", "/accounts/alice/", "/accounts/carol/settlements",
                 "/accounts//settlements", "/accounts/alice/settlements/",
                 "/accounts/alice/settlements?x=1", "/accounts/carol/messages",
                 "/accounts/Alice/messages", "/accounts/a%6cice/messages"]
NO_ANSWER = clock(START) + handed() + status(502)
ENGINES = [
    scene("a settlement, again, and another under its key",
          [settled([], ROW, credited=199), settled([], ROW, credited=199, moment=START + 5),
           settled(clock(START + 5) + status(409), b'{"amount":5,"scale":2}')],
          actor(0, 1, credit_record(0, 199)) + actor(2, 0) + credited(0, 199) + balance(199, 0),
          clock=f"{START} {START + 5}"),
    scene("keys of settlements", KEYS,
          actor(0, 3, credit_record(0, 199), credit_record(1, 5, BOB), credit_record(2, 7))
          + actor(2, 0) + credited(0, 199) + credited(1, 5, BOB) + credited(2, 7)
          + balance(206, 5)),
    scene("quantities that are refused",
          [settled(status(400), body) for body in BAD_QUANTITIES] + [settled(status(400), b"")],
          NOTHING),
    scene("the greatest quantity, and less than a unit",
          [settled([], quantity(MOST, 2), credited=MOST),
           settled([], quantity(9_999_999, 9), key="l", credited=0)],
          actor(0, 2, credit_record(0, MOST), credit_record(1, 0)) + actor(2, 0)
          + credited(0, MOST) + credited(1, 0) + balance(MOST, 0)),
    scene("a journal that is full",
          [settled([], quantity(1, 2), key="a", credited=1),
           settled([], quantity(2, 2), key="b", credited=2),
           settled(clock(START) + status(503), quantity(3, 2), key="c"),
           settled([], quantity(1, 2), key="a", credited=1),
           settled(clock(START) + status(409), quantity(3, 2), key="b")],
          actor(0, 2, credit_record(0, 1), credit_record(1, 2)) + actor(2, 0)
          + credited(0, 1) + credited(1, 2) + balance(3, 0), over="two_entries.toml"),
    scene("what is refused at the side of the engines",
          [at_engines(status(404), target, "Idempotency-Key: k", body=ROW)
           for target in FOUND_NOWHERE]
          + [at_engines(status(405), SETTLEMENTS, line="GET /close HTTP/1.1"),
             at_engines(status(411), SETTLEMENTS, "Idempotency-Key: k", body=ROW, length=[])],
          NOTHING),
    scene("reports of the book",
          [report(0, 0, 0, 0, 0, 0),
           packet(HELD, P1, reply=FULFILL),
           settled([], ROW, credited=199),
           report(99, 100, 100, 199, 3, 1, body=MESSAGE)],
          actor(0, 3, answered(1, 0), credit_record(2, 199)) + actor(2, 0) + held(0) + closed(1, 0)
          + credited(2, 199) + balance(99, 100), bob=FULFILL),
    scene("the end that is asked for",
          [at_engines(response(200, handled="Close"), "/close"),
           at_engines(response(200, handled="Close"), "/close", body=MESSAGE)], NOTHING),
    scene("messages to peers",
          [message(clock(START) + handed() + response(201, ANSWER)),
           message(clock(START) + handed(ALICE) + response(201, ANSWER), name="alice"),
           message(clock(START) + handed(body=LONG_MESSAGE) + response(201, ANSWER), LONG_MESSAGE),
           message(status(502), bytes(32_768)),
           message(status(502), bytes(65_536)),
           message(status(413), bytes(65_537))], NOTHING, bob=fulfill(data=ANSWER)),
    scene("a message that is answered by no octet",
          [message(clock(START) + handed() + response(201))], NOTHING, bob=FULFILL),
    scene("a message without a reply", [message(NO_ANSWER)], NOTHING),
    scene("a message that is answered by another preimage", [message(NO_ANSWER)], NOTHING,
          bob=fulfill(ONES, ANSWER)),
    scene("a message that is rejected", [message(NO_ANSWER)], NOTHING, bob=F99),
]

# ---- the settler's turns

DUE = settled([], quantity(1000, 2), name="bob", credited=1000)
CREDIT = credited(0, 1000, BOB)
DUE_RECORD = credit_record(0, 1000, BOB)
OPEN = clock(START + 1) + [settling("Unknown"), "Kept { number: 1 }"]

# What an earlier run saved: 20 dollars from bob, and the settlement of all above 2, which is open.
EARLIER = START - 60_000
CARRIED = [f"{EARLIER} 0 credited bob {b'k'.hex()} 2000 2 2000", f"{EARLIER + 1} 2 asked bob 1800"]

SETTLER = [
    scene("a settlement that an engine refuses",
          [DUE, turn(1, account(1, "false"), "NoAccount"),
           turn(1, account(1, "true"), *OPEN),
           turn(1, *clock(START + 2), settling("Refused"), *clock(START + 2),
                "Closed { number: 1, accepted: false }"),
           turn(0, account(0, "true"), *clock(START + 2), "Idle(NotDue { balance: 0 })")],
          actor(0, 1, DUE_RECORD) + actor(2, 2, close_record(2, 1, "false")) + CREDIT
          + asking(1, START + 1) + closing(2, 1, "undone", START + 2) + balance(0, 1000),
          says="no-account unknown, account refused"),
    scene("a settlement of which an engine says nothing five times, and which it then accepts",
          [DUE, turn(1, account(1, "true"), *OPEN)]
          + [turn(1, *clock(START + 2), settling("Unknown"), "Kept { number: 1 }")] * 4
          + [turn(1, *clock(START + 2), settling("Accepted"), *clock(START + 2),
                  "Closed { number: 1, accepted: true }")],
          actor(0, 1, DUE_RECORD) + actor(2, 2, close_record(2, 1, "true")) + CREDIT
          + asking(1, START + 1) + closing(2, 1, "confirmed", START + 2) + balance(0, 200),
          says=", ".join(["account unknown"] * 5 + ["account accepted"])),
    scene("a settlement that an engine accepts",
          [DUE, turn(1, account(1, "true"), *clock(START + 1), settling("Accepted"),
                     *clock(START + 2), "Closed { number: 1, accepted: true }"),
           turn(1, *clock(START + 2), "Idle(NotDue { balance: 200 })")],
          actor(0, 1, DUE_RECORD) + actor(2, 2, close_record(2, 1, "true")) + CREDIT
          + asking(1, START + 1) + closing(2, 1, "confirmed", START + 2) + balance(0, 200),
          says="account accepted"),
    scene("an engine that has no account",
          [DUE, turn(1, account(1, "false"), "NoAccount"), turn(1, account(1, "false"), "NoAccount")],
          actor(0, 1, DUE_RECORD) + actor(2, 0) + CREDIT + balance(0, 1000),
          says="no-account accepted"),
    scene("no room for a settlement",
          [DUE, turn(1, account(1, "true"), *clock(START + 1), "Idle(Full)")],
          actor(0, 1, DUE_RECORD) + actor(2, 0) + CREDIT + balance(0, 1000),
          over="two_entries.toml", says="account accepted"),
    scene("a carried settlement, which is asked for again under its old key",
          [turn(1, account(1, "true"), *clock(START + 1), settling("Accepted", amount=1800),
                *clock(START + 2), "Closed { number: 1, accepted: true }")],
          actor(0, 0) + actor(2, 1, close_record(2, 1, "true", 1800))
          + credited(0, 2000, BOB, at=EARLIER) + asking(1, EARLIER + 1, 1800)
          + closing(2, 1, "confirmed", START + 2) + balance(0, 200),
          says="account accepted", journal=CARRIED),
]

# ---- settlements in parts, of which several are open at once

# The settlements that the engine is asked for, of which the last in each row is the only one that it
# gives an answer for: it refuses one, and accepts the others. Those that stand here for the first time
# are asked for anew, as long as bob is owed 1000 or more and fewer than four are open. Else it is the
# turn of the one behind that which was tried last, or of the first.
TRIED = [(1, 2, 3, 4), (6, 1, 2, 3), (8, 1, 2, 6), (10, 1, 2, 8), (10, 1, 2, 10), (1, 2, 1, 2),
         (1, 1, 1, 1)]
REFUSED, PART = 3, 300


def closed_by(number, entry):
    """What becomes of the settlement that an engine answers for: what it says, the turn, the record
    and the entry."""
    said, accepted, what = (("Refused", "false", "undone") if number == REFUSED
                            else ("Accepted", "true", "confirmed"))
    told = turn(1, settling(said, number, PART), f"Closed {{ number: {number}, accepted: {accepted} }}")
    return said, told, close_record(entry, number, accepted, PART), closing(entry, number, what, START)


def in_parts(name):
    """2600 from bob are settled down to 800, in parts of 300."""
    turns, said, records, booked = [], [], [], credited(0, 2600, BOB)
    entry = 1
    for *silent, last in TRIED:
        for number in silent + [last]:
            if number == entry:
                booked += asking(number, START, PART)
                entry += 1
        turns += [turn(1, settling("Unknown", number, PART), f"Kept {{ number: {number} }}")
                  for number in silent]
        answer, told, record, closed_at = closed_by(last, entry)
        turns.append(told)
        said += ["account unknown"] * len(silent) + [f"account {answer.lower()}"]
        records.append(record)
        booked += closed_at
        entry += 1
    request, told = settled([], quantity(2600, 2), name="bob", credited=2600, moment=None)
    told += actor(0, 1, credit_record(0, 2600, BOB)) + [account(1, "true")]
    steps = [(request, told), *turns, turn(1, "Idle(NotDue { balance: 800 })")]
    end = (actor(2, entry - 1, *records) + booked + balance(0, 800)
           + totals(entry, credited=2600, confirmed=1800, undone=300))
    return scene(name, steps, end, act="close", over="in_parts.toml", turns=None, clock=None,
                 says=", ".join(said))


SETTLER.append(in_parts("an engine that answers each fourth request, beside settlements in parts"))

# ---- growths of memory that are denied

NO_WORKER = ["no worker", "denied: true"]
KEPT = response(201, quantity(199, 2), JSON)


def played(steps, *outcomes):
    """The steps, and what each worker prints of them."""
    return [(ins, []) for ins, _ in steps], [line for outcome in outcomes for line in outcome]


def denied(name, step, outcomes, booked, **given):
    """A request twice by each worker, which is denied the growth of its own number."""
    steps, told = played([step, step], *outcomes)
    return scene(name, steps, told + booked, act="deny-workers", workers=str(len(outcomes)),
                 turns=None, clock=None, **given)


SENT = handed() + response(201, ANSWER)
HANDED_IN = engine_handed() + response(200, fulfill(data=ANSWER))
MEMORY = [
    denied("each growth of a credit denied", settled([], ROW),
           [NO_WORKER,
            status(503) + KEPT + actor(1, 1, credit_record(0, 199)) + ["denied: true"],
            KEPT + KEPT + actor(2, 0) + ["denied: false"]],
           credited(0, 199, by=1) + balance(199, 0)),
    denied("each growth of a message denied", message([]),
           [NO_WORKER,
            status(503) + SENT + actor(1, 0) + ["denied: true"],
            handed() + status(502) + SENT + actor(2, 0) + ["denied: true"],
            SENT + SENT + actor(3, 0) + ["denied: false"]],
           balance(0, 0), bob=fulfill(data=ANSWER)),
    denied("each growth of a message to the engine denied",
           packet([], for_engine(), token="b-token"),
           [NO_WORKER,
            response(200, T00) + HANDED_IN + actor(1, 0) + ["denied: true"],
            engine_handed() + response(200, T01) + HANDED_IN + actor(2, 0) + ["denied: true"],
            HANDED_IN + HANDED_IN + actor(3, 0) + ["denied: false"]],
           balance(0, 0), replies=ANSWER),
    scene("each growth of a settler denied",
          [settled([], quantity(1000, 2), name="bob", credited=1000, moment=None),
           turn(1, *actor(0, 1, DUE_RECORD), "no settler; its clock as given: true", "NoAccount"),
           turn(1, account(1, "true"), "no memory"),
           turn(1, "Kept { number: 1 }"),
           turn(1, settling("Accepted"), "Closed { number: 1, accepted: true }")],
          actor(2, 2, close_record(2, 1, "true"))
          + ["denied: true", "denied of accounts: true", "denied of settlements: true"]
          + CREDIT + asking(1, START) + closing(2, 1, "confirmed", START) + balance(0, 200),
          act="deny-settler", turns=None, clock=None, says="account accepted"),
]

SCENES = PEERS + ENGINES + SETTLER + MEMORY

if __name__ == "__main__":
    if sys.argv[1:] not in (["scenes"], ["lines"]):
        sys.exit("connections.py scenes | lines")
    for name, given, told in SCENES:
        print("== " + name, *(given if sys.argv[1] == "scenes" else told), sep="\n")
