"""What peers and engines say to the server, and what it answers and sends."""
from concurrent.futures import ThreadPoolExecutor

from cases.case import case, expect, expect_that, expect_within
from cases.laboratory import (Laboratory, close, credit, expect_packet, expect_served,
                              packet_request, send_packet)
from cases.messages import (HERE, bearer, created, moment_of, now, packet, post, request, response,
                            sent, soon)
from cases.program import Program, numbers_in, secret
from cases.stand_ins import (FULFILLS, answers, answers_packet, closes, engine_of,
                             never_answers, together)
from connections import ANSWER, F02, F03, F05, JSON, MESSAGE, OCTETS, TEXT, quantity
from packets import reject
from scenes import F99, FULFILL, LONGEST, ONES, R00, T01, fulfill


@case
def loopback(laboratory: Laboratory) -> None:
    """Two packets at once, a credit, its repetition, the settlement that is due, and the end."""
    program = laboratory.serve(together(2, FULFILLS), engine_of(), settle_ms=50)
    setup = program.setup
    expires = now() + 30_000
    with ThreadPoolExecutor(2) as pool:
        replies = list(pool.map(lambda _: send_packet(program, packet(50, expires), 12.0), "ab"))
    expect("the answers to two packets", replies, [response(200, FULFILL)] * 2)
    onwards = sent("/ilp", setup.bob, OCTETS, packet(50, expires - 1000), bearer(setup.to_bob))
    expect("what bob was handed", [one.octets for one in laboratory.bob.of("/ilp")], [onwards] * 2)

    expect("a credit", credit(program, 1000), created(quantity(1000, 2)))
    expect("it again", credit(program, 1000), created(quantity(1000, 2)))
    expect("another under its key", credit(program, 5), response(409))
    settlements = "/accounts/bob/settlements"
    asked = laboratory.engine.await_count(settlements, 1)
    port = laboratory.engine.port
    due = sent(settlements, port, JSON, quantity(900, 2), "Idempotency-Key: r1-5")
    expect("the settlement that is due", asked[0].octets, due)
    expect("the account", laboratory.engine.of("/accounts")[0].octets,
           sent("/accounts", port, JSON, b'{"id":"bob"}'))
    close(program, alice=-100, bob=200)
    expect("settlements that were asked", len(laboratory.engine.of(settlements)), 1)
    expect("accounts that were asked for", len(laboratory.engine.of("/accounts")), 1)


def report(program: Program) -> str:
    """The report of a connector that runs."""
    octets = post(program.setup.engines_port, request("/report"))
    text = octets.partition(b"\r\n\r\n")[2]
    expect("the response to /report", octets, response(200, text, TEXT))
    return text.decode("ascii")


@case
def reports(laboratory: Laboratory) -> None:
    """What is booked is in the report at once, and the last one is what the end prints."""
    program = laboratory.serve(FULFILLS, engine_of(), levels=False)
    expect("a report of nothing", numbers_in(report(program)), [0] * 11)
    expect_served(program, amount=10)
    paid = [-10, 10, 0, 0, 0, 0, 10, 10, 0, 2, 1]
    expect("a report of a packet", numbers_in(report(program)), paid)
    expect("a credit", credit(program, 5), created(quantity(5, 2)))
    last = report(program)
    expect("a report of a credit", numbers_in(last), [-10, 15, 0, 0, 0, 0, 10, 10, 5, 3, 1])
    close(program, alice=-10, bob=15)
    expect("the report in the end", program.output(), last)


# ---- statuses

def long_head(size: int) -> bytes:
    """So many octets of a head, which is not whole."""
    start = b"POST /ilp HTTP/1.1\r\nX: "
    return start + b"a" * (size - len(start))


def many_fields(count: int, token: str) -> bytes:
    """A head with so many fields, among them the Content-Length, the Host and a token."""
    return request("/ilp", bearer(token), *(f"X{n}: a" for n in range(count - 3)))


@case
def statuses_for_peers(laboratory: Laboratory) -> None:
    """Each status of the side of the peers."""
    program = laboratory.serve(FULFILLS)
    setup = program.setup
    shows, body = bearer(setup.token), soon()
    rows = [
        ("GET", 405, request("/ilp", shows, body=body, line="GET /ilp HTTP/1.1")),
        ("no length", 411, request("/ilp", shows, length=[])),
        ("chunks", 411, request("/ilp", shows, "Transfer-Encoding: chunked", length=[])),
        ("65,537 octets", 413, request("/ilp", shows, length=["Content-Length: 65537"])),
        ("two lengths", 400, request("/ilp", shows, length=["Content-Length: 0"] * 2)),
        ("a length in letters", 400, request("/ilp", shows, length=["Content-Length: none"])),
        ("another token", 401, request("/ilp", bearer(secret()), body=body)),
        ("the token of the way out", 401, request("/ilp", bearer(setup.to_alice), body=body)),
        ("no token", 401, request("/ilp", body=body)),
        ("two tokens", 401, request("/ilp", shows, shows, body=body)),
        ("two blanks", 401, request("/ilp", bearer(" " + setup.token), body=body)),
        ("Basic", 401, request("/ilp", f"Authorization: Basic {setup.token}", body=body)),
        ("an octet", 400, request("/ilp", shows, body=b"\x0c")),
        ("a Fulfill", 400, request("/ilp", shows, body=FULFILL)),
        ("no octet", 400, request("/ilp", shows)),
        ("rubbish", 400, b"hello\r\n\r\n"),
        ("a query", 404, request("/ilp?x=1", shows, body=body)),
        ("a query without a token", 404, request("/ilp?x=1", body=body)),
        ("/close", 404, request("/close", shows)),
        ("an engine's target", 404, request("/accounts/bob/messages", body=MESSAGE)),
        ("16,384 octets and no head", 431, long_head(16_384)),
        ("65 fields", 431, many_fields(65, setup.token)),
        ("64 fields", 400, many_fields(64, setup.token)),
    ]
    for what, status, octets in rows:
        expect(what, post(setup.peers_port, octets), response(status))
    for what, octets in [("no octet at all", b""), ("cut in the head", long_head(100)),
                         ("cut in the body", packet_request(program, body)[:-1])]:
        expect(what, post(setup.peers_port, octets, half_closed=True), response(400))
    expect("what bob was handed", laboratory.bob.received, [])
    close(program)


@case
def statuses_for_engines(laboratory: Laboratory) -> None:
    """Each status of the side of the engines but 503 and 502."""
    program = laboratory.serve(FULFILLS, engine_of(), levels=False)
    setup = program.setup
    target, key, body = "/accounts/bob/settlements", f"Idempotency-Key: {setup.key}", quantity(5, 2)
    rows = [
        ("GET", 405, request(target, key, body=body, line=f"GET {target} HTTP/1.1")),
        ("no length", 411, request(target, key, length=[])),
        ("65,537 octets", 413, request(target, key, length=["Content-Length: 65537"])),
        ("no key", 400, request(target, body=body)),
        ("two keys", 400, request(target, key, key, body=body)),
        ("an empty key", 400, request(target, "Idempotency-Key:", body=body)),
        ("a key of 129 octets", 400, request(target, "Idempotency-Key: " + "k" * 129, body=body)),
        ("no JSON", 400, request(target, key, body=b"hello")),
        ("a fraction", 400, request(target, key, body=b'{"amount":5.0,"scale":2}')),
        ("a scale of 256", 400, request(target, key, body=quantity(5, 256))),
        ("too large", 400, request(target, key, body=quantity(2**64, 2))),
        ("an unknown name", 404, request("/accounts/carol/settlements", key, body=body)),
        ("a query", 404, request(target + "?x=1", key, body=body)),
        ("another report", 404, request("/report/")),
        ("/ilp", 404, request("/ilp", bearer(setup.token), body=soon())),
        ("/accounts", 404, request("/accounts", body=b'{"id":"bob"}')),
        ("16,384 octets and no head", 431, long_head(16_384)),
    ]
    for what, status, octets in rows:
        expect(what, post(setup.engines_port, octets), response(status))
    for what, text in [("a key of 128 octets", "k" * 128), ("a key with a space", "a key"),
                       ("a key with an octet above 126", "cl\xe9")]:
        expect(what, credit(program, 5, key=text), created(quantity(5, 2)))
    nines = request("/accounts/alice/settlements", key, body=quantity(1_999_999_999, 9))
    for _ in range(2):
        expect("199.9999999 cents", post(setup.engines_port, nines), created(quantity(199, 2)))
    expect("octets after a request", post(setup.engines_port, nines + b"POST /close HTTP/1.1\r\n"),
           created(quantity(199, 2)))
    close(program, alice=199, bob=15)


@case
def full_journal(laboratory: Laboratory) -> None:
    """A journal without room is 503 to an engine and a Reject to a peer; a kept key is answered."""
    program = laboratory.serve(FULFILLS, engine_of(), levels=False, journal=2)
    expect("a credit", credit(program, 1, key="one"), created(quantity(1, 2)))
    expect("the last", credit(program, 2, key="two"), created(quantity(2, 2)))
    expect("one too many", credit(program, 3, key="three"), response(503))
    expect("a kept one", credit(program, 1, key="one"), created(quantity(1, 2)))
    busy = reject(b"T03", b"test.hub", b"connector busy")
    expect_packet("a packet", program, soon(), busy)
    close(program, bob=3)


# ---- packets that end otherwise

@case
def replies_of_a_peer(laboratory: Laboratory) -> None:
    """What a peer answers by 200 is passed on, or refused by the condition."""
    rows = [("a Reject", F99, F99, 0), ("the longest Fulfill", LONGEST, LONGEST, 50),
            ("another preimage", fulfill(ONES), F05, 0)]
    for what, comes, reply, moved in rows:
        program = laboratory.serve(answers_packet(comes))
        expect_packet(what, program, soon(), reply)
        close(program, alice=-moved, bob=moved)


@case
def refused_packets(laboratory: Laboratory) -> None:
    """Packets that no peer is asked for."""
    program = laboratory.serve(FULFILLS)
    short = reject(b"R02", b"test.hub", b"insufficient timeout")
    rows = [("no route", soon(destination=b"test.carol"), F02),
            ("back to the sender", soon(destination=b"test.alice"), F02),
            ("expired", soon(milliseconds=-1000), R00),
            ("within the window", soon(milliseconds=700), short)]
    for what, octets, reply in rows:
        expect_packet(what, program, octets, reply)
    expect("what bob was handed", laboratory.bob.received, [])
    close(program)


# ---- messages of engines

def expect_handed_message(program: Program, got: bytes, since: int) -> None:
    """A peer is handed the message, in a Prepare that expires after the longest hold."""
    setup = program.setup
    # Behind the head: the type, a length of one octet and the amount.
    digits = got.partition(b"\r\n\r\n")[2][10:27]
    expect_that(f"no digits of an expiry: {digits!r}", len(digits) == 17 and digits.isdigit())
    expires = moment_of(digits)
    expect_within("the milliseconds up to the expiry", expires - since, 30_000, 33_000)
    wanted = sent("/ilp", setup.bob, OCTETS, packet(0, expires, MESSAGE, b"peer.settle"),
                  bearer(setup.to_bob))
    expect("what bob was handed", got, wanted)


@case
def message_to_a_peer(laboratory: Laboratory) -> None:
    """A message of the engine here goes to the peer, and its answer comes back."""
    program = laboratory.serve(answers_packet(fulfill(data=ANSWER)), engine_of(), levels=False)
    port = program.setup.engines_port
    since = now()
    told = post(port, request("/accounts/bob/messages", body=MESSAGE))
    expect("the answer of bob's engine", told, response(201, ANSWER))
    expect_handed_message(program, laboratory.bob.received[0].octets, since)
    rows = [("a message that is too long", "bob", bytes(32_768), 502),
            ("a message to a peer who isn't there", "alice", MESSAGE, 502),
            ("a message to nobody", "carol", MESSAGE, 404)]
    for what, name, body, status in rows:
        told = post(port, request(f"/accounts/{name}/messages", body=body))
        expect(what, told, response(status))
    expect("what bob was handed", len(laboratory.bob.received), 1)
    close(program)


@case
def message_from_a_peer(laboratory: Laboratory) -> None:
    """A message of a peer's engine goes to the engine here, and its answer back."""
    program = laboratory.serve(FULFILLS, engine_of(message=answers(response(200, ANSWER))),
                               levels=False)
    setup = program.setup

    def told(token: str, amount: int = 0) -> bytes:
        body = soon(amount, MESSAGE, b"peer.settle")
        return post(setup.peers_port, request("/ilp", bearer(token), body=body))

    expect("bob's message", told(setup.bob_token), response(200, fulfill(data=ANSWER)))
    expect("alice's, who has no engine", told(setup.token), response(200, F02))
    expect("an amount", told(setup.bob_token, 1), response(200, F03))
    target = "/accounts/bob/messages"
    expect("what the engine was handed", [one.octets for one in laboratory.engine.of(target)],
           [sent(target, laboratory.engine.port, OCTETS, MESSAGE)])
    expect("what bob was handed", laboratory.bob.received, [])
    close(program)


@case
def message_without_an_answer(laboratory: Laboratory) -> None:
    """An engine that says nothing of a message, or refuses it, is T01 to the peer."""
    long = response(200, bytes(32_768))
    for what, behaviour in [("closes", closes), ("500", answers(b"HTTP/1.1 500 No\r\n\r\n")),
                            ("too long an answer", answers(long))]:
        program = laboratory.serve(FULFILLS, engine_of(message=behaviour), levels=False)
        setup = program.setup
        body = soon(0, MESSAGE, b"peer.settle")
        told = post(setup.peers_port, request("/ilp", bearer(setup.bob_token), body=body))
        expect(what, told, response(200, T01))
        expect_served(program)
        close(program)


@case
def message_to_a_silent_engine(laboratory: Laboratory) -> None:
    """An engine that never answers a message is T01, by the time of the longest hold at most."""
    program = laboratory.serve(FULFILLS, engine_of(message=never_answers), levels=False, workers=3)
    setup = program.setup
    body = soon(0, MESSAGE, b"peer.settle", milliseconds=3000)
    with ThreadPoolExecutor(1) as pool:
        told = pool.submit(post, setup.peers_port,
                           request("/ilp", bearer(setup.bob_token), body=body), 32.0)
        laboratory.engine.await_count("/accounts/bob/messages", 1)
        expect_served(program)
        expect("bob's message", told.result(), response(200, T01))
    program.await_told(f"warn engine of bob at {HERE}:{setup.engine}: no answer in time")
    close(program)
