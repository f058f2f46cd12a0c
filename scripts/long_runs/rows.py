"""Rows worked out by hand from the rules, on which the model is tried before it is believed."""
from collections.abc import Callable
from dataclasses import replace

from cases.messages import response
from connections import JSON

from long_runs.books import Refused, quote
from long_runs.configurations import Asset, Configuration, Peer
from long_runs.exchanges import Model
from long_runs.outside import Seen
from long_runs.packets import (Faulty, Fulfill, expiry_digits, prefix, read_expiry, read_packet, read_string)
from long_runs.quantities import BadQuantity, Quantity, credited, read_correction, read_quantity, written
from long_runs.scripts import Script

T = 1_735_689_600_000  # 2025-01-01T00:00:00Z
BEGIN = "0c43"
AFTER = ("323032353031303130303030333030303066687aadf862bd776c8fc18b8e9f8e20089714856ee233b3902a591d0d5f2925"
         "08746573742e626f6200")
F1 = "0d21" + "00" * 33
MOST = 18_446_744_073_709_551_615


def p(amount: int, name: str = "bob") -> str:
    """A Prepare to bob, or to alice, of this amount, which expires 30 seconds after T."""
    if name == "alice":
        after = AFTER.replace("08746573742e626f62", "0a746573742e616c696365")
        return f"0c45{amount:016x}{after}"
    return f"{BEGIN}{amount:016x}{AFTER}"


P1 = "0c430000000000000064" + AFTER
ALICE = Peer("alice", 0, "a-token", "to-alice", "127.0.0.1:7001", least=-100)
BOB = Peer("bob", 0, "b-token", "to-bob", "127.0.0.1:7002", least=-100, engine="127.0.0.1:7003",
           threshold=1_000, settle_to=200)
BUILT_IN = Configuration("test.hub", "r1", (Asset("USD", 2),), (ALICE, BOB),
                         routes={"test.alice": 0, "test.bob": 1})


def report(*numbers: int) -> str:
    labels = ["balance   alice", "balance   bob", "open      alice", "open      bob",
              *(f"{label:<10}USD/2" for label in ("held", "fees", "bought", "sold", "settled")),
              "entries", "fulfilled"]
    return "\n".join(f"{label:<30}{number:>30}" for label, number in zip(labels, numbers, strict=True))


CREDIT = '{"amount":"1999999999","scale":9}'
GREATEST = '{"amount":"18446744073709551615","scale":2}'

# Scripts over the built-in configuration, and what is printed of them.
SCRIPTS: list[tuple[list[str], list[str]]] = [
    ([f"hold {T} alice {P1}", f"answer {T + 500} 0 {F1}", "report"],
     ["held 0 to bob out 100", "entry 1 fulfilled 0", report(-100, 100, 0, 0, 0, 0, 100, 100, 0, 2, 1)]),
    ([f"hold {T} alice {p(0)}", f"answer {T} 0 {F1}", "report"],
     ["held 0 to bob out 0", "entry 1 fulfilled 0", report(0, 0, 0, 0, 0, 0, 0, 0, 0, 2, 1)]),
    ([f"hold {T} alice {P1}", f"hold {T} alice {p(1)}"],
     ["held 0 to bob out 100", "reject T04 BelowLeast -100"]),
    ([f"hold {T} alice {P1}", f"answer {T + 28_999} 0 {F1}"],
     ["held 0 to bob out 100", "entry 1 fulfilled 0"]),
    ([f"hold {T} alice {P1}", f"answer {T + 29_000} 0 {F1}"],
     ["held 0 to bob out 100", "entry 1 released 0 Late"]),
    ([f"hold {T} alice {P1}", f"expire {T + 28_999}", f"expire {T + 29_000}",
      f"answer {T + 29_000} 0 {F1}"],
     ["held 0 to bob out 100", "none due", "entry 1 released 0 Late", "not open 0 by 1"]),
    ([f"credit {T} alice k {CREDIT}", f"credit {T} alice k {CREDIT}",
      f'credit {T} alice k {{"amount":5,"scale":2}}'],
     ["entry 0 credited 199", "kept 0 credited 199", "refused 46 KeyTaken 0"]),
    ([f'credit {T} bob k {{"amount":"1000","scale":2}}', f"ask {T} bob", f"ask {T} bob",
      f"close {T} 1 no", f"close {T} 1 yes", f"ask {T} alice", "report"],
     ["entry 0 credited 1000", "entry 1 asked 800", "refused 47 NotDue 200", "entry 2 undone 1",
      "not open 1 by 2", "refused 47 NotDue 0", report(0, 1_000, 0, 0, 0, 0, 0, 0, 1_000, 3, 0)]),
    ([f"credit {T} alice k {GREATEST}", f"hold {T} alice {p(MOST)}", f"hold {T} alice {p(1)}"],
     [f"entry 0 credited {MOST}", f"held 1 to bob out {MOST}", "reject T04 TotalFull"]),
    ([f"hold {T} bob {P1}", f"hold {T + 30_000} alice {P1}", f"hold {T} alice {P1}"],
     ["reject F02 BackToSender", "reject R00 Expired", "held 0 to bob out 100"]),
    ([f"hold {T + 29_000} alice {P1}", f"hold {T + 28_999} alice {P1}", f"expire {T}"],
     ["reject R02 TooShort", "held 0 to bob out 100", "none due"]),
    ([f"hold {T} alice {P1}", f"answer {T} 0 0d21{'01' * 32}00", f"answer {T} 0 none", f"answer {T} 7 none",
      f"hold {T} alice {P1}", f"answer {T} 2 0e06463939000000", f"hold {T} alice {P1}", f"answer {T} 4 {P1}"],
     ["held 0 to bob out 100", "entry 1 released 0 WrongPreimage", "not open 0 by 1", "not open 7",
      "held 2 to bob out 100", "entry 3 released 2 Peer 463939", "held 4 to bob out 100",
      "entry 5 released 4 NoReply"]),
    (["", "# x", "report ", f"hold {T} nobody {P1}", f"hold {T} alice 0f00", f"hold {T} alice {F1}",
      f"hold {T} alice 0c", f"credit {T} alice k []", f"expire 1{'0' * 15}"],
     ["bad line", "bad line", "bad packet 4 UnknownType", "bad packet 10 NotPrepare",
      "bad packet 1 Truncated", "refused 31 NotJson", "bad line"])]

SHORT_JOURNAL = (
    [f"hold {T} alice {p(1)}"] * 3 + [f"answer {T} 0 {F1}", f"answer {T} 1 {F1}",
                                      f'credit {T} bob k {{"amount":"1","scale":2}}'],
    ["held 0 to bob out 1", "held 1 to bob out 1", "reject T03 Full", "entry 2 fulfilled 0",
     "entry 3 fulfilled 1", "refused 41 Full"])


class Wrong(Exception):
    """The model differs from a row."""


def expect(what: str, got: object, wanted: object) -> None:
    if got != wanted:
        raise Wrong(f"{what}: {got!r}, and not {wanted!r}")


def fault_of(call: Callable[[bytes], object], octets: bytes) -> int | None:
    """The fault that a reader finds."""
    try:
        call(octets)
    except Faulty as faulty:
        return faulty.number
    return None


def check_script(configuration: Configuration, lines: list[str], wanted: list[str]) -> None:
    script = Script(configuration)
    told = "".join(script.run(line.encode()) for line in lines)
    expect("\n".join(lines), told, "".join(f"{line}\n" for line in wanted))


def check_scripts() -> None:
    for lines, wanted in SCRIPTS:
        check_script(BUILT_IN, lines, wanted)
    check_script(replace(BUILT_IN, journal=4), *SHORT_JOURNAL)
    dear = replace(BUILT_IN, peers=(replace(ALICE, fee_ppm=1), BOB))
    check_script(dear, [f"hold {T} alice {p(1)}"], ["reject R01 RoundsToNothing"])
    small = replace(BUILT_IN, peers=(replace(ALICE, max_packet=10), BOB))
    check_script(small, [f"hold {T} alice {P1}"], ["reject F08 AmountTooLarge 10"])
    parted = replace(BUILT_IN, peers=(ALICE, replace(BOB, settle_max=300)))
    check_script(parted, [f'credit {T} bob k {{"amount":"2000","scale":2}}', *[f"ask {T} bob"] * 5,
                          f"close {T} 2 yes", f"ask {T} bob", f"close {T} 3 no", f"ask {T} bob"],
                 ["entry 0 credited 2000", "entry 1 asked 300", "entry 2 asked 300", "entry 3 asked 300",
                  "entry 4 asked 300", "refused 48 StillOpen 1 300", "entry 5 confirmed 2",
                  "refused 47 NotDue 800", "entry 6 undone 3", "entry 7 asked 300"])
    half = 2**63 - 1
    deep = replace(BUILT_IN, peers=(replace(ALICE, least=-2**63), replace(BOB, least=-2**63)))
    check_script(deep, [f"hold {T} alice {p(half)}", f"hold {T} bob {p(half, 'alice')}",
                        f"hold {T} alice {p(1)}", f"hold {T} bob {p(1, 'alice')}"],
                 [f"held 0 to bob out {half}", f"held 1 to alice out {half}", "held 2 to bob out 1",
                  "reject T04 TotalFull"])


def quoted(ppm: int, amount: int, scales: tuple[int, int] | None = None, price: tuple[int, int] = (1, 1),
           back: bool = False) -> tuple[int, int, int] | str:
    """The quote of an amount within one asset, or from one scale to another, or of the pair reversed."""
    one = replace(BUILT_IN, peers=(replace(ALICE, fee_ppm=ppm), BOB))
    if scales is not None:
        one = replace(one, assets=(Asset("USD", scales[0]), Asset("XRP", scales[1])), prices={(0, 1): price},
                      peers=(one.peers[0], replace(BOB, asset=1)))
    try:
        made = quote(one, *((1, 0) if back else (0, 1)), amount)
    except Refused as refused:
        return refused.name
    return made.fee, made.net, made.out


def check_quotes() -> None:
    expect("2 to 9", quoted(10_000, 1_001, (2, 9), (2, 7)), (11, 990, 2_828_571_428))
    expect("the reversed pair", quoted(10_000, 1_001, (2, 9), (2, 7), back=True), "NoPrice")
    expect("a small fee", quoted(1, 1_000_001), (2, 999_999, 999_999))
    expect("a fee of all", quoted(1, 1), "RoundsToNothing")
    expect("a fee of all of the most", quoted(1_000_000, MOST), "RoundsToNothing")
    expect("to a finer scale", quoted(0, MOST, (2, 9)), "OutTooLarge")
    expect("to a coarser scale", quoted(0, 9_999_999, (9, 2)), "RoundsToNothing")
    expect("one more to a coarser scale", quoted(0, 10_000_000, (9, 2)), (0, 10_000_000, 1))
    expect("nothing", quoted(1_000_000, 0), (0, 0, 0))


def read_as(text: str) -> tuple[int, int] | int:
    """A quantity's amount and scale, or its fault."""
    try:
        quantity = read_quantity(text.encode())
    except BadQuantity as bad:
        return bad.number
    return quantity.amount, quantity.scale


def check_quantities() -> None:
    for text, wanted in (("[]", 31), ("", 31), ('{"amount":1,"scale":2,}', 31),
                         ('{"amount":NaN,"scale":3}', 31),
                         ('{"amount":"","scale":2}', 32), ('{"scale":256,"amount":-1}', 32),
                         ('{"amount":5.0,"scale":2}', 32), ('{"amount":-0,"scale":2}', 32),
                         ('{"amount":18446744073709551616,"scale":2}', 32), ('{"amount":"1"}', 33),
                         ('{"amount":"1","scale":"2"}', 33), ('{"amount":"1","scale":256}', 33),
                         ('{"amount":"007","scale":0}', (7, 0)),
                         ('{"amount":1,"amount":2,"scale":3}', (2, 3)),
                         (r'{"\u0061mount":"\u0031","scale":3}', (1, 3)),
                         ('{"amount":18446744073709551615,"scale":2}', (MOST, 2))):
        expect(text, read_as(text), wanted)
    expect("nothing", credited(Quantity(0, 0), 255), 0)
    expect("rounded down", credited(Quantity(1_999_999_999, 9), 2), 199)
    expect("38 digits", credited(Quantity(10**38 - 1, 38), 19), 9_999_999_999_999_999_999)
    expect("written", written(199, 2), b'{"amount":"199","scale":2}')
    try:
        credited(Quantity(1, 0), 20)
    except BadQuantity as bad:
        expect("1 at scale 20", bad.number, 34)
    else:
        raise Wrong("1 at scale 20 is credited")


def check_packets() -> None:
    whole = bytes.fromhex(P1)
    expect("a Prepare written again", read_packet(whole).octets(), whole)
    expect("a Fulfill", read_packet(bytes.fromhex(F1)), Fulfill(bytes(32)))
    for size in range(len(whole)):
        expect(f"a front of {size}", fault_of(read_packet, whole[:size]), 1)
    for octets, fault in (("8105", 2), ("80", 2), ("83", 3), ("81", 1), ("820100", 1), ("8200ff", 2)):
        expect(octets, fault_of(read_string, bytes.fromhex(octets)), fault)
    expect("one more", fault_of(read_packet, whole + b"\0"), 5)
    expect("another type", fault_of(read_packet, b"\x0f\0"), 4)
    for size, begin in ((127, "7f"), (128, "8180"), (255, "81ff"), (256, "820100"), (65_535, "82ffff")):
        expect(f"the prefix of {size}", prefix(size).hex(), begin)


def check_expiries() -> None:
    for digits, moment in ((b"20240229000000000", 1_709_164_800_000), (b"20250101000000000", T),
                           (b"00000101000000000", -62_167_219_200_000), (b"19700101000000000", 0),
                           (b"99991231235959999", 253_402_300_799_999)):
        expect(digits.decode(), read_expiry(digits), moment)
        expect(str(moment), expiry_digits(moment), digits)
    for digits in (b"20230229000000000", b"20240229000060000"):
        expect(digits.decode(), fault_of(read_expiry, digits), 6)


def check_routes() -> None:
    for address, peer in ((b"test.bob", 1), (b"test.bob.x", 1), (b"test.bobby", None), (b"peer.bob", None)):
        expect(address.decode(), BUILT_IN.route(address), peer)
    nested = replace(BUILT_IN, routes={"": 0, "test": 1, "test.a": 0, "test.a.b": 1})
    for address, peer in ((b"g.x", 0), (b"test.x", 1), (b"test.a.c", 0), (b"test.a.b.c", 1), (b"test.ab", 1),
                          (b"test1.a", 0), (b"peer.settle", None)):
        expect(address.decode(), nested.route(address), peer)


def answer_to(configuration: Configuration, octets: bytes, at_peers: bool = True) -> bytes:
    """What the model answers at T, which is to be one thing. Bob's server fulfills with zeros what has
    no data, and his engine says what it is told backwards."""
    model = Model(configuration, frozenset(["bob"]), Seen())
    outcomes = model.outcomes(at_peers, octets, T, True)
    expect("the number of outcomes", len(outcomes), 1)
    return outcomes[0].octets


def asked(body: bytes, line: str = "POST /ilp HTTP/1.1", token: str = "a-token",
          length: str | None = "") -> bytes:
    """A request of a peer; without a length that of the body is told."""
    lines = [line, "Host: h", f"Authorization: Bearer {token}"]
    if length is not None:
        lines.append(f"Content-Length: {length or len(body)}")
    return "\r\n".join([*lines, "", ""]).encode() + body


def told(line: str, body: str, *fields: str) -> bytes:
    """A response, whose body is in hexadecimal."""
    octets = bytes.fromhex(body)
    lines = [f"HTTP/1.1 {line}", *fields]
    if octets:
        lines.append("Content-Type: application/octet-stream")
    lines += [f"Content-Length: {len(octets)}", "Connection: close", "", ""]
    return "\r\n".join(lines).encode() + octets


def message(token: str) -> bytes:
    """A peer's message for its engine: `hi`."""
    content = bytes(8) + bytes.fromhex(AFTER)[:49] + b"\x0bpeer.settle\x02hi"
    return asked(b"\x0c" + bytes([len(content)]) + content, token=token)


def check_answers() -> None:
    whole = bytes.fromhex(P1)
    ones = whole[:27] + b"\1" * 32 + whole[59:]
    small = replace(BUILT_IN, peers=(replace(ALICE, max_packet=10), BOB))
    f08 = ("0e2e46303808746573742e68756210616d6f756e7420746f6f206c61726765100000000000000064"
           "000000000000000a")
    f02 = "0e1946303208746573742e6875620b756e726561636861626c6500"
    wanted = [
        (BUILT_IN, asked(whole), told("200 OK", F1)),
        (BUILT_IN, asked(ones), told(
            "200 OK", "0e1d46303508746573742e6875620f77726f6e6720636f6e646974696f6e00")),
        (small, asked(whole), told("200 OK", f08)),
        (BUILT_IN, asked(whole, "GET /ilp HTTP/1.1"), told("405 Method Not Allowed", "", "Allow: POST")),
        (BUILT_IN, asked(whole, length=None), told("411 Length Required", "")),
        (BUILT_IN, asked(whole, length="65537"), told("413 Content Too Large", "")),
        (BUILT_IN, asked(whole, token="x"), told("401 Unauthorized", "", "WWW-Authenticate: Bearer")),
        (BUILT_IN, asked(b"\x0c"), told("400 Bad Request", "")),
        (BUILT_IN, asked(whole)[:-1], told("400 Bad Request", "")),
        (BUILT_IN, asked(whole, "POST /x HTTP/1.1"), told("404 Not Found", "")),
        (BUILT_IN, b"A" * 16_384, told("431 Request Header Fields Too Large", "")),
        (BUILT_IN, b"A" * 16_383, told("400 Bad Request", "")),
        (BUILT_IN, message("b-token"), told("200 OK", "0d23" + "00" * 32 + "026968")),
        (BUILT_IN, message("a-token"), told("200 OK", f02))]
    for configuration, octets, answer in wanted:
        expect(repr(octets[:200]), answer_to(configuration, octets), answer)
    for body, answer in (('{"amount":"-1009","scale":3,"reason":"x"}', (201, '{"amount":"-100","scale":2}')),
                         ('{"amount":"7","scale":2,"reason":"x"}', (201, '{"amount":"7","scale":2}')),
                         ('{"amount":"-0","scale":2,"reason":"x"}', (201, '{"amount":"0","scale":2}')),
                         ('{"amount":"-101","scale":2,"reason":"x"}',
                          (403, '{"balance":"0","least":"-100","scale":2}')),
                         ('{"amount":"-101","scale":2}', (400, "")),
                         ('{"amount":"-' + "9" * 38 + '","scale":2,"reason":"x"}', (400, ""))):
        octets = correction(body)
        expect(body, answer_to(BUILT_IN, octets, at_peers=False), response(answer[0], answer[1].encode(), JSON))


def check_corrections() -> None:
    for text, wanted in (("[]", 31), ("", 31), ('{"reason":""}', 32), ('{"amount":-5,"scale":2,"reason":"x"}', 32),
                         ('{"amount":"--5","scale":2,"reason":"x"}', 32), ('{"amount":"-","scale":2,"reason":"x"}', 32),
                         ('{"amount":"-5","scale":256,"reason":""}', 33), ('{"amount":"-5","scale":2}', 0),
                         ('{"amount":"-5","scale":2,"reason":""}', 0), ('{"amount":"-5","scale":2,"reason":7}', 0),
                         ('{"amount":"-5","scale":2,"reason":"' + "r" * 129 + '"}', 0),
                         (r'{"amount":"-5","scale":2,"reason":"a\nb"}', 0),
                         (r'{"amount":"-5","scale":2,"reason":"\u007f"}', 0),
                         ('{"amount":"-05","scale":2,"reason":"' + "r" * 128 + '"}', (5, 2, True, 128)),
                         (r'{"amount":"5","scale":2,"reason":"\u00e4\u0080"}', (5, 2, False, 4))):
        try:
            read = read_correction(text.encode())
            got = read.quantity.amount, read.quantity.scale, read.lowers, len(read.reason)
        except BadQuantity as bad:
            got = bad.number
        expect(text, got, wanted)


def correction(body: str) -> bytes:
    """A correction of bob's balance."""
    return (f"POST /accounts/bob/corrections HTTP/1.1\r\nHost: h\r\nIdempotency-Key: k\r\n"
            f"Content-Length: {len(body)}\r\n\r\n{body}").encode()


def check_rows() -> None:
    """Raises Wrong at the first row from which the model differs."""
    check_scripts()
    check_quotes()
    check_quantities()
    check_corrections()
    check_packets()
    check_expiries()
    check_routes()
    check_answers()
