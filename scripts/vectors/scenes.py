#!/usr/bin/env python3
"""Scenes of workers that forward packets, made from the standards and the rules alone.

Packets are those of RFC 0027 over the octet strings of RFC 0030; what comes of them is by
docs/PROTOCOL.md and the rules of a worker. With the argument `scenes` it prints
crates/test_scenes/data/workers.txt, in which `<N DIGITS>` stands for N times the digits, and with
`lines` what the program is to print of them: the first part of crates/test_scenes/stdout, to which
connections.py makes the second. It shares nothing with the crates.
"""
import sys

from packets import CONDITION, ZEROS, reject, string

START = 1_735_689_600_000  # 2025-01-01T00:00:00Z
DEADLINE = START + 29_000  # of the hold of a Prepare that expires 30 seconds after the start
ALICE, BOB = 0, 1
EXPIRES, HANDED = b"20250101000030000", b"20250101000029000"


def prepare(amount=100, expires=EXPIRES, condition=CONDITION, destination=b"test.bob"):
    content = amount.to_bytes(8, "big") + expires + condition + string(destination) + string(b"")
    return b"\x0c" + string(content)


def fulfill(preimage=ZEROS, data=b""):
    return b"\x0d" + string(preimage + string(data))


def own_reject(code, message, data=b""):
    """A Reject of the connector's own."""
    return reject(code, b"test.hub", message, data)


FULFILL = fulfill()
LONGEST = fulfill(data=b"\x5a" * 32_767)
F99 = reject(b"F99")
T00 = own_reject(b"T00", b"internal error")
T01 = own_reject(b"T01", b"peer unreachable")
R00 = own_reject(b"R00", b"timed out")


# ---- what is printed

def listed(octets):
    return "[" + ", ".join(map(str, octets)) + "]"


def answer(octets):
    if len(octets) <= 128:
        return f"answer: {octets.hex()}"
    return f"answer: {len(octets)} octets, those of bob: true"


def cause(code):
    return f"Peer({listed(code)})"


def receipt(*numbers):
    hold, answer = ([f"Some({n})" for n in numbers] + ["None", "None"])[:2]
    return f"Receipt {{ hold: {hold}, answer: {answer} }}"


def verdict(why):
    return "Fulfilled" if why is None else f"Released({why})"


def answered(number, hold, why=None, amount=100, condition=CONDITION):
    """The record of an entry that answers a hold: it is fulfilled, or released for this cause."""
    return (f"Record {{ number: {number}, what: Answered(AnsweredHold {{ hold: {hold}, from: 0, to: 1, "
            f"amount: {amount}, out: {amount}, condition: {listed(condition)}, "
            f"verdict: {verdict(why)} }}) }}")


def held(number, actor=0, amount=100, condition=CONDITION, at=START):
    return [f"entry {number} of {actor} at {at}",
            f"Hold {{ from: 0, to: 1, amount: {amount}, fee: 0, out: {amount}, "
            f"deadline: {DEADLINE}, condition: {listed(condition)} }}"]


def closed(number, hold, why=None, actor=0, at=START):
    what = f"fulfilled {hold} by {listed(ZEROS)}" if why is None else f"released {hold}: {why}"
    return [f"entry {number} of {actor} at {at}", what]


def balances(amount):
    return [f"balances {-amount} {amount}"]


def column(label, name, number):
    """A line of the report, without its end."""
    return f"{label:<10}{name:<20}{number:>30}"


def report_lines(alice, bob, paid, credited, entries, fulfilled):
    """The report, where alice paid bob so much in all, and no fee is taken, and no hold is open."""
    sums = {"held": 0, "fees": 0, "bought": paid, "sold": paid, "settled": credited}
    lines = [column("balance", "alice", alice), column("balance", "bob", bob),
             column("open", "alice", 0), column("open", "bob", 0)]
    lines += [column(label, "USD/2", number) for label, number in sums.items()]
    return lines + [column("entries", "", entries), column("fulfilled", "", fulfilled)]


def shown(text):
    """The lines of a head or of a report, in quotes and with their ends."""
    lines = text.replace("\n", "\n\0").split("\0")
    return ['"' + line.replace("\r", r"\r").replace("\n", r"\n") + '"' for line in lines if line]


def totals(entries, fulfilled=0, amount=0, credited=0, confirmed=0, undone=0):
    """What the ends add up to and the book has, where no fee is taken."""
    numbers = (f"entries: {entries}, fulfilled: {fulfilled}, paid: {amount}, got: {amount}, "
               f"credited: {credited}, confirmed: {confirmed}, undone: {undone}")
    return [f"{whose}: Totals {{ {numbers} }}" for whose in ("ends", "book")]


def actor(number, entries, *records):
    return [f"actor {number}: {entries} entries", *records]


def asked(packet):
    return [f"peer 1 is handed, up to {DEADLINE}:", f"packet: {packet.hex()}"]


def clock(*moments):
    return [f"the clock tells {m}" for m in moments]


# ---- the scenes: a name, what goes in, and what is printed

def scene(name, told, act="forward", over="two_peers.toml", **given):
    lines = [f"act {act}", f"over {over}"]
    lines += [f"{word} {value if isinstance(value, str) else value.hex()}"
              for word, value in given.items() if value is not None]
    return name, lines, told


def forward(name, reply, amount=100, condition=CONDITION, came=FULFILL, row=None, later=START,
            why=None, over="two_peers.toml"):
    """A packet that is held, handed to bob, and ends as `why` says."""
    packet = prepare(amount, condition=condition)
    told = clock(START) + asked(prepare(amount, HANDED, condition)) + clock(later)
    kept = [] if why == "Late" else [answered(1, 0, why, amount, condition)]
    told += [receipt(0, 1), answer(reply)] + actor(0, 2, *kept)
    told += held(0, amount=amount, condition=condition) + closed(1, 0, why, at=later)
    told += balances(amount if why is None else 0)
    return scene(name, told, over=over, clock=f"{START} {later}", alice=packet,
                 bob=row if row is not None else came)


def refused(name, reply, packet, over="two_peers.toml"):
    """A packet that the book refuses: nobody is asked, and nothing is booked."""
    told = clock(START) + [receipt(), answer(reply)] + actor(0, 0) + balances(0)
    return scene(name, told, over=over, clock=f"{START} {START}", alice=packet, bob=FULFILL)


def no_prepare(name, why, packet):
    """Octets that are no Prepare: nobody is asked, not even a clock."""
    told = [f"refused: {why}", answer(b"")] + actor(0, 0) + balances(0)
    return scene(name, told, clock=f"{START} {START}", alice=packet, bob=FULFILL)


ONES = bytes([1] * 32)
FORWARDS = [
    forward("fulfilled", FULFILL),
    forward("fulfilled one millisecond before the deadline", FULFILL, later=DEADLINE - 1),
    forward("fulfilled at the deadline", R00, later=DEADLINE, why="Late"),
    forward("another condition", own_reject(b"F05", b"wrong condition"), condition=ONES,
            why="WrongPreimage"),
    forward("rejected", F99, came=F99, later=START + 5, why=cause(b"F99")),
    forward("no packet in reply", T01, came=bytes.fromhex("0d2100"), why="NoReply"),
    forward("no octet in reply", T01, row="<0 00>", why="NoReply"),
    forward("a Prepare in reply", T01, came=prepare(), why="NoReply"),
    forward("no reply", T01, came=None, why="NoReply"),
    forward("the longest Fulfill", LONGEST,
            row=LONGEST[:4].hex() + "<32 00>" + LONGEST[36:39].hex() + "<32767 5a>"),
    forward("the greatest amount that a balance has room for", FULFILL, amount=2**63 - 1,
            over="deep_credit.toml"),
    refused("to an address of the scheme peer", own_reject(b"F02", b"unreachable"),
            prepare(destination=b"peer.config")),
    refused("too large an amount",
            own_reject(b"F08", b"amount too large",
                       (100).to_bytes(8, "big") + (10).to_bytes(8, "big")),
            prepare(), over="small_packets.toml"),
    no_prepare("a part of a packet", "octets are missing", bytes.fromhex("0c")),
    no_prepare("a Fulfill of alice", "the packet is no Prepare", FULFILL),
    no_prepare("a Reject of alice", "the packet is no Prepare", F99),
]

SWEPT = scene(
    "swept while bob is asked",
    clock(DEADLINE - 1) + ["swept: None"] + clock(DEADLINE) + ["swept: Some(0)"]
    + clock(DEADLINE) + ["swept: None"] + actor(1, 1)
    + [receipt(0), answer(R00)] + actor(0, 1)
    + held(0) + closed(1, 0, "Late", actor=1, at=DEADLINE) + balances(0),
    act="sweep", clock=f"{DEADLINE - 1} {DEADLINE}", alice=prepare(), bob=FULFILL)


def denied():
    """Each growth denied: room for a Reject, for a record, for the packet, and for the reply."""
    told = ["no worker, and all as given: true", "asked: 0", "denied: true"]
    for number in (1, 2):
        told += [receipt(), answer(T00)] + actor(number, 0)
        told += ["asked: 0", "denied: true"]
    told += [receipt(0, 1), answer(T01)] + actor(3, 2, answered(1, 0, "NoReply"))
    told += ["asked: 1", "denied: true"]
    told += [receipt(2, 3), answer(FULFILL)] + actor(4, 2, answered(3, 2))
    told += ["asked: 1", "denied: false"]
    told += held(0, 3) + closed(1, 0, "NoReply", actor=3)
    return told + held(2, 4) + closed(3, 2, actor=4) + balances(100)


def forwarded(hold, answer):
    """What one of two workers comes to."""
    return (f"Some(Forwarded {{ receipt: Some({receipt(hold, answer)}), passed: true, entries: 2, "
            f"records: 1, record: Some({answered(answer, hold, amount=50)}) }})")


def beside(hold, answer):
    """What a worker comes to that forwards once the other thread has begun."""
    return f"Beside {{ begun: true, asked: 1, forwarded: {forwarded(hold, answer)} }}"


TWO = scene(
    "two at once",
    [f"first {forwarded(0, 3)}", f"second {beside(1, 2)}"]
    + held(0, amount=50) + held(1, 1, amount=50) + closed(2, 1, actor=1) + closed(3, 0)
    + balances(100) + report_lines(-100, 100, 100, 0, entries=4, fulfilled=2) + totals(4, 2, 100),
    act="two", workers="2", alice=prepare(50), other=prepare(50, HANDED), bob=FULFILL)


def unlocked():
    """The report of a book without entries, while the other worker forwards a packet."""
    body = "".join(line + "\n" for line in report_lines(0, 0, 0, 0, entries=0, fulfilled=0))
    head = ["HTTP/1.1 200 OK", "Content-Type: text/plain", f"Content-Length: {len(body)}",
            "Connection: close", ""]
    response = "".join(line + "\r\n" for line in head) + body
    return (["Done(Ok)", *shown(response), f"second {beside(0, 1)}"]
            + held(0, 1, amount=50) + closed(1, 0, actor=1) + balances(50))


class Dice:
    """The upper bits of a linear congruential generator."""

    def __init__(self, worker):
        self.state = worker * 0x9e37_79b9_7f4a_7c15 % 2**64

    def roll(self):
        self.state = (self.state * 6_364_136_223_846_793_005 + 1_442_695_040_888_963_407) % 2**64
        return self.state >> 54


def many(workers, packets):
    """Each packet has an amount that is rolled, and half of the peers fulfill."""
    fulfilled = paid = 0
    for worker in range(workers):
        amounts, peers = Dice(worker), Dice(worker)
        for _ in range(packets):
            amount = amounts.roll()
            if peers.roll() % 8 > 3:
                fulfilled, paid = fulfilled + 1, paid + amount
    return [f"senders answered with a Fulfill: {fulfilled}",
            *totals(2 * workers * packets, fulfilled, paid)]


def gathered(name, act, first=(), entries=(), asked=1, booked=2, kept=(answered(1, 0),),
             amount=100):
    """A desk that is closed once its worker has booked some entries and kept records of them."""
    told = [f"asked: {asked}"] if asked else []
    told += actor(0, booked, *kept) + actor(1, 0) + actor(2, 0)
    return scene(name, told + list(first) + list(entries), act=act, alice=prepare(amount),
                 other=prepare(amount, HANDED), bob=FULFILL)


BOOK = held(0) + closed(1, 0) + balances(100)
DISAGREES = ["not gathered: what actor 0 kept is not what it booked"]
SCENES = FORWARDS + [
    SWEPT,
    scene("each growth denied", denied(), act="deny", workers="5", alice=prepare(),
          other=prepare(expires=HANDED), bob=FULFILL),
    TWO,
    scene("a report beside a packet", unlocked(), act="report",
          workers="2", alice=prepare(50), other=prepare(50, HANDED), bob=FULFILL),
    scene("many workers", many(64, 200), act="many", over="lending.toml", workers="64",
          alice=prepare(), other=prepare(destination=b"test.alice")),
    gathered("a desk that is closed", "close", entries=BOOK),
    gathered("without the sweeper's end", "close-without-sweeper",
             ["not gathered: actor 1 has no end, 2 ends are left"], BOOK),
    gathered("without the settler's end", "close-without-settler",
             ["not gathered: actor 2 has no end, 2 ends are left"], BOOK),
    gathered("without the worker's records", "close-without-records", DISAGREES, asked=0, kept=()),
    # The share books a packet of 50 by itself, and then the worker forwards one.
    gathered("without the record of one of two packets", "close-without-record", DISAGREES,
             booked=4, kept=(answered(3, 2, amount=50),), amount=50),
]

TEXTS = [
    "F02: unreachable", "F03: invalid amount", "F05: wrong condition", "F08: amount too large",
    "T00: internal error", "T01: peer unreachable", "T03: connector busy",
    "T04: insufficient liquidity", "R00: timed out", "R01: insufficient source amount",
    "R02: insufficient timeout",
    "octets are missing", "the packet is no Prepare",
    "actor 0 has two ends", "actor 1 has no end", "what actor 2 kept is not what it booked",
    "a desk has 1 to 64 workers", "memory is short", "no reply came",
]

if __name__ == "__main__":
    if sys.argv[1:] not in (["scenes"], ["lines"]):
        sys.exit("scenes.py scenes | lines")
    for name, given, told in SCENES:
        print("== " + name, *(given if sys.argv[1] == "scenes" else told), sep="\n")
    if sys.argv[1] == "lines":
        print("== texts", *TEXTS, sep="\n")
