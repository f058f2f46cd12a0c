"""Random messages to `connector serve` over loopback: each answer is one that the rules allow, and the
report at the end is that of what was answered."""
import random
import socket
import tempfile
import time
from collections import Counter
from collections.abc import Iterator
from concurrent.futures import ThreadPoolExecutor
from dataclasses import dataclass
from pathlib import Path

from cases.case import Differs, expect, expect_that, shown
from cases.laboratory import Laboratory, post_close
from cases.messages import connect, post, read_to_end, request, response
from cases.program import Program
from connections import TEXT

from long_runs.books import Book
from long_runs.exchanges import REJECTS
from long_runs.exchanges import Outcome as Answer
from long_runs.packets import Faulty, Reject, read_packet
from long_runs.replays import Outcome
from long_runs.reports import imbalance, line, report
from long_runs.requests import needs_no_more
from long_runs.senders import Message, Sender
from long_runs.worlds import World, narrow, wide

WIDE, NARROW = 1_000, 500

# What must come up in a long run.
LONG_RUN = 10_000
KINDS = [
    *(f"status {code}" for code in (200, 201, 400, 401, 403, 404, 405, 409, 411, 413, 431, 502, 503)),
    "status 200, Fulfill", "status 200, Reject of a peer",
    *(f"status 200, Reject {code}" for code in (
        "F02", "F03", "F05", "F08", "R00", "R01", "R02", "T01", "T03", "T04")),
    "a settlement accepted, 1 tries", "a settlement accepted, 2 tries", "a settlement refused, 1 tries"]

# In seconds; settlements that are refused rest some.
ANSWER, QUIET, END = 60.0, 40.0, 15.0
PAUSE = 0.02
STARTS = 3


@dataclass(frozen=True)
class Conversation:
    """A connector that is to be run, over so many messages: all from one sender, or from several."""

    binary: Path
    seed: int
    messages: int
    is_narrow: bool


def conversations(binary: Path, seed: int, messages: int) -> Iterator[Conversation]:
    """Every second one has one sender; these are shorter."""
    is_narrow = seed % 2 == 1
    while messages > 0:
        count = min(NARROW if is_narrow else WIDE, messages)
        yield Conversation(binary, seed, count, is_narrow)
        seed, messages, is_narrow = seed + 1, messages - count, not is_narrow


# ---- one message

def in_pieces(chance: random.Random, octets: bytes) -> Iterator[bytes]:
    """The octets as a whole mostly, else in some pieces."""
    cuts = sorted(chance.randint(0, len(octets)) for _ in range(chance.choice([0, 0, 0, 1, 4])))
    for begin, end in zip([0, *cuts], [*cuts, len(octets)]):
        yield octets[begin:end]


def exchange(chance: random.Random, port: int, octets: bytes) -> bytes:
    """What a port answers; where it would wait for more, no more is announced."""
    with connect(port, ANSWER) as link:
        link.setsockopt(socket.IPPROTO_TCP, socket.TCP_NODELAY, 1)
        try:
            for piece in in_pieces(chance, octets):
                link.sendall(piece)
            if chance.random() < 0.5 or not needs_no_more(octets):
                link.shutdown(socket.SHUT_WR)
        except OSError:
            # It was answered before all of it was sent.
            pass
        return read_to_end(link, ANSWER)


def check_report(world: World, octets: bytes) -> None:
    """A report in the middle has the lines of a report, and its books balance."""
    _, _, body = octets.partition(b"\r\n\r\n")
    expect("a response with a report", octets, response(200, body, TEXT))
    lines = body.decode().splitlines(keepends=True)
    one = world.model.configuration
    wanted = report(Book(one)).splitlines(keepends=True)
    expect("the lines of a report", [text[:30] for text in lines], [text[:30] for text in wanted])
    numbers = [int(text[30:]) for text in lines]
    expect("a report", lines, [line(text[:10].strip(), text[10:30].strip(), number)
                               for text, number in zip(lines, numbers)])
    count = len(one.peers)
    for n, asset in enumerate(one.assets):
        held, fees, bought, sold, settled = numbers[2 * count + 5 * n:2 * count + 5 * n + 5]
        balances = sum(numbers[place] for place, peer in enumerate(one.peers) if peer.asset == n)
        expect(f"the books of {asset.name}", balances + held + fees + bought - sold, settled)


def judged(world: World, message: Message, octets: bytes) -> Answer:
    """The outcome that came, of those that the rules allow."""
    for outcome in message.outcomes:
        if outcome.is_report and not outcome.octets:
            check_report(world, octets)
            return outcome
        if outcome.octets == octets:
            return outcome
    wanted = " or ".join(shown(outcome.octets) for outcome in message.outcomes)
    raise Differs(f"a message ({message.kind}) to the side of {'peers' if message.at_peers else 'engines'}\n"
                  f"  sent:     {message.octets!r}\n  expected: {wanted}\n  came:     {shown(octets)}")


def kind_of(octets: bytes) -> str:
    """What an answer is, for counting."""
    status = octets[9:12].decode("latin-1")
    try:
        packet = read_packet(octets.partition(b"\r\n\r\n")[2])
    except Faulty:
        return f"status {status}"
    if isinstance(packet, Reject):
        own = (packet.code, packet.message) in REJECTS.values()
        return f"status {status}, Reject {packet.code.decode() if own else 'of a peer'}"
    return f"status {status}, {type(packet).__name__}"


def talk(world: World, sender: Sender, count: int) -> Counter[str]:
    """Sends so many messages, one after the other."""
    kinds: Counter[str] = Counter()
    for _ in range(count):
        message = sender.message()
        port = world.setup.peers_port if message.at_peers else world.setup.engines_port
        octets = exchange(sender.chance, port, message.octets)
        outcome = judged(world, message, octets)
        with world.model.lock:
            world.model.apply(outcome.effect)
        kinds[kind_of(octets)] += 1
        if world.seen.problems:
            raise Differs(f"what others were sent: {world.seen.problems[0]}")
    return kinds


# ---- a whole conversation

def await_quiet(world: World) -> str:
    """The report of all that was answered, once the connector tells the same."""
    end = time.monotonic() + QUIET
    while True:
        octets = post(world.setup.engines_port, request("/report"), ANSWER)
        book = world.model.with_settlements(world.engines)
        wanted = report(book)
        came = octets.partition(b"\r\n\r\n")[2].decode()
        if came == wanted and not is_due(book):
            return wanted
        expect_that(f"the report is not that of what was answered:\n{came}\nand not\n{wanted}",
                    time.monotonic() < end)
        time.sleep(PAUSE)


def is_due(book: Book) -> bool:
    """Whether a settlement is open or due."""
    return any(True for _ in book.open_asks()) or any(
        peer.threshold is not None and book.balance(n) >= peer.threshold
        for n, peer in enumerate(book.configuration.peers))


def check_others(world: World) -> None:
    """Peers and engines were sent what the answers say, and nothing else."""
    seen, model = world.seen, world.model
    expect("problems of others", seen.problems, [])
    expect("Prepares that peers were sent and were not to be", dict(seen.prepares - model.sent), {})
    expect("Prepares that peers were to be sent and were not", dict(model.sent - seen.prepares), {})
    expect("messages that engines were sent and were not to be", dict(seen.messages - model.told), {})
    expect("messages that engines were to be sent and were not", dict(model.told - seen.messages), {})


def check_end(world: World, program: Program) -> None:
    """The report at the close is that of what was answered."""
    wanted = await_quiet(world)
    check_others(world)
    for n in range(len(world.model.configuration.assets)):
        expect("the model's books", imbalance(world.model.with_settlements(world.engines), n), 0)
    post_close(program)
    expect("the exit status", program.end(END), 0)
    printed = program.output()
    expect_that(f"the report at the close:\n{printed}\nand not\n{wanted}", printed == wanted)


def converse(world: World, messages: int, program: Program) -> Counter[str]:
    """All senders at once, each with its part of the messages."""
    count = len(world.senders)
    parts = [messages // count + (n < messages % count) for n in range(count)]
    kinds: Counter[str] = Counter()
    with ThreadPoolExecutor(count) as pool:
        talks = [pool.submit(talk, world, sender, part) for sender, part in zip(world.senders, parts)]
        for one in talks:
            kinds += one.result()
    check_end(world, program)
    for engine in world.engines:
        for one in engine.settlements.values():
            kinds[f"a settlement {'accepted' if one.accepted else 'refused'}, {min(one.tries, 2)} tries"] += 1
    return kinds


def keep(plan: Conversation, world: World, program: Program, what: str) -> str:
    """Keeps what shows a difference, and says where."""
    folder = Path(tempfile.mkdtemp(prefix=f"long-run-{plan.seed}-"))
    (folder / "connector.toml").write_text(world.toml)
    (folder / "difference").write_text(what, encoding="utf-8", errors="replace")
    (folder / "stderr").write_text(program.errors())
    (folder / "stdout").write_text(program.output())
    return (f"seed {plan.seed}, {'one sender' if plan.is_narrow else 'several senders'}: {what}\n"
            f"  the configuration:\n{world.toml}\n  kept in {folder}")


def run(plan: Conversation) -> Outcome:
    """Draws a connector and what is outside of it, and lets all talk."""
    with Laboratory(plan.binary) as laboratory:
        world, program = started(plan, laboratory)
        outcome = Outcome(plan.seed, plan.messages)
        try:
            outcome.kinds = converse(world, plan.messages, program)
            laboratory.check_errors()
        except (Differs, OSError) as differs:
            outcome.difference = keep(plan, world, program, f"{differs}")
        return outcome


def started(plan: Conversation, laboratory: Laboratory) -> tuple[World, Program]:
    """A connector that listens; another process may have taken its ports before."""
    for _ in range(STARTS):
        chance = random.Random(plan.seed)
        world = narrow(chance, plan.messages) if plan.is_narrow else wide(chance)
        try:
            return world, world.start(laboratory)
        except Differs as differs:
            if "refused 66" not in str(differs):
                raise
    raise Differs("no free ports were found")
