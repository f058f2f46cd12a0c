#!/usr/bin/env python3
"""Runs a hub at full load over many periods, and compares its books to the unit with what its peers and engines saw.

    scripts/hub_hour.py PATH/TO/connector [SECONDS [SEED]]

For SECONDS (3600) three peers send packets to each other over real sockets, as fast as eight threads each can, of
which the receivers fulfill most, at once or a moment later, reject some, and close the connection of others. Their
engines tell of settlements, new ones and again old ones, and are asked for others, which they accept, at once or when
they are asked again, or seldom refuse. The hub keeps a journal whose periods end by themselves, and reads its
configuration again now and then, with another fee or the same. No packet, settlement or reload may have another answer
than it has to have, and no connection an end without one.

Then the hub is closed, and the books of all periods, of which each has to follow the one before, are reckoned from
their texts (docs/PROTOCOL.md): for each peer the Fulfills that its senders got and that its server gave, the
settlements that it told of and was asked for, and its balance have to be what it saw. There have to be 50 periods at
least. The last line begins with `ok`, or says what differs, and the exit status is 0 or 1; it is 2 where the arguments
are not understood. It needs Linux and Python 3.11, and shares nothing with the crates. An hour takes some GB in TMPDIR.
"""
import random
import sys
import time
from collections import Counter
from dataclasses import dataclass, replace

from cases.by_chance import play_by_chance
from cases.case import expect, expect_that
from cases.journals import Kept
from cases.laboratory import Laboratory, post_close
from cases.messages import HERE, post, request, response, seconds_since
from cases.program import Program, Setup, secret
from connections import TEXT
from hub_hours.books import Books
from hub_hours.peers import Place, Running, Seen, listening, run_peer

USAGE = "usage: hub_hour.py PATH/TO/connector [SECONDS [SEED]]"
SECONDS = 3600

NAMES = ("alice", "bob", "carol")

# How many entries a period has for each second in all, so that many end; and the least that it has.
ENTRIES, LEAST_ENTRIES = 5, 200

# The percentage at which it ends, so that there is room for long heads.
PERCENT = 10

# How many periods there are to be, and how many reloads.
PERIODS, RELOADS = 50, 15

# The fees by which the hub goes on, in turn.
FEES = (None, 10_000, 10_000, 25_000, None)

# In seconds: how long a reload may wait, with another that is told 503 before, and the hub's end.
RELOADED, END = 30.0, 120.0

TAKEN = response(200, b"ok 3 peers 1 assets 3 routes\n", TEXT)


@dataclass
class Hub:
    """A hub that runs, and who has it read its configuration again."""

    kept: Kept
    # The token that carol shows, that which the hub shows her, her server and the port of her engine.
    carol: tuple[str, str, str, int]
    program: Program
    reloads: int = 0

    def reload(self) -> None:
        """Has the hub go on by the next fee. While a period ends it is told to come again."""
        setup = with_fee(self.kept.setup, self.carol, FEES[self.reloads % len(FEES)])
        self.program.configuration.write_text(setup.text())
        end = time.monotonic() + RELOADED
        while (answer := post(setup.engines_port, request("/reload"), RELOADED)) == response(503):
            expect_that(f"a reload is told 503 for {RELOADED} seconds", time.monotonic() < end)
            time.sleep(0.01)
        expect(f"the answer to the reload {self.reloads}", answer, TAKEN)
        self.reloads += 1


def with_fee(setup: Setup, carol: tuple[str, str, str, int], fee: int | None) -> Setup:
    """The configuration of three peers with this fee of all."""
    changed = replace(setup, fee_ppm=fee)
    token, out_token, host, engine = carol
    changed.further = [*changed.peer("carol", token, out_token, host, engine), "[[route]]", 'prefix = "test.carol"',
                       'peer = "carol"']
    return changed


def run_hub(laboratory: Laboratory, seconds: int, seed: int) -> tuple[Hub, list[Running]]:
    """A hub, and its peers, who send from now on."""
    entries = max(LEAST_ENTRIES, ENTRIES * seconds)
    sockets = {name: (listening(), listening()) for name in NAMES}
    ports = {name: (server.getsockname()[1], engine.getsockname()[1]) for name, (server, engine) in sockets.items()}
    setup = Setup(alice=ports["alice"][0], bob=ports["bob"][0], engine=ports["bob"][1],
                  engine_of_alice=ports["alice"][1], settle_max=300,
                  top={"settle_ms": 20, "workers": 4, "journal": 100 * entries // PERCENT, "new_period_at": PERCENT})
    carol = secret(), secret(), f"{HERE}:{ports['carol'][0]}", ports["carol"][1]
    kept = Kept(laboratory, with_fee(setup, carol, None))
    hub = Hub(kept, carol, kept.serve())
    tokens, peers = {"alice": setup.token, "bob": setup.bob_token, "carol": carol[0]}, list[Running]()
    for number, name in enumerate(NAMES):
        others = tuple(other for other in NAMES if other != name)
        place = Place(name, others, tokens[name], setup.peers_port, setup.engines_port)
        peer = run_peer(place, *sockets[name], seed + number)
        laboratory.stack.callback(peer.kill)
        peers.append(peer)
    return hub, peers


# ---- the program

def load(hub: Hub, peers: list[Running], seconds: int, generator: random.Random) -> list[int]:
    """Has all of them go on for so long, and then stop; what the hub has in memory, in KiB, behind each reload."""
    start, memory = time.monotonic(), list[int]()
    while (left := seconds - seconds_since(start)) > 0:
        time.sleep(min(left, generator.uniform(0.5, 1.5) * seconds / RELOADS))
        hub.program.expect_running()
        hub.reload()
        memory.append(hub.program.memory())
    for peer in peers:
        peer.stop.set()
    for peer in peers:
        peer.await_stopped()
    return memory


def expect_no_faults(seen: dict[str, Seen]) -> None:
    """None of them had an answer that can't be."""
    faults = [fault for one in seen.values() for fault in one.faults]
    expect_that(f"{len(faults)} answers can't be: {faults[:5]}", not faults)


def play(laboratory: Laboratory, seconds: int, seed: int) -> str:
    """A hub for so many seconds; what it comes to."""
    hub, peers = run_hub(laboratory, seconds, seed)
    memory = load(hub, peers, seconds, random.Random(seed))
    post_close(hub.program)
    expect("the exit status", hub.program.end(END), 0)
    seen = {peer.name: peer.end() for peer in peers}
    expect_no_faults(seen)
    books = Books(hub.kept.path, list(NAMES))
    for name, one in seen.items():
        books.expect_seen(name, one)
    books.expect_fees()
    books.expect_many(PERIODS)
    expect_printed(hub.program, books)
    laboratory.check_errors()
    found = Counter[str]()
    for one in seen.values():
        found.update(packets=one.received.count, units=one.received.units, rejects=one.rejected,
                     credits=len(one.credited), asks=len(one.accepted))
    return (f"ok {seconds} seconds, {books.last.period + 1} periods, {hub.reloads} reloads: {found['packets']} "
            f"Fulfills of {found['units']}, {found['rejects']} Rejects, {found['credits']} credits and {found['asks']} "
            f"settlements, all of them in the {books.count} entries; {memory[0]} KiB in memory at first, and "
            f"{memory[-1]} in the end")


def expect_printed(program: Program, books: Books) -> None:
    """The report in the end has the balances of the last period."""
    lines = [line.split() for line in program.output().splitlines()]
    expect("the balances of the report", lines[:len(NAMES)],
           [["balance", name, str(books.last.balances[name])] for name in NAMES])
    expect("its last line", lines[-1], ["period", str(books.last.period)])


if __name__ == "__main__":
    sys.exit(play_by_chance(sys.argv[1:], USAGE, SECONDS, play))
