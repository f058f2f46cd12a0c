#!/usr/bin/env python3
"""Kills a connector under load again and again, and compares what it had answered with its journal.

    scripts/kills.py PATH/TO/connector [COUNT [SEED]]

A connector keeps a journal, beside peers that fulfill, reject and say nothing, and engines that are asked for
settlements and tell of some, while several threads send packets, settlements and corrections. At a random moment it is
killed by SIGKILL: mostly under load, and at times as it starts or closes. Then another starts on the same journal. Each
Fulfill that a sender got, each settlement and correction that was answered 201, and each settlement that an engine was
asked for has to stand in the journal that this one has saved, with its amount, and nothing twice under one key; what
journal and log had before has to be a beginning of it; and a report has to have the balances to which the entries come.
All of that is reckoned here from the journal's text (docs/PROTOCOL.md). So it goes on COUNT times (200), on the one
journal.

A SIGKILL leaves what the system has and the disk may not yet: whether the disk was asked in time is not seen here.

The exit status is 0 where nothing was lost, 1 at the first loss, which is told, with a copy of the journal's folder, and
2 where the arguments are not understood. The seed of the random moments is printed; what comes of them depends on the
machine too. It needs Linux and Python 3.11, and shares nothing with the crates.
"""
import random
import shutil
import sys
import tempfile
import time
from collections import Counter
from pathlib import Path

from cases.by_chance import play_by_chance
from cases.case import Differs, expect, expect_that
from cases.conversations import report
from cases.journals import Kept
from cases.laboratory import Laboratory, post_close
from cases.messages import seconds_since
from cases.program import Program, Setup, numbers_in
from killing.books import Book, entries_in, entries_kept
from killing.load import (MOST_CREDITED, Ask, Credit, Load, answers_by_chance, answers_by_data, asks_of, chosen,
                          taken)

USAGE = "usage: kills.py PATH/TO/connector [COUNT [SEED]]"
COUNT = 200

# How often of a hundred it is killed under load, as it closes, and as it starts.
UNDER_LOAD, AS_IT_CLOSES, AS_IT_STARTS = "under load", "as it closes", "as it starts"
MOMENTS = {UNDER_LOAD: 75, AS_IT_CLOSES: 10, AS_IT_STARTS: 15}

# In seconds: the longest load, and the longest time from the close to the kill.
LOAD, CLOSE = 0.4, 0.8

# In seconds: the most that a start takes, and the end of a connector that isn't killed. A program that was built without
# a proof checks each entry as it runs, and is slow.
START, END = 60.0, 60.0

TOP = {"settle_ms": 20, "workers": 8, "journal": 4_000_000}


class Kills:
    """A journal, whoever is around its connectors, and the book that is reckoned beside it."""

    def __init__(self, laboratory: Laboratory, seed: int) -> None:
        self.generator = random.Random(seed)
        self.peers = [laboratory.stand_in(answers_by_data) for _ in range(2)]
        self.engine = laboratory.stand_in(answers_by_chance(random.Random(seed)))
        setup = Setup(alice=self.peers[0].port, bob=self.peers[1].port, engine=self.engine.port,
                      engine_of_alice=self.engine.port, settle_max=300, top=TOP)
        self.kept = Kept(laboratory, setup)
        self.load = Load(setup, random.Random(seed))
        self.book = Book()
        # In seconds: what the last start took.
        self.started = 0.1
        # How many of each kind were compared.
        self.compared: Counter[str] = Counter()

    def octets(self, path: Path) -> bytes | None:
        """What a file has, if it is there."""
        return path.read_bytes() if path.exists() else None

    # ---- a kill

    def play(self) -> None:
        """Has a connector run, and kills it."""
        moment = chosen(self.generator, MOMENTS)
        if moment == AS_IT_STARTS:
            program = self.kept.start()
            self.wait(self.started)
            program.kill()
            return
        program = self.begin()
        self.load.start()
        self.wait(LOAD)
        if moment == AS_IT_CLOSES:
            post_close(program)
            self.wait(CLOSE)
        program.kill()
        self.load.end()

    def wait(self, most: float) -> None:
        """Waits for so many seconds at most."""
        time.sleep(self.generator.uniform(0.0, most))

    # ---- a start

    def begin(self) -> Program:
        """A connector that goes on from what lies there, and has all of it."""
        left = entries_kept(self.octets(self.kept.path), self.octets(self.kept.beside("log")))
        asks = asks_of(self.engine)
        start = time.monotonic()
        program = self.kept.start()
        program.await_listening(START)
        self.started = seconds_since(start)
        text = self.octets(self.kept.path)
        entries = b"" if text is None else entries_in(text)
        expect_that(f"a start has {len(entries)} octets of entries, which do not begin with the {len(left)} that "
                    f"journal and log had", entries.startswith(left))
        self.compare(entries, asks)
        self.expect_report(program)
        return program

    def expect_report(self, program: Program) -> None:
        """The report of a connector is compared with the next journal: what it counts is written before a credit is
        answered that comes behind it."""
        self.book.reported(numbers_in(report(program)))
        one = Credit("alice", self.generator.randbytes(8).hex(), self.generator.randint(1, MOST_CREDITED))
        expect_that("a settlement was not answered", self.load.tell(one))

    def compare(self, entries: bytes, asks: list[Ask]) -> None:
        """All that was answered and asked for is in these entries."""
        self.book.extend(entries)
        answered = self.load.answered
        for packet in answered.fulfills:
            hold = self.book.fulfills.get(packet.preimage)
            found = hold and (hold.sender, hold.receiver, hold.amount, hold.out)
            expect(f"in the journal of {packet}", found, (packet.sender, packet.receiver, packet.amount, packet.amount))
        for one in answered.credits:
            expect(f"in the journal of {one}", self.book.credits.get((one.peer, one.key.encode().hex())), one.kept)
        for ask in asks:
            expect(f"in the journal of {ask}", self.book.asks.get(ask.number), (ask.peer, ask.amount))
        self.compared.update(fulfills=len(answered.fulfills), credits=len(answered.credits), asks=len(asks))
        answered.fulfills.clear()
        answered.credits.clear()
        for peer in self.peers:
            taken(peer)

    def end(self) -> None:
        """The last connector is closed, and its report and its journal are those of the book."""
        program = self.begin()
        post_close(program)
        expect("the exit status", program.end(END), 0)
        self.compare(entries_in(self.kept.path.read_bytes()), asks_of(self.engine))
        expect("the report in the end", numbers_in(program.output()), self.book.numbers())


# ---- the program

def play(laboratory: Laboratory, count: int, seed: int) -> str:
    """So many kills; what they come to."""
    kills, number = Kills(laboratory, seed), 0
    try:
        for number in range(1, count + 1):
            kills.play()
        kills.end()
        laboratory.check_errors()
    except (Differs, OSError) as differs:
        folder = tempfile.mkdtemp(prefix="kills-")
        shutil.copytree(kills.kept.folder, folder, dirs_exist_ok=True)
        raise Differs(f"kill {number}: {differs}; {folder} has the journal") from None
    found = kills.compared
    return (f"{count} kills: {found['fulfills']} Fulfills, {found['credits']} credits and {found['asks']} asks compared, "
            f"and all are among the {kills.book.count} entries")


if __name__ == "__main__":
    sys.exit(play_by_chance(sys.argv[1:], USAGE, COUNT, play))
