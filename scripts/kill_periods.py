#!/usr/bin/env python3
"""Kills a connector whose periods are short again and again, many times as one ends, and compares what it had answered
with the journals of all periods.

    scripts/kill_periods.py PATH/TO/connector [COUNT [SEED]]

It is as scripts/kills.py, but for a journal whose period ends after some hundred entries, so that many do in each run.
A connector is killed by SIGKILL under load at a random moment, just behind a line that tells of the end of a period or
the beginning of the next, as soon as a file is there that these write, behind a request to read the configuration
again, as it starts and as it closes. Another starts on what lies there, by itself. Then each period has to begin with
what the one before brought forward, and none may have lost an entry; each Fulfill that a sender got, and each
settlement that an engine was answered 201, has to stand in the journal of one period, once, with its amount; and each
that an engine was asked for in one that asked for it or brought it forward under this key. All of that is reckoned here
from the journals' texts (docs/PROTOCOL.md), and in the end `connector follows` has to say the same of each two and of all. So it
goes on COUNT times (100).

The exit status is 0 where nothing was lost, 1 at the first loss, which is told, with a copy of the journals' folder,
and 2 where the arguments are not understood. The seed of the random moments is printed; what comes of them depends on
the machine too. It needs Linux and Python 3.11, and shares nothing with the crates.
"""
import contextlib
import random
import shutil
import sys
import tempfile
import time
from collections import Counter
from pathlib import Path

from cases.by_chance import play_by_chance
from cases.case import Differs, expect, expect_that
from cases.crowds import Crowd
from cases.journals import Kept
from cases.laboratory import Laboratory, post_close
from cases.messages import request, seconds_since
from cases.program import Program, Setup
from cases.running_periods import expect_all_follow, expect_follows, report_of
from killing.books import goes_on_from
from killing.load import Load, answers_by_chance, answers_by_data, asks_of, chosen, credit_by_chance, taken
from killing.period_books import Periods, read_standing

USAGE = "usage: kill_periods.py PATH/TO/connector [COUNT [SEED]]"
COUNT = 100

# How often of a hundred it is killed at which moment.
UNDER_LOAD, AS_A_PERIOD_ENDS, AS_A_FILE_COMES = "under load", "as a period ends", "as a file comes"
AS_IT_RELOADS, AS_IT_CLOSES, AS_IT_STARTS = "as it reloads", "as it closes", "as it starts"
MOMENTS = {UNDER_LOAD: 15, AS_A_PERIOD_ENDS: 25, AS_A_FILE_COMES: 30, AS_IT_RELOADS: 15, AS_IT_CLOSES: 5,
           AS_IT_STARTS: 10}

# The lines behind which it is killed as a period ends.
LINES = ("info journal .+: the period .+ has ended, .+", "info journal .+: the period .+ begins .+",
         "info log .+: begun, .+")

# In seconds: the longest load, the longest time from a line, a file, a reload and the close to the kill, and the
# longest wait for a line and a file.
LOAD, LINE, FILE, RELOAD, CLOSE, PERIOD = 0.6, 0.02, 0.005, 1.4, 0.8, 20.0

# In seconds: the most that a start takes, and the end of a connector that isn't killed. A program that was built
# without a proof checks each entry as it runs, and is slow.
START, END = 60.0, 60.0

# A period ends behind 120 entries, and behind twice as many as were brought forward.
TOP = {"settle_ms": 20, "workers": 8, "journal": 8_000, "new_period_at": 2}

# How many different settlements an engine tells of at most: each has a key that is brought forward from then on.
MOST_KEYS = 300


class FewKeys(Load):
    """A load whose engines tell of few settlements, and of these again and again."""

    def __init__(self, setup: Setup, generator: random.Random) -> None:
        super().__init__(setup, generator)
        self.keys = 0

    def credit(self, peer: str, generator: random.Random) -> None:
        """Tells of a settlement: of one that got no answer, of one that is known, or seldom of another."""
        # Another thread may have taken the last one.
        with contextlib.suppress(IndexError):
            self.tell(self.answered.unanswered.pop())
            return
        if self.known and (self.keys >= MOST_KEYS or generator.random() < 0.9):
            self.tell(generator.choice(self.known))
        else:
            self.keys += 1
            self.tell(credit_by_chance(peer, generator))


class Kills:
    """The journals, whoever is around their connectors, and the books that are reckoned beside them."""

    def __init__(self, laboratory: Laboratory, seed: int) -> None:
        self.generator = random.Random(seed)
        self.crowd = Crowd(laboratory)
        self.peers = [laboratory.stand_in(answers_by_data) for _ in range(2)]
        self.engine = laboratory.stand_in(answers_by_chance(random.Random(seed)))
        setup = Setup(alice=self.peers[0].port, bob=self.peers[1].port, engine=self.engine.port,
                      engine_of_alice=self.engine.port, settle_max=300, top=dict(TOP))
        self.kept = Kept(laboratory, setup)
        self.load = FewKeys(setup, random.Random(seed))
        self.periods = Periods()
        # In seconds: what the last start took.
        self.started = 0.1
        # How many of each kind were compared, and how often it was killed at each moment.
        self.compared: Counter[str] = Counter()
        self.killed: Counter[str] = Counter()
        # How often a kill left what is there for a moment alone, as a period ends.
        self.left: Counter[str] = Counter()

    # ---- a kill

    def play(self) -> None:
        """Has a connector run, and kills it."""
        moment = chosen(self.generator, MOMENTS)
        self.killed[moment] += 1
        if moment == AS_IT_STARTS:
            program = self.kept.start()
            self.wait(self.started)
            program.kill()
            return
        program = self.begin()
        self.load.start()
        self.await_moment(program, moment)
        program.kill()
        self.load.end()

    def await_moment(self, program: Program, moment: str) -> None:
        """Waits for the moment at which a connector under load is killed."""
        if moment == AS_A_PERIOD_ENDS:
            line = self.generator.choice(LINES)
            program.await_told(line, len(program.told(line)) + self.generator.randint(1, 3), PERIOD)
            self.wait(LINE)
            return
        if moment == AS_A_FILE_COMES:
            ended = str(self.periods.last.period + self.generator.randint(0, 2))
            self.await_file(self.kept.beside(self.generator.choice(("new", "next", "ended", ended))))
            self.wait(FILE)
            return
        self.wait(LOAD)
        if moment == AS_IT_RELOADS:
            self.crowd.send(program.setup.engines_port, request("/reload"))
            self.wait(RELOAD)
        if moment == AS_IT_CLOSES:
            post_close(program)
            self.wait(CLOSE)

    def await_file(self, path: Path) -> None:
        """Waits until a file is there, and looks as often as that is possible."""
        end = time.monotonic() + PERIOD
        while not path.exists():
            expect_that(f"{path} has not come within {PERIOD} seconds", time.monotonic() < end)

    def wait(self, most: float) -> None:
        """Waits for so many seconds at most."""
        time.sleep(self.generator.uniform(0.0, most))

    # ---- a start

    def begin(self) -> Program:
        """A connector that goes on from what lies there, and has all of it."""
        self.periods.read(self.kept.path)
        self.look_at_files()
        start = time.monotonic()
        program = self.kept.start()
        program.await_listening(START)
        self.started = seconds_since(start)
        self.compare()
        return program

    def look_at_files(self) -> None:
        """Counts what the end of a period leaves for a moment."""
        journal, log, aside = read_standing(self.kept.path)
        if self.kept.beside("new").exists():
            self.left["a file that is not whole"] += 1
        if aside is not None:
            self.left["a log that was set aside"] += 1
            if self.kept.beside(str(aside.period)).exists():
                self.left["the text of a period twice"] += 1
        elif self.kept.beside("next").exists():
            self.left["what no period begins with"] += 1
        if journal is not None and log is None:
            self.left["no log"] += 1
        if log is not None and not goes_on_from(log, journal):
            self.left["an older log"] += 1

    def compare(self) -> None:
        """All that was answered and asked for is in the journals."""
        # A connector that goes on asks for more.
        answered, asks = self.load.answered, asks_of(self.engine)
        self.periods.read(self.kept.path)
        fulfills, credits, asked = self.periods.fulfills(), self.periods.credits(), self.periods.asked_for()
        for packet in answered.fulfills:
            hold = fulfills.get(packet.preimage)
            found = hold and (hold.sender, hold.receiver, hold.amount, hold.out)
            expect(f"in the journals of {packet}", found,
                   (packet.sender, packet.receiver, packet.amount, packet.amount))
        for one in answered.credits:
            expect(f"in the journals of {one}", credits.get((one.peer, one.key.encode().hex())), one.kept)
        for ask in asks:
            expect(f"in the journals of {ask}", asked.get(ask.key), (ask.peer, ask.amount))
        self.compared.update(fulfills=len(answered.fulfills), credits=len(answered.credits), asks=len(asks))
        answered.fulfills.clear()
        answered.credits.clear()
        for peer in self.peers:
            taken(peer)

    def end(self) -> None:
        """The last connector is closed, and its report and its journals are those of the books."""
        program = self.begin()
        post_close(program)
        expect("the exit status", program.end(END), 0)
        self.compare()
        last = self.periods.last
        numbers, period = report_of(program.output())
        expect("the report in the end", (numbers[:9], period), (last.numbers()[:9], last.period))
        paths = [*(self.kept.beside(str(book.period)) for book in self.periods.books[:-1]), self.kept.path]
        for number, (ended, journal) in enumerate(zip(paths, paths[1:]), start=1):
            expect_follows(program, ended, journal, number)
        expect_all_follow(program, self.kept.path, len(paths) - 1)


# ---- the program

def play(laboratory: Laboratory, count: int, seed: int) -> str:
    """So many kills; what they come to."""
    kills, number = Kills(laboratory, seed), 0
    try:
        for number in range(1, count + 1):
            kills.play()
        kills.end()
        laboratory.check_errors()
    except (Differs, OSError) as differs:
        folder = tempfile.mkdtemp(prefix="kills-")
        shutil.copytree(kills.kept.folder, folder, dirs_exist_ok=True)
        raise Differs(f"kill {number}: {differs}; {folder} has the journals") from None
    found = kills.compared
    return (f"{count} kills ({counted(kills.killed)}), which left {counted(kills.left) or 'no file in between'}: "
            f"{found['fulfills']} Fulfills, {found['credits']} credits and {found['asks']} asks compared, and all are "
            f"among the {kills.periods.entries()} entries of {len(kills.periods.books)} periods")


def counted(counts: Counter[str]) -> str:
    """How often each was."""
    return ", ".join(f"{times} times {what}" for what, times in sorted(counts.items()))


if __name__ == "__main__":
    sys.exit(play_by_chance(sys.argv[1:], USAGE, COUNT, play))
