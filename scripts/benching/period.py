#!/usr/bin/env python3
"""How long a connector pauses between two periods of its journal, and what it takes over many of them.

    scripts/benching/period.py PATH/TO/connector PATH/TO/peer

scripts/bench.sh builds the last one (bench/baselines/peer.rs) and calls this. CONNECTIONS (64) send packets of 1 by wrk
over loopback, one request a connection, to a connector with a journal on the disk whose periods end by themselves
at 90 percent of its entries, and a peer that fulfills each packet. ROWS says which of these are measured, by default
`pause many`:

    pause   with a peer that answers at once and a journal of JOURNAL (65,536) entries, and with one that answers after
            a second and a journal of SHORT (1,024), whose periods end at its half: until PAUSES (8) periods have ended
            in each. By the moments of the entries, in milliseconds: from the last packet begun in a period to the first
            of the next one, and how much of that nothing was in flight. At most 50 of that is aimed at.
    many    PACKETS (1,000,000) and some more, by a peer that answers at once and a journal of JOURNAL entries: what all
            periods have booked is compared with what the peer and the senders saw, and the process's memory at the
            beginning of the second period with that at the beginning of the last. At most 20 MB more are aimed at.

Each period has to begin with the balances of the one before. WORKERS is how many the connector has (4), DISK a folder
on the disk (TMPDIR). The exit status is 1 where something is lost or twice there; an aim that is missed is told. A
program that was built without a proof is slow, and takes memory of its own.
"""
import contextlib
import os
import re
import shutil
import statistics
import subprocess
import sys
import tempfile
import threading
import urllib.request
from collections.abc import Iterator
from dataclasses import dataclass, field
from pathlib import Path

from servers import Setup, raise_limits

from cases.case import Differs, expect, expect_that
from serve import Bench, Missing, Server, megabytes

ROWS = os.environ.get("ROWS", "pause many").split()
CONNECTIONS = int(os.environ.get("CONNECTIONS", "64"))
WORKERS = int(os.environ.get("WORKERS", "4"))
JOURNAL, SHORT = int(os.environ.get("JOURNAL", "65536")), int(os.environ.get("SHORT", "1024"))
PAUSES, PACKETS = int(os.environ.get("PAUSES", "8")), int(os.environ.get("PACKETS", "1000000"))

USAGE = "usage: period.py PATH/TO/connector PATH/TO/peer"

# At how many percent a period ends, and that of a short journal: there is room for all packets in flight behind it.
PERCENT, HALF = 90, 50

# In milliseconds: what a peer takes that is slow.
SLOW = 1_000

# What is aimed at: milliseconds of a pause in which nothing is in flight, and megabytes.
IDLE, MORE = 50, 20

# In seconds: a turn of load, the most of all turns, and the end of a connector.
TURN, ALL, END = 4, 7_200, 60.0

BEGUN = re.compile(r"info journal .+: the period (\d+) begins with its \d+ entries")


# ---- what runs

@dataclass
class Hub:
    """A connector whose periods end, and its peer."""

    server: Server
    peer: Server
    journal: Path
    said: Path
    # In megabytes: what the connector has in memory as its periods begin.
    memory: dict[int, float] = field(default_factory=dict)
    # How many packets wrk was told were fulfilled, and how many failed.
    answered: int = 0
    failed: int = 0

    def begun(self) -> int:
        """The number of the last period that has begun."""
        return max((int(found) for found in BEGUN.findall(self.said.read_text())), default=0)

    def fulfilled(self) -> int:
        """How many packets the peer has fulfilled."""
        with urllib.request.urlopen(f"http://127.0.0.1:{self.peer.port}/") as count:
            return int(count.read())

    def watch(self, over: threading.Event) -> None:
        """Notes the memory whenever a period has begun."""
        while not over.wait(0.01):
            begun = self.begun()
            if begun not in self.memory:
                self.memory[begun] = megabytes(self.server.process.pid)

    def load(self, script: Path) -> None:
        """A turn of packets."""
        words = ["wrk", "-t", "2", "-c", str(CONNECTIONS), "-d", f"{TURN}s", "--timeout", "30s", "-s", str(script),
                 f"http://127.0.0.1:{self.server.port}/ilp"]
        told = subprocess.run(words, capture_output=True, text=True, check=True).stdout
        found = re.search(r"(\d+) requests in", told)
        self.answered += int(found[1]) if found else 0
        self.failed += sum(int(one) for one in re.findall(r"Non-2xx or 3xx responses: (\d+)", told))
        if (errors := re.search(r"Socket errors: connect (\d+), read (\d+), write (\d+), timeout (\d+)", told)):
            self.failed += sum(int(one) for one in errors.groups())

    def close(self) -> None:
        """Has the connector end, which saves its journal."""
        with urllib.request.urlopen(f"http://127.0.0.1:{self.server.engines}/close", b""):
            pass
        expect("the exit status", self.server.process.wait(END), 0)


@contextlib.contextmanager
def hub(bench: Bench, disk: Path, delay: int, journal: int, percent: int = PERCENT) -> Iterator[Hub]:
    """A connector with a journal of so many entries, of which a period has so many percent, and a peer that answers
    after so many milliseconds."""
    with contextlib.ExitStack() as stack:
        folder = Path(stack.enter_context(tempfile.TemporaryDirectory(dir=disk)))
        peer = stack.enter_context(bench.run_peer(delay))
        top = {"workers": WORKERS, "journal": journal, "new_period_at": percent, "max_hold_ms": 30_000}
        setup = Setup(bob=peer.port, token="a-token", least=-2**63, top=top)
        configuration = folder / "connector.toml"
        configuration.write_text(setup.text())
        words = [bench.connector, "serve", str(configuration), str(folder / "journal")]
        server = stack.enter_context(bench.run("connector", words, setup.peers_port, setup.engines_port))
        one = Hub(server, peer, folder / "journal", bench.folder / "connector.log")
        over = threading.Event()
        watching = threading.Thread(target=one.watch, args=(over,), daemon=True)
        watching.start()
        try:
            yield one
        finally:
            over.set()
            watching.join()


# ---- what journals say

@dataclass
class Period:
    """What the text of a period says: balances that were brought forward and that there are in the end, how many
    packets were fulfilled and came to nothing, and in milliseconds when the first and the last one began and ended."""

    opened: dict[str, int] = field(default_factory=lambda: {"alice": 0, "bob": 0})
    fulfilled: int = 0
    released: int = 0
    first_begun: int | None = None
    last_begun: int | None = None
    last_ended: int | None = None

    @property
    def closed(self) -> dict[str, int]:
        """The balances in the end: each packet was of 1, without a fee."""
        return {"alice": self.opened["alice"] - self.fulfilled, "bob": self.opened["bob"] + self.fulfilled}


def read_period(path: Path, number: int) -> Period:
    """What a period's text says."""
    period, count = Period(), 0
    with open(path) as lines:
        expect("the first line", next(lines), f"ilp-journal 2 {number}\n" if number else "ilp-journal 1\n")
        for line in lines:
            fields = line.split()
            if fields[0] == "end":
                expect("the last line", fields, ["end", str(count)])
                return period
            count += 1
            moment = int(fields[0])
            match fields[2]:
                case "opened":
                    period.opened[fields[3]] = int(fields[4])
                case "hold":
                    expect(f"the entry {line!r}", fields[3:8], ["alice", "bob", "1", "0", "1"])
                    period.first_begun = moment if period.first_begun is None else period.first_begun
                    period.last_begun = moment
                case "fulfilled":
                    period.fulfilled += 1
                    period.last_ended = moment
                case "released":
                    period.released += 1
                    period.last_ended = moment
                case other:
                    raise Differs(f"an entry of another kind: {other}")
    raise Differs(f"{path} has no end")


def read_periods(journal: Path) -> list[Period]:
    """What all periods say, each of which begins with the balances of the one before."""
    count = 0
    while journal.with_name(f"{journal.name}.{count}").exists():
        count += 1
    paths = [*(journal.with_name(f"{journal.name}.{number}") for number in range(count)), journal]
    periods = [read_period(path, number) for number, path in enumerate(paths)]
    for number, (before, period) in enumerate(zip(periods, periods[1:]), start=1):
        expect(f"what the period {number} begins with", period.opened, before.closed)
    return periods


def expect_seen(found: Hub, periods: list[Period]) -> int:
    """What all periods have booked is what the peer and the senders saw. wrk leaves its last packets alone."""
    booked = sum(period.fulfilled for period in periods)
    expect("what the peer fulfilled", found.fulfilled(), booked)
    expect("the balances in the end", periods[-1].closed, {"alice": -booked, "bob": booked})
    expect("how many packets came to nothing", sum(period.released for period in periods), 0)
    expect("how many packets failed", found.failed, 0)
    expect_that(f"{found.answered} senders had an answer, and {booked} packets were fulfilled: others were rejected",
                found.answered <= booked)
    return booked


# ---- what is measured

def pauses(periods: list[Period]) -> list[tuple[int, int]]:
    """Of each two periods, the milliseconds from the last packet begun in the one to the first of the other, and how
    many of these nothing was in flight."""
    found = []
    for before, period in zip(periods, periods[1:]):
        if period.first_begun is not None and before.last_begun is not None and before.last_ended is not None:
            found.append((period.first_begun - before.last_begun, period.first_begun - before.last_ended))
    return found


def measure_pause(bench: Bench, disk: Path, delay: int, journal: int, percent: int) -> None:
    """A row of pauses."""
    with hub(bench, disk, delay, journal, percent) as found:
        while found.begun() < PAUSES:
            found.load(bench.script)
        found.close()
        periods = read_periods(found.journal)
        expect_seen(found, periods)
    gaps, idle = zip(*pauses(periods))
    print(f"{f'a peer of {delay} ms':18} {f'{journal} entries':16} {len(gaps):>7} {statistics.median(gaps):9.0f} "
          f"{max(gaps):7d} {statistics.median(idle):9.0f} {max(idle):7d}  the aim is {IDLE}: "
          f"{'met' if max(idle) <= IDLE else 'missed'}", flush=True)


def measure_many(bench: Bench, disk: Path) -> None:
    """Many packets over many periods."""
    with hub(bench, disk, 0, JOURNAL) as found:
        while found.fulfilled() < PACKETS:
            found.load(bench.script)
        found.close()
        periods = read_periods(found.journal)
        booked = expect_seen(found, periods)
    second, last = found.memory[1], found.memory[max(found.memory)]
    print(f"{booked} packets over {len(periods)} periods, which the peer and the senders saw as they were booked; "
          f"{second:.1f} MB at the beginning of the second, {last - second:.1f} more at that of the last; the aim is "
          f"{MORE}: {'met' if last - second <= MORE else 'missed'}", flush=True)


def run(bench: Bench, disk: Path) -> None:
    """The rows that are asked for."""
    if "pause" in ROWS:
        print(f"{'milliseconds':18} {'journal':16} {'periods':>7} {'50% pause':>9} {'most':>7} {'50% idle':>9} "
              f"{'most':>7}")
        measure_pause(bench, disk, 0, JOURNAL, PERCENT)
        measure_pause(bench, disk, SLOW, SHORT, HALF)
    if "many" in ROWS:
        measure_many(bench, disk)


def main(words: list[str]) -> int:
    if words == ["--help"]:
        print(__doc__)
        return 0
    if len(words) != 2:
        print(USAGE, file=sys.stderr)
        return 2
    raise_limits()
    try:
        if shutil.which("wrk") is None:
            raise Missing("wrk is not installed")
        with tempfile.TemporaryDirectory() as folder, tempfile.TemporaryDirectory(dir=os.environ.get("DISK")) as disk:
            connector, peer = words
            run(Bench(Path(folder), connector, "", peer), Path(disk))
    except (Differs, Missing, OSError, subprocess.SubprocessError) as why:
        print(f"period: {why}", file=sys.stderr)
        return 1
    return 0


if __name__ == "__main__":
    sys.exit(main(sys.argv[1:]))
