#!/usr/bin/env python3
"""What a log costs a connector that runs: packets a second and latency with a journal and without, beside others
that keep something.

    scripts/benching/log.py PATH/TO/connector PATH/TO/appending PATH/TO/peer

scripts/bench.sh builds the last two (appending.rs here, and bench/baselines/peer.rs) and calls this. At 1, 8, 64 and
256 connections these run at once, and each is loaded for a second in turn, again and again, by wrk over loopback, one
request a connection:

    without     the connector without JOURNAL; it and the next four have a peer that answers at once
    off         with a log on the disk and `sync = "off"`
    memory      with a log in /dev/shm, where a sync costs nothing
    disk        with a log on the disk
    nginx       a proxy, which keeps nothing
    rust        a server of as many threads as there are connections, which asks no peer, appends as many octets as
                the log has of a packet, and answers once the disk has them; who comes first syncs for all who wait

And then, once:

    postgresql  no server: pgbench, whose connections each insert a row of as many octets and commit it
    sqlite      the same by threads of Python, with `synchronous = full` and a log that is written ahead

Columns: packets (rows) a second; milliseconds of the 50th and the 99th percentile; the rate over that `without` in the
same round, and over what the disk's syncs allow, which is as many as there are connections over the time of one sync;
octets a packet of what is kept (the log's lines, PostgreSQL's write-ahead log), and of the pages that a process wrote;
how many failed in all. Each number but the last is the median of the rounds. A packet of the connector that it answered
and did not fulfill has failed.

In each round the time of one sync is measured, as the median of 200 `fdatasync` behind an appended line. At the end
there is a start behind ENTRIES (1,000,000, or 16,000,000 with LARGE=1) in the log, and one behind as many in the
journal.

ROUNDS is how many there are (15), SECONDS how long a database is loaded (4), WORKERS how many the connector has (4),
CONNECTIONS which counts, KINDS which rows, DISK a folder on the disk (TMPDIR). It needs wrk; what isn't installed is
left out with a line.
"""
import contextlib
import os
import shutil
import statistics
import sys
import tempfile
from pathlib import Path

from servers import Figures, Running, Servers, raise_limits, sync_time

from databases import HAS_POSTGRESQL, HAS_SQLITE, postgresql, sqlite
from serve import HAS_NGINX, Bench, Missing
from starts import tell_starts

ROUNDS = int(os.environ.get("ROUNDS", "15"))
COUNTS = [int(count) for count in os.environ.get("CONNECTIONS", "1 8 64 256").split()]
ENTRIES = int(os.environ.get("ENTRIES", "16000000" if os.environ.get("LARGE") else "1000000"))
MEMORY = Path("/dev/shm")

USAGE = "usage: log.py PATH/TO/connector PATH/TO/appending PATH/TO/peer"

# The least that is aimed at: of the rate without a journal where a sync costs nothing, and of what syncs allow at so
# many connections.
OF_THE_RATE, OF_THE_SYNCS, AT = 0.9, 0.8, 64

# What is measured, in the order of the table.
KINDS = ("without", "off", "memory", "disk", "nginx", "rust", "postgresql", "sqlite")
DATABASES = {"postgresql": postgresql, "sqlite": sqlite}


def wanted_kinds() -> list[str]:
    """Those of them that are asked for and that this machine has. One that it lacks is told."""
    there = {"nginx": HAS_NGINX, "postgresql": HAS_POSTGRESQL, "sqlite": HAS_SQLITE, "memory": MEMORY.is_dir()}
    wanted = os.environ.get("KINDS", " ".join(KINDS)).split()
    for name in wanted:
        if not there.get(name, True):
            print(f"log: this machine has no {name}, so its rows are left out", file=sys.stderr)
    return [name for name in wanted if there.get(name, True)]


def start(servers: Servers, name: str, connections: int) -> contextlib.AbstractContextManager[Running]:
    """The server of this name, for so many connections."""
    match name:
        case "nginx":
            return servers.nginx()
        case "rust":
            return servers.rust(connections)
        case "memory":
            return servers.connector(name, MEMORY)
        case "without":
            return servers.connector(name, None)
        case _:
            return servers.connector(name, servers.disk, "off" if name == "off" else "group")


def shown(number: float | None, form: str) -> str:
    """A number, or nothing, as wide as the form makes it."""
    return format(number, form) if number is not None else " " * int(form.split(".")[0])


def median(numbers: list[float | None]) -> float | None:
    """The median of numbers, if there are any."""
    found = [number for number in numbers if number is not None]
    return statistics.median(found) if found else None


def medians(rounds: list[Figures]) -> Figures:
    """The medians of what was measured, and how many failed in all."""
    return Figures(*(median([getattr(one, name) for one in rounds]) or 0.0 for name in ("rate", "half", "most")),
                   sum(one.failed for one in rounds), median([one.octets for one in rounds]),
                   median([one.written for one in rounds]))


def tell(connections: int, name: str, figures: Figures, ratio: float | None, sync: float) -> None:
    """A row of the table."""
    on_disk = name in ("disk", "rust", "postgresql", "sqlite")
    of_syncs = figures.rate * sync / connections if on_disk else None
    print(f"{connections:>11} {name:10} {figures.rate:9.0f} {figures.half:9.2f} {figures.most:9.2f} "
          f"{shown(ratio, '8.2f')} {shown(of_syncs, '8.2f')} {shown(figures.octets, '7.0f')} "
          f"{shown(figures.written, '8.0f')} {figures.failed:7d}", flush=True)


def measure_rounds(servers: Servers, names: list[str], connections: int) -> tuple[list[dict[str, Figures]], float]:
    """The rounds, in each of which each of these servers has a turn of a second, and the median time of a sync."""
    syncs, rounds = list[float](), list[dict[str, Figures]]()
    with contextlib.ExitStack() as stack:
        running = {name: stack.enter_context(start(servers, name, connections)) for name in names}
        for number in range(ROUNDS + 1):
            syncs.append(sync_time(servers.disk))
            found = {name: servers.load(one, connections) for name, one in running.items()}
            # The first is not counted.
            rounds += [found] if number > 0 else []
    return rounds, statistics.median(syncs)


def measure(servers: Servers, kinds: list[str], connections: int) -> None:
    """The rows of so many connections."""
    names = [name for name in kinds if name not in DATABASES]
    rounds, sync = measure_rounds(servers, names, connections)
    print(f"{connections:>11} a sync takes {1e3 * sync:.3f} ms")
    ratios: dict[str, float] = {}
    for name in names:
        if "without" in names:
            ratios[name] = statistics.median(one[name].rate / max(1.0, one["without"].rate) for one in rounds)
        tell(connections, name, medians([one[name] for one in rounds]), ratios.get(name), sync)
    for name, database in DATABASES.items():
        if name in kinds:
            tell(connections, name, database(connections, servers.disk), None, sync)
    if connections == AT and "without" in names:
        tell_aims(rounds, ratios, sync)


def tell_aims(rounds: list[dict[str, Figures]], ratios: dict[str, float], sync: float) -> None:
    """What was aimed at, and what it came to."""
    for name in ("off", "memory"):
        if name in ratios:
            print(f"{name}: {ratios[name]:.2f} of the rate without; the aim is {OF_THE_RATE}")
    if "disk" in ratios:
        allowed = AT / sync
        part = statistics.median(one["disk"].rate / min(allowed, max(1.0, one["without"].rate)) for one in rounds)
        print(f"disk: {part:.2f} of the lesser of the rate without and the {allowed:.0f} that syncs allow; the aim is "
              f"{OF_THE_SYNCS}")


def run(servers: Servers) -> None:
    """The table, the aims and the starts."""
    kinds = wanted_kinds()
    print(f"{'connections':>11} {'kept':10} {'a second':>9} {'50% ms':>9} {'99% ms':>9} {'without':>8} {'syncs':>8} "
          f"{'octets':>7} {'written':>8} {'failed':>7}")
    for connections in COUNTS:
        measure(servers, kinds, connections)
    if ENTRIES:
        tell_starts(servers.bench, servers.disk, ENTRIES)


def main(words: list[str]) -> int:
    if words == ["--help"]:
        print(__doc__)
        return 0
    if len(words) != 3:
        print(USAGE, file=sys.stderr)
        return 2
    raise_limits()
    try:
        if shutil.which("wrk") is None:
            raise Missing("wrk is not installed")
        with tempfile.TemporaryDirectory() as folder, tempfile.TemporaryDirectory(dir=os.environ.get("DISK")) as disk:
            for one in (folder, disk):
                os.chmod(one, 0o755)
            connector, rust, peer = words
            run(Servers(Bench(Path(folder), connector, rust, peer), Path(disk)))
    except (Missing, OSError) as why:
        print(f"log: {why}", file=sys.stderr)
        return 1
    return 0


if __name__ == "__main__":
    sys.exit(main(sys.argv[1:]))
