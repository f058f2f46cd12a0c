"""What is loaded by wrk in the benchmark of a log: the connector with and without one, nginx, and plain Rust."""
import contextlib
import os
import re
import resource
import sys
import tempfile
import time
from collections.abc import Iterator
from dataclasses import dataclass
from pathlib import Path

TOP = Path(__file__).resolve().parent.parent.parent
sys.path += [str(TOP / "scripts"), str(TOP / "bench/serve")]

from cases.program import Setup
from serve import Bench, Server, free_port, processes_of

SECONDS = int(os.environ.get("SECONDS", "4"))
WORKERS = int(os.environ.get("WORKERS", "4"))

# The greatest limit of a journal; the octets of the two lines of a packet in its log, and less than any have.
MOST, OCTETS, LEAST = 16_777_216, 216, 200

# How often a sync is made to find its time.
SYNCS = 200

WRITTEN = re.compile(r"(?m)^write_bytes: (\d+)$")


@dataclass
class Figures:
    """Packets a second, milliseconds of the 50th and the 99th percentile, how many failed, and octets a packet: of
    the lines that are kept, and of the pages that were written for them."""

    rate: float
    half: float
    most: float
    failed: int
    octets: float | None = None
    written: float | None = None


def written_by(pid: int) -> int:
    """The octets that a process and its children had the disk write so far."""
    return sum(int(WRITTEN.findall(Path(f"/proc/{one}/io").read_text())[0]) for one in processes_of(pid))


def sync_time(folder: Path) -> float:
    """The median of the seconds that an `fdatasync` takes behind a line that was appended to a file in the folder."""
    line, times = b"x" * (OCTETS - 1) + b"\n", []
    with tempfile.TemporaryFile(dir=folder) as file:
        for _ in range(SYNCS):
            file.write(line)
            file.flush()
            start = time.perf_counter()
            os.fdatasync(file.fileno())
            times.append(time.perf_counter() - start)
    return sorted(times)[SYNCS // 2]


@dataclass
class Running:
    """A server that runs, and the file in which it keeps a line of each packet, if it does."""

    server: Server
    log: Path | None = None

    def length(self) -> int:
        """How many octets the file has."""
        return self.log.stat().st_size if self.log is not None else 0


class Servers:
    """The servers, each of the connectors with a peer of its own that answers at once."""

    def __init__(self, bench: Bench, disk: Path) -> None:
        self.bench, self.disk = bench, disk

    @contextlib.contextmanager
    def connector(self, name: str, place: Path | None, sync: str = "group") -> Iterator[Running]:
        """A connector under this name, with a journal in a new folder at a place, if there is one."""
        with contextlib.ExitStack() as stack:
            folder = Path(stack.enter_context(tempfile.TemporaryDirectory(dir=place)))
            peer = stack.enter_context(self.bench.run_peer(0))
            setup = Setup(bob=peer.port, token="a-token", least=-2**63,
                          top={"workers": WORKERS, "journal": MOST, "sync": sync})
            configuration = folder / "connector.toml"
            configuration.write_text(setup.text())
            words = [self.bench.connector, "serve", str(configuration)]
            words += [str(folder / "journal")] if place is not None else []
            server = stack.enter_context(self.bench.run(name, words, setup.peers_port, setup.engines_port))
            yield Running(server, folder / "journal.log" if place is not None else None)

    @contextlib.contextmanager
    def nginx(self) -> Iterator[Running]:
        """nginx as a proxy, which keeps nothing."""
        with self.bench.run_peer(0) as peer, self.bench.run_nginx(peer.port) as server:
            yield Running(server)

    @contextlib.contextmanager
    def rust(self, connections: int) -> Iterator[Running]:
        """Plain Rust (appending.rs), which asks no peer and keeps a line of each request."""
        with tempfile.TemporaryDirectory(dir=self.disk) as folder:
            port, log = free_port(), Path(folder, "log")
            words = [self.bench.rust, str(port), str(connections), str(log), str(OCTETS)]
            with self.bench.run("rust", words, port) as server:
                yield Running(server, log)

    def load(self, running: Running, connections: int) -> Figures:
        """What wrk measures of a server in a second. Where its file has not a line of each packet, all have
        failed."""
        pid, length = running.server.process.pid, running.length()
        before = written_by(pid)
        found = self.bench.load(running.server, connections, 1)
        packets = max(1.0, found.rate)
        figures = Figures(found.rate, found.half, found.most, found.failed, written=(written_by(pid) - before) / packets)
        if running.log is not None:
            figures.octets = (running.length() - length) / packets
            figures.failed += int(packets) if figures.octets < LEAST else 0
        return figures


def raise_limits() -> None:
    """As many open files as there may be."""
    _, hard = resource.getrlimit(resource.RLIMIT_NOFILE)
    resource.setrlimit(resource.RLIMIT_NOFILE, (hard, hard))
