#!/usr/bin/env python3
"""The whole connector under load, beside nginx as a proxy and plain Rust with a pool of threads.

    bench/serve/serve.py PATH/TO/connector PATH/TO/rust PATH/TO/peer

scripts/bench.sh builds the three and calls this. Each row is measured in turn for each server, over
loopback, with wrk as the senders: one request a connection on both sides, as the protocol here has it.
SECONDS is how long a row takes for each (4), ROUNDS how often (3; the round with the most requests a
second counts), ROWS which kinds of rows, by default `load delay drip memory`:

    load      a peer that answers at once, with 1, 8, 64 and 256 connections
    delay     one that answers after 50 ms, with 64, 512 and 2,048 connections, and after 200 ms; plain Rust,
              which has a thread for each packet in flight, is left out
    drip      8 connections beside 1,000 that send a head, one octet a second each; plain Rust, which has a
              thread for each connection, would serve nobody
    memory    what is in memory with 4,096 packets of 1,000 octets in flight to a peer that says nothing
    long      8 connections at the start, and behind 10^6 entries in the journal

A request has failed where it got no 200, and of the connector's also where it got a Reject. Without nginx
its rows are left out; without wrk, or where a server does not start, it ends with one line. It needs 20,000
open files.
"""
import contextlib
import os
import re
import resource
import shutil
import signal
import socket
import subprocess
import sys
import tempfile
import threading
import time
import urllib.request
from dataclasses import dataclass
from pathlib import Path

TICK = os.sysconf("SC_CLK_TCK")
SECONDS = int(os.environ.get("SECONDS", "4"))
ROUNDS = int(os.environ.get("ROUNDS", "3"))
ROWS = os.environ.get("ROWS", "load delay drip memory").split()

# What a Prepare of 1 to test.bob has before its data. It expires in 2040; its condition is the SHA-256 digest
# of 32 zero octets.
FIELDS = ((1).to_bytes(8, "big") + b"20400101000000000"
          + bytes.fromhex("66687aadf862bd776c8fc18b8e9f8e20089714856ee233b3902a591d0d5f2925")
          + b"\x08test.bob")

# One without data, and one of 1,000 octets.
PREPARE = b"\x0c\x43" + FIELDS + b"\x00"
LARGE = b"\x0c\x82\x03\xe4" + FIELDS + b"\x82\x03\x9f" + bytes(927)

# The connector's workers, and the threads of plain Rust.
WORKERS, THREADS = 4, 8

# How many packets are in flight where memory is measured, of one sender and to one receiver: half of all.
FLYING = 4096

HAS_NGINX = shutil.which("nginx") is not None


class Missing(Exception):
    """Something that the benchmark needs is not there."""


def free_port() -> int:
    with socket.socket() as one:
        one.bind(("127.0.0.1", 0))
        return one.getsockname()[1]


def processes_of(pid: int) -> list[int]:
    """A process and its children."""
    found = [pid]
    for other in filter(str.isdigit, os.listdir("/proc")):
        with contextlib.suppress(OSError):
            if int(Path(f"/proc/{other}/stat").read_text().rpartition(")")[2].split()[1]) == pid:
                found.append(int(other))
    return found


def processor_seconds(pid: int) -> float:
    spent = 0
    for one in processes_of(pid):
        fields = Path(f"/proc/{one}/stat").read_text().rpartition(")")[2].split()
        spent += int(fields[11]) + int(fields[12])
    return spent / TICK


def megabytes(pid: int) -> float:
    kibibytes = 0
    for one in processes_of(pid):
        found = re.search(r"VmRSS:\s+(\d+)", Path(f"/proc/{one}/status").read_text())
        kibibytes += int(found[1]) if found else 0
    return kibibytes / 1024


@dataclass
class Server:
    """A server that runs, and where it is reached."""
    name: str
    process: subprocess.Popen[bytes]
    port: int
    engines: int | None = None

    def await_listening(self) -> None:
        for port in [self.port, *([self.engines] if self.engines else [])]:
            self.await_port(port)

    def await_port(self, port: int) -> None:
        for _ in range(2_000):
            if self.process.poll() is not None:
                raise Missing(f"{self.name} doesn't start")
            with contextlib.suppress(OSError), socket.create_connection(("127.0.0.1", port), 1):
                return
            time.sleep(0.005)
        raise Missing(f"{self.name} doesn't listen")

    def reported(self, name: str) -> int:
        """A number of the connector's report: its `entries`, or how many packets it has `fulfilled`."""
        with urllib.request.urlopen(f"http://127.0.0.1:{self.engines}/report", b"") as report:
            return int(re.search(rf"(?m)^{name} +(\d+)$", report.read().decode())[1])


class Bench:
    """A folder, and the programs that run in it."""

    def __init__(self, folder: Path, connector: str, rust: str, peer: str) -> None:
        self.folder, self.connector, self.rust, self.peer = folder, connector, rust, peer
        self.script = folder / "wrk.lua"
        octets = "".join(f"\\{octet:03d}" for octet in PREPARE)
        self.script.write_text('wrk.method = "POST"\nwrk.path = "/ilp"\n'
                               'wrk.headers["Authorization"] = "Bearer a-token"\n'
                               'wrk.headers["Connection"] = "close"\n'
                               f'wrk.body = "{octets}"\n')

    @contextlib.contextmanager
    def run(self, name: str, words: list[str], port: int, engines: int | None = None):
        with open(self.folder / f"{name}.log", "wb") as log:
            process = subprocess.Popen(words, stdout=log, stderr=log)
        server = Server(name, process, port, engines)
        try:
            server.await_listening()
            yield server
        finally:
            process.send_signal(signal.SIGTERM)
            process.wait()

    def run_peer(self, delay: int):
        port = free_port()
        return self.run("peer", [self.peer, str(port), str(delay), "128"], port)

    def run_connector(self, bob: int, in_flight: int = 4096):
        port, engines = free_port(), free_port()
        least = -2 ** 63
        path = self.folder / "connector.toml"
        path.write_text(f'''address = "test.hub"
run = "bench"
listen = "127.0.0.1:{port}"
engine_listen = "127.0.0.1:{engines}"
workers = {WORKERS}
in_flight = {in_flight}
journal = 16777216
[[asset]]
code = "USD"
scale = 2
[[peer]]
name = "alice"
asset = "USD/2"
token = "a-token"
out_token = "to-alice"
host = "127.0.0.1:1"
least = {least}
[[peer]]
name = "bob"
asset = "USD/2"
token = "b-token"
out_token = "to-bob"
host = "127.0.0.1:{bob}"
least = {least}
[[route]]
prefix = "test.bob"
peer = "bob"
''')
        return self.run("connector", [self.connector, "serve", str(path)], port, engines)

    def run_rust(self, bob: int):
        port = free_port()
        words = [self.rust, str(port), str(bob), str(THREADS), "16777216"]
        return self.run("rust", words, port)

    def run_nginx(self, bob: int, _in_flight: int = 0):
        port = free_port()
        path = self.folder / "nginx.conf"
        path.write_text(f'''worker_processes auto;
daemon off;
pid {self.folder}/nginx.pid;
error_log {self.folder}/nginx.error;
events {{ worker_connections 8192; }}
http {{
    access_log off;
    keepalive_timeout 0;
    client_body_temp_path {self.folder}/body;
    proxy_temp_path {self.folder}/proxy;
    fastcgi_temp_path {self.folder}/fastcgi;
    uwsgi_temp_path {self.folder}/uwsgi;
    scgi_temp_path {self.folder}/scgi;
    server {{
        listen 127.0.0.1:{port};
        location / {{ proxy_pass http://127.0.0.1:{bob}; }}
    }}
}}
''')
        return self.run("nginx", ["nginx", "-c", str(path), "-e", f"{self.folder}/nginx.error"], port)

    def load(self, server: Server, connections: int, seconds: int) -> "Figures":
        """What wrk measures of a server."""
        fulfilled = server.reported("fulfilled") if server.engines else 0
        before = processor_seconds(server.process.pid)
        words = ["wrk", "-t", str(min(2, connections)), "-c", str(connections), "-d", f"{seconds}s",
                 "--latency", "-s", str(self.script), f"http://127.0.0.1:{server.port}/ilp"]
        told = subprocess.run(words, capture_output=True, text=True, check=True).stdout
        spent = processor_seconds(server.process.pid) - before
        requests = int(re.search(r"(\d+) requests in", told)[1])
        failed = sum(int(one) for one in re.findall(r"Non-2xx or 3xx responses: (\d+)", told))
        errors = re.search(r"Socket errors: connect (\d+), read (\d+), write (\d+), timeout (\d+)", told)
        failed += sum(int(one) for one in errors.groups()) if errors else 0
        # A report takes memory of its own.
        memory = megabytes(server.process.pid)
        if server.engines:
            failed += max(0, requests - (server.reported("fulfilled") - fulfilled))
        return Figures(float(re.search(r"Requests/sec:\s+([\d.]+)", told)[1]), quantile(told, "50%"),
                       quantile(told, "99%"), 1e6 * spent / max(requests, 1), failed, memory)


def quantile(told: str, which: str) -> float:
    """In milliseconds."""
    found = re.search(rf"{which}\s+([\d.]+)(us|ms|s)", told)
    return float(found[1]) * {"us": 1e-3, "ms": 1.0, "s": 1e3}[found[2]]


@dataclass
class Figures:
    rate: float
    half: float
    most: float
    processor: float
    failed: int
    memory: float


def tell(row: str, name: str, figures: Figures, connector: Figures | None) -> None:
    ratio = f"{connector.processor / figures.processor:6.2f}" if connector else " " * 6
    print(f"{row:24} {name:10} {figures.rate:9.0f} {figures.half:9.2f} {figures.most:9.2f} "
          f"{figures.processor:9.0f} {ratio} {figures.memory:8.1f} {figures.failed:7d}", flush=True)


def best(found: list[Figures]) -> Figures:
    return max(found, key=lambda figures: figures.rate)


def measure(bench: Bench, row: str, connections: int, delay: int) -> None:
    """One row, for each server in turn."""
    servers = [bench.run_connector, *[bench.run_nginx] * HAS_NGINX]
    if delay == 0:
        servers.append(bench.run_rust)
    found: dict[str, list[Figures]] = {}
    with bench.run_peer(delay) as peer:
        for _ in range(ROUNDS):
            for start in servers:
                with start(peer.port) as server:
                    bench.load(server, connections, 1)
                    found.setdefault(server.name, []).append(bench.load(server, connections, SECONDS))
    connector = best(found["connector"])
    for name, figures in found.items():
        tell(row, name, best(figures), None if name == "connector" else connector)


def drip(port: int, count: int, over: threading.Event) -> None:
    """So many connections that send a head, one octet a second each."""
    head = b"POST /ilp HTTP/1.1\r\nHost: hub\r\nX-Slow: " + b"x" * 4096
    links: list[tuple[socket.socket, int]] = []
    while not over.is_set():
        kept = []
        for link, place in links:
            with contextlib.suppress(OSError):
                link.send(head[place:place + 1])
                kept.append((link, place + 1))
        links = kept
        for _ in range(count - len(links)):
            with contextlib.suppress(OSError):
                links.append((socket.create_connection(("127.0.0.1", port), 1), 0))
        over.wait(1.0)
    for link, _ in links:
        link.close()


def measure_beside_drips(bench: Bench, count: int, connections: int) -> None:
    """A row beside so many that drip."""
    with bench.run_peer(0) as peer:
        for start in [bench.run_connector, *[bench.run_nginx] * HAS_NGINX]:
            with start(peer.port) as server:
                over = threading.Event()
                dripping = threading.Thread(target=drip, args=(server.port, count, over))
                dripping.start()
                try:
                    time.sleep(2)
                    figures = best([bench.load(server, connections, SECONDS) for _ in range(ROUNDS)])
                finally:
                    over.set()
                    dripping.join()
                tell(f"{connections} beside {count} drips", server.name, figures, None)


class SilentPeer:
    """A peer that accepts connections, and says nothing."""

    def __init__(self) -> None:
        self.listener = socket.create_server(("127.0.0.1", 0), backlog=FLYING)
        self.port = self.listener.getsockname()[1]
        self.links: list[socket.socket] = []
        threading.Thread(target=self.accept, daemon=True).start()

    def accept(self) -> None:
        with contextlib.suppress(OSError):
            while True:
                self.links.append(self.listener.accept()[0])

    def await_links(self, count: int) -> None:
        """Waits until there are so many connections."""
        end = time.monotonic() + 25.0
        while len(self.links) < count:
            if time.monotonic() > end:
                raise Missing(f"only {len(self.links)} packets are in flight, and not {count}")
            time.sleep(0.01)

    def close(self) -> None:
        for link in [self.listener, *self.links]:
            link.close()


def measure_memory(bench: Bench) -> None:
    """Prints what is in memory before packets are in flight, and then."""
    octets = (f"POST /ilp HTTP/1.1\r\nHost: hub\r\nAuthorization: Bearer a-token\r\nContent-Length: {len(LARGE)}"
              "\r\n\r\n").encode() + LARGE
    for start in [bench.run_connector, *[bench.run_nginx] * HAS_NGINX]:
        with contextlib.closing(SilentPeer()) as peer, start(peer.port, 2 * FLYING) as server, \
                contextlib.ExitStack() as stack:
            idle = megabytes(server.process.pid)
            for _ in range(FLYING):
                link = stack.enter_context(socket.create_connection(("127.0.0.1", server.port), 10))
                link.sendall(octets)
            peer.await_links(FLYING)
            more = megabytes(server.process.pid) - idle
            print(f"{f'{FLYING} in flight':24} {server.name:10} {idle:.1f} MB before, {more:.1f} more then: "
                  f"{1024 * more / FLYING:.1f} KB for each", flush=True)


def measure_long(bench: Bench, entries: int) -> None:
    """The connector at its start, and with so many entries in its journal."""
    with bench.run_peer(0) as peer, bench.run_connector(peer.port) as server:
        bench.load(server, 8, 1)
        tell("at the start", server.name, bench.load(server, 8, SECONDS), None)
        while (made := server.reported("entries")) < entries:
            bench.load(server, 64, 10)
        figures = best([bench.load(server, 8, SECONDS) for _ in range(ROUNDS)])
        tell(f"with {made}", server.name, figures, None)


def run(bench: Bench) -> None:
    print(f"{'row':24} {'server':10} {'a second':>9} {'50% ms':>9} {'99% ms':>9} "
          f"{'us each':>9} {'ratio':>6} {'MB':>8} {'failed':>7}")
    if "load" in ROWS:
        for connections in (1, 8, 64, 256):
            measure(bench, f"{connections} at once", connections, 0)
    if "delay" in ROWS:
        for delay, connections in ((50, 64), (50, 512), (50, 2048), (200, 2048)):
            measure(bench, f"{delay} ms, {connections} at once", connections, delay)
    if "drip" in ROWS:
        measure_beside_drips(bench, 1_000, 8)
    if "memory" in ROWS:
        measure_memory(bench)
    if "long" in ROWS:
        measure_long(bench, 1_000_000)


def main() -> int:
    if len(sys.argv) != 4:
        print("usage: serve.py PATH/TO/connector PATH/TO/rust PATH/TO/peer", file=sys.stderr)
        return 2
    _, hard = resource.getrlimit(resource.RLIMIT_NOFILE)
    resource.setrlimit(resource.RLIMIT_NOFILE, (hard, hard))
    try:
        if shutil.which("wrk") is None:
            raise Missing("wrk is not installed")
        if not HAS_NGINX:
            print("serve: nginx is not installed, so its rows are left out", file=sys.stderr)
        with tempfile.TemporaryDirectory() as folder:
            os.chmod(folder, 0o755)
            run(Bench(Path(folder), *sys.argv[1:]))
    except (Missing, OSError) as why:
        print(f"serve: {why}", file=sys.stderr)
        return 1
    return 0


if __name__ == "__main__":
    sys.exit(main())
