"""PostgreSQL and SQLite, which commit rows of as many octets as the log has of a packet, from so many connections."""
import contextlib
import os
import pwd
import re
import shutil
import subprocess
import tempfile
import threading
import time
from collections.abc import Iterator
from pathlib import Path

from serve import Missing, free_port
from servers import OCTETS, SECONDS, Figures, written_by

try:
    import sqlite3
    HAS_SQLITE = True
except ImportError:
    HAS_SQLITE = False

ROW = "x" * OCTETS
INSERT = f"insert into lines (line) values ('{ROW}')"

# How many octets its write-ahead log has.
POSITION = "select pg_wal_lsn_diff(pg_current_wal_insert_lsn(), '0/0')"


def quantile(times: list[float], part: float) -> float:
    """In milliseconds, of times in seconds."""
    return 1e3 * sorted(times)[int(part * (len(times) - 1))] if times else 0.0


# ---- PostgreSQL

def program(name: str) -> str | None:
    """A program of PostgreSQL: on the path, or where Debian has the newest version's."""
    places = sorted(Path("/usr/lib/postgresql").glob("*/bin"), key=lambda place: -float(place.parent.name))
    return shutil.which(name, path=os.pathsep.join([os.environ["PATH"], *map(str, places)]))


HAS_POSTGRESQL = all(map(program, ("initdb", "postgres", "psql", "pgbench")))


def own_user() -> str | None:
    """Who runs it in place of root, whom it refuses."""
    if os.geteuid() != 0:
        return None
    names = {entry.pw_name for entry in pwd.getpwall()}
    return "postgres" if "postgres" in names else "nobody"


class PostgreSql:
    """A cluster with one table, as it is by default: each commit waits for the disk."""

    def __init__(self, folder: Path, connections: int) -> None:
        self.folder, self.connections = folder, connections
        self.place = ["-h", str(folder), "-p", str(free_port()), "-U", "bench"]
        self.user = own_user()
        if self.user is not None:
            shutil.chown(folder, self.user)

    @contextlib.contextmanager
    def run(self) -> Iterator[None]:
        """It runs."""
        data = self.folder / "data"
        subprocess.run([program("initdb"), "-D", data, "-A", "trust", "-U", "bench", "--no-sync"], check=True,
                       user=self.user, stdout=subprocess.DEVNULL)
        words = [program("postgres"), "-D", data, "-k", self.folder, "-p", self.place[3], "-c", "listen_addresses=",
                 "-c", f"max_connections={self.connections + 20}"]
        with open(self.folder / "said", "wb") as said:
            process = subprocess.Popen(words, user=self.user, stdout=said, stderr=said)
        try:
            self.await_it()
            self.ask("create table lines (number bigserial primary key, line text not null)")
            yield
        finally:
            process.terminate()
            process.wait()

    def await_it(self) -> None:
        """Waits until it answers."""
        end = time.monotonic() + 30.0
        words = [program("psql"), *self.place, "-c", "", "postgres"]
        while subprocess.run(words, capture_output=True).returncode != 0:
            if time.monotonic() > end:
                raise Missing("PostgreSQL doesn't start")
            time.sleep(0.1)

    def ask(self, text: str) -> str:
        """What it answers."""
        words = [program("psql"), *self.place, "-qAt", "-c", text, "postgres"]
        return subprocess.run(words, capture_output=True, text=True, check=True).stdout.strip()

    def insert(self, seconds: int) -> tuple[float, list[float]]:
        """Rows a second, and the seconds that each took, of so many connections of pgbench."""
        with tempfile.TemporaryDirectory() as folder:
            script = Path(folder, "insert.sql")
            script.write_text(INSERT + ";\n")
            threads = min(2, self.connections)
            words = [program("pgbench"), *self.place, "-n", "-M", "prepared", "-f", script, "-c",
                     str(self.connections), "-j", str(threads), "-T", str(seconds), "-l", "postgres"]
            told = subprocess.run(words, capture_output=True, text=True, check=True, cwd=folder).stdout
            lines = [line for path in Path(folder).glob("pgbench_log.*") for line in path.read_text().splitlines()]
        # It tells none where no row came in time.
        rates = re.findall(r"tps = ([\d.]+)", told)
        return float(rates[0]) if rates else 0.0, [int(line.split()[2]) / 1e6 for line in lines]


def postgresql(connections: int, disk: Path) -> Figures:
    """Rows that are inserted and committed by so many connections."""
    with tempfile.TemporaryDirectory(dir=disk) as folder:
        cluster = PostgreSql(Path(folder), connections)
        with cluster.run():
            cluster.insert(1)
            position = float(cluster.ask(POSITION))
            rate, times = cluster.insert(SECONDS)
            octets = (float(cluster.ask(POSITION)) - position) / max(1, len(times))
    return Figures(rate, quantile(times, 0.5), quantile(times, 0.99), 0, octets)


# ---- SQLite

def connect(path: Path) -> "sqlite3.Connection":
    """A connection whose commits wait for the disk, by a log that is written ahead."""
    link = sqlite3.connect(path, timeout=60.0, isolation_level=None, check_same_thread=False)
    link.execute("pragma journal_mode = wal")
    link.execute("pragma synchronous = full")
    return link


def insert_until(link: "sqlite3.Connection", end: float, times: list[float], failed: list[str]) -> None:
    """Inserts rows, each committed by itself, until a moment, and keeps the seconds that each took."""
    while (start := time.monotonic()) < end:
        try:
            link.execute(INSERT)
            times.append(time.monotonic() - start)
        except sqlite3.Error as error:
            failed.append(str(error))


def sqlite(connections: int, disk: Path) -> Figures:
    """Rows that are inserted and committed by so many threads of Python, each with a connection."""
    with tempfile.TemporaryDirectory(dir=disk) as folder:
        links = [connect(Path(folder, "rows")) for _ in range(connections)]
        links[0].execute("create table lines (number integer primary key, line text not null)")
        times, failed = list[float](), list[str]()
        before, end = written_by(os.getpid()), time.monotonic() + SECONDS
        threads = [threading.Thread(target=insert_until, args=(link, end, times, failed)) for link in links]
        for thread in threads:
            thread.start()
        for thread in threads:
            thread.join()
        written = (written_by(os.getpid()) - before) / max(1, len(times))
        for link in links:
            link.close()
    return Figures(len(times) / SECONDS, quantile(times, 0.5), quantile(times, 0.99), len(failed), written=written)
