"""How long a start takes behind so many entries: in the log, as a sudden stop leaves it, and then in the journal."""
import contextlib
import hashlib
import signal
import socket
import subprocess
import tempfile
import time
from pathlib import Path

from serve import Bench, Missing
from servers import MOST, Setup

# In seconds: the most that a start may take.
LONGEST = 1_800.0

# Packets of 1 from alice to bob, one a millisecond, each fulfilled at once. Their number is that of the hold.
FIRST = 1_735_689_600_000
PREIMAGE = bytes(32)
CONDITION = hashlib.sha256(PREIMAGE).hexdigest()

# How many packets are written at once.
TOGETHER = 100_000


def lines_of(packets: range) -> str:
    """The lines of these packets in a log."""
    return "".join(f"{FIRST + number} 31 hold alice bob 1 0 1 {FIRST + number + 29_000} {CONDITION}\n"
                   f"{FIRST + number} 31 fulfilled {2 * number} {PREIMAGE.hex()}\n" for number in packets)


def write_log(path: Path, entries: int) -> None:
    """A log of so many entries that goes on from no journal."""
    packets = entries // 2
    with open(path, "w") as log:
        log.write(f"ilp-log 1 0 {hashlib.sha256(b'').hexdigest()}\nrun r1; peer alice USD 2; peer bob USD 2\n")
        for first in range(0, packets, TOGETHER):
            log.write(lines_of(range(first, min(packets, first + TOGETHER))))


def await_listening(process: subprocess.Popen[bytes], port: int, began: float) -> float:
    """The seconds since then, once it takes connections."""
    while time.monotonic() < began + LONGEST:
        if process.poll() is not None:
            raise Missing("the connector doesn't start behind a long log")
        with contextlib.suppress(OSError), socket.create_connection(("127.0.0.1", port), 1):
            return time.monotonic() - began
        time.sleep(0.01)
    raise Missing(f"the connector has not started within {LONGEST} seconds")


def start(bench: Bench, folder: Path) -> float:
    """The seconds of a start over the journal in the folder, of a connector that is killed then."""
    setup = Setup(least=-2**63, top={"journal": MOST})
    configuration = folder / "connector.toml"
    configuration.write_text(setup.text())
    began = time.monotonic()
    with open(folder / "said", "ab") as said:
        words = [bench.connector, "serve", configuration, folder / "journal"]
        process = subprocess.Popen(words, stdout=said, stderr=said)
    try:
        return await_listening(process, setup.peers_port, began)
    finally:
        process.send_signal(signal.SIGKILL)
        process.wait()


def expect_saved(journal: Path, entries: int) -> None:
    """A start has saved so many entries."""
    last = f"\nend {entries}\n".encode()
    with open(journal, "rb") as text:
        text.seek(-len(last), 2)
        if text.read() != last:
            raise Missing("the journal behind a long log has not its entries")


def tell_starts(bench: Bench, disk: Path, entries: int) -> None:
    """A start behind a log of so many entries, which saves the journal, and one behind that."""
    with tempfile.TemporaryDirectory(dir=disk) as name:
        folder = Path(name)
        write_log(folder / "journal.log", entries)
        for where in ("log", "journal"):
            took = start(bench, folder)
            print(f"a start behind {entries} entries in the {where}: {took:.2f} seconds, "
                  f"{1e9 * took / entries:.0f} ns an entry", flush=True)
        expect_saved(folder / "journal", entries)
