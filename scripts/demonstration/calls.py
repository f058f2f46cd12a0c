"""What an operator, a peer or an engine does by hand: with curl, and with examples/prepare.py."""
import subprocess
import sys

from demonstration.failing import Differs, expect
from demonstration.network import EXAMPLES, Network

PREPARE = [sys.executable, str(EXAMPLES / "prepare.py")]

# In seconds, as curl counts them.
WITHIN = "30"


def run(words: list[str], given: bytes, *statuses: int) -> bytes:
    """What a program prints that is given this, and ends with one of these statuses."""
    done = subprocess.run(words, input=given, capture_output=True)
    if done.returncode not in (statuses or (0,)):
        said = (done.stderr or done.stdout).decode(errors="replace").strip()
        raise Differs(f"{words[0]} has ended with status {done.returncode}: {said}")
    return done.stdout


def curl(url: str, body: bytes, *fields: str) -> bytes:
    """The body that a POST is answered, which must be a good one."""
    words = ["curl", "-q", "-sS", "-f", "--noproxy", "*", "--max-time", WITHIN, "--data-binary", "@-"]
    words += [word for one in fields for word in ("-H", one)]
    return run([*words, url], body)


def send_packet(network: Network, amount: int, destination: str) -> str:
    """What prepare.py says of the reply to a packet that it made."""
    packet = run([*PREPARE, str(amount), destination], b"")
    token = network.tokens["alice_to_north"]
    reply = curl(network.url("north", "/ilp"), packet, f"Authorization: Bearer {token}",
                 "Content-Type: application/octet-stream")
    return run([*PREPARE, "--reply"], reply, 0, 1).decode().strip()


def credit(network: Network, amount: int, key: str) -> None:
    """Tells north that alice paid, as her engine would."""
    body = f'{{"amount":"{amount}","scale":2}}'.encode()
    answer = curl(network.url("north_engines", "/accounts/alice/settlements"), body,
                  f"Idempotency-Key: {key}", "Content-Type: application/json")
    expect("the answer to a settlement of alice", answer, body)


def switch(network: Network, engine: str, mode: str) -> None:
    """Has an engine do something else with settlements."""
    curl(network.url(engine, "/switch"), mode.encode())


def close(network: Network, connector: str) -> None:
    """Asks a connector to end."""
    curl(network.url(f"{connector}_engines", "/close"), b"")
