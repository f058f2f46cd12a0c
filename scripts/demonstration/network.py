"""The network: two connectors, north and south, a receiver behind the second, and an engine beside each.

    alice --USD-- north --EUR-- south --EUR-- bob, the receiver
                    |             |
              north's engine  south's engine
"""
import contextlib
import errno
import secrets
import socket
import subprocess
import sys
import tomllib
from pathlib import Path
from string import Template

from demonstration.amounts import Configuration
from demonstration.children import WITHIN, Child
from demonstration.failing import TOP, BadInput, expect

HERE = "127.0.0.1"
CONNECTORS = ("north", "south")
EXAMPLES = TOP / "examples"
TEMPLATES = Path(__file__).resolve().parent

# Who has a port, from the first on. At alice's nobody listens, since nothing is sent to her.
PLACES = ("north", "north_engines", "south", "south_engines", "receiver", "north_engine", "south_engine", "alice")

# Who shows a token to whom.
TOKENS = ("alice_to_north", "north_to_alice", "north_to_south", "south_to_north", "south_to_bob", "bob_to_south")


def expect_free(port: int) -> None:
    """Refuses a port at which something listens."""
    with socket.socket() as probe:
        probe.setsockopt(socket.SOL_SOCKET, socket.SO_REUSEADDR, 1)
        try:
            probe.bind((HERE, port))
        except OSError as fault:
            why = "in use" if fault.errno == errno.EADDRINUSE else f"not to be had ({fault.strerror})"
            raise BadInput(f"port {port} is {why}: free it, or give the first of eight free ports, as in --ports "
                           f"{port + 100 if port < 60_000 else 7810}") from None


def expect_ports(first: int) -> None:
    """Refuses ports that others have."""
    for place in range(len(PLACES)):
        expect_free(first + place)


class Network:
    """The programs and their files in one folder. What runs ends with the stack."""

    def __init__(self, program: Path, folder: Path, first: int, stack: contextlib.ExitStack) -> None:
        self.program = program
        self.folder = folder
        self.stack = stack
        self.ports = {name: first + place for place, name in enumerate(PLACES)}
        self.tokens = {name: secrets.token_hex(24) for name in TOKENS}
        self.configurations = {name: self.configure(name) for name in CONNECTORS}
        self.children: dict[str, Child] = {}

    def configure(self, name: str) -> Configuration:
        """Writes a connector's configuration, and reads it."""
        template = Template((TEMPLATES / f"{name}.toml").read_text())
        text = template.substitute({**self.ports, **self.tokens})
        self.path(name, "toml").write_text(text)
        return Configuration(tomllib.loads(text))

    def path(self, name: str, kind: str) -> Path:
        """A file of a connector."""
        return self.folder / f"{name}.{kind}"

    def url(self, place: str, target: str) -> str:
        """Where a target of a place is posted to."""
        return f"http://{HERE}:{self.ports[place]}{target}"

    # ---- what runs

    def start(self, name: str, words: list[str]) -> Child:
        """Starts a program, which ends with the network."""
        child = Child(name, words, self.folder)
        self.stack.callback(child.stop)
        self.children[name] = child
        return child

    def start_example(self, name: str, script: str, *words: str) -> None:
        """Starts one of the examples at its port."""
        place = f"{HERE}:{self.ports[name]}"
        self.start(name, [sys.executable, str(EXAMPLES / script), "--listen", place, *words])

    def await_examples(self) -> None:
        """Waits until all of them listen."""
        for name in ("receiver", "north_engine", "south_engine"):
            self.children[name].await_printed("listening at .+")

    def start_receiver(self, preimages: list[bytes]) -> None:
        """Starts bob, who has these preimages."""
        file = self.folder / "preimages"
        file.write_text("".join(f"{one.hex()}\n" for one in preimages))
        self.start_example("receiver", "receiver.py", "--token", self.tokens["south_to_bob"],
                           "--address", "test.south.bob", "--preimages", str(file))

    def start_engines(self) -> None:
        """Starts the engine of each connector; south hears of what north's one pays."""
        told = self.url("south_engines", "/accounts/north/settlements")
        self.start_example("north_engine", "engine.py", "--tell", f"south={told}")
        self.start_example("south_engine", "engine.py")

    def start_connector(self, name: str, run: int) -> None:
        """Starts a connector over its journal."""
        words = [str(self.program), "serve", str(self.path(name, "toml")), str(self.path(name, "journal"))]
        self.children[name] = self.start(f"{name}-{run}", words)

    def await_connector(self, name: str) -> None:
        """Waits until a connector listens."""
        self.children[name].await_told("info listening at .+")

    # ---- what the program says without running

    def checked(self, name: str, *journal: str) -> str:
        """What `check` says of a connector's configuration, and of its journal."""
        words = [str(self.program), "check", str(self.path(name, "toml")), *journal]
        try:
            done = subprocess.run(words, capture_output=True, text=True, errors="replace", timeout=WITHIN)
        except (OSError, subprocess.TimeoutExpired) as fault:
            return str(fault)
        return done.stdout.strip()

    def expect_connector(self) -> None:
        """Refuses a program that does not say what a connector says of these configurations."""
        if self.checked("north") != "ok 2 peers 2 assets 2 routes":
            raise BadInput(f"{self.program} is no connector of this repository: build one by scripts/build.sh, or "
                           f"give --quick")

    def statement(self, name: str, peer: str) -> Path:
        """A file with a connector's statement of a peer's account, in CSV."""
        words = [str(self.program), "statement", str(self.path(name, "toml")), str(self.path(name, "journal")), peer, "--csv"]
        done = subprocess.run(words, capture_output=True, timeout=WITHIN)
        expect(f"the status of {name}'s statement of {peer}", (done.returncode, done.stderr), (0, b""))
        file = self.path(name, f"{peer}.csv")
        file.write_bytes(done.stdout)
        return file

    def reconciled(self) -> str:
        """What examples/reconcile.py says in the end of the statements of the two connectors' account."""
        statements = [str(self.statement("north", "south")), str(self.statement("south", "north"))]
        words = [sys.executable, str(EXAMPLES / "reconcile.py"), *statements]
        done = subprocess.run(words, capture_output=True, text=True, timeout=WITHIN)
        expect("the status of reconcile.py", (done.returncode, done.stderr), (0, ""))
        return done.stdout.splitlines()[-1]

    def expect_saved(self, name: str, entries: int) -> None:
        """A connector's journal is there, and has so many entries."""
        said = self.checked(name, str(self.path(name, "journal")))
        expect(f"what check says of {name}'s journal", said.rpartition("routes ")[2], f"{entries} entries")
