"""The connector's program as a child: its configuration, what it prints, and how it ends."""
import os
import re
import resource
import secrets
import signal
import subprocess
import time
from dataclasses import dataclass, field
from pathlib import Path

from cases.case import Differs, expect, expect_that
from cases.lines import ENDED_OF_ANOTHER_TEXT, OF_ANOTHER_TEXT, WARNING, Line, check_lines, read_lines
from cases.messages import HERE, connect
from cases.stand_ins import free_port

DESCRIPTORS = 12_288

# In octets: the stack of each thread where a program has room for so many threads alone, and its room for
# all else, which is less than a stack.
STACK, BESIDE = 2**30, 3 * 2**28

# Where the program runs, clocks on walls are not those of UTC.
ZONE = "AWAY-5:45"
RUN = "r1"

# Refusals whose lines on standard error are those of a running connector.
TOLD_WITH_A_TIME = ("refused 64 ", "refused 66 ", "refused 67 ", "refused 73 ")


def secret() -> str:
    """A text that stands nowhere by chance."""
    return secrets.token_urlsafe(24)


@dataclass
class Setup:
    """A configuration of two peers, alice and bob, as the built-in one: ports, tokens, levels. The
    engine is bob's."""

    bob: int = field(default_factory=free_port)
    alice: int = field(default_factory=free_port)
    bob_host: str | None = None
    engine: int | None = None
    engine_of_alice: int | None = None
    levels: bool = True
    settle_max: int | None = None
    # By peers' names, in milliseconds: for how long their settlements wait.
    waits: dict[str, int | str] = field(default_factory=dict)
    top: dict[str, int | str] = field(default_factory=dict)
    listen: str = field(default_factory=lambda: f"{HERE}:{free_port()}")
    engine_listen: str = field(default_factory=lambda: f"{HERE}:{free_port()}")
    token: str = field(default_factory=secret)
    bob_token: str = field(default_factory=secret)
    to_alice: str = field(default_factory=secret)
    to_bob: str = field(default_factory=secret)
    key: str = field(default_factory=secret)
    out_path: str = "/ilp"
    least: int = -1_000_000
    fee_ppm: int | None = None
    routes: dict[str, str] = field(
        default_factory=lambda: {"test.alice": "alice", "test.bob": "bob"})
    scale: int = 2
    asset_of_bob: str | None = None
    # Tables behind those of the two.
    further: list[str] = field(default_factory=list)

    @property
    def peers_port(self) -> int:
        """Where peers reach the connector."""
        return int(self.listen.rpartition(":")[2])

    @property
    def engines_port(self) -> int:
        """Where settlement engines reach it."""
        return int(self.engine_listen.rpartition(":")[2])

    @property
    def secrets(self) -> list[str]:
        """What is never on standard error."""
        return [self.token, self.bob_token, self.to_alice, self.to_bob]

    def peer(self, name: str, token: str, out_token: str, host: str,
             engine: int | None, asset: str | None = None) -> list[str]:
        """The table of a peer."""
        lines = ["[[peer]]", f'name = "{name}"', f'asset = "{asset or f"USD/{self.scale}"}"', f'token = "{token}"',
                 f'out_token = "{out_token}"', f'host = "{host}"',
                 f'out_path = "{self.out_path}"', f"least = {self.least}"]
        if self.fee_ppm is not None:
            lines.append(f"fee_ppm = {self.fee_ppm}")
        if engine is not None:
            lines.append(f'engine = "{HERE}:{engine}"')
            lines += ["threshold = 1000", "settle_to = 200"] if self.levels else []
            lines += [] if self.settle_max is None else [f"settle_max = {self.settle_max}"]
        if name in self.waits:
            lines.append(f"settle_after_ms = {self.waits[name]}")
        return lines

    def text(self) -> str:
        """The configuration as TOML."""
        top = {"address": "test.hub", "run": RUN, "listen": self.listen,
               "engine_listen": self.engine_listen, **self.top}
        lines = [f'{name} = "{value}"' if isinstance(value, str) else f"{name} = {value}"
                 for name, value in top.items()]
        lines += ["[[asset]]", 'code = "USD"', f"scale = {self.scale}"]
        lines += self.peer("alice", self.token, self.to_alice, f"{HERE}:{self.alice}",
                           self.engine_of_alice)
        lines += self.peer("bob", self.bob_token, self.to_bob,
                           self.bob_host or f"{HERE}:{self.bob}", self.engine, self.asset_of_bob)
        for prefix, name in self.routes.items():
            lines += ["[[route]]", f'prefix = "{prefix}"', f'peer = "{name}"']
        return "\n".join(lines + self.further) + "\n"


# The labels and names of a report of alice and bob, line by line.
REPORT = (("balance", "alice"), ("balance", "bob"), ("open", "alice"), ("open", "bob"),
          ("held", "USD/2"), ("fees", "USD/2"), ("bought", "USD/2"), ("sold", "USD/2"),
          ("settled", "USD/2"), ("entries", ""), ("fulfilled", ""))


def numbers_in(text: str) -> list[int]:
    """The numbers of a report of alice and bob."""
    numbers = [int(number) for number in re.findall(r"-?\d+$", text, re.MULTILINE)]
    lines = [f"{label:<10}{name:<20}{number:>30}\n"
             for (label, name), number in zip(REPORT, numbers)]
    expect("the report", text.splitlines(keepends=True), lines)
    expect("the lines of the report", len(lines), len(REPORT))
    return numbers


def limit_threads(threads: int) -> None:
    """Leaves room for the stacks of so many threads. The C library gives a thread as much stack as the
    first one may have. A limit of processes would not hold for root."""
    _, most = resource.getrlimit(resource.RLIMIT_STACK)
    resource.setrlimit(resource.RLIMIT_STACK, (STACK, most))
    room = threads * STACK + BESIDE
    resource.setrlimit(resource.RLIMIT_AS, (room, room))


class Program:
    """`connector serve` over a configuration, or with another argument that is given. Its two streams
    go to files, or to other descriptors that are given. It can start so many threads where that is
    given. A journal is kept where one is given, and another user runs it where his number is. No file of
    it may be larger than that, until `limit_files` says otherwise, streams are closed, and its environment
    has more, where these are given."""

    def __init__(self, binary: Path, folder: Path, setup: Setup, descriptors: int = DESCRIPTORS,
                 errors: int | None = None, argument: str | None = None,
                 output: int | None = None, threads: int | None = None,
                 journal: Path | str | None = None, user: int | None = None,
                 largest_file: int | None = None, closed: tuple[int, ...] = (),
                 environment: dict[str, str] | None = None) -> None:
        self.setup = setup
        self.folder = folder
        self.binary = binary
        self.started = time.time()
        self.configuration = folder / "connector.toml"
        self.configuration.write_text(setup.text())
        self.configuration.chmod(0o644 if user is not None else 0o600)
        words = [str(binary), "serve", argument or str(self.configuration)]
        words += [str(journal)] if journal is not None else []

        def limit() -> None:
            resource.setrlimit(resource.RLIMIT_NOFILE, (descriptors, descriptors))
            if threads is not None:
                limit_threads(threads)
            if largest_file is not None:
                _, most = resource.getrlimit(resource.RLIMIT_FSIZE)
                resource.setrlimit(resource.RLIMIT_FSIZE, (largest_file, most))
            for number in closed:
                os.close(number)

        with open(folder / "stdout", "wb") as printed, open(folder / "stderr", "wb") as told:
            self.child = subprocess.Popen(
                words, stdin=subprocess.DEVNULL, stdout=printed if output is None else output,
                stderr=told if errors is None else errors, preexec_fn=limit, user=user,
                env={**os.environ, "TZ": ZONE, **(environment or {})})

    def output(self) -> str:
        """Standard output so far."""
        return (self.folder / "stdout").read_text(errors="replace")

    def errors(self) -> str:
        """Standard error so far."""
        return (self.folder / "stderr").read_text(errors="replace")

    def error_lines(self) -> list[str]:
        """The lines on standard error so far."""
        return self.errors().splitlines()

    def lines(self) -> list[Line]:
        """The lines on standard error so far, as a running connector tells them, but those of `warnings`."""
        return [line for line in read_lines(self.errors()) if not line.said.startswith(WARNING)]

    def warnings(self) -> list[str]:
        """What it tells at its start of its configuration."""
        lines = read_lines(self.errors())
        return [line.said.removeprefix(WARNING) for line in lines if line.said.startswith(WARNING)]

    def told(self, form: str) -> list[Line]:
        """Those of them whose level and text have this form."""
        return [line for line in self.lines() if re.fullmatch(form, line.said)]

    def await_told(self, form: str, count: int = 1, within: float = 5.0) -> list[Line]:
        """The same, once there are so many."""
        end = time.monotonic() + within
        while len(lines := self.told(form)) < count:
            expect_that(f"within {within} seconds {len(lines)} lines had the form {form!r}, and not "
                        f"{count}: {self.error_lines()[-10:]}", time.monotonic() < end)
            time.sleep(0.01)
        return lines

    def check_lines(self) -> None:
        """Each line on standard error is one of a running connector, if it came to run."""
        if not self.refused_to_run():
            check_lines(self.errors(), self.started, time.time())

    def refused_to_run(self) -> bool:
        """Whether its configuration was refused, or a text of its journal, which is told without a time."""
        text = self.output()
        untimed = f"(?m)^({OF_ANOTHER_TEXT}|{ENDED_OF_ANOTHER_TEXT})$"
        has_time = text.startswith(TOLD_WITH_A_TIME) and not re.search(untimed, self.errors())
        return text.startswith("refused ") and not has_time

    def await_listening(self, within: float = 10.0) -> None:
        """Waits for the line that says that it listens."""
        end = time.monotonic() + within
        while not re.search(r" info listening at .+\n", self.errors()):
            if self.child.poll() is not None:
                raise Differs(f"it ended with status {self.child.returncode} before it listened; "
                              f"it printed {self.output()!r} and {self.errors()!r}")
            if time.monotonic() > end:
                raise Differs(f"no line says that it listens within {within} seconds")
            time.sleep(0.005)
        expect_that(f"the line does not name {self.setup.listen}: {self.errors()!r}",
                    self.setup.listen in self.errors())

    def await_served(self, within: float = 10.0) -> None:
        """Waits until its engines' side takes a connection, also where it tells nobody that it listens."""
        end = time.monotonic() + within
        while True:
            try:
                connect(self.setup.engines_port).close()
                return
            except OSError:
                expect_that(f"it takes no connection within {within} seconds", time.monotonic() < end)
                time.sleep(0.02)

    def limit_files(self, octets: int) -> None:
        """Lets no file of it grow beyond so many octets."""
        _, most = resource.prlimit(self.child.pid, resource.RLIMIT_FSIZE)
        resource.prlimit(self.child.pid, resource.RLIMIT_FSIZE, (octets, most))

    def end(self, within: float) -> int:
        """The status with which it ends, which it must do within so many seconds."""
        try:
            return self.child.wait(within)
        except subprocess.TimeoutExpired:
            raise Differs(f"it has not ended within {within} seconds") from None

    def has_ended(self) -> bool:
        """Whether it has ended, or does within a moment: its sockets close before it is gone."""
        try:
            self.child.wait(0.2)
            return True
        except subprocess.TimeoutExpired:
            return False

    def terminate(self) -> None:
        """Sends SIGTERM."""
        self.child.send_signal(signal.SIGTERM)

    def kill(self) -> None:
        """Ends it, whatever it does."""
        if self.child.poll() is None:
            self.child.kill()
        self.child.wait()

    def expect_running(self) -> None:
        """Refuses a program that has ended."""
        if self.has_ended():
            raise Differs(f"it ended with status {self.child.returncode}, and was to run on")

    def memory(self) -> int:
        """What it has in memory, in KiB (VmRSS)."""
        for line in Path(f"/proc/{self.child.pid}/status").read_text().splitlines():
            if line.startswith("VmRSS:"):
                return int(line.split()[1])
        raise Differs("the program has no memory: it ended")

    def descriptors(self) -> int:
        """How many descriptors it has open."""
        return len(os.listdir(f"/proc/{self.child.pid}/fd"))

    def processor_seconds(self) -> float:
        """The processor time that it used."""
        fields = Path(f"/proc/{self.child.pid}/stat").read_text().rpartition(")")[2].split()
        return (int(fields[11]) + int(fields[12])) / os.sysconf("SC_CLK_TCK")
