#!/usr/bin/env python3
"""Tries examples/deploy/connector-run under supervisors that end it by signals.

    scripts/try_wrapper.py [ROUNDS]

Each trial is run ROUNDS times (10) over one journal. Its supervisor sends a signal at once, at a random moment, as
the connector begins, once it listens, twice, to the whole group, from outside of a PID namespace where the wrapper
is process 1, and so on. After each the report has to be there, and the journal with each settlement that was
credited; or nothing was begun. Then it is tried with what fails: a close that can't be posted, a name that is taken, a
connector that is killed, after which the next one goes on, one that is refused, and an address that another connector
has.

It takes the program of scripts/build.sh, or the one that CONNECTOR names. It needs Linux, Python 3.11, curl and
unshare, which has to be allowed. The exit status is 0 where all held, 1 where something differed, and 2 where
something is missing.
"""
import contextlib
import os
import random
import re
import shutil
import signal
import subprocess
import sys
import tempfile
import time
from collections.abc import Callable
from concurrent.futures import ThreadPoolExecutor
from functools import partial
from pathlib import Path

from cases.case import Differs, expect, expect_that
from cases.messages import bearer, post, request, response, soon
from cases.program import Setup
from cases.stand_ins import StandIn, never_answers
from connections import quantity
from deploying.programs import DEPLOY, DIFFERED, HELD, MISSING, Missing, connector, expect_tools, say
from scenes import R00

WRAPPER = str(DEPLOY / "connector-run")

# In seconds: what a start, an answer or an end takes at most beside other work, and how often it is looked for.
WITHIN, PAUSE = 30.0, 0.005

# In milliseconds.
HOLD = 1000

# The second in which each start of some trials is.
START = "20260102T030405Z"

SIGNALS = (signal.SIGTERM, signal.SIGINT, signal.SIGHUP)
LISTENING, CLOSING = "info listening at ", "info closing: "

# A process of its own PID namespace, whose first one is the wrapper.
OWN_NAMESPACE = ["unshare", "--pid", "--fork", "--mount-proc"]
AS_ROOT_THERE = [] if os.geteuid() == 0 else ["--user", "--map-root-user"]


class Bench:
    """A configuration, a journal and a folder of reports, which go from trial to trial."""

    def __init__(self, program: Path, folder: Path) -> None:
        self.program = program
        self.folder = folder
        self.bob = StandIn(never_answers)
        self.setup = Setup(bob=self.bob.port, top={"max_hold_ms": HOLD})
        self.configuration = folder / "connector.toml"
        self.configuration.write_text(self.setup.text())
        self.journal = folder / "state/hub.journal"
        self.reports = folder / "reports"
        # What stands beside the journal while a connector runs, and what an earlier version left that stopped.
        self.log = folder / "state/hub.journal.log"
        self.mark = folder / "state/hub.journal.running"
        for path in (self.journal.parent, self.reports):
            path.mkdir()
        # How many entries the journal must have, and the names of the reports so far.
        self.entries = 0
        self.kept: set[str] = set()

    def check(self) -> str:
        """What the program says of the journal."""
        words = [str(self.program), "check", str(self.configuration), str(self.journal)]
        return subprocess.run(words, capture_output=True, text=True).stdout.strip()

    def credit(self) -> None:
        """A settlement that alice's engine tells, and that is credited."""
        target, key = "/accounts/alice/settlements", f"Idempotency-Key: k{self.entries}"
        answer = post(self.setup.engines_port, request(target, key, body=quantity(1, 2)))
        expect("the answer to a settlement", answer[:12], b"HTTP/1.1 201")
        self.entries += 1

    def new_files(self) -> list[str]:
        """What came into the folder of reports since the last look."""
        names = set(os.listdir(self.reports))
        new = sorted(names - self.kept)
        self.kept = names
        return new


class Wrapped:
    """A wrapper that runs, with its connector."""

    def __init__(self, bench: Bench, before: list[str], **environment: str) -> None:
        self.bench = bench
        self.before = before
        self.errors = bench.folder / "lines"
        words = [*before, WRAPPER, str(bench.configuration), str(bench.journal), str(bench.reports)]
        environment = {**os.environ, "CONNECTOR": str(bench.program), **environment}
        with open(self.errors, "wb") as lines:
            self.process = subprocess.Popen(words, stdin=subprocess.DEVNULL, stdout=subprocess.DEVNULL, stderr=lines,
                                            env=environment, start_new_session=True)

    def said(self) -> str:
        """Standard error so far."""
        return self.errors.read_text(errors="replace")

    def await_that(self, what: str, holds: Callable[[], object]) -> None:
        """Waits until something holds."""
        end = time.monotonic() + WITHIN
        while not holds():
            expect_that(f"{what} did not come within {WITHIN:.0f} seconds: {self.said()!r}", time.monotonic() < end)
            time.sleep(PAUSE)

    def await_line(self, text: str) -> None:
        """Waits until a line has this text."""
        self.await_that(repr(text), lambda: text in self.said())

    def first(self) -> int:
        """The number of the wrapper's own process, as it is seen from here."""
        if not self.before:
            return self.process.pid
        file = Path(f"/proc/{self.process.pid}/task/{self.process.pid}/children")
        self.await_that("a first process", lambda: file.read_text().split())
        return int(file.read_text().split()[0])

    def await_trap(self) -> None:
        """Waits until the wrapper catches SIGTERM: before that its namespace would drop the signal."""
        def catches() -> bool:
            status = Path(f"/proc/{self.first()}/status").read_text()
            found = re.search(r"SigCgt:\s*([0-9a-f]+)", status)
            return found is not None and bool(int(found[1], 16) >> signal.SIGTERM - 1 & 1)
        self.await_that("a trap of SIGTERM", catches)

    def child(self) -> int:
        """The number of the connector's process."""
        found = subprocess.run(["pgrep", "-f", f"^{self.bench.program} serve {self.bench.configuration}"],
                               capture_output=True, text=True).stdout.split()
        expect("how many connectors run", len(found), 1)
        return int(found[0])

    def signal(self, number: int = signal.SIGTERM) -> None:
        """Sends the wrapper a signal."""
        os.kill(self.first(), number)

    def status(self) -> int:
        """The exit status, once it has ended."""
        try:
            return self.process.wait(WITHIN)
        except subprocess.TimeoutExpired:
            raise Differs(f"it has not ended within {WITHIN:.0f} seconds: {self.said()!r}") from None

    def stop(self) -> None:
        """Kills what is left of it."""
        with contextlib.suppress(ProcessLookupError):
            os.killpg(self.process.pid, signal.SIGKILL)
        self.process.wait()


# ---- what must hold at the end

def expect_saved(bench: Bench, wrapped: Wrapped) -> None:
    """It has ended well: one whole report is new, and the journal has each settlement that was credited."""
    expect("the exit status", wrapped.status(), 0)
    expect_that("JOURNAL.log is there", not bench.log.exists())
    new = bench.new_files()
    expect_that(f"one report is to be new, and there are {new}", len(new) == 1 and new[0].endswith(".report"))
    lines = (bench.reports / new[0]).read_text().splitlines()
    expect("the lines of the report", len(lines), 11)
    expect("its last two lines", [line.split() for line in lines[-2:]],
           [["entries", str(bench.entries)], ["fulfilled", "0"]])
    expect("the journal", bench.check(), f"ok 2 peers 1 assets 2 routes {bench.entries} entries")


def expect_saved_or_not_begun(bench: Bench, wrapped: Wrapped) -> None:
    """The same, or it came to an end before a connector began."""
    status = wrapped.status()
    if LISTENING in wrapped.said():
        return expect_saved(bench, wrapped)
    said = wrapped.said()
    begun = any("info journal" in line or "warn journal" in line for line in said.splitlines())
    expect_that(f"a connector began and did not listen: {said!r}", not begun)
    expect_that(f"the exit status is {status}: {said!r}", status in (0, -signal.SIGTERM))
    expect("new files", bench.new_files(), [])
    expect_that("JOURNAL.log is there", not bench.log.exists())
    return None


# ---- signals

def at_once(bench: Bench, wrapped: Wrapped) -> None:
    """TERM as soon as the wrapper is a process."""
    wrapped.signal()
    expect_saved_or_not_begun(bench, wrapped)


def at_random(bench: Bench, wrapped: Wrapped) -> None:
    """TERM, INT or HUP at any moment of the first half second."""
    time.sleep(random.uniform(0.0, 0.5))
    wrapped.signal(random.choice(SIGNALS))
    expect_saved_or_not_begun(bench, wrapped)


def as_it_begins(bench: Bench, wrapped: Wrapped) -> None:
    """TERM when the connector has begun its log, and does not listen yet."""
    wrapped.await_that("JOURNAL.log", bench.log.exists)
    wrapped.signal()
    expect_saved(bench, wrapped)


def once_it_listens(bench: Bench, wrapped: Wrapped) -> None:
    """TERM behind a settlement."""
    wrapped.await_line(LISTENING)
    bench.credit()
    wrapped.signal()
    expect_saved(bench, wrapped)


def again_and_again(bench: Bench, wrapped: Wrapped) -> None:
    """TERM behind a settlement, and then more of it until the end."""
    wrapped.await_line(LISTENING)
    bench.credit()
    while wrapped.process.poll() is None:
        with contextlib.suppress(ProcessLookupError):
            wrapped.signal(random.choice(SIGNALS))
        time.sleep(random.uniform(0.0, 0.1))
    expect_saved(bench, wrapped)


def while_it_closes(bench: Bench, wrapped: Wrapped) -> None:
    """TERM when somebody else has closed the connector: nothing is posted to its address any more."""
    wrapped.await_line(LISTENING)
    bench.credit()
    expect("a close", post(bench.setup.engines_port, request("/close"))[:12], b"HTTP/1.1 200")
    wrapped.await_line(CLOSING)
    wrapped.signal()
    expect_saved(bench, wrapped)
    expect_that(f"something was posted: {wrapped.said()!r}", "curl:" not in wrapped.said())


def beside_a_packet(bench: Bench, wrapped: Wrapped) -> None:
    """TERM while a packet is at a peer that says nothing: its sender is answered when the hold is over."""
    wrapped.await_line(LISTENING)
    before = len(bench.bob.of("/ilp"))
    with ThreadPoolExecutor(1) as pool:
        octets = request("/ilp", bearer(bench.setup.token), body=soon())
        answer = pool.submit(post, bench.setup.peers_port, octets, WITHIN)
        bench.bob.await_count("/ilp", before + 1)
        wrapped.signal()
        expect("the answer to the packet", answer.result(), response(200, R00))
    # The hold and its release.
    bench.entries += 2
    expect_saved(bench, wrapped)


def to_the_group(bench: Bench, wrapped: Wrapped) -> None:
    """A signal to all of its processes, as a terminal sends it."""
    wrapped.await_line(LISTENING)
    bench.credit()
    os.killpg(wrapped.process.pid, random.choice(SIGNALS))
    expect_saved(bench, wrapped)


def as_process_1(bench: Bench, wrapped: Wrapped) -> None:
    """TERM from outside to the first process of a namespace, behind a settlement."""
    once_it_listens(bench, wrapped)


def as_process_1_at_once(bench: Bench, wrapped: Wrapped) -> None:
    """The same as soon as it may be sent."""
    wrapped.await_trap()
    wrapped.signal()
    expect_saved_or_not_begun(bench, wrapped)


TRIALS = (at_once, at_random, as_it_begins, once_it_listens, again_and_again, while_it_closes, beside_a_packet,
          to_the_group, as_process_1, as_process_1_at_once)


def play_signal(bench: Bench, trial: Callable[[Bench, Wrapped], None]) -> None:
    """A trial of a signal."""
    before = [*OWN_NAMESPACE, *AS_ROOT_THERE] if "process_1" in trial.__name__ else []
    wrapped = Wrapped(bench, before)
    try:
        trial(bench, wrapped)
    finally:
        wrapped.stop()


# ---- faults

def posts_that_fail(bench: Bench, wrapped: Wrapped) -> None:
    """The first closes can't be posted: they are posted again."""
    wrapped.await_line(LISTENING)
    bench.credit()
    wrapped.signal()
    expect_saved(bench, wrapped)
    expect("how many closes were posted", (bench.folder / "posts").read_text().count("/close"), 3)


def names_that_are_taken(bench: Bench, wrapped: Wrapped) -> None:
    """Starts of one second have reports of their own, and an older one stays as it was."""
    wrapped.await_line(LISTENING)
    wrapped.signal()
    expect("the exit status", wrapped.status(), 0)
    expect("new files", bench.new_files(), [f"{START}-3.report"])
    expect("the older report", (bench.reports / f"{START}.report").read_text(), "older\n")


def refused(bench: Bench, wrapped: Wrapped) -> None:
    """A connector that is refused is not begun."""
    expect("the exit status", wrapped.status(), 1)
    expect_that(f"nothing says so: {wrapped.said()!r}", "the connector was not begun" in wrapped.said())
    expect("new files", bench.new_files(), [])


def killed(bench: Bench, wrapped: Wrapped) -> None:
    """A connector that was killed has no report, and the next start goes on from its log."""
    wrapped.await_line(LISTENING)
    bench.credit()
    os.kill(wrapped.child(), signal.SIGKILL)
    expect("the exit status", wrapped.status(), 128 + signal.SIGKILL)
    expect_that(f"nothing says so: {wrapped.said()!r}", "status 137, and printed nothing" in wrapped.said())
    expect("new files", bench.new_files(), [])
    again = Wrapped(bench, [])
    try:
        once_it_listens(bench, again)
        expect_that(f"nothing says so: {again.said()!r}", "and 1 entries come from its log" in again.said())
    finally:
        again.stop()


def another_has_the_address(bench: Bench, wrapped: Wrapped) -> None:
    """A signal does not close the connector that has the address, over another journal."""
    wrapped.await_line(LISTENING)
    folder = bench.folder / "other"
    folder.mkdir()
    other = Bench(bench.program, folder)
    other.configuration.write_text(bench.configuration.read_text())
    second = Wrapped(other, [])
    try:
        # Its connector is refused soon, so it may have ended by itself before the signal.
        second.await_that("its beginning", lambda: os.listdir(other.reports) or second.process.poll() is not None)
        with contextlib.suppress(ProcessLookupError):
            second.signal()
        expect("the exit status of the second", second.status(), 1)
        expect("its new files", [name.rpartition(".")[2] for name in other.new_files()], ["failed"])
    finally:
        second.stop()
    bench.credit()
    expect_that(f"the first one closes: {wrapped.said()!r}", CLOSING not in wrapped.said())
    wrapped.signal()
    expect_saved(bench, wrapped)


def with_tools(folder: Path) -> str:
    """A path on which the first two calls of curl fail, and on which it is always the same second."""
    tools = folder / "tools"
    tools.mkdir(exist_ok=True)
    curl = (f'echo "$@" >>{folder}/posts\n[ "$(wc -l <{folder}/posts)" -gt 2 ] || exit 7\n'
            f'exec {shutil.which("curl")} "$@"\n')
    for name, text in (("curl", curl), ("date", f"echo {START}\n")):
        (tools / name).write_text(f"#!/bin/sh\n{text}")
        (tools / name).chmod(0o755)
    return f"{tools}:{os.environ['PATH']}"


def prepare(bench: Bench, trial: Callable[[Bench, Wrapped], None]) -> dict[str, str]:
    """What has to be there before a trial, and its environment."""
    if trial is refused:
        bench.mark.write_text("run r1, begun with 0 entries\n")
    if trial is names_that_are_taken:
        (bench.reports / f"{START}.report").write_text("older\n")
        (bench.reports / f"{START}-2.part").mkdir()
        bench.new_files()
    return {"PATH": with_tools(bench.folder)} if trial in (posts_that_fail, names_that_are_taken) else {}


def play_fault(bench: Bench, trial: Callable[[Bench, Wrapped], None]) -> None:
    """A trial of what fails."""
    wrapped = Wrapped(bench, [], **prepare(bench, trial))
    try:
        trial(bench, wrapped)
    finally:
        wrapped.stop()
        if trial is refused:
            bench.mark.unlink()


FAULTS = (posts_that_fail, names_that_are_taken, refused, killed, another_has_the_address)


# ---- the program

def play(program: Path, rounds: int) -> None:
    """All trials, each of which is told."""
    with tempfile.TemporaryDirectory(prefix="wrapper-trial-") as folder:
        bench = Bench(program, Path(folder))
        for trial in TRIALS:
            for _ in range(rounds):
                named(trial.__name__, partial(play_signal, bench, trial))
            print(f"{trial.__name__}: held {rounds} times", flush=True)
        for trial in FAULTS:
            named(trial.__name__, partial(play_fault, bench, trial))
            print(f"{trial.__name__}: held", flush=True)


def named(name: str, trial: Callable[[], None]) -> None:
    """A trial whose differences have its name."""
    try:
        trial()
    except (Differs, OSError) as differs:
        raise Differs(f"{name}: {differs}") from None


def main(words: list[str]) -> int:
    if len(words) > 1 or not all(word.isascii() and word.isdigit() and int(word) for word in words):
        say("try_wrapper.py", "usage: scripts/try_wrapper.py [ROUNDS]")
        return MISSING
    try:
        expect_tools({"curl": "curl", "unshare": "util-linux", "pgrep": "procps"})
        if subprocess.run([*OWN_NAMESPACE, *AS_ROOT_THERE, "true"], capture_output=True).returncode != 0:
            raise Missing("unshare makes no PID namespace: run this as root, or where users may make namespaces")
        play(connector(), int(words[0]) if words else 10)
    except Missing as missing:
        say("try_wrapper.py", str(missing))
        return MISSING
    except Differs as differs:
        say("try_wrapper.py", str(differs))
        return DIFFERED
    return HELD


if __name__ == "__main__":
    sys.exit(main(sys.argv[1:]))
