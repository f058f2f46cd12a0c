"""The file of a journal: saved and begun again, what a sudden stop leaves, and what is refused."""
import json
import os
import re
import shutil
import subprocess
import time
from concurrent.futures import ThreadPoolExecutor
from pathlib import Path

from cases.case import case, expect, expect_that
from cases.conversations import report
from cases.laboratory import (END, Laboratory, close, credit, expect_end, expect_served, post_close)
from cases.lines import NO_JOURNAL
from cases.messages import created, response
from cases.program import Program, Setup, numbers_in
from cases.stand_ins import ACCEPTS, FULFILLS, StandIn, engine_of, in_turn, never_answers
from connections import quantity

# In octets: what a file may have where the journal has no room, and more than that.
LITTLE, ENOUGH = 4096, 1_000_000
PACKETS = 80

# In seconds: how long a start may take, and how long writing is tried again, with the calls themselves.
START, TRIED = 5.0, 66.0

# In octets: the most that a journal may have.
LONGEST = 8_589_934_592

SETTLEMENTS = "/accounts/bob/settlements"

# The user "nobody" of most systems.
NOBODY = 65534


class Kept:
    """A journal in a folder of its own, and a configuration by which it is kept."""

    def __init__(self, laboratory: Laboratory, setup: Setup | None = None) -> None:
        self.laboratory = laboratory
        self.setup = setup or Setup(bob=laboratory.stand_in(FULFILLS).port)
        self.folder = laboratory.folder()
        self.path = self.folder / "journal"

    def beside(self, kind: str) -> Path:
        """The file of this kind beside the journal."""
        return self.folder / f"journal.{kind}"

    def files(self) -> list[str]:
        """The names in the folder."""
        return sorted(os.listdir(self.folder))

    def contents(self) -> dict[str, bytes]:
        """What the plain files in the folder have, and nothing of the others."""
        paths = [self.folder / name for name in self.files()]
        return {path.name: path.read_bytes() if path.is_file() and not path.is_symlink() else b"" for path in paths}

    def start(self, environment: dict[str, str] | None = None) -> Program:
        """A program that was started over it, and may not listen yet, with such an environment where one is given."""
        laboratory = self.laboratory
        return laboratory.run(Program(laboratory.binary, laboratory.folder(), self.setup, journal=self.path,
                                      environment=environment))

    def serve(self, largest_file: int | None = None, environment: dict[str, str] | None = None) -> Program:
        """A program that listens, with such a limit and such an environment where these are given."""
        laboratory = self.laboratory
        program = laboratory.run(Program(laboratory.binary, laboratory.folder(), self.setup, journal=self.path,
                                         largest_file=largest_file, environment=environment))
        program.await_listening()
        return program

    def text(self) -> str:
        """The journal's text."""
        return self.path.read_text()

    def entries(self) -> int:
        """How many entries its last line tells."""
        return int(self.text().splitlines()[-1].removeprefix("end "))

    def said(self, text: str) -> str:
        """A text on the journal, with its path."""
        return f"journal {json.dumps(str(self.path))}: {text}"

    def check(self, program: Program) -> subprocess.CompletedProcess[str]:
        """What `check` says of it, and of the configuration of a program."""
        words = [str(program.binary), "check", str(program.configuration), str(self.path)]
        return subprocess.run(words, capture_output=True, text=True, timeout=10.0)

    def expect_checked(self, program: Program, *said: str, entries: int | None = None) -> None:
        """`check` tells how many entries a start begins with, those of the journal if nothing else is given, and
        these texts on the journal, and neither makes nor changes a file."""
        before = self.contents()
        done = self.check(program)
        if entries is None:
            entries = self.entries() if self.path.exists() else 0
        told = f"ok 2 peers 1 assets 2 routes {entries} entries\n"
        lines = "".join(f"{self.said(text)}\n" for text in said)
        expect("what check says", (done.returncode, done.stdout, done.stderr), (0, told, lines))
        expect("the files after a check", self.contents(), before)

    def expect_refused(self, told: str, *lines: str, made: tuple[str, ...] = ("journal.lock",)) -> None:
        """A start ends at once as refused, with these lines on standard error, and so does a check. The
        files stay as they are, but that those are there that a start makes."""
        before = self.contents()
        program = self.start()
        expect("the exit status", program.end(START), 1)
        expect("standard output", program.output(), f"refused {told}\n")
        expect_lines("standard error", program.errors(), lines)
        done = self.check(program)
        expect("what check says", (done.returncode, done.stdout), (1, f"refused {told}\n"))
        expect_lines("standard error of check", done.stderr, lines)
        after = self.contents()
        expect("the files", sorted(after), sorted({*before, *made}))
        expect("what the files have", {name: after[name] for name in before}, before)


def expect_lines(what: str, errors: str, forms: tuple[str, ...]) -> None:
    """Each line has its form, after its time if it has one."""
    lines = [re.sub(r"^\d{4}-\S+Z ", "", line) for line in errors.splitlines()]
    expect(f"{what}: how many lines: {lines}", len(lines), len(forms))
    for line, form in zip(lines, forms):
        expect_that(f"{what}: {line!r} has not the form {form!r}", re.fullmatch(form, line) is not None)


def send_many(program: Program) -> None:
    """So many packets, that the journal's text is longer than a little."""
    for _ in range(PACKETS):
        expect_served(program, amount=1)


# ---- from one run to the next

@case
def journal_from_run_to_run(laboratory: Laboratory) -> None:
    """What was booked is there after the next start: balances, the report, keys and numbers."""
    bob, engine = laboratory.stand_in(FULFILLS), laboratory.stand_in(engine_of(ACCEPTS))
    kept = Kept(laboratory, Setup(bob=bob.port, engine=engine.port, top={"settle_ms": 20}))
    program = kept.serve()
    expect("the first line", program.lines()[0].said.startswith(f"warn {kept.said('not there yet')}"), True)
    expect("the files of a connector that runs", kept.files(), ["journal.lock", "journal.log"])
    expect_served(program, amount=30)
    expect("a credit", credit(program, 1000), created(quantity(1000, 2)))
    program.await_told("info settlement 3 with bob of 830: confirmed")
    close(program, alice=-30, bob=200)
    expect("the files after the close", kept.files(), ["journal", "journal.lock"])
    expect("the last lines", [line.said for line in program.lines()][-2:],
           ["info closing: no connection is accepted any more",
            f"info {kept.said('saved with 5 entries')}"])
    expect("the entries", kept.entries(), 5)
    printed = program.output()

    kept.expect_checked(program)
    program = kept.serve()
    expect("the first line", program.lines()[0].said, f"info {kept.said('begun with its 5 entries')}")
    expect("the files of a connector that runs", kept.files(), ["journal", "journal.lock", "journal.log"])
    expect("the report", report(program), printed)
    expect("the same credit", credit(program, 1000), created(quantity(1000, 2)))
    expect("another under its key", credit(program, 5), response(409))
    expect_served(program, amount=4)
    expect("another credit", credit(program, 900, key="another"), created(quantity(900, 2)))
    program.await_told("info settlement 8 with bob of 904: confirmed")
    expect("the keys of the settlements", keys_of(engine), [b"r1-3", b"r1-8"])
    close(program, alice=-34, bob=200)
    expect("the entries", kept.entries(), 10)


@case
def open_settlement_from_run_to_run(laboratory: Laboratory) -> None:
    """A settlement that is open at the close is asked for again under its key by the next run."""
    engine = laboratory.stand_in(engine_of(in_turn(never_answers, ACCEPTS)))
    kept = Kept(laboratory, Setup(engine=engine.port, top={"settle_ms": 20}))
    program = kept.serve()
    expect("a credit", credit(program, 1000), created(quantity(1000, 2)))
    engine.await_count(SETTLEMENTS, 1)
    close(program, bob=200)
    expect("the last entry", kept.text().splitlines()[-2].split()[1:], ["5", "asked", "bob", "800"])
    program = kept.serve()
    program.await_told("info settlement 1 with bob of 800: confirmed")
    expect("the keys of the settlements", keys_of(engine), [b"r1-1", b"r1-1"])
    close(program, bob=200)
    expect("the last entry", kept.text().splitlines()[-2].split()[1:], ["5", "confirmed", "1"])


def keys_of(engine: StandIn) -> list[bytes]:
    """The keys under which an engine was asked for bob's settlements."""
    return [one.octets.partition(b"Idempotency-Key: ")[2].partition(b"\r\n")[0]
            for one in engine.of(SETTLEMENTS)]


@case
def journal_of_nothing(laboratory: Laboratory) -> None:
    """A connector that booked nothing leaves a journal of nothing, and a check makes no file."""
    kept = Kept(laboratory)
    program = laboratory.start(kept.setup)
    program.await_listening()
    close(program)
    expect("the first line without a journal", program.lines()[0].said, NO_JOURNAL)
    kept.expect_checked(program)
    expect("the files", kept.files(), [])
    close(kept.serve())
    expect("the text", kept.text(), "ilp-journal 1\nend 0\n")


@case
def journal_beside_an_address_in_use(laboratory: Laboratory) -> None:
    """Where the connector can't listen nothing was booked, and the next start is not refused."""
    kept = Kept(laboratory)
    other = laboratory.start(kept.setup)
    other.await_listening()
    program = kept.start()
    expect("the exit status", program.end(START), 1)
    expect("standard output", program.output(), "refused 66 ListenFault\n")
    expect("the files", kept.files(), ["journal.lock"])
    close(other)
    close(kept.serve())


# ---- a sudden stop, of which cases/logs.py has more

STOPPED = (r"error journal .+: a connector stopped without saving it \(.+ says \"run r1, begun with {} "
           r"entries\"\): what it booked is lost, while engines know its keys and a start would use its "
           r"numbers again")
TO_DO = (r"error compare with peers and engines what was booked since, move .+ and .+ away, and start with a "
         r"`run` that no earlier start had")


@case
def journal_of_an_earlier_version(laboratory: Laboratory) -> None:
    """A connector that kept no log and stopped is told at the next start, until its mark is moved away."""
    kept = Kept(laboratory)
    program = kept.serve()
    expect("a credit", credit(program, 7), created(quantity(7, 2)))
    close(program, bob=7)
    kept.beside("running").write_text("run r1, begun with 1 entries\n")
    for _ in range(2):
        kept.expect_refused("73 JournalUnread", STOPPED.format(1), TO_DO)
    kept.beside("running").unlink()
    close(kept.serve(), bob=7)


@case
def journal_of_an_ended_connector(laboratory: Laboratory) -> None:
    """A connector that a signal ended leaves its log beside the journal as it was, and the next start goes on
    from both."""
    kept = Kept(laboratory)
    program = kept.serve()
    expect("a credit", credit(program, 7), created(quantity(7, 2)))
    close(program, bob=7)
    for count, stop in enumerate((Program.kill, Program.terminate), start=1):
        before = kept.text()
        program = kept.serve()
        expect_served(program, amount=2)
        stop(program)
        program.child.wait()
        expect("the journal", kept.text(), before)
        expect("the files", kept.files(), ["journal", "journal.lock", "journal.log"])
        program = kept.serve()
        told = f"warn {kept.said('a connector stopped without saving it, and 2 entries come from its log')}"
        expect("the first line", program.lines()[0].said, told)
        close(program, alice=-2 * count, bob=7 + 2 * count)
    expect("the entries", kept.entries(), 5)


@case
def journal_killed_while_it_is_saved(laboratory: Laboratory) -> None:
    """A connector that is killed while it writes leaves the old journal whole, with its log and what it wrote
    beside it. The next start tells of that, saves what both have in its place, and goes on."""
    kept = Kept(laboratory)
    program = kept.serve()
    expect("a credit", credit(program, 7), created(quantity(7, 2)))
    close(program, bob=7)
    before = kept.text()
    program = kept.serve()
    send_many(program)
    program.limit_files(LITTLE)
    post_close(program)
    program.await_told(r"warn journal .+: can't be saved: .+")
    program.kill()
    expect("the journal", kept.text(), before)
    expect("the octets beside it", kept.beside("new").stat().st_size, LITTLE)
    program = kept.serve()
    lines = [line.said for line in program.lines()]
    expect("the first line", lines[0].startswith("warn "), True)
    expect("the lines on it", len(program.told(r"warn \".+new\" lies there, .+")), 1)
    told = f"a connector stopped without saving it, and {2 * PACKETS} entries come from its log"
    expect("the second line", lines[1], f"warn {kept.said(told)}")
    expect("the files", kept.files(), ["journal", "journal.lock", "journal.log"])
    expect("the entries", kept.entries(), 1 + 2 * PACKETS)
    expect("the balances", numbers_in(report(program))[:2], [-PACKETS, 7 + PACKETS])
    close(program, alice=-PACKETS, bob=7 + PACKETS)
    expect("the files", kept.files(), ["journal", "journal.lock"])


@case
def journal_that_can_be_saved_late(laboratory: Laboratory) -> None:
    """Where a journal has no room it is tried again, and saved once it has."""
    kept = Kept(laboratory)
    program = kept.serve()
    send_many(program)
    program.limit_files(LITTLE)
    post_close(program)
    program.await_told(r"warn journal .+: can't be saved: .+: make room for it, .+")
    program.limit_files(ENOUGH)
    expect_end(program, alice=-PACKETS, bob=PACKETS, within=2 * END)
    expect("how often it is told", len(program.told(r"warn journal .+: can't be saved: .+")), 1)
    saved = kept.said(f"saved with {2 * PACKETS} entries")
    expect("the last line", program.lines()[-1].said, f"info {saved}")
    expect("the files", kept.files(), ["journal", "journal.lock"])
    kept.expect_checked(program)


@case
def journal_that_can_not_be_saved(laboratory: Laboratory) -> None:
    """After a minute it is refused, and all files stay. The next start goes on from the log."""
    kept = Kept(laboratory)
    close(kept.serve())
    before = kept.text()
    program = kept.serve()
    send_many(program)
    program.limit_files(LITTLE)
    post_close(program)
    expect("the exit status", program.end(TRIED), 1)
    printed = program.output().removesuffix("refused 64 WriteFault\n")
    expect("the balances", numbers_in(printed)[:2], [-PACKETS, PACKETS])
    expect("how often it is told", len(program.told(r"warn journal .+")), 1)
    expect("how many errors are told", len(program.told(r"error journal .+: not saved: .+")), 1)
    expect("the journal", kept.text(), before)
    expect("the files", kept.files(), [f"journal{kind}" for kind in ("", ".lock", ".log", ".new")])
    close(kept.serve(), alice=-PACKETS, bob=PACKETS)
    expect("the entries", kept.entries(), 2 * PACKETS)


# ---- what is refused at the start

@case
def journal_in_no_folder(laboratory: Laboratory) -> None:
    """A path in a folder that is not there, or may not be written, is refused before anybody is served."""
    kept = Kept(laboratory)
    kept.folder = kept.folder / "absent"
    kept.path = kept.folder / "journal"
    program = kept.start()
    expect("the exit status", program.end(START), 1)
    expect("standard output", program.output(), "refused 64 WriteFault\n")
    lines = (r"error can't make \".+/absent/journal.lock\": .+: see that the journal's folder is there, may "
             r"be written and has room",)
    expect_lines("standard error", program.errors(), lines)
    done = kept.check(program)
    expect("what check says", (done.returncode, done.stdout), (1, "refused 64 WriteFault\n"))
    expect_lines("standard error of check", done.stderr, lines)


@case
def journal_without_rights(laboratory: Laboratory) -> None:
    """A folder that may be read alone, with its lock or without. Root, who may all, runs it as nobody."""
    kept = Kept(laboratory)
    user, binary = None, laboratory.binary
    if os.geteuid() == 0:
        user, binary = NOBODY, copy_for_all(laboratory)
    for lock in (False, True):
        if lock:
            kept.beside("lock").touch()
            kept.beside("lock").chmod(0o666)
        kept.folder.chmod(0o555)
        folder = laboratory.folder()
        folder.chmod(0o755)
        program = laboratory.run(Program(binary, folder, kept.setup, journal=kept.path, user=user))
        expect("the exit status", program.end(START), 1)
        expect("standard output", program.output(), "refused 64 WriteFault\n")
        kind = "log" if lock else "lock"
        expect("how many lines say so", len(program.told(rf"error can't make \".+{kind}\": .+")), 1)
        expect("how many lines say that it listens", len(program.told(r"info listening at .+")), 0)
        kept.folder.chmod(0o755)


def copy_for_all(laboratory: Laboratory) -> Path:
    """The program where each user may run it."""
    folder = laboratory.folder()
    folder.chmod(0o755)
    return Path(shutil.copy(laboratory.binary, folder / "connector"))


@case
def journal_that_is_not_read(laboratory: Laboratory) -> None:
    """A folder in its place, and a file that is too long."""
    kept = Kept(laboratory)
    kept.path.mkdir()
    kept.expect_refused("73 JournalUnread", r"error can't use \".+/journal\": it is a folder", made=())
    kept.path.rmdir()
    with open(kept.path, "wb") as text:
        text.truncate(LONGEST + 1)
    program = kept.start()
    expect("the exit status", program.end(START), 1)
    expect("standard output", program.output(), "refused 73 JournalUnread\n")
    expect_lines("standard error", program.errors(),
                 (r"error can't read \".+/journal\": more than 8589934592 octets",))


@case
def two_connectors_on_one_journal(laboratory: Laboratory) -> None:
    """The second is refused, whatever its ports are, and the first saves what it booked. Of four that start
    at once one runs."""
    kept = Kept(laboratory)
    first = kept.serve()
    expect("a credit", credit(first, 7), created(quantity(7, 2)))
    in_use = r"error journal .+: another connector has it: close that one, or .+"
    other = Kept(laboratory, Setup())
    other.folder, other.path = kept.folder, kept.path
    for _ in range(2):
        other.expect_refused("73 JournalUnread", in_use)
    close(first, bob=7)
    expect("the entries", kept.entries(), 1)

    with ThreadPoolExecutor(4) as pool:
        programs = list(pool.map(lambda _: laboratory.start(Setup(), journal=kept.path), range(4)))
    running = await_one(programs)
    ended = [program for program in programs if program is not running]
    expect("what the others print", {program.output() for program in ended}, {"refused 73 JournalUnread\n"})
    close(running, bob=7)


def await_one(programs: list[Program]) -> Program:
    """The one that listens, once all others have ended."""
    end = time.monotonic() + START
    while len(left := [program for program in programs if not program.has_ended()]) > 1:
        expect_that(f"{len(left)} of {len(programs)} run", time.monotonic() < end)
    expect("how many run", len(left), 1)
    left[0].await_listening()
    return left[0]


@case
def journal_whose_report_is_not_printed(laboratory: Laboratory) -> None:
    """The journal is saved all the same where standard output has no room for the report."""
    kept = Kept(laboratory)
    with open("/dev/full", "wb") as full:
        program = laboratory.start(kept.setup, journal=kept.path, output=full.fileno())
        program.await_listening()
        expect("a credit", credit(program, 7), created(quantity(7, 2)))
        post_close(program)
        expect("the exit status", program.end(END), 3)
    expect("the files after the close", kept.files(), ["journal", "journal.lock"])
    close(kept.serve(), bob=7)
