"""Statements of accounts, as `connector statement` prints them of a journal that a connector has, of one that was kept,
and of a period, beside what scripts/statement.py reckons of the same files."""
import os
import re
import shutil
import subprocess
import sys
import time
from dataclasses import replace
from pathlib import Path

from cases.case import case, expect, expect_that
from cases.disks import library_of
from cases.journals import SETTLEMENTS, Kept
from cases.laboratory import Laboratory, close, credit, expect_served
from cases.messages import created
from cases.program import Program, Setup
from cases.stand_ins import ACCEPTS, FULFILLS, engine_of, in_turn, never_answers
from connections import quantity

TOP = Path(__file__).resolve().parent.parent.parent

# A day before each entry of a test, and one behind them.
BEFORE, BEHIND = "2020-01-01", "2999-01-01T00:00:00Z"

OTHER_RUN = ('the journal was last begun with another `run`, or another asset of "bob": keys and amounts are shown as this '
             "configuration has them\n")

NO_TIME = '"{}" is no time: 2026-11-26 is one, and 2026-11-26T20:00:00Z\n'


def state(program: Program, *words: str | Path) -> subprocess.CompletedProcess[bytes]:
    """What the command prints by the configuration of a program."""
    command = [str(program.binary), "statement", str(program.configuration), *map(str, words)]
    return subprocess.run(command, capture_output=True, timeout=10.0)


def expect_stated(program: Program, *words: str | Path) -> list[str]:
    """It prints in CSV what is reckoned of the same files, and nothing else. Its rows are given back."""
    command = [sys.executable, "-B", str(TOP / "scripts/statement.py"), str(program.configuration), *map(str, words)]
    reckoned = subprocess.run(command, capture_output=True, timeout=20.0)
    expect("what is said of what is reckoned", (reckoned.returncode, reckoned.stderr), (0, b""))
    done = state(program, *words, "--csv")
    expect("the status", (done.returncode, done.stderr), (0, b""))
    expect(f"the statement of {words}", done.stdout, reckoned.stdout)
    return done.stdout.decode("ascii").splitlines()[1:]


def expect_ends(rows: list[str], opening: str, closing: str) -> None:
    """The first row and the last have these balances."""
    first, last = rows[0].split(","), rows[-1].split(",")
    expect("the balances", (first[6], first[11], last[6], last[11]), ("opening", opening, "closing", closing))


@case
def statements_of_a_journal(laboratory: Laboratory) -> None:
    """Statements of both peers, while a connector has the journal, with a settlement that is open, and once it was
    kept, from a moment on and before one, and of one packet or key alone. No file is made or changed."""
    bob, engine = laboratory.stand_in(FULFILLS), laboratory.stand_in(engine_of(in_turn(never_answers, ACCEPTS)))
    kept = Kept(laboratory, Setup(bob=bob.port, engine=engine.port, top={"settle_ms": 20}))
    program = kept.serve()
    expect_served(program, amount=30)
    expect("a credit", credit(program, 1000), created(quantity(1000, 2)))
    engine.await_count(SETTLEMENTS, 1)
    before = kept.contents()
    expect_ends(expect_stated(program, kept.path, "alice"), "0.00", "-0.30")
    rows = expect_stated(program, kept.path, "bob")
    expect("what bob's are", [row.split(",")[6] for row in rows],
           ["opening", "received", "credited", "asked", "closing"])
    expect_ends(rows, "0.00", "2.00")
    expect("the files", kept.contents(), before)
    close(program, alice=-30, bob=200)
    program = kept.serve()
    program.await_told("info settlement 3 with bob of 830: confirmed")
    close(program, alice=-30, bob=200)
    rows = expect_stated(program, kept.path, "bob")
    for words in ((BEFORE,), (BEHIND,), (BEFORE, BEHIND), (BEHIND, BEFORE), (BEFORE, BEFORE)):
        expect_stated(program, kept.path, "bob", *words)
    last = expect_stated(program, kept.path, "bob", BEHIND, BEFORE)[-1].split(",")
    expect("the end of a time that ends before it begins", (last[4], last[11]), ("2999-01-01T00:00:00.000Z", "2.00"))
    expect_ends(expect_stated(program, kept.path, "bob", BEHIND), "2.00", "2.00")
    expect_sought(program, kept, rows)


def expect_sought(program: Program, kept: Kept, rows: list[str]) -> None:
    """Of bob's rows those of one packet, and those of one key."""
    condition = rows[1].split(",")[14]
    for option, text, places in (("--packet", condition, [1]), ("--packet", condition[:5].upper(), [1]),
                                 ("--packet", "0" * 64, []), ("--key", "r1-3", [3, 4]), ("--key", "r1", [])):
        done = state(program, option, text, kept.path, "--csv", "bob")
        expect(f"the rows of {option} {text}", done.stdout.decode("ascii").splitlines()[1:],
               [rows[place] for place in (0, *places, -1)])
    lines = state(program, kept.path, "bob").stdout.decode("ascii").splitlines()
    expect_that(f"the first line is {lines[0]!r}", lines[0].startswith("statement bob USD/2 run r1 period 0 "))
    expect("the last lines", lines[-4:], ["total received 1 0.30", "total credited 1 10.00", "total asked 1 8.30",
                                          "total confirmed 1 8.30"])


@case
def statement_behind_a_sudden_stop(laboratory: Laboratory) -> None:
    """What a connector that was killed has in its log stands in a statement. What was held stays so in it, though a
    start would end it."""
    kept = Kept(laboratory, Setup(bob=laboratory.stand_in(FULFILLS).port))
    program = kept.serve()
    expect_served(program, amount=5)
    close(program, alice=-5, bob=5)
    program = kept.serve()
    expect_served(program, amount=2)
    program.kill()
    program.child.wait()
    moment = int(kept.beside("log").read_bytes().splitlines()[-1].split()[0])
    with kept.beside("log").open("a") as log:
        log.write(f"{moment} 1 hold alice bob 100 0 100 {moment + 1000} {'ab' * 32}\n{moment} 1 ho")
    rows = expect_stated(program, kept.path, "alice")
    expect("what alice's are", [row.split(",")[6] for row in rows],
           ["opening", "sent", "paid", "sent", "paid", "sent", "closing"])
    expect_ends(rows, "0.00", "-1.07")


@case
def statement_beside_a_close(laboratory: Laboratory) -> None:
    """One that is taken while a connector closes has all that was booked, also where the log is gone by the time that
    it would be read. This is left out where there is no C compiler."""
    folder = laboratory.folder()
    if (library := library_of("held_open.c", folder)) is None:
        return
    kept = Kept(laboratory)
    close_behind_a_credit(kept, 100, 100)
    program = kept.serve()
    expect("a credit", credit(program, 900, key="more"), created(quantity(900, 2)))
    held, told = folder / "held", folder / "told"
    held.touch()
    command = [str(program.binary), "statement", str(program.configuration), str(kept.path), "bob"]
    with subprocess.Popen(command, stdout=subprocess.PIPE, stderr=subprocess.PIPE, text=True, env={
            **os.environ, "LD_PRELOAD": str(library), "HELD_OPEN": str(held), "OPEN_TOLD": str(told)}) as child:
        await_file(told)
        close(program, bob=1000)
        held.unlink()
        text, errors = child.communicate(timeout=10.0)
    expect("the status, and standard error", (child.returncode, errors), (0, ""))
    expect("the last lines", text.splitlines()[-2:], ["closing 2 10.00", "total credited 2 10.00"])


def close_behind_a_credit(kept: Kept, amount: int, bob: int) -> None:
    """A run that books a credit of bob's, and closes."""
    program = kept.serve()
    expect("a credit", credit(program, amount), created(quantity(amount, 2)))
    close(program, bob=bob)


def await_file(path: Path, within: float = 5.0) -> None:
    """Waits until a file is there."""
    end = time.monotonic() + within
    while not path.exists():
        expect_that(f"{path.name} is not there within {within} seconds", time.monotonic() < end)
        time.sleep(0.005)


@case
def statements_of_periods(laboratory: Laboratory) -> None:
    """The statement of a period that has ended closes with what that of the next one opens with. Those of both peers
    are joined for examples/reconcile.py, whatever the time."""
    kept = Kept(laboratory, Setup(bob=laboratory.stand_in(FULFILLS).port))
    program = kept.serve()
    expect_served(program, amount=5)
    close(program, alice=-5, bob=5)
    command = [str(program.binary), "new-period", str(program.configuration), str(kept.path)]
    subprocess.run(command, check=True, capture_output=True, timeout=10.0)
    expect_ends(expect_stated(program, kept.beside("0"), "bob"), "0.00", "0.05")
    rows = expect_stated(program, kept.path, "bob")
    expect_ends(rows, "0.00", "0.05")
    expect("the row behind the opening", rows[1].split(",")[6:12], ["opened", "", "0.05", "0.05", "", "0.05"])
    for words, balances in (((), "0.05 and -0.05"), ((BEFORE,), "0.05 and -0.05"), ((BEFORE, BEHIND), "0.05 and -0.05"),
                            ((BEHIND,), "0.05 and -0.05"), ((BEFORE, BEFORE), "0.00 and 0.00")):
        expect_reconciled(program, kept, words, f"the books agree: {balances} come to 0.00")


def expect_reconciled(program: Program, kept: Kept, words: tuple[str, ...], says: str) -> None:
    """What reconcile.py says of the accounts of bob and alice, which mirror each other, in both periods."""
    paths = [kept.path.with_name(f"{peer}.csv") for peer in ("bob", "alice")]
    for path in paths:
        parts = [state(program, journal, path.stem, *words, "--csv") for journal in (kept.beside("0"), kept.path)]
        path.write_bytes(b"".join(part.stdout for part in parts))
    command = [sys.executable, "-B", str(TOP / "examples/reconcile.py"), *map(str, paths)]
    done = subprocess.run(command, capture_output=True, timeout=20.0)
    expect(f"what is said of {words}", (done.returncode, done.stdout.decode().splitlines()[-1:], done.stderr),
           (0, [says], b""))


@case
def statement_by_another_run(laboratory: Laboratory) -> None:
    """Keys and amounts are those of the configuration. Where the journal was last begun with another run a line says
    so, of one in use too, and of a period that is kept none does."""
    kept = Kept(laboratory)
    program = kept.serve()
    other = kept.laboratory.folder() / "other.toml"
    other.write_text(replace(kept.setup, top={"run": "r2"}).text())
    expect("a credit", credit(program, 7), created(quantity(7, 2)))
    expect_told(program, other, kept.path, OTHER_RUN)
    close(program, bob=7)
    expect_told(program, other, kept.path, OTHER_RUN)
    expect_told(program, program.configuration, kept.path, "")
    expect_told(program, other, Path(shutil.copy(kept.path, kept.laboratory.folder() / "journal.0")), "")


def expect_told(program: Program, config: Path, journal: Path, line: str) -> None:
    """What a statement of bob's tells beside its rows."""
    command = [str(program.binary), "statement", str(config), str(journal), "bob"]
    done = subprocess.run(command, capture_output=True, text=True, timeout=10.0)
    expect(f"what is told by {config.name} of {journal.name}", (done.returncode, done.stderr), (0, line))


@case
def statement_of_a_peer_that_is_named_as_an_option(laboratory: Laboratory) -> None:
    """Behind `--` no word is an option. A first `-` of a name is escaped, so that none reads as nothing."""
    kept = Kept(laboratory)
    program = kept.serve()
    close(program)
    program.configuration.write_text(kept.setup.text().replace('"bob"', '"--csv"'))
    expect("the status without it", state(program, kept.path, "--csv").returncode, 2)
    for words in ((kept.path, "--", "--csv"), ("--", kept.path, "--csv")):
        done = state(program, *words)
        expect("the status, and what is told", (done.returncode, done.stderr), (0, b""))
        expect("the first words", done.stdout.split()[:3], [b"statement", rb"\x2d-csv", b"USD/2"])
    for word in ("-h", "--help"):
        done = state(program, kept.path, "bob", word)
        expect(f"what {word} prints", (done.returncode, done.stdout[:31]), (0, b"A connector of the Interledger "))
        done = state(program, kept.path, "--", word)
        expect(f"{word} behind --", (done.returncode, done.stderr), (2, f'no peer is named "{word}"\n'.encode()))
    first = state(program, "--csv", "--", kept.path, "--csv").stdout.splitlines()[1]
    expect("the first fields", first.split(b",")[:4], [b"r1", b"0", rb"\x2d-csv", b"USD/2"])


@case
def statement_of_pipes(laboratory: Laboratory) -> None:
    """A named pipe in place of a file that is read, or behind a link to it, is refused, and not waited for."""
    kept = Kept(laboratory)
    program = kept.serve()
    expect("a credit", credit(program, 7), created(quantity(7, 2)))
    close(program, bob=7)
    pipe = kept.folder / "pipe"
    os.mkfifo(pipe)
    for path in (kept.beside("log"), kept.beside("lock"), kept.beside("ended"), kept.path):
        path.unlink(missing_ok=True)
        os.mkfifo(path)
        expect_unread(program, kept.path, path)
        path.unlink()
        path.symlink_to(pipe)
        expect_unread(program, kept.path, path)
        path.unlink()


def expect_unread(program: Program, journal: Path, path: Path) -> None:
    """No statement is printed of a journal, since a pipe lies at this path."""
    done = state(program, journal, "bob")
    expect(f"what is printed with a pipe at {path.name}", (done.returncode, done.stdout), (1, b"refused 73 JournalUnread\n"))
    told = f'error can\'t use "{path}": it is a named pipe: move it away\n'
    expect_that(f"it tells of no pipe: {done.stderr!r}", done.stderr.decode().endswith(told))


@case
def misused_statement(laboratory: Laboratory) -> None:
    """A peer that isn't there, with whose name is near, and what is no time or no condition, each by a line and the
    status 2; a journal that isn't there or isn't lawful is refused as ever."""
    kept = Kept(laboratory)
    program = kept.serve()
    expect("a credit", credit(program, 7), created(quantity(7, 2)))
    close(program, bob=7)
    for words, line in ((("boob",), 'no peer is named "boob": "bob" may be meant\n'),
                        (("somebody",), 'no peer is named "somebody"\n'),
                        (("bob", "yesterday"), NO_TIME.format("yesterday")),
                        (("bob", BEFORE, "2026-02-29"), NO_TIME.format("2026-02-29")),
                        (("bob", "--packet", "0g"), "a condition begins with 1 to 64 hexadecimal digits\n"),
                        (("bob", "--packet", ""), "a condition begins with 1 to 64 hexadecimal digits\n")):
        done = state(program, kept.path, *words)
        expect(f"what {words} print", (done.returncode, done.stdout, done.stderr), (2, b"", line.encode()))
    done = state(program, kept.beside("not-there"), "bob")
    expect("without a journal", (done.returncode, done.stdout), (1, b"refused 73 JournalUnread\n"))
    expect_that(f"the line is {done.stderr!r}", re.search(rb"not-there", done.stderr) is not None)
    kept.path.write_text(kept.text().replace("credited bob", "asked bob 7 #"))
    done = state(program, kept.path, "bob")
    expect("of a text that is none", (done.returncode, done.stdout), (1, b"refused 71 BadJournalText 2\n"))
