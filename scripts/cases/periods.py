"""Periods: the books of a journal that are closed and brought forward, to the same configuration or to a changed one."""
import os
import re
import shutil
import subprocess
from dataclasses import replace
from pathlib import Path

from cases.case import case, expect, expect_that
from cases.journals import SETTLEMENTS, Kept, expect_lines, keys_of
from cases.laboratory import END, Laboratory, close, credit, expect_served, post_close
from cases.lines import ENDED_OF_ANOTHER_TEXT
from cases.messages import created, response
from cases.program import Program, Setup
from cases.stand_ins import ACCEPTS, FULFILLS, engine_of, in_turn, never_answers
from connections import quantity

# Calls by which the program makes, changes or removes files.
FILE_CALLS = "openat,write,rename,unlink,fsync,fdatasync,flock"


class Closing:
    """A journal whose books are closed by a configuration for a period of another one."""

    def __init__(self, kept: Kept, setup: Setup) -> None:
        self.kept = kept
        self.before = self.write("before.toml", kept.setup)
        self.next = self.write("next.toml", setup)

    def write(self, name: str, setup: Setup) -> Path:
        """The file of a configuration, which none but its owner may read."""
        path = self.kept.laboratory.folder() / name
        path.write_text(setup.text())
        path.chmod(0o600)
        return path

    def run(self, *words: str | Path) -> tuple[int, str, str]:
        """The status of a command, and what it prints on its two streams."""
        binary = str(self.kept.laboratory.binary)
        done = subprocess.run([binary, *map(str, words)], capture_output=True, text=True, timeout=10.0)
        return done.returncode, done.stdout, done.stderr

    def words(self) -> list[str | Path]:
        """Those of the command that closes the books."""
        return ["new-period", self.before, self.kept.path, self.next]

    def expect_closed(self, *lines: str, period: int = 1) -> None:
        """The books are closed, with these lines of peers; it is so when it is done again, and one follows the other."""
        told = "".join(f"{line}\n" for line in (*lines, f"period {period}"))
        status, text, _ = self.run(*self.words())
        expect("what new-period says", (status, text), (0, told))
        before = self.kept.contents()
        status, text, _ = self.run(*self.words())
        expect("what it says again", (status, text), (0, told))
        expect("the files of one that is done again", self.kept.contents(), before)
        ended = self.kept.beside(str(period - 1))
        expect("what follows says", self.run("follows", self.before, ended, self.next, self.kept.path),
               (0, f"period {period} follows period {period - 1}\n", ""))


def dearer(setup: Setup) -> Setup:
    """The same with a fee of 2 percent for both peers, and a least that is higher."""
    return replace(setup, least=-500_000, fee_ppm=20_000)


def closed_book(laboratory: Laboratory) -> Kept:
    """A journal in which alice owes 30, bob is owed 1,030, and a key is kept."""
    kept = Kept(laboratory)
    program = kept.serve()
    expect_served(program, amount=30)
    expect("a credit", credit(program, 1000), created(quantity(1000, 2)))
    close(program, alice=-30, bob=1030)
    return kept


@case
def changed_prices_of_a_journal(laboratory: Laboratory) -> None:
    """A changed fee makes the journal unlawful, and a check says what helps. Then balances and keys are as before."""
    kept = closed_book(laboratory)
    old = kept.text()
    closing = Closing(kept, dearer(kept.setup))
    status, text, errors = closing.run("check", closing.next, kept.path)
    expect("what check says of a changed fee", (status, text), (1, "refused 72 Unlawful 0\n"))
    expect_that(f"it does not say what helps: {errors!r}", "new-period" in errors)
    closing.expect_closed("peer alice balance -30", "peer bob balance 1030")
    expect("the text of the period that ended", kept.beside("0").read_text(), old)
    expect("the lines of the next one", [re.sub(r"^\d+ ", "T ", line) for line in kept.text().splitlines()],
           ["ilp-journal 2 1", "T 0 opened alice -30", "T 0 opened bob 1030",
            f"T 0 known bob {kept.setup.key.encode().hex()} 1000 2 1000", "end 3"])
    kept.setup = dearer(kept.setup)
    program = kept.serve()
    expect("a credit that was made before", credit(program, 1000), created(quantity(1000, 2)))
    expect("another under its key", credit(program, 5), response(409))
    expect_served(program, amount=50)
    post_close(program)
    expect("the exit status", program.end(END), 0)
    lines = program.output().splitlines()
    expect("the last line of the report", lines[-1].split(), ["period", "1"])
    expect("the balances", [line.split() for line in lines[:2]],
           [["balance", "alice", "-80"], ["balance", "bob", "1079"]])


@case
def periods_one_after_the_other(laboratory: Laboratory) -> None:
    """A period in which something was booked ends in its turn, and its text is kept beside that of the first."""
    kept = closed_book(laboratory)
    closing = Closing(kept, kept.setup)
    closing.expect_closed("peer alice balance -30", "peer bob balance 1030")
    program = kept.serve()
    expect_served(program, amount=5)
    post_close(program)
    expect("the exit status", program.end(END), 0)
    closing.expect_closed("peer alice balance -35", "peer bob balance 1035", period=2)
    expect("the files", kept.files(), ["journal", "journal.0", "journal.0.remembered", "journal.1",
                                          "journal.1.remembered", "journal.lock"])


def in_another_order(setup: Setup) -> str:
    """The text of a configuration with the table of bob before that of alice."""
    top, alice, behind = setup.text().split("[[peer]]\n")
    bob, mark, rest = behind.partition("[[route]]\n")
    return f"{top}[[peer]]\n{bob}[[peer]]\n{alice}{mark}{rest}"


@case
def next_period_of_other_order(laboratory: Laboratory) -> None:
    """A period that began by a configuration with its peers in another order follows, whichever of the two is given of
    it, also once it went on by the old one. One that opens another balance, or lacks one, does not."""
    kept = closed_book(laboratory)
    closing = Closing(kept, kept.setup)
    closing.next.write_text(in_another_order(kept.setup))
    closing.expect_closed("peer bob balance 1030", "peer alice balance -30")
    program = kept.serve()
    expect_served(program, amount=5)
    post_close(program)
    expect("the exit status", program.end(END), 0)
    begun = kept.text()
    words = ["follows", closing.before, kept.beside("0"), closing.before, kept.path]
    for last in (closing.before, closing.next):
        words[3] = last
        expect("what follows says", closing.run(*words), (0, "period 1 follows period 0\n", ""))
    head = "".join(begun.splitlines(keepends=True)[:4])
    other = r".+ has another entry {} than what was brought forward"
    for changed, entry in ((begun.replace("opened alice -30", "opened alice -29"), 1),
                           (begun.replace("opened bob 1030", "opened bob 1031"), 0),
                           (re.sub(r"\d+ 0 opened bob 1030\n", "", head) + "end 2\n", 1)):
        kept.path.write_text(changed)
        status, text, errors = closing.run(*words)
        expect("what it says of another", (status, text), (1, f"refused 80 NotFollowing {entry}\n"))
        expect_lines("standard error", errors, (other.format(entry),))


@case
def kept_period_given_as_a_journal(laboratory: Laboratory) -> None:
    """No connector begins with the text of a period that is kept beside a later one, and no next period does. Elsewhere,
    and beside a journal of that period, it is one."""
    kept = closed_book(laboratory)
    closing = Closing(kept, kept.setup)
    closing.expect_closed("peer alice balance -30", "peer bob balance 1030")
    ended = kept.beside("0")
    line = f"error can't use \"{ended}\": it is kept of a period that has ended, behind which \"{kept.path}\" goes on"
    before = kept.contents()
    for words in (("check", closing.before, ended), ("new-period", closing.before, ended),
                  ("serve", closing.before, ended)):
        status, text, errors = closing.run(*words)
        expect(f"what {words[0]} says", (status, text), (1, "refused 73 JournalUnread\n"))
        expect_lines(f"standard error of {words[0]}", errors, (re.escape(line),))
    expect("the files", kept.contents(), before)
    valid = (0, "ok 2 peers 1 assets 2 routes 3 entries\n")
    elsewhere = Path(shutil.copy(ended, laboratory.folder() / ended.name))
    elsewhere.with_name(kept.path.name).mkdir()
    expect("what check says beside a folder", closing.run("check", closing.before, elsewhere)[:2], valid)
    shutil.copy(ended, kept.path)
    expect("what it says beside a journal of that period", closing.run("check", closing.before, ended)[:2], valid)


@case
def open_settlement_of_an_earlier_period(laboratory: Laboratory) -> None:
    """A settlement that is open keeps its key, and one of the next period has a key of its own."""
    engine = laboratory.stand_in(engine_of(in_turn(never_answers, ACCEPTS)))
    kept = Kept(laboratory, Setup(engine=engine.port, top={"settle_ms": 20}))
    program = kept.serve()
    expect("a credit", credit(program, 1000), created(quantity(1000, 2)))
    engine.await_count(SETTLEMENTS, 1)
    close(program, bob=200, within=2 * END)
    Closing(kept, kept.setup).expect_closed("peer alice balance 0", "peer bob balance 200 pending 800")
    program = kept.serve()
    program.await_told("info settlement 2 with bob of 800: confirmed")
    expect("another credit", credit(program, 1000, key="another"), created(quantity(1000, 2)))
    engine.await_count(SETTLEMENTS, 3)
    expect("the keys of the settlements", keys_of(engine), [b"r1-1", b"r1-1", b"r1.1-5"])
    post_close(program)
    expect("the exit status", program.end(END), 0)


@case
def period_that_is_refused(laboratory: Laboratory) -> None:
    """What forbids the next period is told with the peer and its balance, and changes no file."""
    kept = closed_book(laboratory)
    setup = kept.setup
    rows = ((replace(setup, top={"run": "r2"}), "74 OtherRun", ".*the run \"r2\".+"),
            (replace(setup, least=-29), "43 BelowLeast -30", ".*alice has the balance -30, below its `least`.+"))
    for changed, told, line in rows:
        closing = Closing(kept, changed)
        before = kept.contents()
        status, text, errors = closing.run(*closing.words())
        expect("what new-period says", (status, text), (1, f"refused {told}\n"))
        expect_that(f"it does not say why: {errors!r}", re.search(line, errors) is not None)
        expect("the files", kept.contents(), before)
    missing = Closing(kept, setup)
    missing.kept = Kept(laboratory, setup)
    status, text, errors = missing.run("new-period", missing.before, missing.kept.path)
    expect("a journal that is not there", (status, text), (1, "refused 73 JournalUnread\n"))
    kept.beside("0").write_text("another text")
    closing = Closing(kept, dearer(setup))
    status, text, errors = closing.run(*closing.words())
    expect("another text of the period", (status, text), (1, "refused 73 JournalUnread\n"))
    expect_that(f"it does not say so: {errors!r}", "has another text than the period" in errors)
    expect("that text", kept.beside("0").read_text(), "another text")


@case
def period_of_a_journal_in_use(laboratory: Laboratory) -> None:
    """The books of a journal that a connector has are not closed."""
    kept = closed_book(laboratory)
    program = kept.serve()
    status, text, errors = Closing(kept, kept.setup).run("new-period", program.configuration, kept.path)
    expect("what new-period says", (status, text), (1, "refused 73 JournalUnread\n"))
    expect_that(f"it does not say so: {errors!r}", "another connector has it" in errors)
    post_close(program)
    expect("the exit status", program.end(END), 0)


@case
def period_behind_a_sudden_stop(laboratory: Laboratory) -> None:
    """A log that a stop has left is read with the journal, and is gone then."""
    kept = Kept(laboratory)
    program = kept.serve()
    expect_served(program, amount=30)
    program.kill()
    Closing(kept, kept.setup).expect_closed("peer alice balance -30", "peer bob balance 30")
    expect("the files", kept.files(), ["journal", "journal.0", "journal.0.remembered", "journal.lock"])


def stopped_book(laboratory: Laboratory) -> tuple[Kept, Program, dict[str, bytes]]:
    """A journal with a log, as a sudden stop left them, and who was stopped; and what `new-period` makes of a copy."""
    kept = closed_book(laboratory)
    program = kept.serve()
    expect_served(program, amount=5)
    expect("a credit", credit(program, 7, key="another key"), created(quantity(7, 2)))
    program.kill()
    copy = Kept(laboratory, kept.setup)
    shutil.copytree(kept.folder, copy.folder, dirs_exist_ok=True)
    Closing(copy, copy.setup).expect_closed("peer alice balance -35", "peer bob balance 1042")
    return kept, program, copy.contents()


@case
def period_whose_log_was_set_aside(laboratory: Laboratory) -> None:
    """Stopped once the log was set aside, `check` tells with what a start begins, and changes nothing. `new-period` and
    a start keep just the text that `new-period` makes of the journal and its log. Where there is nothing to begin with
    the log is taken back, and another journal's is refused."""
    kept, stopped, done = stopped_book(laboratory)
    kept.beside("log").rename(kept.beside("ended"))
    aside = kept.contents()
    kept.beside("next").write_bytes(done["journal"])
    kept.expect_checked(stopped, entries=done["journal"].count(b"\n") - 2)
    Closing(kept, kept.setup).expect_closed("peer alice balance -35", "peer bob balance 1042")
    expect("the files", {name: kept.contents()[name] for name in ("journal", "journal.0")},
           {name: done[name] for name in ("journal", "journal.0")})
    for name, octets in aside.items():
        kept.folder.joinpath(name).write_bytes(octets)
    kept.beside("0").unlink()
    kept.beside("next").write_bytes(done["journal"])
    program = kept.serve()
    expect("the text that is kept", kept.beside("0").read_bytes(), done["journal.0"])
    expect("what stands there", kept.files(), ["journal", "journal.0", "journal.lock", "journal.log"])
    post_close(program)
    expect("the exit status", program.end(END), 0)
    expect("the journal in the end", kept.contents()["journal"], done["journal"])
    kept, _, _ = stopped_book(laboratory)
    kept.beside("log").rename(kept.beside("ended"))
    program = kept.serve()
    expect("what stands there", kept.files(), ["journal", "journal.lock", "journal.log"])
    close(program, alice=-35, bob=1042)
    kept.beside("ended").write_bytes(aside["journal.ended"].replace(b"ilp-log 1 ", b"ilp-log 1 1"))
    kept.expect_refused("73 JournalUnread", ENDED_OF_ANOTHER_TEXT)


@case
def period_stopped_at_each_file_call(laboratory: Laboratory) -> None:
    """Killed at each of its file calls, the command leaves the old journal, alone or beside its equal text, or the next
    one beside it; and given again it goes on from there."""
    if shutil.which("strace") is None:
        return
    kept = closed_book(laboratory)
    old, closing = kept.contents(), Closing(kept, dearer(kept.setup))
    closing.expect_closed("peer alice balance -30", "peer bob balance 1030")
    done, states = kept.contents(), []
    for call in FILE_CALLS.split(","):
        for number in range(1, 200):
            for name in kept.files():
                kept.folder.joinpath(name).unlink()
            for name, octets in old.items():
                kept.folder.joinpath(name).write_bytes(octets)
            killed = ["strace", "-o", os.devnull, "-e", f"inject={call}:signal=SIGKILL:when={number}",
                      str(laboratory.binary), *map(str, closing.words())]
            status = subprocess.run(killed, capture_output=True, timeout=10.0).returncode
            left = kept.contents()
            is_old = left["journal"] == old["journal"] and left.get("journal.0", old["journal"]) == old["journal"]
            is_next = left["journal"] == done["journal"] and left["journal.0"] == old["journal"]
            expect_that(f"killed at {call} {number} it left {sorted(left)}", is_old or is_next)
            if left not in states:
                states.append(left)
                said = "period 1 follows period 0\n" if is_next else "period 0 follows none\n"
                expect(f"what follows says of {sorted(left)}", closing.run("follows", kept.path), (0, said, ""))
            expect("the status of one that goes on", closing.run(*closing.words())[0], 0)
            again = {name: kept.contents()[name] for name in ("journal", "journal.0", "journal.0.remembered")}
            expect(f"the files behind a stop at {call} {number}", again, {name: done[name] for name in again})
            if status == 0:
                break
