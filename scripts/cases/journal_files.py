"""What stands at the path of a journal and beside it, that is no plain file or can't be written; and standard
streams that are closed."""
import fcntl
import os
import shlex
import shutil
import stat
import subprocess
import threading
from pathlib import Path

from cases.case import case, expect, expect_that
from cases.journals import START, Kept
from cases.laboratory import (END, Laboratory, close, credit, expect_end, expect_served, post_close)
from cases.lines import FOLLOWS
from cases.messages import created, response
from cases.program import Program, Setup
from connections import quantity

UNREAD = "73 JournalUnread"
IN_USE = r"error journal .+: another connector has it: close that one, or .+"


def expect_unfit(kept: Kept, name: str, why: str) -> None:
    """A start and a check are refused, since this file is no plain one, by a line with this reason."""
    kept.expect_refused(UNREAD, rf'error can\'t use ".+/{name}": {why}.*', made=())


# ---- links

@case
def journal_that_is_a_link(laboratory: Laboratory) -> None:
    """A symbolic link, dangling or not, and a file with two names are refused, so that no two connectors have
    one journal under two locks."""
    kept = Kept(laboratory)
    link = "it is a symbolic link: .+"
    kept.path.symlink_to(kept.folder / "absent")
    expect_unfit(kept, "journal", link)
    kept.path.unlink()
    other = kept.folder / "other"
    other.write_text("ilp-journal 1\nend 0\n")
    kept.path.symlink_to(other)
    expect_unfit(kept, "journal", link)
    kept.path.unlink()
    kept.path.hardlink_to(other)
    expect_unfit(kept, "journal", "the file has another name too: .+")
    other.unlink()
    close(kept.serve())


@case
def links_beside_a_journal(laboratory: Laboratory) -> None:
    """A link in place of the lock, of the log, of the next one of these or of an earlier version's mark is refused,
    and what it leads to stays."""
    for kind in ("lock", "running", "new", "log", "log.new"):
        kept = Kept(laboratory)
        aside = kept.folder / "aside"
        aside.write_text("mine")
        kept.beside(kind).symlink_to(aside)
        expect_unfit(kept, f"journal.{kind}", "it is a symbolic link: .+")
        expect("what it leads to", aside.read_text(), "mine")


@case
def next_journal_is_none_but_its_own(laboratory: Laboratory) -> None:
    """What comes to the name of the next journal while a connector runs is not written through: a link and a
    pipe are replaced, and a folder is waited for."""
    kept = Kept(laboratory)
    aside, new = kept.folder / "aside", kept.beside("new")
    aside.write_text("mine")
    for make in (lambda: new.symlink_to(aside), lambda: os.mkfifo(new)):
        program = kept.serve()
        make()
        close(program)
        expect("the files", kept.files(), ["aside", "journal", "journal.lock"])
        expect("what it led to", aside.read_text(), "mine")
    program = kept.serve()
    new.mkdir()
    post_close(program)
    program.await_told(r"warn journal .+: can't be saved: .+")
    new.rmdir()
    expect_end(program, alice=0, bob=0, within=2 * END)


# ---- what would be waited for

@case
def pipes_in_place_of_files(laboratory: Laboratory) -> None:
    """A named pipe in place of the journal or of a file beside it is refused, and not waited for."""
    for kind in ("", ".lock", ".running", ".new", ".log", ".log.new"):
        kept = Kept(laboratory)
        os.mkfifo(kept.folder / f"journal{kind}")
        expect_unfit(kept, f"journal{kind}", "it is a named pipe: .+")
    kept = Kept(laboratory)
    kept.path = Path("/dev/null")
    program = kept.start()
    expect("the exit status", program.end(START), 1)
    expect("standard output", program.output(), f"refused {UNREAD}\n")
    expect("how many lines", len(program.told(r'error can\'t use "/dev/null": it is a device or a socket: .+')), 1)


# ---- a lock that is gone

class Appending:
    """Appends octets to a file, of which none ends a line, one after the other in a thread."""

    def __init__(self, path: Path) -> None:
        self.path = path
        self.ends = threading.Event()
        self.thread = threading.Thread(target=self.run)

    def __enter__(self) -> None:
        self.thread.start()

    def __exit__(self, *_: object) -> None:
        self.ends.set()
        self.thread.join()

    def run(self) -> None:
        """What the thread does."""
        with self.path.open("ab", buffering=0) as file:
            while not self.ends.is_set():
                file.write(b"3")


LOST = r'error journal ".+": ".+" was removed or replaced, so another connector may have it: .+'


@case
def lock_that_is_removed(laboratory: Laboratory) -> None:
    """Where the file that is locked is removed under a connector, one that starts then has the journal, with all that
    was told. The first keeps and tells nothing more, as a line says, touches none of the files, and ends by itself,
    refused."""
    kept = Kept(laboratory)
    first = kept.serve()
    expect("a credit", credit(first, 30), created(quantity(30, 2)))
    kept.beside("lock").unlink()
    expect("a credit behind that", credit(first, 5, key="behind"), response(503))
    first.await_told(LOST)
    other = Kept(laboratory, Setup())
    other.folder, other.path = kept.folder, kept.path
    second = other.serve()
    expect("a credit of the second", credit(second, 7, key="second"), created(quantity(7, 2)))
    before = kept.contents()
    expect("the first one's exit status", first.end(END), 1)
    expect_that("it does not say why", first.output().endswith(f"refused {UNREAD}\n"))
    expect("the files behind its end", kept.contents(), before)
    # What the first could not tell may be there: it stood in the log before the second one began.
    post_close(second)
    expect("the second one's exit status", second.end(END), 0)
    credits = [line.split()[3:6] for line in kept.text().splitlines()[1:-1]]
    for key, amount in ((kept.setup.key, 30), ("second", 7)):
        expect_that(f"the credit of {amount} is not kept", ["bob", key.encode().hex(), str(amount)] in credits)


@case
def lock_of_an_idle_connector(laboratory: Laboratory) -> None:
    """A connector that nobody asks for anything looks at its lock too: where that is removed it says so, and ends by
    itself, refused, with all files as they were."""
    kept = Kept(laboratory)
    program = kept.serve()
    expect("a credit", credit(program, 30), created(quantity(30, 2)))
    kept.beside("lock").unlink()
    before = kept.contents()
    program.await_told(LOST)
    expect("the exit status", program.end(END), 1)
    expect_that("it does not say why", program.output().endswith(f"refused {UNREAD}\n"))
    expect("the files behind its end", kept.contents(), before)
    close(kept.serve(), bob=30)


@case
def log_that_another_writes(laboratory: Laboratory) -> None:
    """A start whose log changes while it is read is refused: somebody writes it who has no lock. All files stay."""
    kept = Kept(laboratory)
    program = kept.serve()
    expect("a credit", credit(program, 30), created(quantity(30, 2)))
    program.kill()
    text, log = kept.path, kept.beside("log")
    before = log.read_bytes()
    with Appending(log):
        program = kept.start()
        expect("the exit status", program.end(START), 1)
    expect("standard output", program.output(), f"refused {UNREAD}\n")
    expect("how many lines", len(program.told(r'error journal ".+": ".+" has changed since it was read, .+')), 1)
    expect_that("a journal was made", not text.exists())
    expect_that("the log was changed", log.read_bytes().startswith(before))
    log.write_bytes(before)
    close(kept.serve(), bob=30)


# ---- copies that are put back

@case
def older_copies_of_a_journal(laboratory: Laboratory) -> None:
    """A copy of a kept period in the journal's place, an older copy of the journal beside its kept text, and a journal
    that is gone beside that are refused, by a line that says what to do, and all files stay."""
    kept = Kept(laboratory)
    program = kept.serve()
    expect("a credit", credit(program, 30), created(quantity(30, 2)))
    close(program, bob=30)
    older = kept.path.read_bytes()
    program = kept.serve()
    expect("another credit", credit(program, 7, key="another"), created(quantity(7, 2)))
    close(program, bob=37)
    for _ in range(2):
        words = [str(laboratory.binary), "new-period", str(program.configuration), str(kept.path)]
        expect("the exit status of new-period", subprocess.run(words, capture_output=True, timeout=10.0).returncode, 0)
        program = kept.serve()
        expect("a credit of a period", credit(program, 1, key=f"{len(kept.files())}"), created(quantity(1, 2)))
        post_close(program)
        expect("the exit status", program.end(END), 0)
    older_line = r"error journal .+: the period {} has ended beside it, and it lacks what that has: .+"
    shutil.copy(kept.beside("0"), kept.path)
    kept.expect_refused(UNREAD, older_line.format(1))
    kept.beside("1").unlink()
    kept.path.write_bytes(older)
    kept.expect_refused(UNREAD, older_line.format(0))
    kept.path.unlink()
    kept.expect_refused(UNREAD, r"error journal .+: it isn't there, and what was kept beside it is: .+")


# ---- mounts

@case
def journal_that_is_mounted(laboratory: Laboratory) -> None:
    """A single file that is mounted can't be replaced, so it is refused at the start, also where its path has
    a blank. This is left out where the system lets nobody mount."""
    if subprocess.run(["unshare", "-rm", "true"], capture_output=True).returncode != 0:
        return
    kept = Kept(laboratory)
    kept.folder = kept.folder / "a folder"
    kept.folder.mkdir()
    kept.path = kept.folder / "journal"
    close(kept.serve())
    aside = laboratory.folder() / "journal"
    aside.write_text(kept.text())
    script = laboratory.folder() / "mounting"
    words = shlex.join(["mount", "--bind", str(aside), str(kept.path)])
    script.write_text(f'#!/bin/sh\n{words} && exec {shlex.quote(str(laboratory.binary))} "$@"\n')
    script.chmod(0o755)
    mounting = laboratory.folder() / "program"
    mounting.write_text(f'#!/bin/sh\nexec unshare -rm {shlex.quote(str(script))} "$@"\n')
    mounting.chmod(0o755)
    program = laboratory.run(Program(mounting, laboratory.folder(), kept.setup, journal=kept.path))
    expect("the exit status", program.end(START), 1)
    expect("standard output", program.output(), f"refused {UNREAD}\n")
    expect("how many lines say so", len(program.told(r"error can't use .+: it is a mount point, .+")), 1)
    done = kept.check(program)
    expect("what check says", (done.returncode, done.stdout.split()[:2]), (1, UNREAD.join(["refused ", ""]).split()[:2]))
    close(kept.serve())


# ---- a limit of sizes

@case
def journal_beyond_the_size_of_files(laboratory: Laboratory) -> None:
    """A limit of file sizes is an error that is told and tried again, and no signal that ends the connector."""
    kept = Kept(laboratory)
    close(kept.serve())
    program = kept.serve()
    for _ in range(80):
        expect_served(program, amount=1)
    program.limit_files(4096)
    post_close(program)
    program.await_told(r"warn journal .+: can't be saved: .+: make room for it, .+")
    expect_that("it has ended", not program.has_ended())
    program.limit_files(1_000_000)
    expect_end(program, alice=-80, bob=80, within=2 * END)
    expect("the entries", kept.entries(), 160)


# ---- what was saved, and what was not

@case
def log_that_can_not_be_removed(laboratory: Laboratory) -> None:
    """A journal is saved also where its log stays, which is told."""
    kept = Kept(laboratory)
    program = kept.serve()
    expect("a credit", credit(program, 7), created(quantity(7, 2)))
    log = kept.beside("log")
    log.unlink()
    log.mkdir()
    post_close(program)
    expect_end(program, alice=0, bob=7)
    expect("the last lines", [line.said.split()[0] for line in program.lines()][-2:], ["info", "warn"])
    told = r"warn can't remove .+log\": .+: the journal has all that it has, and the next start removes it"
    expect("how many lines say so", len(program.told(told)), 1)
    expect("the entries", kept.entries(), 1)
    log.rmdir()
    close(kept.serve(), bob=7)


@case
def rights_of_a_journal(laboratory: Laboratory) -> None:
    """A journal keeps its rights from save to save, and its log has them too."""
    kept = Kept(laboratory)
    close(kept.serve())
    for mode in (0o600, 0o640):
        kept.path.chmod(mode)
        program = kept.serve()
        expect_served(program, amount=1)
        expect("the rights of its log", oct(stat.S_IMODE(kept.beside("log").stat().st_mode)), oct(mode))
        post_close(program)
        expect("the exit status", program.end(END), 0)
        expect("the rights", oct(stat.S_IMODE(kept.path.stat().st_mode)), oct(mode))


# ---- who has it

@case
def journal_that_is_looked_at(laboratory: Laboratory) -> None:
    """A check says that a connector has the journal; and who looks at the lock for a moment is in no start's
    way."""
    kept = Kept(laboratory)
    close(kept.serve())
    with open(kept.beside("lock"), "r+b") as lock:
        fcntl.flock(lock, fcntl.LOCK_EX)
        kept.expect_refused(UNREAD, IN_USE)
        fcntl.flock(lock, fcntl.LOCK_UN)
        fcntl.flock(lock, fcntl.LOCK_SH)
        timer = threading.Timer(0.2, lambda: fcntl.flock(lock, fcntl.LOCK_UN))
        timer.start()
        program = kept.serve()
        timer.join()
    close(program)


# ---- standard streams

@case
def closed_streams(laboratory: Laboratory) -> None:
    """Where a standard stream is closed from the beginning no socket and no file gets what is printed: without
    standard output the status is 3, and the journal is saved all the same."""
    for closed in ((0, 1), (1,), (1, 2), (0, 1, 2)):
        kept = Kept(laboratory)
        program = laboratory.run(Program(laboratory.binary, laboratory.folder(), kept.setup, journal=kept.path,
                                         closed=closed))
        program.await_served()
        expect("a credit", credit(program, 7), created(quantity(7, 2)))
        expect("the lines of the log", len(kept.beside("log").read_text().splitlines()), 3)
        post_close(program)
        expect("the exit status", program.end(END), 3)
        expect("the files after the close", kept.files(), ["journal", "journal.lock"])
        expect("the entries", kept.entries(), 1)
        expect("standard output", program.output(), "")
        expect_that("the report is in the lock", "balance" not in kept.beside("lock").read_text())
        if 2 in closed:
            expect("standard error", program.errors(), "")
        else:
            expect("the report on standard error", FOLLOWS in program.errors(), True)
        close(kept.serve(), bob=7)


@case
def closed_streams_of_a_command(laboratory: Laboratory) -> None:
    """A command without standard output has the status 3, and one whose script can't be read is refused."""
    for words, closed, status, printed in ((["help"], 1, 3, ""), (["packet", "0c"], 1, 3, ""),
                                           (["replay", "-"], 0, 1, "refused 61 ReadFault\n")):
        done = subprocess.run([str(laboratory.binary), *words], stdin=subprocess.DEVNULL, stdout=subprocess.PIPE,
                              stderr=subprocess.PIPE, text=True, timeout=10.0,
                              preexec_fn=lambda number=closed: os.close(number))
        expect(f"the status of {words}", done.returncode, status)
        expect(f"what {words} prints", done.stdout, printed)
