"""Copies of a journal by `connector backup`: beside a connector, as its periods end, and where there can be none."""
import os
import subprocess
import threading
from pathlib import Path

from cases.case import case, expect, expect_that
from cases.journals import Kept, expect_lines
from cases.laboratory import Laboratory, close, credit, expect_served, post_close
from cases.messages import created, post, response
from cases.program import Program
from cases.running_periods import expect_end_of, of_bob, small
from cases.stand_ins import FULFILLS
from connections import quantity
from killing.period_books import Periods, book_of, read_standing
from scenes import FULFILL

UNREAD, UNWRITTEN = "refused 73 JournalUnread\n", "refused 64 WriteFault\n"

# How many backups are made while periods end, and how many have to end meanwhile.
BACKUPS, ENDED = 200, 3


def back_up(laboratory: Laboratory, journal: Path, folder: Path) -> subprocess.CompletedProcess[str]:
    """What `backup` says of a journal and a folder."""
    words = [str(laboratory.binary), "backup", str(journal), str(folder)]
    return subprocess.run(words, capture_output=True, text=True, timeout=20.0)


def backed_up(kept: Kept, folder: Path) -> Kept:
    """The copy of a journal in a new folder. The files of the journal stay, and no others come."""
    done = back_up(kept.laboratory, kept.path, folder)
    copy = Kept(kept.laboratory, kept.setup)
    copy.folder, copy.path = folder, folder / kept.path.name
    expect("what backup says", (done.returncode, done.stdout, done.stderr),
           (0, f"backup of {len(copy.files())} files\n", ""))
    expect_that(f"a copy is not whole: {copy.files()}", not any(name.endswith(".part") for name in copy.files()))
    return copy


# ---- beside a connector

@case
def backup_beside_a_connector(laboratory: Laboratory) -> None:
    """A backup of a journal that a connector has is one that a check and a start take, with all that was told before;
    the connector serves on, and the copies have the rights of the files."""
    kept = Kept(laboratory)
    program = kept.serve()
    expect("a credit", credit(program, 30), created(quantity(30, 2)))
    first = backed_up(kept, laboratory.folder() / "new")
    expect("the copies of a first run", first.files(), ["journal.lock", "journal.log"])
    close(program, bob=30)
    kept.path.chmod(0o640)
    program = kept.serve()
    expect_served(program, amount=4)
    expect("another credit", credit(program, 7, key="another"), created(quantity(7, 2)))
    copy = backed_up(kept, laboratory.folder())
    expect("the copies", copy.contents(), kept.contents())
    expect("the rights of a copy", oct(copy.path.stat().st_mode & 0o777), oct(0o640))
    expect("what check says of it", copy.check(program).returncode, 0)
    expect("a credit behind it", credit(program, 1, key="behind"), created(quantity(1, 2)))
    post_close(program)
    expect("the exit status", program.end(10.0), 0)
    # The start has the copy alone.
    other = copy.serve()
    expect("the first credit again", credit(other, 30), created(quantity(30, 2)))
    expect("the other one again", credit(other, 7, key="another"), created(quantity(7, 2)))
    close(other, alice=-4, bob=41)
    older = first.serve()
    close(older, bob=30)


@case
def backup_of_a_closed_journal(laboratory: Laboratory) -> None:
    """A backup of a journal that no connector has is its files, with each period that is kept."""
    kept = Kept(laboratory)
    program = kept.serve()
    expect("a credit", credit(program, 30), created(quantity(30, 2)))
    close(program, bob=30)
    words = [str(laboratory.binary), "new-period", str(program.configuration), str(kept.path)]
    expect("the exit status of new-period", subprocess.run(words, capture_output=True, timeout=10.0).returncode, 0)
    copy = backed_up(kept, laboratory.folder())
    expect("the copies", copy.contents(), kept.contents())
    expect("their names", copy.files(), ["journal", "journal.0", "journal.0.remembered", "journal.lock"])
    program = copy.serve()
    post_close(program)
    expect_end_of(program, alice=0, bob=30, period=1)


# ---- as periods end

def send_on(program: Program, is_over: threading.Event, told: list[int]) -> None:
    """Sends packets of bob's, and counts those that were fulfilled, until it is over."""
    while not is_over.is_set():
        expect("a packet", post(program.setup.peers_port, of_bob(program.setup)), response(200, FULFILL))
        told[0] += 1


def fulfilled_in(journal: Path) -> int:
    """How many packets were fulfilled by a journal, of all its periods, of which none may be missing."""
    text, log, aside = read_standing(journal)
    now = book_of(text, log)
    books = [now] if aside is None else [aside, now]
    kept = [journal.with_name(f"{journal.name}.{period}").read_bytes() for period in range(books[0].period)]
    return sum(len(book.passed) for book in books) + sum(whole.count(b" fulfilled ") for whole in kept)


@case
def backups_as_periods_end(laboratory: Laboratory) -> None:
    """Of many backups that are made while periods end each is one that a check takes, of all periods in order, and has
    all that was told before it began."""
    kept = Kept(laboratory, small(laboratory.stand_in(FULFILLS).port, laboratory, journal=10_000, percent=2))
    program, is_over, told = kept.serve(), threading.Event(), [0]
    sender = threading.Thread(target=send_on, args=(program, is_over, told))
    sender.start()
    try:
        for number in range(BACKUPS):
            before = told[0]
            copy = backed_up(kept, laboratory.folder())
            checked = copy.check(program)
            expect(f"what check says of the backup {number}", (checked.returncode, checked.stdout[:3]), (0, "ok "))
            found = fulfilled_in(copy.path)
            expect_that(f"the backup {number} has {found}, of {before} that were told before it", found >= before)
            expect_that("no packets are sent any more", sender.is_alive())
    finally:
        is_over.set()
        sender.join()
    periods = Periods()
    periods.read(kept.path)
    expect_that(f"{len(periods.books)} periods are too few", len(periods.books) > ENDED)
    post_close(program)
    expect("the exit status", program.end(10.0), 0)


# ---- where there can be none

@case
def backups_that_are_refused(laboratory: Laboratory) -> None:
    """A folder that has a file, a file in a folder's place, a folder of no other, and a journal that isn't there or is
    no plain file are refused by a line that says what to do, and nothing is made or changed."""
    kept = Kept(laboratory)
    close(kept.serve())
    room = laboratory.folder()
    (room / "mine").write_text("mine")
    advice = r'backup ".+": .+: give a folder that is empty or not there yet, with room; .+'
    for folder in (room, room / "mine", room / "absent" / "below", kept.folder):
        before = kept.contents()
        done = back_up(laboratory, kept.path, folder)
        expect(f"what backup says of {folder}", (done.returncode, done.stdout), (1, UNWRITTEN))
        expect_lines("standard error", done.stderr, (advice,))
        expect("the journal's files", kept.contents(), before)
        expect("the files in the folder", os.listdir(room), ["mine"])
    done = back_up(laboratory, room / "absent", room / "new")
    expect("what backup says of no journal", (done.returncode, done.stdout), (1, UNREAD))
    expect_lines("standard error", done.stderr, (r"error can't read .+",))
    os.mkfifo(room / "pipe")
    done = back_up(laboratory, room / "pipe", room / "new")
    expect("what backup says of a pipe", (done.returncode, done.stdout), (1, UNREAD))
    expect_lines("standard error", done.stderr, (r"error can't use .+",))
    expect("the files there", sorted(os.listdir(room)), ["mine", "pipe"])
