"""What lines advise an operator of a journal that is refused, each followed word for word: the start is taken then."""
import re
import shutil
import subprocess

from cases.case import case, expect, expect_that
from cases.disks import Disk
from cases.journal_files import IN_USE, UNREAD
from cases.journals import STOPPED, TO_DO, Kept
from cases.laboratory import Laboratory, close, credit, post_close
from cases.lines import OF_ANOTHER_TEXT
from cases.logs import killed, log_of, saved
from cases.messages import created
from cases.periods import Closing, closed_book, dearer
from cases.running_periods import expect_end_of
from connections import quantity

OLDER = r"error journal .+: the period \d+ has ended beside it, and it lacks what that has: .+"
# In seconds: what a close takes where the journal can't be saved, which is tried for a minute.
A_MINUTE = 75.0

UNLOCKED = r"error can't lock .+: keep the journal where files can be locked"
LOOSE = r"error journal .+: it is the new one, but its folder can't be synced: .+: see to the disk, and keep .+"
GONE = r"error journal .+: it isn't there, and what was kept beside it is: .+"


def close_periods(kept: Kept, *keys: str) -> None:
    """Closes the books, once for each key, behind a credit under it."""
    for key in keys:
        saved_one(kept, key)
        closing = Closing(kept, kept.setup)
        expect("the exit status of new-period", closing.run("new-period", closing.before, kept.path)[0], 0)


def saved_one(kept: Kept, key: str) -> None:
    """A connector books a credit of 7 of bob's, and is closed."""
    program = kept.serve()
    expect("a credit", credit(program, 7, key=key), created(quantity(7, 2)))
    post_close(program)
    expect("the exit status", program.end(10.0), 0)


def close_later(kept: Kept, bob: int) -> None:
    """A connector of the period behind the first is closed, with what bob is owed."""
    program = kept.serve()
    post_close(program)
    expect_end_of(program, alice=0, bob=bob, period=1)


@case
def advice_to_move_kept_periods_away(laboratory: Laboratory) -> None:
    """Who wants to go on from an older copy of the first period, beside which later ones are kept, moves those away
    that its line names, and is refused no more."""
    kept = Kept(laboratory)
    saved_one(kept, "k0")
    older = kept.path.read_bytes()
    close_periods(kept, "k1", "k2", "k3")
    kept.path.write_bytes(older)
    kept.expect_refused(UNREAD, OLDER)
    program = kept.start()
    expect("the exit status", program.end(10.0), 1)
    found = re.search(r"move the kept periods away from (\d+) on", program.errors())
    expect_that(f"no line names them: {program.errors()!r}", found is not None)
    for name in kept.files():
        period = name.removeprefix("journal.")
        if period.isdigit() and found is not None and int(period) >= int(found[1]):
            kept.beside(period).rename(laboratory.folder() / name)
    close(kept.serve(), bob=7)


@case
def advice_to_put_the_last_ones_back(laboratory: Laboratory) -> None:
    """Who puts back the journal and the log that were there last goes on from them, with all."""
    kept = Kept(laboratory)
    saved_one(kept, "k0")
    older = kept.path.read_bytes()
    close_periods(kept, "k1")
    killed(kept, "k2")
    last, log = kept.path.read_bytes(), log_of(kept)
    kept.path.write_bytes(older)
    kept.beside("log").unlink()
    kept.expect_refused(UNREAD, OLDER)
    kept.path.write_bytes(last)
    kept.beside("log").write_text(log)
    close_later(kept, bob=21)


@case
def advice_to_put_a_journal_back(laboratory: Laboratory) -> None:
    """A journal that is gone beside its kept periods is put back, or these are moved away to begin with nothing."""
    kept = Kept(laboratory)
    close_periods(kept, "k0")
    aside = laboratory.folder()
    kept.path.rename(aside / "journal")
    kept.expect_refused(UNREAD, GONE)
    shutil.copy(aside / "journal", kept.path)
    close_later(kept, bob=7)
    kept.path.unlink()
    kept.beside("0").rename(aside / "journal.0")
    close(kept.serve())


@case
def advice_to_move_a_log_away(laboratory: Laboratory) -> None:
    """A log of another text is moved away, and what it has is lost, and nothing else."""
    kept = Kept(laboratory)
    saved(kept, "k0")
    earlier = kept.path.read_bytes()
    saved(kept, "k1")
    killed(kept, "k2")
    kept.path.write_bytes(earlier)
    kept.expect_refused(UNREAD, OF_ANOTHER_TEXT)
    kept.beside("log").rename(laboratory.folder() / "journal.log")
    close(kept.serve(), bob=7)


@case
def advice_to_take_the_last_save(laboratory: Laboratory) -> None:
    """A journal that was cut (71) is taken from a backup of its last save, and its own log goes on from that."""
    kept = Kept(laboratory)
    saved(kept, "k0")
    folder = laboratory.folder()
    shutil.copy(kept.path, folder / "journal")
    killed(kept, "k1")
    text = kept.path.read_bytes()
    kept.path.write_bytes(text[:-4])
    program = kept.start()
    expect("the exit status", program.end(10.0), 1)
    # Its log says that the journal is not the one that it goes on from.
    expect_that(f"it is not refused: {program.output()!r}", program.output().startswith("refused 7"))
    shutil.copy(folder / "journal", kept.path)
    close(kept.serve(), bob=14)


@case
def advice_to_move_another_period_away(laboratory: Laboratory) -> None:
    """Another text in a period's place is moved away, and the same command closes the books."""
    kept = closed_book(laboratory)
    kept.beside("0").write_text("another text")
    closing = Closing(kept, dearer(kept.setup))
    status, text, errors = closing.run(*closing.words())
    expect("another text of the period", (status, text), (1, "refused 73 JournalUnread\n"))
    expect_that(f"it does not say so: {errors!r}", "move it away" in errors)
    kept.beside("0").rename(laboratory.folder() / "another")
    closing.expect_closed("peer alice balance -30", "peer bob balance 1030")


@case
def advice_to_close_another_connector(laboratory: Laboratory) -> None:
    """Where another connector has the journal that one is closed, or this one gets a journal of its own."""
    kept = Kept(laboratory)
    first = kept.serve()
    expect("a credit", credit(first, 7), created(quantity(7, 2)))
    program = kept.start()
    expect("the exit status", program.end(10.0), 1)
    expect("how many lines say so", len(program.told(IN_USE)), 1)
    close(Kept(laboratory).serve())
    close(first, bob=7)
    close(kept.serve(), bob=7)


@case
def advice_to_begin_with_another_run(laboratory: Laboratory) -> None:
    """Who can't tell what a connector without a log had booked moves the journal and its mark away, and begins with a
    `run` that no earlier start had."""
    kept = Kept(laboratory)
    saved(kept, "k0")
    kept.beside("running").write_text("run r1, begun with 1 entries\n")
    kept.expect_refused(UNREAD, STOPPED.format(1), TO_DO)
    folder = laboratory.folder()
    kept.path.rename(folder / "journal")
    kept.beside("running").rename(folder / "journal.running")
    kept.setup.top["run"] = "r2"
    program = kept.serve()
    expect("a credit under an earlier key", credit(program, 7, key="k0"), created(quantity(7, 2)))
    close(program, bob=7)


@case
def advice_to_keep_it_where_files_can_be_locked(laboratory: Laboratory) -> None:
    """A journal whose files can't be locked is moved to where they can be. This is left out where there is no C
    compiler."""
    if (disk := Disk.of(laboratory)) is None:
        return
    kept = Kept(laboratory)
    saved(kept, "k0")
    disk.open.touch()
    program = kept.start(disk.environment())
    expect("the exit status", program.end(10.0), 1)
    expect("standard output", program.output(), "refused 73 JournalUnread\n")
    expect("how many lines say so", len(program.told(UNLOCKED)), 1)
    elsewhere = Kept(laboratory, kept.setup)
    kept.path.rename(elsewhere.path)
    close(elsewhere.serve(), bob=7)


@case
def advice_to_mount_its_folder(laboratory: Laboratory) -> None:
    """A journal that is mounted by itself is refused, and taken where its folder is mounted. This is left out where
    nothing may be mounted."""
    if subprocess.run(["unshare", "--mount", "true"], capture_output=True).returncode != 0:
        return
    kept = Kept(laboratory)
    program = kept.serve()
    expect("a credit", credit(program, 7), created(quantity(7, 2)))
    close(program, bob=7)

    def checked(mounted: str) -> tuple[int, str, str]:
        """What `check` says of it where this is mounted."""
        words = [str(program.binary), "check", str(program.configuration), str(kept.path)]
        shell = ["unshare", "--mount", "sh", "-c", 'mount --bind "$0" "$0" && exec "$@"', mounted]
        done = subprocess.run([*shell, *words], capture_output=True, text=True, timeout=10.0)
        return done.returncode, done.stdout, done.stderr

    status, told, errors = checked(str(kept.path))
    expect("what is refused", (status, told), (1, "refused 73 JournalUnread\n"))
    expect_that(f"it does not say so: {errors!r}", "mount the folder that it lies in" in errors)
    expect("its folder mounted", checked(str(kept.folder)), (0, "ok 2 peers 1 assets 2 routes 1 entries\n", ""))


@case
def advice_to_keep_the_log_of_a_loose_folder(laboratory: Laboratory) -> None:
    """Where the folder of a new journal can't be synced at a close, the log is kept, from which the next start goes on
    with all, whether the system has the new journal or forgot it. This is left out where there is no C compiler."""
    if (disk := Disk.of(laboratory)) is None:
        return
    kept = Kept(laboratory)
    saved(kept, "k0")
    older = kept.path.read_bytes()
    program = kept.serve(environment=disk.environment())
    expect("a credit", credit(program, 7, key="k1"), created(quantity(7, 2)))
    disk.loose.touch()
    post_close(program)
    expect("the exit status", program.end(A_MINUTE), 1)
    expect("standard output", program.output().splitlines()[-1], "refused 64 WriteFault")
    expect("how many lines say so", len(program.told(LOOSE)), 1)
    newer, log = kept.path.read_bytes(), log_of(kept)
    for found in (older, newer):
        kept.path.write_bytes(found)
        kept.beside("log").write_text(log)
        close(kept.serve(), bob=14)
