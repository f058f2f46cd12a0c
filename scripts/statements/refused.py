"""What examples/reconcile.py refuses."""
import contextlib
import io
import tempfile
from pathlib import Path

import reconcile
from cases.case import expect, expect_that
from statements.by_hand import statement
from statements.disputed import BOB, HUB, LOST
from statements.mirrored import configuration

BAD_INPUT = 2

OURS = statement(configuration(("bob", "shop"), 0), HUB, None, "bob")
GOOD = statement(configuration(("hub", "bank"), 0, "bobs"), BOB, None, "hub")
LINES = GOOD.splitlines(keepends=True)


def goes_on(period: int, *rows: str) -> str:
    """What may stand behind a statement: rows, each without its account."""
    return "".join(f"bobs,{period},hub,USD/0,{row}\r\n" for row in rows)


OPENED = ",0,opening,,,,,0,,,,", "2026-11-26T20:00:00.600Z,0,opened,,-700,,700,-700,,,,"
NEXT = goes_on(1, *OPENED, ",1,closing,,,,,-700,,,,")


def with_line(number: int, old: str, new: str) -> str:
    """A statement with another line."""
    expect(f"how often line {number} has {old!r}", LINES[number - 1].count(old), 1)
    return "".join([*LINES[:number - 1], LINES[number - 1].replace(old, new), *LINES[number:]])


# What is no statement, and why.
FAULTS = (
    ("", "it does not begin with the line run,period,"),
    ("time,entry\r\n", "it does not begin with the line run,period,"),
    ("".join(LINES[1:]), "it does not begin with the line run,period,"),
    ("".join(LINES[:1]), "it ends before its row closing"),
    ("".join(LINES[:-1]), "it ends before its row closing"),
    ("".join(LINES[:1] + LINES[2:]), "line 2: it is not the row opening"),
    (GOOD + "x", "line 9: it has 1 fields, and not 16"),
    (GOOD + "\xe4", "it is no CSV in ASCII: "),
    (GOOD + '"', "it is no CSV in ASCII: "),
    (GOOD + GOOD, "line 10: it does not go on from the row before"),
    (GOOD + NEXT.replace("bobs,1,", "bobs,2,"), "line 9: it does not go on from the row before"),
    (GOOD + NEXT.replace("-700,,700,-700", "-699,,699,-699").replace("closing,,,,,-700", "closing,,,,,-699"),
     "line 11: what was brought forward is not the closing balance before"),
    (GOOD + goes_on(1, *OPENED, "2026-11-26T20:00:00.600Z,1,opened,,5,5,,-695,,,,"),
     "line 11: a balance was opened before it"),
    (GOOD + goes_on(0, ",6,opening,,,,,-700,,,,", OPENED[1].replace("Z,0", "Z,6").replace(",-700,,,,", ",-1400,,,,")),
     "line 10: a balance was opened before it"),
    (GOOD + goes_on(0, ",6,opening,,,,,-699,,,,"), "line 9: it does not go on from the row before"),
    (GOOD + goes_on(0, ",7,opening,,,,,-700,,,,"), "line 9: it does not go on from the row before"),
    (GOOD + goes_on(0, ",6,opening,,,,,-700,,,,"), "it ends before its row closing"),
    (with_line(2, "opening,,", "opening,,1"), "line 2: the row opening has more than a balance"),
    (with_line(2, ",,0,opening", ",,,opening"), "line 2: its entry is none of opening"),
    (with_line(2, ",,0,opening", ",now,0,opening"), "line 2: its time is none of opening"),
    (with_line(2, "USD/0,,", "USD/0,2026-11-26T20:00:00.200Z,"), "line 3: its time is before the one before"),
    (with_line(3, "bobs,", "bobs,0,"), "line 3: it has 17 fields, and not 16"),
    (with_line(3, "bobs,", "=1+1,"), "line 3: its run is none"),
    (with_line(3, "bobs,", "bob,"), "line 3: it is of another account than the row before"),
    (with_line(3, "bobs,0,", "bobs,1,"), "line 3: it is of another period than the row before"),
    (with_line(3, "T20:00:00.110Z", " 20:00:00"), "line 3: its time is none of received"),
    (with_line(3, "2026-11-26T20:00:00.110Z", "25340230079999"), "line 3: its time is none of received"),
    (with_line(3, "2026-11-26T20:00:00.110Z", "253402300799999"), "line 4: its time is before the one before"),
    (with_line(4, ",200,300,", ",200,301,"), "line 4: its balance does not follow from the one before"),
    (with_line(4, ",sent,", ",kept,"), "line 4: it has an unknown what: 'kept'"),
    (with_line(4, ",bank,", ",,"), "line 4: its with is none of sent"),
    (with_line(4, ",200,,200,", ",2e2,,200,"), "line 4: its amount is no decimal"),
    (with_line(4, ",200,,200,", ",-200,200,,"), "line 4: its amount is below 0"),
    (with_line(4, ",200,,200,", ",2.00,,200,"), "line 4: its amount has not the 0 decimals of its asset"),
    (with_line(4, ",200,,200,", ",200,200,,"), "line 4: its in and out are none of sent"),
    (with_line(4, ",200,,200,", ",200,200,200,"), "line 4: it has an in and an out"),
    (with_line(4, LOST, "k"), "line 4: its condition is none of sent"),
    (with_line(4, ",300,,", ",300,0,"), "line 4: its ends is none of sent"),
    (with_line(5, ",300,2,", ",300,,"), "line 5: its ends is none of paid"),
    (with_line(5, ",300,2,", ",300,3,"), "line 5: its ends is not before it"),
    (with_line(5, ",300,2,", ",300,1,"), "line 5: it ends no row that has not ended"),
    (with_line(5, ",300,2,", ",300,0,"), "line 5: it ends no row that has not ended"),
    (with_line(5, ",300,2,,", ",300,2,Late,"), "line 5: its cause is none of paid"),
    (with_line(5, ",200,,,", ",201,,,"), "line 5: it ends a row of another kind"),
    (with_line(5, "00.290Z", "00.190Z"), "line 5: its time is before the one before"),
    (with_line(5, LINES[4], LINES[4] * 2), "line 6: its entry is not behind the one before"),
    (with_line(6, "bobs-4", "-bobs"), "line 6: its key is none of asked"),
    (with_line(6, "bobs-4", "bobs-5"), "line 7: it ends a row of another kind"),
    (with_line(7, ",4,", ",2,"), "line 7: it ends no row that has not ended"),
    (with_line(6, ",asked,,1000,,1000,-700,,,", ",corrected,,1000,,1000,-700,,back,"),
     "line 6: its in and out are none of corrected"),
    (with_line(6, ",asked,,1000,", ",corrected,,-1000,"), "line 6: its cause is none of corrected"),
    (with_line(6, ",asked,,1000,,1000,-700,,,", ",corrected,,-1000,,1000,-700,,=back,"),
     "line 6: its cause is none of corrected"),
    (with_line(6, ",asked,,1000,,1000,-700,,,,bobs-4", ",corrected,,-1000,,1000,-700,,back,,"),
     "line 6: its key is none of corrected"),
    (with_line(6, ",asked,,1000,", ",asked,,-1000,"), "line 6: its amount is below 0"),
    (with_line(8, ",-700,", ",-701,"), "line 8: its balance is not that of the row before"),
    (with_line(8, ",6,closing", ",5,closing"), "line 8: its entry is not behind the one before"),
    (with_line(8, ",,6,", ",2026-11-26T20:00:00.600Z,6,"), "line 8: its time is not behind the row before"),
)


def run_on(ours: str, theirs: str, *words: str) -> tuple[int, str, str]:
    """The exit status of reconcile.py, and what it prints."""
    output, errors = io.TextIOWrapper(io.BytesIO()), io.StringIO()
    with (tempfile.TemporaryDirectory() as folder, contextlib.redirect_stdout(output),
          contextlib.redirect_stderr(errors)):
        paths = [Path(folder, name) for name in ("ours", "theirs")]
        for path, text in zip(paths, (ours, theirs)):
            path.write_bytes(text.encode())
        status = reconcile.main([*map(str, paths), *words])
        return status, output.buffer.getvalue().decode(), errors.getvalue().replace(folder, "FOLDER")


def expect_refused(what: str, found: tuple[int, str, str], why: str) -> None:
    """It is refused in one line, which begins so."""
    status, told, errors = found
    expect(f"what is told of {what}", (status, told, errors.count("\n")), (BAD_INPUT, "", 1))
    expect_that(f"of {what}: {errors!r} does not begin with {why!r}", errors.startswith(f"reconcile.py: {why}"))


def try_bad_input() -> None:
    """What is no statement is refused, and so are two assets, one statement twice, and other arguments."""
    for text, why in FAULTS:
        expect_refused(repr(text[-99:]), run_on(OURS, text), f"FOLDER/theirs: {why}")
    expect_that("two that are good are refused", run_on(OURS, GOOD + NEXT)[0] != BAD_INPUT)
    cents, euros = GOOD.replace("USD/0", "USD/2"), GOOD.replace("USD/0", "EUR/0")
    expect_refused("another scale", run_on(OURS, cents), "FOLDER/theirs: line 2: its balance has not the 2 decimals")
    of_cents = statement(configuration(("hub", "bank"), 2, "bobs"), BOB, None, "hub")
    expect_refused("a good one of another scale", run_on(OURS, of_cents), "ours is in USD/0, and theirs in USD/2: ")
    expect_refused("another code", run_on(OURS, euros), "ours is in USD/0, and theirs in EUR/0: ")
    expect_refused("one statement twice", run_on(OURS, OURS), "both are one statement: ")
    expect_refused("three files", run_on(OURS, GOOD, "third"), "unrecognized arguments: third; usage: ")
    expect_refused("an argument of two lines", run_on(OURS, GOOD, "a\nb"), "unrecognized arguments: a b; usage: ")
