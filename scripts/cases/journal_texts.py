"""A journal's text that was changed by hand or is to go on under another configuration, and no path of one."""
import os
import re

from cases.case import case, expect, expect_that
from cases.journals import START, Kept
from cases.laboratory import Laboratory, close, credit, expect_served
from cases.messages import created
from cases.program import Setup
from cases.stand_ins import ACCEPTS, FULFILLS, engine_of
from connections import quantity

# What is told behind the rule that an entry breaks.
HELPS = (": where the configuration was changed, `connector new-period` brings the books forward to it; a period that "
         "is kept has its own")


# ---- a text that was changed

@case
def journal_changed_by_hand(laboratory: Laboratory) -> None:
    """A line that is none is told by its number and what was expected there, an entry that breaks a rule
    by its own and the line's."""
    kept = Kept(laboratory)
    program = kept.serve()
    for number in range(3):
        expect("a credit", credit(program, 7, key=f"k{number}"), created(quantity(7, 2)))
    close(program, bob=21)
    first, *entries, last = kept.text().splitlines(keepends=True)
    earlier = "1" + entries[1][entries[1].index(" "):]
    cut = entries[1][:-len(" 2 7\n")]
    rows = [(["ilp-journal 2\n", *entries, last], "71 BadJournalText 1", 1,
             "expected `ilp-journal 1`, or of a period above 0 `ilp-journal 2 PERIOD`, ended by LF"),
            ([first, entries[0], cut, "\n", entries[2], last], "71 BadJournalText 3", 3,
             "expected `MOMENT ACTOR credited PEER KEY AMOUNT SCALE CREDITED`"
             " with peers of the configuration, ended by LF"),
            ([first, *entries, "end 4\n"], "71 BadJournalText 5", 5,
             "expected an entry, or `end 3`, ended by LF, as the last line"),
            ([first, *entries], "71 BadJournalText 5", 5,
             "expected an entry, or `end 3` as the last line"),
            ([first, *entries, last, "\n"], "71 BadJournalText 6", 6,
             "expected nothing behind the last line, `end 3`"),
            ([first, entries[0], earlier, entries[2], last], "72 Unlawful 1", 3,
             "the entry 1 is not lawful: its moment lies before that of the entry before it,"
             f" or outside of the years 1970 to 9999{HELPS}")]
    for lines, told, line, why in rows:
        kept.path.write_text("".join(lines))
        kept.expect_refused(told, rf"\".+/journal\" line {line}: {re.escape(why)}")
    kept.path.write_text("".join([first, *entries, last]))
    close(kept.serve(), bob=21)


# ---- another configuration

# What is changed in the configuration, in the place of what, how a check of the journal ends, and which
# rule it says that the entry breaks.
KEEPS = "ok 2 peers 1 assets 2 routes 5 entries"
LEVELS = ".+threshold, settle_to and settle_max.+"
FULL = "it has 5 of 5 entries, and a start carries them over: give `journal` more"
CHANGES = (
    ("workers = 4", "workers = 9", KEEPS, ""),
    ("max_hold_ms = 30000", "max_hold_ms = 60000", KEEPS, ""),
    ("window_ms = 1000", "window_ms = 5", KEEPS, ""),
    ("journal = 100", "journal = 5", KEEPS, FULL),
    ("least = -1000000", "least = -30", KEEPS, ""),
    ('prefix = "test.bob"', 'prefix = "test.shop"', KEEPS, ""),
    ('run = "r1"', 'run = "r2"', KEEPS, ""),
    ("[[route]]", "[[asset]]\ncode = \"EUR\"\nscale = 2\n[[route]]", KEEPS.replace("1 assets", "2 assets"), ""),
    ('name = "alice"', 'name = "alicia"', "refused 71 BadJournalText 2", "expected `MOMENT ACTOR hold .+`.+"),
    ("max_hold_ms = 30000", "max_hold_ms = 1000", "refused 72 Unlawful 0", ".+deadline.+max_hold_ms"),
    ("least = -1000000", "fee_ppm = 20000\nleast = -1000000", "refused 72 Unlawful 0", ".+fee.+fee_ppm.+"),
    ("least = -1000000", "max_packet = 29\nleast = -1000000", "refused 72 Unlawful 0", ".+max_packet"),
    ("least = -1000000", "least = -29", "refused 72 Unlawful 0", ".+balance would fall below its least"),
    ("scale = 2", "scale = 3", "refused 72 Unlawful 2", ".+credited amount.+scale.+"),
    ("settle_to = 200", "settle_to = 200\nsettle_max = 830", KEEPS, ""),
    ("settle_to = 200", "settle_to = 200\nsettle_max = 829", "refused 72 Unlawful 3", LEVELS),
    ("settle_to = 200", "settle_to = 100", "refused 72 Unlawful 3", LEVELS),
    ("threshold = 1000", "threshold = 1031", "refused 72 Unlawful 3", LEVELS),
    ("journal = 100", "journal = 4", "refused 72 Unlawful 3", ".+journal has no room.+"),
)


@case
def journal_under_another_configuration(laboratory: Laboratory) -> None:
    """Which changes a journal bears, of a packet, a credit and a settlement: those by which its entries are
    lawful all the same."""
    bob, engine = laboratory.stand_in(FULFILLS), laboratory.stand_in(engine_of(ACCEPTS))
    top = {"settle_ms": 20, "workers": 4, "max_hold_ms": 30000, "window_ms": 1000, "journal": 100}
    kept = Kept(laboratory, Setup(bob=bob.port, engine=engine.port, top=top))
    program = kept.serve()
    expect_served(program, amount=30)
    expect("a credit", credit(program, 1000), created(quantity(1000, 2)))
    program.await_told("info settlement 3 with bob of 830: confirmed")
    close(program, alice=-30, bob=200)
    text = program.configuration.read_text()
    for before, after, told, why in CHANGES:
        expect_that(f"{before!r} stands nowhere", before in text)
        changed = text.replace(before, after, 1)
        if 'name = "alicia"' in changed:
            changed = changed.replace('peer = "alice"', 'peer = "alicia"')
        if "scale = 3" in changed:
            changed = changed.replace("USD/2", "USD/3")
        program.configuration.write_text(changed)
        done = kept.check(program)
        expect(f"what check says with {after!r}", done.stdout, f"{told}\n")
        helps = HELPS if "Unlawful" in told else ""
        expect_that(f"{done.stderr!r} does not say why with {after!r}",
                    re.fullmatch(why and rf"(\".+\" line \d+|journal \".+\"): {why}{helps}\n", done.stderr) is not None)


# ---- no path

@case
def journal_of_no_path(laboratory: Laboratory) -> None:
    """An empty path, as a script has it that has not set it, is refused at the start and makes no file."""
    program = laboratory.start(Setup(), journal="")
    expect("the exit status", program.end(START), 1)
    expect("standard output", program.output(), "refused 64 WriteFault\n")
    expect_that("it did not say that the path is empty", 'can\'t make "": ' in program.errors())
    expect("the files made", [name for name in (".lock", ".log") if os.path.exists(name)], [])
