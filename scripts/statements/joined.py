"""Statements of periods that are joined in one file, each of the same time."""
import csv
from collections.abc import Iterable, Iterator
from itertools import combinations

from cases.case import Differs, expect, expect_that
from statement_reading import statement_of
from statement_rows import NoStatement, Statement
from statements.by_hand import MET, ZERO, statement
from statements.mirrored import configuration

CONFIGURATION = configuration(("alice", "bob"), 0, run="hub")
BEGIN = 1_795_723_200_000

# What moves alice's balance: in which period, how long behind the beginning, and by how much.
MOVEMENTS = (0, 0, 5), (0, 60, 7), (1, 120, 3), (3, 200, -9), (3, 200, 2), (3, 260, 4)
# Of these periods the first has entries of both peers, and two have none of alice's but what is brought forward. Bob's
# packet of nothing is all that is at 230.
FIRST = f"""ilp-journal 1
{BEGIN} 0 credited alice 61 5 0 5
{BEGIN + 60} 0 credited alice 62 7 0 7
end 2
"""
KNOWN = f"{BEGIN + 60} 0 known alice 61 5 0 5\n{BEGIN + 60} 0 known alice 62 7 0 7\n"
SECOND = f"""ilp-journal 2 1
{BEGIN + 60} 0 opened alice 12
{KNOWN}{BEGIN + 90} 0 credited bob 63 0 0 0
{BEGIN + 120} 0 credited alice 64 3 0 3
end 5
"""
HEAD = f"{KNOWN}{BEGIN + 60} 0 known bob 63 0 0 0\n{BEGIN + 60} 0 known alice 64 3 0 3\n".replace(
    f"{BEGIN + 60}", f"{BEGIN + 120}")
THIRD = f"ilp-journal 2 2\n{BEGIN + 120} 0 opened alice 15\n{HEAD}end 5\n"
FOURTH = f"""ilp-journal 2 3
{BEGIN + 120} 0 opened alice 15
{HEAD}{BEGIN + 200} 0 hold alice bob 9 0 9 {BEGIN + 999} {MET}
{BEGIN + 200} 0 credited alice 65 2 0 2
{BEGIN + 230} 0 fulfilled 5 {ZERO}
{BEGIN + 260} 0 credited alice 66 4 0 4
end 9
"""
FIFTH = f"""ilp-journal 2 4
{BEGIN + 260} 0 opened alice 12
{BEGIN + 260} 0 opened bob 9
{HEAD.replace(f"{BEGIN + 120}", f"{BEGIN + 260}")}end 6
"""
PERIODS = FIRST, SECOND, THIRD, FOURTH, FIFTH
MOMENTS = sorted({BEGIN + seconds + by for seconds in (0, 60, 90, 120, 200, 230, 260) for by in (-1, 0, 1)})

# Two periods without an entry, and one in which alice's balance begins.
NOTHING = "ilp-journal 1\nend 0\n", "ilp-journal 2 1\nend 0\n", f"""ilp-journal 2 2
{BEGIN} 0 credited alice 61 5 0 5
end 1
"""


def stated(texts: Iterable[str], *moments: int) -> list[str]:
    """Alice's statement of each of these journals."""
    return [statement(CONFIGURATION, text, None, "alice", *moments) for text in texts]


def read(parts: Iterable[str]) -> Statement:
    """The statement of parts that are joined."""
    return statement_of(enumerate(csv.reader("".join(parts).splitlines()), 1))


def times() -> Iterator[tuple[int, ...]]:
    """All times from a moment on, and before one, if it is given."""
    yield ()
    yield from ((since,) for since in MOMENTS)
    yield from combinations(MOMENTS, 2)
    yield from ((moment, moment) for moment in MOMENTS)


def balance_before(moment: int | None) -> int:
    """Alice's balance before a moment, or behind all."""
    return sum(units for _, seconds, units in MOVEMENTS if moment is None or BEGIN + seconds < moment)


def expect_account(what: str, found: Statement, moments: tuple[int, ...]) -> None:
    """The account is that of a time: what its balance was at both ends, and what moved it between them."""
    since, until = [*moments, None, None][:2]
    expect(f"{what}: the balances", (found.opening.balance, found.closing.balance),
           (balance_before(since) if moments else 0, balance_before(until)))
    moved = [(row.period, row.moved) for row in found.rows if row.moved]
    expect(f"{what}: what moved", moved, [(period, units) for period, seconds, units in MOVEMENTS
           if (since is None or since <= BEGIN + seconds) and (until is None or BEGIN + seconds < until)])


def fault_of(parts: Iterable[str]) -> str:
    """Why parts are no statement."""
    try:
        read(parts)
    except NoStatement as why:
        return str(why)
    return "none"


def try_times() -> None:
    """Whatever the time, periods that lie before it or behind it say nothing, and the account is that of the time."""
    for moments in times():
        expect_account(f"{moments}", read(stated(PERIODS, *moments)), moments)
    before, behind = (BEGIN - 9, BEGIN - 5), (BEGIN + 900, BEGIN + 999)
    for moments, edges in ((before, ((0, 0), (0, 0))), (behind, ((4, 6), (4, 6))), ((), ((0, 0), (4, 6))),
                           ((BEGIN + 50, BEGIN + 55), ((0, 1), (0, 1))), ((BEGIN + 61, BEGIN + 80), ((1, 3), (1, 3))),
                           ((BEGIN + 61, BEGIN + 120), ((1, 3), (1, 4))), ((BEGIN + 9, BEGIN + 61), ((0, 1), (1, 3)))):
        found = read(stated(PERIODS, *moments))
        expect(f"{moments}: where the account begins and ends",
               tuple((edge.period, edge.entry) for edge in (found.opening, found.closing)), edges)


def try_nothing() -> None:
    """A period without entries at all is none that lies outside of the time, nor where it is asked for alone."""
    for moments in ((), (BEGIN - 1,), (BEGIN - 1, BEGIN), (BEGIN - 1, BEGIN + 1), (BEGIN, BEGIN + 1), (BEGIN + 1,)):
        found = read(stated(NOTHING, *moments))
        since, until = [*moments, None, None][:2]
        expect(f"{moments}: the balances behind nothing", (found.opening.balance, found.closing.balance),
               (5 if since and since > BEGIN else 0, 5 if until is None or until > BEGIN else 0))
    expect("what is brought forward from nothing", fault_of(stated([NOTHING[0], SECOND], BEGIN - 9, BEGIN + 999)),
           "line 7: what was brought forward is not the closing balance before")


def try_gaps() -> None:
    """A period that is left out between two, or stands before an earlier one, is told, at each time."""
    for moments in times():
        parts = stated(PERIODS, *moments)
        for place in range(1, len(parts) - 1):
            lines = sum(part.count("\n") for part in parts[:place])
            swapped = parts[:place] + [parts[place + 1], parts[place]] + parts[place + 2:]
            for found in (parts[:place] + parts[place + 1:], swapped):
                expect(f"{moments}: the period {place} is not in its place", fault_of(found),
                       f"line {lines + 2}: it does not go on from the row before")


def try_other_times() -> None:
    """Entries that are left out since statements are of other times are told, though the sums may be right."""
    why = "its time is not that of the closing before"
    early, late = (BEGIN + 1, BEGIN + 49), (BEGIN + 50, BEGIN + 59)
    for earlier, later, line in ((late, early, 6), (early, late, 6), ((BEGIN + 1,), early, 7)):
        expect(f"{earlier} and {later}", fault_of(stated([FIRST], *earlier) + stated([SECOND], *later)),
               f"line {line}: {why}")
    passed = stated([FIRST, SECOND], *early)
    expect("a whole period behind one that is passed over", fault_of(passed + stated([THIRD])), f"line 10: {why}")
    third = passed[1].replace("hub,1,", "hub,2,").replace(",0,closing", ",9,closing")
    expect("entries behind a period that is passed over", fault_of([*passed, third]),
           "line 9: what was brought forward is not the closing balance before")
    expect("a later part of one that is passed over", fault_of(passed + stated([SECOND], BEGIN + 49, BEGIN + 99)),
           "line 8: it does not go on from the row before")
    expect("entries that stand before a later time", fault_of(stated([FIRST], BEGIN, BEGIN + 50)
                                                              + stated([SECOND], BEGIN + 70, BEGIN + 99)),
           "line 6: it does not go on from the row before")
    expect("a later time of a period behind one without entries",
           fault_of(stated(NOTHING[:2], BEGIN - 9, BEGIN) + stated(NOTHING[2:], BEGIN - 9, BEGIN + 9)),
           f"line 10: {why}")


def try_unknown() -> None:
    """The balance before a period's first entry is in the one before it alone."""
    for texts in ([SECOND], [SECOND, THIRD]):
        expect("a time before both", fault_of(stated(texts, BEGIN, BEGIN + 60)),
               "its period 1 lies behind that time: give the one before too")
    expect_that("a later period alone is refused", read(stated([SECOND])).closing.balance == 15)
    others = statement(configuration(("alice", "bob"), 0, run="other"), SECOND, None, "alice", BEGIN + 900)
    for other, why in ((others, "it is of another account than the row before"),
                       (others.replace("other", "hub").replace("alice", "bob"), "it is of another account")):
        found = fault_of([*stated([FIRST], BEGIN + 900), other])
        expect_that(f"it is told as {found!r}", found.startswith(f"line 5: {why}"))
