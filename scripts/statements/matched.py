"""What belongs together in two statements, by hand."""
import csv
import doctest
from collections import defaultdict, deque

import statement_matching as matching
import statement_rows
from cases.case import expect
from reconcile import lines_of, verdict_of
from statement_matching import compare, items_of
from statement_reading import statement_of
from statement_rows import BEGUN, ENDING, MOVES, Account, Edge, NoStatement, Row, Statement
from statements.by_hand import CONFIGURATION, ENDED_LOG, FIRST, SECOND, statement
from statements.reconciling import expect_explained

# What is ended had begun before a statement's first row.
BEFORE = -1


def told_in_short(text: str, opening: int = 0, asset: str = "USD/0") -> Statement:
    """A statement of rows that are told in short: what, amount and, in capitals, a condition, or else a key; and behind
    that which row it ends. Without that it ends the first that it may."""
    rows, balance = [], opening
    begun: dict[tuple[str, ...], deque[int]] = defaultdict(deque)
    for entry, row in enumerate(text.split(", ") if text else ()):
        what, amount, name, given = f"{row}  ".split(" ")[:4]
        if what in BEGUN.values():
            begun[what, amount, name].append(entry)
        waiting = begun[BEGUN.get(what, ""), amount, name]
        ends = int(given) if given else waiting.popleft() if waiting else BEFORE
        condition, key = (name, "") if name.isupper() else ("", name)
        moved = MOVES[what] * int(amount)
        balance += moved
        time = f"2026-11-26T20:00:00.{entry:03}Z"
        rows.append(Row(0, time, entry, what, "", int(amount), moved, balance, ends if what in ENDING else None, "",
                        condition, key))
    return Statement(Account("hub", "bob", asset), Edge(0, "", 0, opening), rows, Edge(0, "", len(rows), balance))


# Rows of ours and of theirs, the groups that have something with their sums, and whether the books agree.
MATCHES = (
    # What was brought forward is of the opening balances.
    ("opened 5", "opened -5", {}, True),
    ("opened 5", "", {}, False),
    ("opened 5", "credited 5 k", {"only theirs": [5]}, False),
    # A condition may be of several packets: the same end comes first, and then the same amount.
    ("sent 5 A, sent 5 A, paid 5 A, returned 5 A", "refused 5 A, received 5 A", {"alike": [0, 0]}, True),
    ("sent 5 A, sent 7 A, paid 5 A, returned 7 A", "received 7 A, refused 5 A", {"other ends": [-5, 7]}, False),
    ("sent 5 A, sent 7 A, paid 5 A, returned 7 A", "received 5 A", {"alike": [0], "only ours": [0]}, False),
    # The same condition may go both ways.
    ("sent 5 A, received 5 A, paid 5 A", "sent 5 A, received 5 A, paid 5 A", {"alike": [0, 0]}, True),
    ("received 5 A", "received 5 A", {"only ours": [5], "only theirs": [5]}, False),
    # What is open here, and has ended there.
    ("sent 5 A", "", {"open": [-5]}, True),
    ("sent 5 A", "received 5 A", {"other ends": [0]}, False),
    ("", "sent 5 A, paid 5 A, refused 3 B", {"only theirs": [-5], "quiet": [0]}, False),
    # A settlement that was undone is matched by its key alone.
    ("credited 5 x", "asked 5 k, undone 5 k", {"only ours": [5], "quiet": [0]}, False),
    ("credited 5 k", "asked 5 k, undone 5 k", {"other ends": [5]}, False),
    # Without a key that both have a confirmed one comes before one that is open, or was asked for before.
    ("credited 5 x", "asked 5 k, asked 5 l, confirmed 5 l", {"alike": [0], "open": [-5]}, True),
    ("credited 5 x", "confirmed 5 k, asked 5 l, confirmed 5 l", {"alike": [0], "quiet": [0]}, True),
    ("credited 5 k", "asked 4 k, confirmed 4 k, asked 5 l", {"other amounts": [1], "open": [-5]}, False),
    ("asked 5 k", "credited 5 x, credited 5 y", {"alike": [0], "only theirs": [5]}, False),
    # A correction is one book's own, whatever the other has, also under its key.
    ("credited 5 x, corrected -5 c", "", {"only ours": [-5, 5]}, False),
    ("corrected 5 c", "corrected -5 c", {"only ours": [5], "only theirs": [-5]}, False),
    ("corrected 5 k", "asked 5 k, confirmed 5 k", {"only ours": [5], "only theirs": [-5]}, False),
    ("credited 5 x, corrected 0 c", "asked 5 x", {"alike": [0], "only ours": [0]}, False),
)


def try_matches() -> None:
    """What belongs together, and the other way round too. What had begun before explains an opening."""
    for ours, theirs, groups, agrees in MATCHES:
        # Two that are equal are not of one book here.
        both = told_in_short(ours), told_in_short(theirs)
        comparison, turned = matching.matched(*both), matching.matched(*reversed(both))
        found = {group: sorted(match.sum for match in matches)
                 for group, matches in comparison.groups.items() if matches}
        expect(f"the groups of {ours!r} and {theirs!r}", found, groups)
        expect(f"whether {ours!r} and {theirs!r} agree", (comparison.agrees, turned.agrees), (agrees, agrees))
        expect_explained(comparison)
        expect_explained(turned)
    before = compare(told_in_short("paid 5 A", -5), told_in_short("received 5 A"))
    expect("what was held before", (before.agrees, before.opening, before.sum(matching.ALIKE)), (True, -5, 5))
    _, _, told, *_ = lines_of(compare(told_in_short("credited 5 x"), told_in_short("asked 5 k")), (matching.ALIKE,))
    expect("what is told of two keys", told, "alike: ours 2026-11-26T20:00:00.000Z entry 0 credited 5; theirs "
           "2026-11-26T20:00:00.000Z entry 0 asked 5; key x and k; sum 0")
    expect("what is told of an opening that nothing explains",
           verdict_of(compare(told_in_short("opened 5"), told_in_short("refused 1 A", -1))),
           "the books differ from before the first row on: 5 and -1 come to 4")


def try_ends() -> None:
    """Which of two equal packets is open, the column ends says."""
    for ends in (0, 1):
        two = compare(told_in_short(f"sent 5 A, sent 5 A, returned 5 A {ends}"), told_in_short(""))
        expect(f"which is open where {ends} has ended", [match.items[0].last.entry for match in
                                                         two.groups[matching.OPEN]], [1 - ends])


def try_late() -> None:
    """Moments for which there is no date are in milliseconds, and come behind all others."""
    expect("the examples of statement_rows that fail", doctest.testmod(statement_rows).failed, 0)
    text = statement(CONFIGURATION, FIRST, ENDED_LOG, "bob")
    late = text.replace("2026-11-26T20:00:01.003Z", "253402300799999").replace("26T20:00:01.00", "30T20:00:01.00")
    read = statement_of(enumerate(csv.reader(late.replace("2026-11-30", "9999-12-30").splitlines()), 1))
    expect("the times of the last rows", [row.time for row in read.rows[-3:]],
           ["9999-12-30T20:00:01.000Z", "9999-12-30T20:00:01.002Z", "253402300799999"])


def try_joined() -> None:
    """Of two periods in one file the second opens nothing again, and ends what the first had asked for."""
    second = SECOND.replace("ilp-journal 2 3", "ilp-journal 2 1")
    text = statement(CONFIGURATION, FIRST, ENDED_LOG, "bob") + statement(CONFIGURATION, second, None, "bob")
    joined = statement_of(enumerate(csv.reader(text.splitlines()), 1))
    expect("where it begins and ends", (joined.opening, joined.closing), (Edge(0, "", 0, 0), Edge(1, "", 7, -5)))
    expect("its entries", [(row.period, row.entry) for row in joined.rows],
           [*((0, entry) for entry in (3, 4, 5, 6, 7, 8, 9, 10, 11, 13, 14)), (1, 4)])
    expect("what was asked for and ended", [[(row.period, row.what) for row in item.rows]
                                            for item in items_of(joined, True) if item.last.key],
           [[(0, "asked"), (0, "undone")], [(0, "asked"), (0, "confirmed")], [(0, "asked"), (1, "confirmed")]])


def try_refused() -> None:
    """Two assets are not held against each other, be it the code or the scale that differs; nor is a statement against
    itself."""
    good = told_in_short("sent 5 A, paid 5 A")
    for other in (told_in_short("received 5 A", asset="EUR/0"), told_in_short("received 5 A", asset="USD/2"), good):
        try:
            compare(good, other)
        except NoStatement:
            continue
        expect(f"whether {other.account.asset} is refused", False, True)
