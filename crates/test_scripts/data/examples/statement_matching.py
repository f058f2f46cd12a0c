"""What belongs together in two statements of one peering, and the group of each packet, settlement and correction.

reconcile.py uses it, and says what the groups are. It needs Python 3.11, and statement_rows.py beside it.
"""
from __future__ import annotations

from collections import defaultdict, deque
from collections.abc import Callable, Hashable, Iterable
from dataclasses import dataclass, field
from itertools import chain

from statement_rows import CORRECTED, PACKETS, NoStatement, Row, Statement

BEGIN, END = ("sent", "asked"), ("paid", "returned", "confirmed", "undone")

# What became of a packet, by the last row of it.
OUTCOMES = {"sent": "held", "paid": "fulfilled", "received": "fulfilled", "returned": "released", "refused": "released"}
# The last rows of one packet or settlement, where both have the same end.
SAME_END = {frozenset(rows) for rows in (("paid", "received"), ("returned", "refused"), ("credited", "confirmed"),
                                         ("credited", "asked"))}

ALIKE, QUIET, OPEN, OURS, THEIRS, AMOUNTS, ENDS = GROUPS = (
    "alike", "quiet", "open", "only ours", "only theirs", "other amounts", "other ends")
DISPUTED = (OURS, THEIRS, AMOUNTS, ENDS)


@dataclass
class Item:
    """A packet, a settlement or a correction in one statement: its rows, of which there are two where it begins and
    ends there."""

    is_ours: bool
    rows: list[Row]

    @property
    def last(self) -> Row:
        """What it has come to."""
        return self.rows[-1]

    @property
    def moved(self) -> int:
        """What it did to the balance."""
        return sum(row.moved for row in self.rows)

    @property
    def is_confirmed_here(self) -> bool:
        """Whether it is a settlement that was asked for in this statement, and confirmed."""
        return self.last.what == "confirmed" and len(self.rows) == 2


@dataclass
class Match:
    """What both have, or one alone."""

    items: list[Item]

    @property
    def sum(self) -> int:
        """What it did to both balances together."""
        return sum(item.moved for item in self.items)


@dataclass
class Comparison:
    """Both statements, and what each group has."""

    ours: Statement
    theirs: Statement
    groups: dict[str, list[Match]] = field(default_factory=lambda: {group: [] for group in GROUPS})

    @property
    def opening(self) -> int:
        """Both opening balances, with what was brought forward."""
        return sum(opening_of(one) for one in (self.ours, self.theirs))

    @property
    def closing(self) -> int:
        """Both closing balances."""
        return self.ours.closing.balance + self.theirs.closing.balance

    @property
    def scale(self) -> int:
        """How many decimals an amount has in both."""
        return self.ours.account.scale

    def sum(self, group: str) -> int:
        """The sum of a group."""
        return sum(match.sum for match in self.groups[group])

    @property
    def is_disputed(self) -> bool:
        """Whether anything that both have differs, or one lacks what the other has."""
        return any(self.groups[group] for group in DISPUTED)

    @property
    def agrees(self) -> bool:
        """Whether nothing differs, and what had begun before explains the opening balances."""
        return not self.is_disputed and self.opening + self.sum(ALIKE) + self.sum(QUIET) == 0


def opening_of(statement: Statement) -> int:
    """The balance at the first row that is not brought forward."""
    return statement.opening.balance + sum(row.moved for row in statement.rows if row.what == "opened")


# ---- what is in a statement

def thread_of(row: Row) -> Hashable:
    """What names a packet or a settlement in its book. The key of a settlement names it in later periods too."""
    if row.what in PACKETS:
        return row.period, row.entry if row.ends is None else row.ends
    return row.key


def items_of(statement: Statement, is_ours: bool) -> list[Item]:
    """The packets, settlements and corrections of a statement."""
    items: list[Item] = []
    begun: dict[Hashable, Item] = {}
    for row in statement.rows:
        thread = thread_of(row)
        if row.what in END and thread in begun:
            begun.pop(thread).rows.append(row)
        elif row.what != "opened":
            items.append(Item(is_ours, [row]))
            if row.what in BEGIN:
                begun[thread] = items[-1]
    return items


# ---- what belongs together

# A name that two items have in common which belong together; None fits no other.
Naming = Callable[[Item], Hashable | None]

# From the closest to the loosest.
PACKET_NAMINGS: tuple[Naming, ...] = (
    lambda item: (item.last.condition, item.last.amount, OUTCOMES[item.last.what]),
    lambda item: (item.last.condition, item.last.amount),
    lambda item: (item.last.condition, OUTCOMES[item.last.what]),
    lambda item: item.last.condition,
)
SETTLEMENT_NAMINGS: tuple[Naming, ...] = (
    lambda item: item.last.key,
    lambda item: item.last.amount if item.last.what == "credited" or item.is_confirmed_here else None,
    lambda item: item.last.amount if item.last.what != "undone" else None,
)

# What one has sent or paid the other has received: the last rows on our side, and on theirs.
SENT, RECEIVED, PAID_IN, PAID_OUT = ("sent", "paid", "returned"), ("received", "refused"), ("credited",), (
    "asked", "confirmed", "undone")
WAYS = ((PACKET_NAMINGS, SENT, RECEIVED), (PACKET_NAMINGS, RECEIVED, SENT),
        (SETTLEMENT_NAMINGS, PAID_IN, PAID_OUT), (SETTLEMENT_NAMINGS, PAID_OUT, PAID_IN))


def named_by(naming: Naming, items: list[Item]) -> dict[Hashable, deque[Item]]:
    """Items by the name that they have, in order."""
    named: dict[Hashable, deque[Item]] = defaultdict(deque)
    for item in items:
        named[naming(item)].append(item)
    named.pop(None, None)
    return named


def match_by(naming: Naming, ours: list[Item], theirs: list[Item]) -> tuple[list[Match], list[Item], list[Item]]:
    """What has a name in common, one by one in order, and what is left of both."""
    waiting = named_by(naming, theirs)
    matches, left = [], []
    for item in ours:
        fitting = waiting.get(naming(item))
        if fitting:
            matches.append(Match([item, fitting.popleft()]))
        else:
            left.append(item)
    taken = {id(match.items[1]) for match in matches}
    return matches, left, [item for item in theirs if id(item) not in taken]


def match_all(namings: Iterable[Naming], ours: list[Item], theirs: list[Item]) -> list[Match]:
    """What belongs together, and what each has alone."""
    matches: list[Match] = []
    for naming in namings:
        found, ours, theirs = match_by(naming, ours, theirs)
        matches += found
    return matches + [Match([item]) for item in ours + theirs]


def group_of(match: Match) -> str:
    """The group of what both have, or one alone."""
    if len(match.items) == 1:
        return group_of_one(match.items[0])
    ours, theirs = (item.last for item in match.items)
    if frozenset((ours.what, theirs.what)) not in SAME_END:
        return ENDS
    return ALIKE if ours.amount == theirs.amount else AMOUNTS


def group_of_one(item: Item) -> str:
    """The group of what one has alone."""
    what = item.last.what
    if what in BEGIN:
        return OPEN
    if what in ("refused", "undone") or (what == "confirmed" and not item.is_confirmed_here):
        return QUIET
    return OURS if item.is_ours else THEIRS


def matched(ours: Statement, theirs: Statement) -> Comparison:
    """What both have, and what one has alone."""
    comparison = Comparison(ours, theirs)
    items_of_ours, items_of_theirs = items_of(ours, True), items_of(theirs, False)
    matches = (match for namings, on_ours, on_theirs in WAYS for match in match_all(
        namings, [item for item in items_of_ours if item.last.what in on_ours],
        [item for item in items_of_theirs if item.last.what in on_theirs]))
    # A correction is of one book alone, whatever the other has.
    corrections = (Match([item]) for item in items_of_ours + items_of_theirs if item.last.what == CORRECTED)
    for match in chain(matches, corrections):
        comparison.groups[group_of(match)].append(match)
    return comparison


def compare(ours: Statement, theirs: Statement) -> Comparison:
    """What both have, and what one has alone, of two statements that may be of one peering."""
    assets = ours.account.asset, theirs.account.asset
    if assets[0] != assets[1]:
        raise NoStatement(f"ours is in {assets[0]}, and theirs in {assets[1]}: packets are of units of one asset")
    if ours == theirs and ours.rows:
        raise NoStatement("both are one statement: ours is to be of them, and theirs of us")
    return matched(ours, theirs)
