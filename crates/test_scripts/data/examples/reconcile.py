#!/usr/bin/env python3
"""Holds two statements of one peering against each other: ours of them, and theirs of us.

    connector statement hub.toml hub.journal bob --csv > ours.csv
    reconcile.py ours.csv theirs.csv

Both are in CSV and of one asset. Of two codes or scales they are refused: a packet says units alone, so both connectors
must count in the same ones. The first two lines say which accounts are held against each other. Statements that go on
from each other may stand in one file, one behind the other, as those of periods, of the same time and in order: a
period that lies before that time or behind it is passed over (statement_reading.py has the rule).

Their signs mirror ours, so the two balances come to 0 together; a sum above 0 says that by our book we owe them more
than by theirs. Each sum is of both books, and the opening balances with the sums of all groups come to the closing
balances, to the unit.

Packets are matched by their conditions; of several with one condition those first that are of one amount and ended
alike, and then in order of time. Settlements are matched by their keys where both have one, and else by their amounts
in order of time. A correction is one book's own, and matches nothing. Each is in one of these groups:

- alike: both have it, of one amount and with one end. A settlement that is credited may still be open where it was
  asked for. The sum is 0, but for what had begun before a statement's first row.
- quiet: one has it alone, and the other needs not: a packet that the other refused before it held it, and a
  settlement that was undone, or was asked for before the first row.
- open: one has it alone, held or asked for, and it has not ended. The sum is on its way.
- only ours, only theirs: one has it alone. So are all corrections, with their reasons: one that takes back a forged
  credit stands beside it, and their sums come to 0.
- other amounts; other ends: both have it, of two amounts, or fulfilled here and not there, with the cause.

Each of the last five groups is listed, and with --all each of all seven. What ends about the moment at which a
statement is cut may be in one alone, so cut them where nothing is on its way.

The exit status is 0 where both agree but for what is open, 1 where they differ, 2 where an argument or a file is not
understood, and 3 where standard output failed or was closed: of the last two one line on standard error says why. It
needs Python 3.11, and amounts_and_times.py, command_line.py, statement_matching.py, statement_reading.py and
statement_rows.py beside it.
"""
from __future__ import annotations

import sys
from collections.abc import Iterable
from pathlib import Path

# Tests read this folder, so nothing is left in it.
sys.dont_write_bytecode = True

from amounts_and_times import decimal_of  # noqa: E402
from command_line import NoOutput, NotUnderstood, Parser, tell_why, write_out  # noqa: E402
from statement_matching import DISPUTED, GROUPS, OPEN, Comparison, Item, Match, compare  # noqa: E402
from statement_reading import read_statement  # noqa: E402
from statement_rows import PACKETS, Edge, NoStatement, Statement, order_of  # noqa: E402

AGREED, DIFFERED, BAD_INPUT, NO_OUTPUT = 0, 1, 2, 3


# ---- what is told

def told_of_edge(edge: Edge) -> str:
    """Where a statement begins or ends."""
    return f"entry {edge.entry} of period {edge.period}{f' at {edge.time}' if edge.time else ''}"


def told_of_statement(name: str, statement: Statement) -> str:
    """Whose account it is, and of which entries."""
    account, edges = statement.account, (statement.opening, statement.closing)
    begin, end = map(told_of_edge, edges)
    return (f"{name}: run {account.run}, its account of {account.peer} in {account.asset}, from {begin} on and before "
            f"{end}")


def told_of_item(item: Item, scale: int) -> str:
    """An item in words."""
    row, whose = item.last, "ours" if item.is_ours else "theirs"
    cause = f" ({row.cause})" if row.cause else ""
    return f"{whose} {row.time} entry {row.entry} {row.what} {decimal_of(row.amount, scale)}{cause}"


def told_of_match(match: Match, scale: int) -> str:
    """A match in words, with its sum."""
    rows = [item.last for item in match.items]
    name = (f"condition {rows[0].condition}" if rows[0].what in PACKETS
            else f"key {' and '.join(dict.fromkeys(row.key for row in rows))}")
    items = "; ".join(told_of_item(item, scale) for item in match.items)
    return f"{items}; {name}; sum {decimal_of(match.sum, scale)}"


def lines_of(comparison: Comparison, listed: Iterable[str]) -> list[str]:
    """What is told of a comparison: whose accounts they are, what is in the groups that are listed, and the sums."""
    scale, groups = comparison.scale, comparison.groups
    lines = [f"{group}: {told_of_match(match, scale)}" for group in listed
             for match in sorted(groups[group], key=lambda match: order_of(match.items[0].last.time))]
    sums = [("opening balances", "", comparison.opening),
            *((group, str(len(groups[group])), comparison.sum(group)) for group in GROUPS),
            ("come to", "", comparison.opening + sum(map(comparison.sum, GROUPS))),
            ("closing balances", "", comparison.closing)]
    width = max(len(decimal_of(units, scale)) for _, _, units in sums)
    lines += [f"{name:<16} {count:>8} {decimal_of(units, scale):>{width}}" for name, count, units in sums]
    return [told_of_statement("ours", comparison.ours), told_of_statement("theirs", comparison.theirs), *lines,
            verdict_of(comparison)]


def verdict_of(comparison: Comparison) -> str:
    """The last line."""
    scale, closing = comparison.scale, comparison.closing
    balances = " and ".join(decimal_of(one.closing.balance, scale) for one in (comparison.ours, comparison.theirs))
    if comparison.agrees:
        says = "agree but for what is open" if closing else "agree"
    else:
        says = "differ" if comparison.is_disputed else "differ from before the first row on"
    return f"the books {says}: {balances} come to {decimal_of(closing, scale)}"


# ---- the program

def main(words: list[str]) -> int:
    parser = Parser(prog="reconcile.py", description="Holds two statements of one peering against each other.")
    parser.add_argument("ours", type=Path, metavar="OURS", help="our statement of them, in CSV")
    parser.add_argument("theirs", type=Path, metavar="THEIRS", help="theirs of us")
    parser.add_argument("--all", action="store_true", help="list what is alike too")
    try:
        found = parser.parse_args(words)
        comparison = compare(read_statement(found.ours), read_statement(found.theirs))
        lines = lines_of(comparison, GROUPS if found.all else (OPEN, *DISPUTED))
        write_out("".join(f"{line}\n" for line in lines).encode())
    except (NotUnderstood, NoStatement, OSError, NoOutput) as why:
        tell_why(f"reconcile.py: {why}")
        return NO_OUTPUT if isinstance(why, NoOutput) else BAD_INPUT
    return AGREED if comparison.agrees else DIFFERED


if __name__ == "__main__":
    sys.exit(main(sys.argv[1:]))
