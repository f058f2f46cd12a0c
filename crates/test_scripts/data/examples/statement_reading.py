"""The statement of a peer's account, read from a file and judged row by row.

A file may have several, each of which goes on from the one before: a part of the same period, or the next period from
its first entry on. Of periods that are stated from FROM on and before TO some may lie outside of that time. No entry is
earlier than those of the periods before, so these are passed over:

- a period without entries at that time, where the next statement begins behind the first entry of its period: then all
  of the period lies before FROM, and the next one has the balance at FROM
- a next period whose statement ends before its first entry: then all of it lies behind TO, or it has no entries, and
  the statement before, which must have the same TO, has the balance at TO. One that has entries may follow where
  nothing was brought forward.

Where the first of them lies behind TO, and is not the first period of all, no statement has the balance.

reconcile.py uses it. It needs Python 3.11, and statement_rows.py beside it.
"""
from __future__ import annotations

import csv
from collections.abc import Iterable, Iterator
from contextlib import contextmanager
from pathlib import Path

from statement_rows import (BEGUN, HEADER, SETTLEMENTS, Account, Edge, Fields, NoStatement, Row, Statement, account_of,
                            edge_of, expect, order_of, row_of)


class Reader:
    """Takes up the rows of a file, each of which must follow from those before."""

    def __init__(self) -> None:
        self.account: Account | None = None
        self.rows: list[Row] = []
        # Where the account begins and ends, and where the last statement ends, which may be passed over.
        self.opening: Edge | None = None
        self.closing: Edge | None = None
        self.last: Edge | None = None
        # Whether any statement has entries, be they of other peers.
        self.has_entries = False
        # The entry behind the last one, the time of that, and the balance behind it.
        self.edge = Edge(0, "", 0, 0)
        # Whether a statement is open, and has a row of an entry.
        self.is_open = self.has_row = False
        # Whether a next period begins, in which what is brought forward may still come.
        self.begins_period = False
        # The first entry of this period that may have a row, the entries that have one, and those that did not end.
        self.first = 0
        self.numbers: set[int] = set()
        self.begun: dict[int, Row] = {}

    def take(self, fields: Fields) -> None:
        """The next row."""
        account = account_of(fields)
        expect(self.account in (None, account), "it is of another account than the row before")
        self.account = account
        if not self.is_open:
            expect(fields["what"] == "opening", "it is not the row opening")
            self.open(edge_of(fields, account.scale))
            return
        expect(int(fields["period"]) == self.edge.period, "it is of another period than the row before")
        if fields["what"] == "closing":
            self.close(edge_of(fields, account.scale))
        else:
            self.add(row_of(fields, account.scale))

    def open(self, edge: Edge) -> None:
        """A statement begins: the first one, or one that goes on where the last one ended. While none has entries, one
        behind the first entry of a next period is the first."""
        last, self.edge, self.is_open, self.has_row = self.last, edge, True, False
        is_next = last is not None and edge.period == last.period + 1
        self.begins_period = is_next and edge.entry == 0
        if last is None or (is_next and edge.entry > 0 and not self.has_entries):
            self.opening, self.closing, self.last, self.first = edge, None, None, edge.entry
        elif is_next:
            expect((edge.entry, edge.balance) == (0, 0), "it does not go on from the row before")
            self.first, self.numbers, self.begun = 0, set(), {}
        else:
            expect(last is self.closing and (edge.period, edge.entry, edge.balance)
                   == (last.period, last.entry, last.balance), "it does not go on from the row before")

    def expect_forward(self) -> None:
        """A next period begins with the balance that the one before ended with, be that passed over or not."""
        if self.begins_period and self.last and self.closing:
            expect(self.edge.balance == self.last.balance == self.closing.balance,
                   "what was brought forward is not the closing balance before")
        self.begins_period = False

    def add(self, row: Row) -> None:
        """An entry's row."""
        expect(row.balance == self.edge.balance + row.moved, "its balance does not follow from the one before")
        expect(row.entry >= self.edge.entry, "its entry is not behind the one before")
        expect(order_of(row.time) >= order_of(self.edge.time), "its time is before the one before")
        goes_on = row.what == "opened" and self.begins_period
        if row.what == "opened":
            expect(not self.numbers and not self.first, "a balance was opened before it")
        else:
            self.expect_forward()
            self.expect_begun(row)
        self.numbers.add(row.entry)
        self.edge, self.has_row = Edge(row.period, row.time, row.entry + 1, row.balance), True
        if not goes_on:
            self.rows.append(row)

    def expect_begun(self, row: Row) -> None:
        """What a row ends has begun in one, unless it had before the first, or was brought forward."""
        if row.what in BEGUN.values():
            self.begun[row.entry] = row
        if row.what not in BEGUN or row.ends is None:
            return
        begun = self.begun.pop(row.ends, None)
        if begun is None:
            is_before = row.ends < self.first or row.what in SETTLEMENTS
            expect(is_before and row.ends not in self.numbers, "it ends no row that has not ended")
        else:
            expect((begun.what, begun.amount, begun.other, begun.condition, begun.key)
                   == (BEGUN[row.what], row.amount, row.other, row.condition, row.key), "it ends a row of another kind")

    def close(self, edge: Edge) -> None:
        """The statement ends. One of a next period that lies behind TO is passed over."""
        expect(edge.balance == self.edge.balance, "its balance is not that of the row before")
        expect(edge.entry >= self.edge.entry, "its entry is not behind the one before")
        expect(not self.has_row or not edge.time or order_of(self.edge.time) < order_of(edge.time),
               "its time is not behind the row before")
        is_behind = self.begins_period and edge.entry == 0 and edge.time != ""
        if is_behind or self.last is not self.closing:
            expect(self.closing and edge.time == self.closing.time, "its time is not that of the closing before")
        if not is_behind:
            self.expect_forward()
            self.closing = edge
            self.has_entries = self.has_entries or self.has_row or edge.entry > self.edge.entry
        self.last, self.is_open = edge, False

    def statement(self) -> Statement:
        """The statement of all rows."""
        if self.account is None or self.opening is None or self.closing is None or self.is_open:
            raise NoStatement("it ends before its row closing")
        is_known = self.closing.entry or not self.closing.time or not self.closing.period
        expect(is_known, f"its period {self.closing.period} lies behind that time: give the one before too")
        return Statement(self.account, self.opening, self.rows, self.closing)


@contextmanager
def in_line(number: int) -> Iterator[None]:
    """Says in which line a fault is."""
    try:
        yield
    except NoStatement as why:
        raise NoStatement(f"line {number}: {why}") from None


def statement_of(lines: Iterable[tuple[int, list[str]]]) -> Statement:
    """The statement of a file's lines, each with its number. Each part of it may have a header."""
    reader, is_first = Reader(), True
    for number, fields in lines:
        expect(not is_first or fields == HEADER, f"it does not begin with the line {','.join(HEADER)}")
        is_first = False
        with in_line(number):
            expect(len(fields) == len(HEADER), f"it has {len(fields)} fields, and not {len(HEADER)}")
            if fields != HEADER or reader.is_open:
                reader.take(dict(zip(HEADER, fields)))
    expect(not is_first, f"it does not begin with the line {','.join(HEADER)}")
    return reader.statement()


def read_statement(path: Path) -> Statement:
    """The statement in a file."""
    try:
        with path.open(encoding="ascii", newline="") as file:
            reader = csv.reader(file, strict=True)
            return statement_of((reader.line_num, fields) for fields in reader)
    except (csv.Error, UnicodeDecodeError) as why:
        raise NoStatement(f"{path}: it is no CSV in ASCII: {why}") from None
    except NoStatement as why:
        raise NoStatement(f"{path}: {why}") from None
