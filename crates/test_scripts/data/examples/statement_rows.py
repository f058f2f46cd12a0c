"""The rows of a peer's statement, as `connector statement CONFIG JOURNAL PEER --csv` prints them, each read and judged.

statement_reading.py uses it. It needs Python 3.11 and nothing else.
"""
from __future__ import annotations

import re
from dataclasses import dataclass

ACCOUNT = ["run", "period", "peer", "asset"]
HEADER = [*ACCOUNT, "time", "entry", "what", "with", "amount", "in", "out", "balance", "ends", "cause", "condition",
          "key"]
# What the rows opening and closing have beside the account.
EDGE = ["time", "entry", "what", "balance"]

# What an entry is to the peer, and how often its amount goes into the balance.
MOVES = {"opened": 1, "sent": -1, "paid": 0, "returned": 1, "received": 1, "refused": 0,
         "credited": 1, "corrected": 1, "asked": -1, "confirmed": 0, "undone": 1}
PACKETS = ("sent", "paid", "returned", "received", "refused")
SETTLEMENTS = ("credited", "asked", "confirmed", "undone")
CORRECTED = "corrected"
# Whose amount may be below 0.
SIGNED = ("opened", CORRECTED)
# What ends something, and of that what has begun in a row of the same peer's, and in which.
ENDING = ("paid", "returned", "received", "refused", "confirmed", "undone")
BEGUN = {"paid": "sent", "returned": "sent", "confirmed": "asked", "undone": "asked"}

# A moment about the end of the year 9999, for which the connector has no date, is in milliseconds since 1970.
TIME = re.compile(r"[0-9]{4}-[0-9]{2}-[0-9]{2}T[0-9]{2}:[0-9]{2}:[0-9]{2}\.[0-9]{3}Z|[1-9][0-9]{14}")
NUMBER = re.compile(r"0|[1-9][0-9]{0,9}")
DECIMAL = re.compile(r"(-?)(0|[1-9][0-9]{0,59})(?:\.([0-9]{1,255}))?")
# A name or a key has an escape in place of a first octet that a spreadsheet would take for a formula.
PEER = re.compile(r"(?:\\x2d|[a-z0-9_])[a-z0-9_-]{0,15}")
CAUSE = re.compile(r"Late|WrongPreimage|NoReply|Restart|Peer [0-9a-f]{6}")
CONDITION = re.compile(r"[0-9a-f]{64}")
KEY = re.compile(r"(?![=+@-])(?:[ -\[\]-~]|\\x[0-9a-f]{2})+")

# What the columns of an account have.
ACCOUNTS = {"run": re.compile(r"(?:\\x2d|[A-Za-z0-9])[A-Za-z0-9-]{0,31}"), "period": NUMBER, "peer": PEER,
            "asset": re.compile(r"[A-Z0-9]{1,12}/(?:0|[1-9][0-9]{0,2})")}
# What other columns have, and in which rows; in others they are empty.
COLUMNS: dict[str, dict[str, re.Pattern[str]]] = {
    "time": dict.fromkeys(MOVES, TIME), "entry": dict.fromkeys(MOVES, NUMBER), "with": dict.fromkeys(PACKETS, PEER),
    "ends": dict.fromkeys(ENDING, NUMBER), "cause": {"returned": CAUSE, "refused": CAUSE, CORRECTED: KEY},
    "condition": dict.fromkeys(PACKETS, CONDITION), "key": dict.fromkeys((*SETTLEMENTS, CORRECTED), KEY)}

# A row by its columns.
Fields = dict[str, str]


class NoStatement(Exception):
    """Why a file is no statement, or why two can't be compared."""


@dataclass(frozen=True)
class Account:
    """Whose account a statement is of: the connector by its run, the peer by its name there, and its asset."""

    run: str
    peer: str
    asset: str

    @property
    def scale(self) -> int:
        """How many decimals an amount has."""
        return int(self.asset.partition("/")[2])


@dataclass(frozen=True)
class Edge:
    """Where a statement begins or ends: before an entry of a period, at a moment if one was given; and the balance."""

    period: int
    time: str
    entry: int
    balance: int


@dataclass(frozen=True)
class Row:
    """A row of an entry; amounts are in units, and `moved` is what it did to the balance."""

    period: int
    time: str
    entry: int
    what: str
    other: str
    amount: int
    moved: int
    balance: int
    ends: int | None
    cause: str
    condition: str
    key: str


@dataclass(frozen=True)
class Statement:
    """Where it begins, its rows, and where it ends. What goes on in a next period is not opened again."""

    account: Account
    opening: Edge
    rows: list[Row]
    closing: Edge


def expect(holds: object, why: str) -> None:
    """Refuses what does not hold."""
    if not holds:
        raise NoStatement(why)


def order_of(time: str) -> tuple[bool, str]:
    """Where a time is in order: those in milliseconds come last.

    >>> sorted(["253402300799999", "9999-12-30T20:00:00.000Z", "", "253402207201000"], key=order_of)
    ['', '9999-12-30T20:00:00.000Z', '253402207201000', '253402300799999']
    """
    return time.isdecimal(), time


# ---- a row

def units_in(fields: Fields, column: str, scale: int) -> int:
    """The units of a decimal of this scale."""
    found = DECIMAL.fullmatch(fields[column])
    if found is None:
        raise NoStatement(f"its {column} is no decimal")
    sign, whole, decimals = found.groups(default="")
    expect(len(decimals) == scale, f"its {column} has not the {scale} decimals of its asset")
    return int(sign + whole + decimals)


def movement_in(fields: Fields, scale: int) -> int:
    """By how much a row says that its entry raises the balance, or lowers it."""
    expect(not (fields["in"] and fields["out"]), "it has an in and an out")
    rises = units_in(fields, "in", scale) if fields["in"] else 0
    return rises - (units_in(fields, "out", scale) if fields["out"] else 0)


def expect_columns(fields: Fields) -> None:
    """Each column has what belongs to such a row."""
    what = fields["what"]
    expect(what in MOVES, f"it has an unknown what: {what!r}")
    for column, patterns in COLUMNS.items():
        text = fields[column]
        expect(patterns[what].fullmatch(text) if what in patterns else not text, f"its {column} is none of {what}")


def row_of(fields: Fields, scale: int) -> Row:
    """The row that its fields are."""
    expect_columns(fields)
    what, entry = fields["what"], int(fields["entry"])
    ends = int(fields["ends"]) if fields["ends"] else None
    units, moved = units_in(fields, "amount", scale), movement_in(fields, scale)
    expect(units >= 0 or what in SIGNED, "its amount is below 0")
    expect(moved == MOVES[what] * units, f"its in and out are none of {what}")
    expect(ends is None or ends < entry, "its ends is not before it")
    return Row(int(fields["period"]), fields["time"], entry, what, fields["with"], units, moved,
               units_in(fields, "balance", scale), ends, fields["cause"], fields["condition"], fields["key"])


def edge_of(fields: Fields, scale: int) -> Edge:
    """The first row, or the last."""
    what = fields["what"]
    expect(not any(fields[column] for column in HEADER if column not in ACCOUNT + EDGE),
           f"the row {what} has more than a balance")
    expect(NUMBER.fullmatch(fields["entry"]), f"its entry is none of {what}")
    expect(not fields["time"] or TIME.fullmatch(fields["time"]), f"its time is none of {what}")
    return Edge(int(fields["period"]), fields["time"], int(fields["entry"]), units_in(fields, "balance", scale))


def account_of(fields: Fields) -> Account:
    """The account that a row is of."""
    for column, pattern in ACCOUNTS.items():
        expect(pattern.fullmatch(fields[column]), f"its {column} is none")
    return Account(fields["run"], fields["peer"], fields["asset"])
