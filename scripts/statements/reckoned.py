"""The statement of a peer's account, reckoned entry by entry by the book of scripts/killing."""
import csv
import datetime
import re
import sys
import tomllib
from collections.abc import Iterable
from dataclasses import dataclass
from pathlib import Path
from typing import TextIO

from amounts_and_times import EPOCH, MILLISECOND, decimal_of, time_of
from cases.case import Differs
from killing.books import SIGNS, entries_kept, period_in
from killing.period_books import PeriodBook, read_standing
from statement_rows import HEADER

USAGE = "usage: scripts/statement.py CONFIG JOURNAL PEER [FROM [TO]]"

# A date, which stands for its midnight, or a moment; both in UTC.
MOMENT = re.compile(r"[0-9]{4}-[0-9]{2}-[0-9]{2}(?:T[0-9]{2}:[0-9]{2}:[0-9]{2}(?:\.[0-9]{1,3})?Z)?")


@dataclass(frozen=True)
class Configuration:
    """What a statement takes from a configuration: the name of the run, and each peer's asset with its scale."""

    run: str
    assets: dict[str, tuple[str, int]]


def configuration_of(text: str) -> Configuration:
    """What a configuration in TOML says of that."""
    read = tomllib.loads(text)
    scales = {f"{asset['code']}/{asset['scale']}": asset["scale"] for asset in read["asset"]}
    return Configuration(read["run"], {peer["name"]: (peer["asset"], scales[peer["asset"]]) for peer in read["peer"]})


# ---- rows

@dataclass(frozen=True)
class Said:
    """What an entry is to a peer: all but what it does to the balance."""

    what: str
    amount: int
    other: str = ""
    ends: str = ""
    cause: str = ""
    condition: str = ""
    key: str = ""


@dataclass(frozen=True)
class Row:
    """An entry of the peer's, and its balance before it and after it."""

    moment: int
    entry: int
    said: Said
    before: int
    balance: int


@dataclass(frozen=True)
class Edge:
    """Where a statement begins or ends: the moment that was asked for, the entry behind, and the balance there."""

    moment: int | None
    entry: int
    balance: int


@dataclass(frozen=True)
class Statement:
    """Where it begins, its rows, and where it ends."""

    opening: Edge
    rows: list[Row]
    closing: Edge


def text_of(octets: bytes) -> str:
    """A name, a key or a reason in printable ASCII. What a spreadsheet would take for a formula begins with an
    escape."""
    return "".join(f"\\x{octet:02x}" if not 32 <= octet <= 126 or octet == 0x5C or place == 0 and octet in b"=+-@"
                   else chr(octet) for place, octet in enumerate(octets))


class Account(PeriodBook):
    """The book of a period, and its rows for one peer."""

    def __init__(self, peer: str, run: str, period: int) -> None:
        super().__init__(period)
        self.peer, self.run = peer, run
        self.rows: list[Row] = []
        # Those of all entries.
        self.moments: list[int] = []

    def add(self, line: str) -> None:
        """The next entry, and its row where it is the peer's."""
        moment, _actor, what, *fields = line.split(" ")
        said, entry, before = self.said_of(what, fields), self.count, self.balances[self.peer]
        super().add(line)
        self.moments.append(int(moment))
        if said is not None:
            self.rows.append(Row(int(moment), entry, said, before, self.balances[self.peer]))

    def asked(self, peer: str, amount: str) -> None:
        """What a peer is to be paid, under a key of this run."""
        super().asked(peer, amount)
        self.keys[self.count] = self.next_key()

    def next_key(self) -> str:
        """The key of a settlement that the next entry asks for."""
        return f"{self.run}.{self.period}-{self.count}" if self.period else f"{self.run}-{self.count}"

    # ---- what an entry is to the peer

    def said_of(self, what: str, fields: list[str]) -> Said | None:
        """What the next entry is to the peer, if it is the peer's."""
        if what in ("fulfilled", "released"):
            return self.of_end(what, *fields)
        if what in ("confirmed", "undone"):
            peer, amount = self.asks[int(fields[0])]
            key = text_of(self.keys[int(fields[0])].encode())
            return Said(what, amount, ends=fields[0], key=key) if peer == self.peer else None
        if fields[0] != self.peer:
            return None
        if what == "hold":
            return Said("sent", int(fields[2]), fields[1], condition=fields[6])
        if what == "credited":
            return Said(what, int(fields[4]), key=text_of(bytes.fromhex(fields[1])))
        if what == "corrected":
            return self.of_correction(*fields)
        if what == "asked":
            return Said(what, int(fields[1]), key=text_of(self.next_key().encode()))
        return Said(what, int(fields[1])) if what == "opened" else None

    def of_correction(self, _peer: str, key: str, _amount: str, _scale: str, units: str, *last: str) -> Said:
        """What a correction of the peer's balance is to it. Last stand its direction and its reason."""
        if len(last) != 2 or last[0] not in SIGNS:
            raise Differs(f"the entry {self.count} is no correction: {last}")
        reason, named = (text_of(bytes.fromhex(one)) for one in (last[1], key))
        return Said("corrected", SIGNS[last[0]] * int(units), cause=reason, key=named)

    def of_end(self, what: str, number: str, *last: str) -> Said | None:
        """What the end of a hold is to the peer, where it is at one side of it. Behind its number stand the preimage,
        or the cause."""
        hold = self.holds[int(number)]
        is_paid, cause = what == "fulfilled", "" if what == "fulfilled" else " ".join(last)
        if hold.sender == self.peer:
            return Said("paid" if is_paid else "returned", hold.amount, hold.receiver, number, cause, hold.condition)
        if hold.receiver == self.peer:
            return Said("received" if is_paid else "refused", hold.out, hold.sender, number, cause, hold.condition)
        return None


# ---- statements

def account_of(configuration: Configuration, journal: bytes | None, log: bytes | None, peer: str) -> Account:
    """The account of a peer, by a journal and its log as a start reads them. A text that isn't there is that of an
    opening. What is open stays so."""
    if peer not in configuration.assets:
        raise Differs(f"the configuration has no peer {peer}")
    account = Account(peer, configuration.run, period_in(journal) if journal is not None else 0)
    try:
        account.extend(entries_kept(journal, log))
    except (IndexError, KeyError, TypeError, ValueError) as why:
        raise Differs(f"the entry {account.count} can't be read: {why!r}") from None
    return account


def edge_at(account: Account, moment: int | None, entry: int) -> Edge:
    """What there is before an entry."""
    return Edge(moment, entry, next((row.balance for row in reversed(account.rows) if row.entry < entry), 0))


def between(account: Account, since: int | None, until: int | None) -> Statement:
    """The statement of the entries from a moment on and before another one, which is the same where it is earlier."""
    if since is not None and until is not None:
        until = max(since, until)
    first = 0 if since is None else sum(moment < since for moment in account.moments)
    behind = account.count if until is None else sum(moment < until for moment in account.moments)
    listed = [row for row in account.rows if first <= row.entry < behind]
    return Statement(edge_at(account, since, first), listed, edge_at(account, until, behind))


def fields_of(row: Row, scale: int) -> Iterable[str]:
    """The fields of a row. What does not move the balance has neither an in nor an out."""
    said, moved = row.said, row.balance - row.before
    rises, falls = (decimal_of(abs(moved), scale) if is_so else "" for is_so in (moved > 0, moved < 0))
    return (time_of(row.moment), str(row.entry), said.what, text_of(said.other.encode()),
            decimal_of(said.amount, scale), rises, falls,
            decimal_of(row.balance, scale), said.ends, said.cause, said.condition, said.key)


def fields_of_edge(what: str, edge: Edge, scale: int) -> Iterable[str]:
    """The fields of the first row, or of the last."""
    time = "" if edge.moment is None else time_of(edge.moment)
    return time, str(edge.entry), what, "", "", "", "", decimal_of(edge.balance, scale), "", "", "", ""


def write_statement(configuration: Configuration, account: Account, moments: list[int], file: TextIO) -> None:
    """Writes a statement in CSV, from the first moment on and before the second, if they are given."""
    statement = between(account, *[*moments, None, None][:2])
    asset, scale = configuration.assets[account.peer]
    writer = csv.writer(file, lineterminator="\r\n")
    writer.writerow(HEADER)
    rows = (fields_of_edge("opening", statement.opening, scale), *(fields_of(row, scale) for row in statement.rows),
            fields_of_edge("closing", statement.closing, scale))
    run, peer = (text_of(name.encode()) for name in (configuration.run, account.peer))
    writer.writerows((run, str(account.period), peer, asset, *row) for row in rows)


# ---- the program

def moment_in(text: str) -> int:
    """The milliseconds since 1970 of a date or a moment."""
    if MOMENT.fullmatch(text) is None:
        raise ValueError(text)
    return (datetime.datetime.fromisoformat(text.removesuffix("Z")) - EPOCH) // MILLISECOND


def print_statement(config: Path, journal: Path, peer: str, moments: list[int]) -> None:
    """Prints the statement of a peer, from the first moment on and before the second, if they are given."""
    try:
        configuration = configuration_of(config.read_text(encoding="utf-8"))
    except (KeyError, ValueError) as why:
        raise Differs(f"{config} is no configuration of a connector: {why!r}") from None
    text, log, _ = read_standing(journal)
    if text is None and log is None:
        raise Differs(f"{journal} is not there, and no log is beside it")
    write_statement(configuration, account_of(configuration, text, log, peer), moments, sys.stdout)


def main(words: list[str]) -> int:
    """The exit status: 1 where a file is not as it must be, 2 where the arguments are not understood."""
    try:
        moments = [moment_in(word) for word in words[3:]]
    except ValueError:
        moments = []
    if not 3 <= len(words) <= 5 or len(moments) != len(words) - 3:
        print(USAGE, file=sys.stderr)
        return 2
    try:
        print_statement(Path(words[0]), Path(words[1]), words[2], moments)
    except (Differs, OSError) as why:
        print(f"statement.py: {why}", file=sys.stderr)
        return 1
    return 0
