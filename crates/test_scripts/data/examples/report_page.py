#!/usr/bin/env python3
"""Makes a page of a connector's journal and of the periods before it: balances, packets an hour, what is open.

    report_page.py hub.toml hub.journal > page.html

The page goes to standard output. It is HTML that is well-formed XML, without scripts, and asks for no other file. It
has, in whole units of each asset and with times in UTC,

- each peer's balance over time, with its `least` and its `threshold`, and where periods begin
- packets an hour, and what became of them: fulfilled, or released and why. A packet that was refused before it went on
  is in no journal
- settlements that are open
- the periods whose texts, JOURNAL.0, JOURNAL.1 and so on, lie beside JOURNAL

JOURNAL's log counts where it goes on from JOURNAL, so both may be copies. Beside a connector that runs the page may
lack what was booked last. Long journals are drawn by their extremes: a page of a million entries has less than 2 MB.

The exit status is 2 where the arguments or the configuration are not understood, or the journal can't be read: then
nothing is written. It is 3 where standard output failed or was closed, which has a part of the page at most. One line
on standard error says why. It needs Python 3.11, and amounts_and_times.py, charts.py, command_line.py,
journal_figures.py, journal_reading.py and markup.py beside it.
"""
from __future__ import annotations

import sys
import tomllib
from collections import Counter
from collections.abc import Iterable, Sequence
from dataclasses import dataclass
from pathlib import Path

# Tests read this folder, so nothing is left in it.
sys.dont_write_bytecode = True

from amounts_and_times import shown, time_of  # noqa: E402
from charts import Chart, Columns, drawing_of  # noqa: E402
from command_line import NoOutput, NotUnderstood, Parser, tell_why, write_out  # noqa: E402
from journal_figures import FULFILLED, HOUR, PACKETS, Figures  # noqa: E402
from journal_reading import NoJournal, parts_of  # noqa: E402
from markup import element, escaped  # noqa: E402

DONE, BAD_INPUT, NO_OUTPUT = 0, 2, 3

# A drawing has at most so many columns, and all drawings of balances together.
MOST_COLUMNS, ALL_COLUMNS = 800, 24_000
# So many rows of a table are listed, the last ones.
MOST_HOURS, MOST_PERIODS, MOST_SETTLEMENTS = 168, 100, 1000

# What a scale may be, and a level.
SCALES, LEVELS = range(256), range(-2**63, 2**63)

STYLE = """
body { font: 15px sans-serif; color: black; background: white; max-width: 62rem; margin: 2rem auto; padding: 0 1rem }
svg { width: 100%; height: auto }
table { border-collapse: collapse; margin: 1rem 0 }
th, td { border-bottom: 1px solid #999; padding: 0.2rem 0.6rem; text-align: right; font-variant-numeric: tabular-nums }
th:first-child, td:first-child { text-align: left }
"""


@dataclass(frozen=True)
class Peer:
    """What a configuration says of a peer."""

    name: str
    code: str
    scale: int
    least: int
    threshold: int | None

    def shown(self, units: int) -> str:
        """An amount in its asset."""
        return shown(units, self.scale)

    @property
    def levels(self) -> dict[str, int]:
        """The levels that it has, by their names."""
        return {"least": self.least} | ({} if self.threshold is None else {"threshold": self.threshold})


class NoConfiguration(Exception):
    """Why a file is no configuration."""


def number_of(table: dict[str, object], field: str, allowed: range) -> int:
    """A field that is a whole number; true and false are none."""
    number = table[field]
    if type(number) is not int or number not in allowed:
        raise ValueError(f"{field} is no whole number from {allowed[0]} to {allowed[-1]}")
    return number


def peer_of(table: dict[str, object], assets: dict[object, tuple[str, int]]) -> Peer:
    """A peer of a configuration with these assets."""
    threshold = number_of(table, "threshold", LEVELS) if "threshold" in table else None
    return Peer(str(table["name"]), *assets[table["asset"]], number_of(table, "least", LEVELS), threshold)


def read_configuration(path: Path) -> tuple[str, list[Peer]]:
    """The name of the run, and the peers, of a configuration."""
    try:
        read = tomllib.loads(path.read_text(encoding="utf-8-sig"))
        assets = {f"{one['code']}/{one['scale']}": (str(one["code"]), number_of(one, "scale", SCALES))
                  for one in read["asset"]}
        return str(read["run"]), [peer_of(one, assets) for one in read["peer"]]
    except (KeyError, TypeError, ValueError, RecursionError) as why:
        raise NoConfiguration(f"{path}: it is no configuration of a connector: {why!r}") from None


# ---- parts of the page

def table(heads: Sequence[str], rows: Iterable[Sequence[object]]) -> str:
    """A table, whose first column names what its rows are of."""
    def row(kind: str, cells: Sequence[object]) -> str:
        return element("tr", *(element(kind, escaped(str(cell))) for cell in cells))

    return element("table", element("thead", row("th", heads)), "\n",
                   element("tbody", "\n", *(f"{row('td', cells)}\n" for cells in rows)))


def paragraph(text: str) -> str:
    """A paragraph."""
    return element("p", escaped(text))


def left_out(count: int, most: int, what: str) -> list[str]:
    """That a table does not list all, where that is so."""
    return [paragraph(f"The last {most} of {count} {what} are listed.")] if count > most else []


def marks_of(figures: Figures) -> list[tuple[int, str]]:
    """Where periods begin."""
    return [(one.begin, f"period {one.number}") for one in figures.periods]


def balances(peers: list[Peer], figures: Figures) -> list[str]:
    """The balances, and how they came about."""
    rows = []
    for peer in peers:
        account = figures.accounts[peer.name]
        threshold = "none" if peer.threshold is None else peer.shown(peer.threshold)
        amounts = account.balance, account.least, account.most, account.held
        rows.append((peer.name, f"{peer.code}/{peer.scale}", *map(peer.shown, amounts), account.holds,
                     peer.shown(peer.least), threshold))
    heads = "peer", "asset", "balance", "lowest", "highest", "held", "open packets", "least", "threshold"
    says = "A balance above 0 is what the connector owes the peer; of one below 0 the peer owes it."
    drawings = [part for peer in peers for part in balance_drawn(peer, figures)] if figures.entries else []
    return [element("h2", "Balances"), paragraph(says), table(heads, rows), *drawings]


def balance_drawn(peer: Peer, figures: Figures) -> list[str]:
    """A peer's balance over time."""
    columns = figures.accounts[peer.name].columns
    chart = Chart(f"The balance of {peer.name} over time", f"balance in {peer.code}", peer.scale, figures.first,
                  figures.last, [("line", columns)], peer.levels, marks_of(figures))
    return [element("h3", escaped(peer.name)), drawing_of(chart)]


def counts_over_time(hours: dict[int, Counter[str]], whats: Iterable[str], begin: int, end: int) -> Columns:
    """How often something happened in each hour between two moments; in hours that are not there it did not."""
    counts = {hour: sum(hours[hour][what] for what in whats) for hour in sorted(hours)}
    columns = Columns(MOST_COLUMNS)
    if min(counts) * HOUR > begin:
        columns.note(begin, 0)
    for hour, count in counts.items():
        columns.note(max(hour * HOUR, begin), count)
        if hour + 1 not in counts and (hour + 1) * HOUR < end:
            columns.note((hour + 1) * HOUR, 0)
    return columns


def packets(figures: Figures) -> list[str]:
    """How many packets went on in each hour, and what became of them."""
    hours = figures.hours
    causes = sorted({what for counts in hours.values() for what in counts} - {PACKETS, FULFILLED})
    says = ("Each hour is named by its beginning. Its packets went on to a peer in it, and what became of packets is "
            "counted when they ended. A packet that was refused before it went on is in no journal.")
    if not hours:
        return [element("h2", "Packets an hour"), paragraph("No packet went on.")]
    listed = sorted(hours)[-MOST_HOURS:]
    rows = [(time_of(hour * HOUR), *(hours[hour][what] for what in (PACKETS, FULFILLED, *causes))) for hour in listed]
    whole = sum(hours.values(), Counter())
    rows.append(("all hours", *(whole[what] for what in (PACKETS, FULFILLED, *causes))))
    end = max(figures.last, (max(hours) + 1) * HOUR)
    lines = [(style, counts_over_time(hours, whats, figures.first, end))
             for style, whats in (("line", [PACKETS]), ("second", causes))]
    chart = Chart("Packets an hour over time", "packets an hour; dashed: not fulfilled", 0, figures.first, end, lines,
                  {}, marks_of(figures))
    return [element("h2", "Packets an hour"), paragraph(says), drawing_of(chart),
            *left_out(len(hours), MOST_HOURS, "hours in which something happened"),
            table(("hour", PACKETS, FULFILLED, *causes), rows)]


def settlements(peers: list[Peer], figures: Figures) -> list[str]:
    """What was asked for, and is neither confirmed nor undone."""
    by_name = {peer.name: peer for peer in peers}
    found = [one for one in figures.asks.values() if one.peer in by_name]
    rows = [(one.key, one.peer, by_name[one.peer].shown(one.amount), time_of(one.since))
            for one in found[-MOST_SETTLEMENTS:]]
    shown_ones = table(("key", "peer", "amount", "since"), rows) if rows else paragraph("None is open.")
    return [element("h2", "Open settlements"), *left_out(len(found), MOST_SETTLEMENTS, "settlements"), shown_ones]


def periods(figures: Figures) -> list[str]:
    """Where periods begin."""
    rows = [(one.number, time_of(one.begin), one.entries, one.brought_forward)
            for one in figures.periods[-MOST_PERIODS:]]
    return [element("h2", "Periods"), *left_out(len(figures.periods), MOST_PERIODS, "periods"),
            table(("period", "begins", "entries", "of them brought forward"), rows)]


def page_of(name: str, peers: list[Peer], figures: Figures) -> str:
    """The whole page."""
    when = f", from {time_of(figures.first)} to {time_of(figures.last)}" if figures.entries else ""
    says = f"Entries: {figures.entries}{when}. Times are in UTC, amounts in whole units of an asset."
    unknown = f"The configuration lacks, and nothing is shown of: {', '.join(sorted(figures.unknown))}."
    parts = [element("h1", escaped(f"The journal {name}")), paragraph(says),
             *([paragraph(unknown)] if figures.unknown else []), *balances(peers, figures), *packets(figures),
             *settlements(peers, figures), *periods(figures)]
    head = element("head", element("meta", charset="utf-8"), element("title", escaped(f"The journal {name}")),
                   element("style", STYLE))
    whole = element("html", head, "\n", element("body", "\n", "\n".join(parts), "\n"),
                    xmlns="http://www.w3.org/1999/xhtml", lang="en")
    return f"<!DOCTYPE html>\n{whole}\n"


# ---- the program

def make_page(config: Path, journal: Path) -> str:
    """The page of a journal and of all periods beside it, by a configuration."""
    run, peers = read_configuration(config)
    most = min(ALL_COLUMNS // max(len(peers), 1), MOST_COLUMNS)
    figures = Figures(run, (peer.name for peer in peers), most)
    for part in parts_of(journal):
        figures.read(part)
    return page_of(journal.name, peers, figures)


def main(words: list[str]) -> int:
    parser = Parser(prog="report_page.py",
                    description="Makes a page of a connector's journal and of the periods before it.")
    parser.add_argument("config", type=Path, metavar="CONFIG", help="the connector's configuration")
    parser.add_argument("journal", type=Path, metavar="JOURNAL", help="its journal; the periods lie beside it")
    try:
        found = parser.parse_args(words)
        write_out(make_page(found.config, found.journal).encode("ascii", "xmlcharrefreplace"))
    except (NotUnderstood, NoConfiguration, NoJournal, OSError, NoOutput) as why:
        tell_why(f"report_page.py: {why}")
        return NO_OUTPUT if isinstance(why, NoOutput) else BAD_INPUT
    return DONE


if __name__ == "__main__":
    sys.exit(main(sys.argv[1:]))
