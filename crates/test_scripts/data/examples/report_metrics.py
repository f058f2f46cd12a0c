#!/usr/bin/env python3
"""Turns the connector's report into metrics: the text that the node exporter's textfile collector
hands on to Prometheus.

    curl -fsS -d '' http://127.0.0.1:7769/report | report_metrics.py --output FOLDER/ilp.prom
    report_metrics.py [REPORT] [--lines LOG]
    report_metrics.py --test

The report comes from a file or from standard input, and the metrics go to standard output, or to the
file behind --output, which is either replaced as a whole or left as it is. With --lines they say too
how many requests of peers got 401, by the connector's standard error, which is in LOG.

What is no whole report by docs/PROTOCOL.md is refused: the exit status is 1, one line on standard
error says why, and nothing is written. It is 1 as well where a file can't be read or written, 2
where the arguments are not understood, and 3 where standard output failed or was closed. Numbers are
whole ones, and are handed on as they came. It needs Python 3.11 and nothing else.
"""
import argparse
import contextlib
import os
import re
import sys
import tempfile
from collections.abc import Callable, Iterable, Iterator
from dataclasses import dataclass
from pathlib import Path

# The columns of a line, without its LF.
LABEL, NAME, NUMBER = slice(0, 10), slice(10, 30), slice(30, 60)
WIDTH = 60

# What the configuration allows, so that no report is longer.
MOST_PEERS = 256
MOST_ASSETS = 64

# The labels, in the order in which they come.
OF_PEERS = ("balance", "open")
OF_ASSETS = ("held", "fees", "bought", "sold", "settled")
OF_ALL = ("entries", "fulfilled")
# The line behind these, in the report of a period above 0. The first period has none.
OF_LATER = "period"
# The last lines, of peers to whom no new settlement is asked for. The report of an end has none.
OF_PAUSED = "paused"
# The very last one, where a Fulfill was told late in this period.
OF_LATE = "late"
MAY_BE_NEGATIVE = ("balance", "settled")

MOST_LINES = (len(OF_PEERS) + 1) * MOST_PEERS + len(OF_ASSETS) * MOST_ASSETS + len(OF_ALL) + 2
MOST_OCTETS = MOST_LINES * (WIDTH + 1)

PEER = re.compile(r"[a-z0-9_-]{1,16}")
ASSET = re.compile(r"([A-Z0-9]{1,12})/(0|[1-9][0-9]{0,2})")
WHOLE_NUMBER = re.compile(r"0|-?[1-9][0-9]*")

# A metric's name and what it says, by the label of its line.
METRICS = {
    "balance": (
        "ilp_balance",
        "What the connector owes the peer, in units of its asset; below 0 the peer owes it.",
    ),
    "open": ("ilp_open_holds", "How many holds that the peer sent are open."),
    "held": ("ilp_held", "The amounts of the open holds that came in, in units of the asset."),
    "fees": ("ilp_fees", "The fees of the fulfilled holds that came in, in units of the asset."),
    "bought": (
        "ilp_bought",
        "The amounts, less the fees, of the fulfilled holds that came in, in units of the asset.",
    ),
    "sold": (
        "ilp_sold",
        "The amounts of the fulfilled holds that went out, in units of the asset.",
    ),
    "settled": (
        "ilp_settled",
        "Opened balances, credits and corrections, less asked settlements, plus undone ones, in units of the asset.",
    ),
    "entries": ("ilp_entries", "How many entries the journal has."),
    "fulfilled": ("ilp_fulfilled", "How many holds are fulfilled."),
    "period": ("ilp_period", "The number of the journal's period, from 0 on."),
    "paused": (
        "ilp_payouts_paused",
        "1 where new settlements to the peer are paused, and 0 where they go on.",
    ),
    "late": ("ilp_late_fulfills", "How many Fulfills were told late in this period."),
}
UNAUTHORIZED = {
    "unauthorized": ("ilp_unauthorized", "How many requests got 401, by the lines of standard error.")
}


# A line on requests that got 401. Their numbers add up.
WRONG_TOKENS = re.compile(rb"\S+ warn wrong tokens: ([1-9][0-9]{0,19}) requests? got 401\b.*")


class NoReport(Exception):
    """Why octets are no report."""


class NoOutput(Exception):
    """Why standard output can't be written."""


@dataclass(frozen=True)
class Line:
    """A line of a report, and its place, counted from 1."""

    place: int
    label: str
    name: str
    number: int


@dataclass(frozen=True)
class Report:
    """The numbers of a report: by the peers' names, by the assets' names, and those of the whole,
    each by its label."""

    peers: dict[str, dict[str, int]]
    assets: dict[str, dict[str, int]]
    totals: dict[str, int]


# ---- lines


def read_line(place: int, text: str) -> Line:
    """A line by its columns.

    >>> read_line(1, "balance   alice".ljust(30) + "-100".rjust(30))
    Line(place=1, label='balance', name='alice', number=-100)
    """
    if len(text) != WIDTH:
        raise NoReport(f"line {place}: it has {len(text)} characters, and not {WIDTH}")
    label, name, number = text[LABEL].rstrip(" "), text[NAME].rstrip(" "), text[NUMBER].lstrip(" ")
    if label not in METRICS:
        raise NoReport(f"line {place}: it begins with no label of a report")
    if not WHOLE_NUMBER.fullmatch(number):
        raise NoReport(f"line {place}: it ends with no whole number")
    if number.startswith("-") and label not in MAY_BE_NEGATIVE:
        raise NoReport(f"line {place}: {label} is below 0")
    return Line(place, label, name, int(number))


def read_lines(octets: bytes) -> list[Line]:
    """All lines. The last of them ends in LF too."""
    if len(octets) > MOST_OCTETS:
        raise NoReport(f"it has more than {MOST_OCTETS} octets")
    if not octets.isascii():
        raise NoReport("it has an octet that is no ASCII")
    if not octets:
        raise NoReport("nothing came: see that the connector runs")
    if not octets.endswith(b"\n"):
        raise NoReport("it does not end with a whole line")
    texts = octets.decode("ascii").split("\n")[:-1]
    return [read_line(place, text) for place, text in enumerate(texts, start=1)]


# ---- reports


class Lines:
    """The lines of a report, which are taken one after another."""

    def __init__(self, lines: list[Line]) -> None:
        self._lines = lines
        self._taken = 0

    def comes(self, label: str) -> bool:
        """Whether the next line has this label."""
        return self._taken < len(self._lines) and self._lines[self._taken].label == label

    def take(self, label: str, name: str | None = None) -> Line:
        """The next line, which is to have this label, and this name if one is given."""
        wanted = label if name is None else f"{label} {name}".rstrip()
        if self._taken == len(self._lines):
            raise NoReport(f"it ends before its line {wanted}")
        line = self._lines[self._taken]
        if line.label != label or name not in (None, line.name):
            raise NoReport(f"line {line.place}: it is not {wanted}")
        self._taken += 1
        return line

    def end(self) -> None:
        """No line is left."""
        if self._taken < len(self._lines):
            last = self._lines[self._taken - 1].label
            raise NoReport(f"line {self._taken + 1}: nothing is to come after {last}")


def take_named(
    lines: Lines, label: str, is_name: Callable[[str], object], most: int
) -> Iterator[tuple[str, int]]:
    """The names and numbers of the lines that come with this label: at least one, of distinct
    names."""
    seen: set[str] = set()
    while not seen or lines.comes(label):
        line = lines.take(label)
        if not is_name(line.name):
            raise NoReport(f"line {line.place}: {label} has no name that may stand there")
        if line.name in seen:
            raise NoReport(f"line {line.place}: {label} {line.name} came before")
        if len(seen) == most:
            raise NoReport(f"line {line.place}: it is one more than {most} of {label}")
        seen.add(line.name)
        yield line.name, line.number


def is_asset(name: str) -> bool:
    """Whether the name is CODE/SCALE.

    >>> [is_asset(name) for name in ("USD/2", "USD/255", "USD/256", "USD/02", "USD", "usd/2")]
    [True, True, False, False, False, False]
    """
    parts = ASSET.fullmatch(name)
    return parts is not None and int(parts[2]) <= 255


def read_report(octets: bytes) -> Report:
    """The report that the octets are."""
    lines = Lines(read_lines(octets))
    balances, opens = OF_PEERS
    peers = {
        name: {balances: number}
        for name, number in take_named(lines, balances, PEER.fullmatch, MOST_PEERS)
    }
    for name, numbers in peers.items():
        numbers[opens] = lines.take(opens, name).number
    assets: dict[str, dict[str, int]] = {}
    first, *others = OF_ASSETS
    for name, number in take_named(lines, first, is_asset, MOST_ASSETS):
        assets[name] = {first: number}
        for label in others:
            assets[name][label] = lines.take(label, name).number
    totals = {label: lines.take(label, "").number for label in OF_ALL}
    totals[OF_LATER] = take_period(lines)
    paused = take_paused(lines, list(peers))
    totals[OF_LATE] = take_late(lines)
    lines.end()
    for name, numbers in peers.items():
        numbers[OF_PAUSED] = int(name in paused)
    check_books(peers, assets)
    return Report(peers, assets, totals)


def take_period(lines: Lines) -> int:
    """The number of the period: that of the last line, or 0 where there is none."""
    if not lines.comes(OF_LATER):
        return 0
    line = lines.take(OF_LATER, "")
    if line.number == 0:
        raise NoReport(f"line {line.place}: the first period has no line")
    return line.number


def take_paused(lines: Lines, names: list[str]) -> set[str]:
    """Which of the peers are paused: each has a line with the number 1, in the order of the peers."""
    paused: set[str] = set()
    while lines.comes(OF_PAUSED):
        line = lines.take(OF_PAUSED)
        if line.name not in names:
            raise NoReport(f"line {line.place}: {OF_PAUSED} has no name that may stand there")
        if line.number != 1:
            raise NoReport(f"line {line.place}: {OF_PAUSED} is not 1")
        names = names[names.index(line.name) + 1 :]
        paused.add(line.name)
    return paused


def take_late(lines: Lines) -> int:
    """How many Fulfills were told late: the number of the last line, or 0 where there is none."""
    if not lines.comes(OF_LATE):
        return 0
    line = lines.take(OF_LATE, "")
    if line.number == 0:
        raise NoReport(f"line {line.place}: without a late Fulfill there is no line")
    return line.number


def check_books(peers: dict[str, dict[str, int]], assets: dict[str, dict[str, int]]) -> None:
    """The books of each asset sum to what was settled in it. A report doesn't say in which asset a
    peer's balance is, so this looks at all assets together."""
    owed = sum(numbers["balance"] for numbers in peers.values())
    for numbers in assets.values():
        owed += numbers["held"] + numbers["fees"] + numbers["bought"] - numbers["sold"]
        owed -= numbers["settled"]
    if owed != 0:
        raise NoReport("its books do not add up to what was settled")


# ---- metrics


def family(label: str, samples: list[tuple[str, int]]) -> Iterator[str]:
    """The lines of a metric. Names of peers and assets have nothing that is to be escaped."""
    metric, says = (METRICS | UNAUTHORIZED)[label]
    yield f"# HELP {metric} {says}"
    yield f"# TYPE {metric} gauge"
    for labels, number in samples:
        yield f"{metric}{labels} {number}"


def of_peers(report: Report, label: str) -> list[tuple[str, int]]:
    """Each peer's labels, and its number."""
    return [(f'{{peer="{name}"}}', numbers[label]) for name, numbers in report.peers.items()]


def of_asset(name: str) -> str:
    """The labels of an asset.

    >>> of_asset("USD/2")
    '{asset="USD",scale="2"}'
    """
    code, scale = name.split("/")
    return f'{{asset="{code}",scale="{scale}"}}'


def unauthorized_in(lines: Iterable[bytes]) -> int:
    """How many requests got 401, by the lines on standard error. The connector writes no number of
    more than 20 digits.

    >>> unauthorized_in([b"TIME warn wrong tokens: 12 requests got 401, 9 from 192.0.2.7\\n",
    ...                  b"TIME info credit 2 of bob: 1, key \\"1 requests got 401\\"\\n",
    ...                  b"TIME warn wrong tokens: 1 request got 401\\n",
    ...                  b"TIME warn wrong tokens: " + b"9" * 5000 + b" requests got 401\\n"])
    13
    """
    found = (WRONG_TOKENS.match(line) for line in lines)
    return sum(int(line[1]) for line in found if line is not None)


def metrics_of(report: Report, unauthorized: int | None = None) -> str:
    """The metrics of a report, and how many requests got 401 where that is known, in the text format
    of Prometheus."""
    lines: list[str] = []
    for label in OF_PEERS:
        lines += family(label, of_peers(report, label))
    for label in OF_ASSETS:
        of = [(of_asset(name), numbers[label]) for name, numbers in report.assets.items()]
        lines += family(label, of)
    for label in (*OF_ALL, OF_LATER, OF_LATE):
        lines += family(label, [("", report.totals[label])])
    lines += family(OF_PAUSED, of_peers(report, OF_PAUSED))
    if unauthorized is not None:
        lines += family("unauthorized", [('{side="peers"}', unauthorized)])
    return "\n".join(lines) + "\n"


# ---- the program


def write_out(text: str) -> None:
    """Hands the text to standard output, all of it."""
    if sys.stdout is None:
        raise NoOutput("standard output is closed")
    try:
        sys.stdout.write(text)
        sys.stdout.flush()
    except OSError as why:
        # Else what is left would be tried once more at the end, and told by a traceback.
        with contextlib.suppress(OSError):
            sys.stdout.close()
        raise NoOutput(f"standard output failed: {why.strerror}") from None


def replace(path: Path, text: str) -> None:
    """Puts the text in the place of the file. It is written beside it first, under a name that the
    collector passes over, so that the collector finds the old text or the new one, whole."""
    handle, beside = tempfile.mkstemp(prefix=f".{path.name}.", suffix=".new", dir=path.parent)
    try:
        with os.fdopen(handle, "w", encoding="ascii") as file:
            file.write(text)
            file.flush()
            os.fsync(file.fileno())
        # The exporter is another user than the one that writes here.
        os.chmod(beside, 0o644)
        os.replace(beside, path)
    except BaseException:
        with contextlib.suppress(OSError):
            os.unlink(beside)
        raise


def read_octets(path: Path | None) -> bytes:
    """What is there, with one octet more than a report may have at most, so that what is too long is
    seen and never read to its end."""
    if path is None:
        return sys.stdin.buffer.read(MOST_OCTETS + 1)
    with path.open("rb") as file:
        return file.read(MOST_OCTETS + 1)


def read_unauthorized(log: Path | None) -> int | None:
    """How many requests got 401, by the lines in this file."""
    if log is None:
        return None
    with log.open("rb") as lines:
        return unauthorized_in(lines)


def run(source: Path | None, output: Path | None, log: Path | None = None) -> None:
    """Reads the report and writes its metrics."""
    text = metrics_of(read_report(read_octets(source)), read_unauthorized(log))
    if output is None:
        write_out(text)
    else:
        replace(output, text)


# ---- the test


def sample(period: object = None, paused: Iterable[str] = (), late: object = None, **changed: object) -> bytes:
    """The report after one hold of 100 by alice to bob that was fulfilled, or one with other numbers
    under some labels, with a line of the period and one of late Fulfills where these are given, and one of each peer
    that is paused."""
    rows = [
        ("balance", "alice", -100),
        ("balance", "bob", 100),
        ("open", "alice", 0),
        ("open", "bob", 0),
        ("held", "USD/2", 0),
        ("fees", "USD/2", 0),
        ("bought", "USD/2", 100),
        ("sold", "USD/2", 100),
        ("settled", "USD/2", 0),
        ("entries", "", 2),
        ("fulfilled", "", 1),
    ]
    rows += [] if period is None else [("period", "", period)]
    rows += [("paused", name, 1) for name in paused]
    rows += [] if late is None else [("late", "", late)]
    return "".join(
        f"{label:10}{name:20}{changed.get(label, number):>30}\n" for label, name, number in rows
    ).encode("ascii")


def refusal(octets: bytes) -> str:
    """Why the octets are no report.

    >>> refusal(sample())
    'none'
    >>> refusal(b"")
    'nothing came: see that the connector runs'
    >>> refusal(sample(period=2**32 - 1))
    'none'
    >>> [refusal(sample(period=number)) for number in (0, -1, "01")]
    ['line 12: the first period has no line', 'line 12: period is below 0', \
'line 12: it ends with no whole number']
    >>> refusal(sample(period=3) + sample(period=4)[-61:])
    'line 13: nothing is to come after period'
    >>> refusal(sample(period=3).replace(b"period    ", b"period   3"))
    'line 12: it begins with no label of a report'
    >>> refusal(sample()[:-61] + sample(period=3)[-61:])
    'line 11: it is not fulfilled'
    >>> [refusal(sample(paused=names)) for names in (["bob"], ["alice", "bob"])]
    ['none', 'none']
    >>> [refusal(sample(paused=names)) for names in (["bob", "alice"], ["bob", "bob"], ["carol"], [""])]
    ['line 13: paused has no name that may stand there', \
'line 13: paused has no name that may stand there', \
'line 12: paused has no name that may stand there', \
'line 12: paused has no name that may stand there']
    >>> [refusal(sample(paused=["bob"])[:-2] + end) for end in (b"0\\n", b"2\\n")]
    ['line 12: paused is not 1', 'line 12: paused is not 1']
    >>> refusal(sample(period=3, paused=["bob"]))
    'none'
    >>> [read_report(sample(late=late)).totals["late"] for late in (None, 3)]
    [0, 3]
    >>> refusal(sample(late=0))
    'line 12: without a late Fulfill there is no line'
    >>> refusal(sample(paused=["bob"]) + sample(period=3)[-61:])
    'line 13: nothing is to come after paused'
    >>> refusal(sample()[:-1])
    'it does not end with a whole line'
    >>> refusal(sample()[:-61])
    'it ends before its line fulfilled'
    >>> refusal(sample()[61:])
    'line 2: it is not open bob'
    >>> refusal(sample() + sample()[-61:])
    'line 12: nothing is to come after fulfilled'
    >>> refusal(sample().replace(b"\\n", b"\\r\\n"))
    'line 1: it has 61 characters, and not 60'
    >>> refusal(sample().replace(b"open      bob  ", b"open      alice"))
    'line 4: it is not open bob'
    >>> refusal(sample().replace(b"alice", b"bob  "))
    'line 2: balance bob came before'
    >>> refusal(sample().replace(b"alice", b"Alice"))
    'line 1: balance has no name that may stand there'
    >>> refusal(sample().replace(b"alice", b"a ice"))
    'line 1: balance has no name that may stand there'
    >>> refusal(sample().replace(b"bob  ", b"     "))
    'line 2: balance has no name that may stand there'
    >>> refusal(sample().replace(b"USD/2", b"USD/x"))
    'line 5: held has no name that may stand there'
    >>> refusal(sample().replace(b"fees ", b"fares"))
    'line 6: it begins with no label of a report'
    >>> refusal(sample().replace(b"fees      USD/2", b"sold      USD/2"))
    'line 6: it is not fees USD/2'
    >>> [refusal(sample(entries=number)) for number in ("02", "+2", "2.0", "2e3", "- 2", "-0", "")]
    ['line 10: it ends with no whole number', 'line 10: it ends with no whole number', \
'line 10: it ends with no whole number', 'line 10: it ends with no whole number', \
'line 10: it ends with no whole number', 'line 10: it ends with no whole number', \
'line 10: it ends with no whole number']
    >>> refusal(sample(fees=-1))
    'line 6: fees is below 0'
    >>> refusal(sample(sold=99))
    'its books do not add up to what was settled'
    >>> refusal(sample(settled=2**64, held=2**64))
    'none'
    >>> refusal(b"\\xff" + sample()[1:])
    'it has an octet that is no ASCII'
    >>> refusal(b" " * MOST_OCTETS + b"\\n")
    'it has more than 66612 octets'
    """
    try:
        read_report(octets)
    except NoReport as why:
        return str(why)
    return "none"


SAMPLE_LINES = (
    'ilp_balance{peer="alice"} -100',
    'ilp_balance{peer="bob"} 100',
    'ilp_open_holds{peer="alice"} 0',
    'ilp_open_holds{peer="bob"} 0',
    'ilp_held{asset="USD",scale="2"} 0',
    'ilp_fees{asset="USD",scale="2"} 0',
    'ilp_bought{asset="USD",scale="2"} 100',
    'ilp_sold{asset="USD",scale="2"} 100',
    'ilp_settled{asset="USD",scale="2"} 0',
    "ilp_entries 2",
    "ilp_fulfilled 1",
    "ilp_period 0",
    'ilp_payouts_paused{peer="alice"} 0',
    'ilp_payouts_paused{peer="bob"} 0',
)


def differs_in() -> list[str]:
    """What differs from what was meant: the examples above, the metrics of the sample, its period,
    numbers that no float holds, and that a refused report leaves a file and its folder as they were."""
    import doctest

    differs = ["an example"] if doctest.testmod().failed else []
    lines = metrics_of(read_report(sample())).splitlines()
    if tuple(line for line in lines if not line.startswith("#")) != SAMPLE_LINES:
        differs.append("the metrics of the sample")
    if "\nilp_period 3\n" not in metrics_of(read_report(sample(period=3))):
        differs.append("the period")
    paused = metrics_of(read_report(sample(paused=["bob"])))
    if not paused.endswith('{peer="alice"} 0\nilp_payouts_paused{peer="bob"} 1\n'):
        differs.append("who is paused")
    if 'ilp_unauthorized{side="peers"} 13\n' not in metrics_of(read_report(sample()), 13):
        differs.append("requests that got 401")
    most = 2**88 - 1
    great = metrics_of(read_report(sample(settled=most, held=most)))
    if f'ilp_held{{asset="USD",scale="2"}} {most}\n' not in great:
        differs.append("a great number")
    with tempfile.TemporaryDirectory() as folder:
        report, output = Path(folder, "report"), Path(folder, "ilp.prom")
        report.write_bytes(sample())
        run(report, output)
        written = output.read_text("ascii")
        report.write_bytes(sample()[:-1])
        with contextlib.suppress(NoReport):
            run(report, output)
            differs.append("a report that was cut")
        if written.splitlines() != lines or output.read_text("ascii") != written:
            differs.append("the file")
        if sorted(os.listdir(folder)) != ["ilp.prom", "report"]:
            differs.append("the folder")
    return differs


def tell_why(line: str) -> None:
    """A line on standard error. Where that fails, the exit status is all that tells."""
    if sys.stderr is None:
        return
    try:
        print(line, file=sys.stderr, flush=True)
    except OSError:
        # Else what is left would be tried once more at the program's end, which has another status then.
        with contextlib.suppress(OSError):
            sys.stderr.close()


def main() -> int:
    parser = argparse.ArgumentParser(description="Turns the connector's report into metrics.")
    parser.add_argument("report", nargs="?", type=Path, help="the report; standard input if left out")
    parser.add_argument("--output", type=Path, help="the file to replace; standard output if left out")
    parser.add_argument("--lines", type=Path, metavar="LOG", help="the connector's standard error")
    parser.add_argument("--test", action="store_true", help="test this script, and do nothing else")
    given = parser.parse_args()
    if given.test:
        differs = differs_in()
        print("\n".join(f"{it} differs" for it in differs) or "ok")
        return 1 if differs else 0
    try:
        run(given.report, given.output, given.lines)
    except (NoReport, OSError, NoOutput) as why:
        tell_why(f"report_metrics: {why}")
        return 3 if isinstance(why, NoOutput) else 1
    return 0


if __name__ == "__main__":
    sys.exit(main())
