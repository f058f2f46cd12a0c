"""Whether the page of examples/report_page.py has what journals have."""
import contextlib
import doctest
import hashlib
import io
import random
import tempfile
from itertools import accumulate
from pathlib import Path
from xml.etree import ElementTree

import amounts_and_times
import charts
import journal_figures
import journal_reading
import markup
import report_page
from cases.case import expect, expect_that
from charts import Columns
from statements.by_hand import CONFIGURATION, CORRECTED, ENDED_LOG, FIRST, MET, SECOND, ZERO
from statements.mirrored import configuration

HTML, SVG = "{http://www.w3.org/1999/xhtml}", "{http://www.w3.org/2000/svg}"
HOUR, MOST = 3_600_000, 2**64 - 1
EVENING = 1_795_723_200_000

# All elements of a page, none of which asks for another file; and attributes that would.
ELEMENTS = set("html head meta title style body h1 h2 h3 p table thead tbody tr th td svg text line polyline".split())
ASKING = {"src", "srcset", "href", "data", "action", "style", "http-equiv", "{http://www.w3.org/1999/xlink}href"}

Page = ElementTree.Element


def text_of(config: str, **files: str) -> str:
    """The text of the page of a journal of these files, by their kinds; `journal` is the journal itself."""
    with tempfile.TemporaryDirectory() as folder:
        Path(folder, "hub.toml").write_text(config, encoding="utf-8")
        for kind, text in files.items():
            name = "journal" if kind == "journal" else f"journal.{kind.removeprefix('kept_')}"
            Path(folder, name).write_text(text, encoding="ascii")
        return report_page.make_page(Path(folder, "hub.toml"), Path(folder, "journal"))


def page_of(config: str, **files: str) -> Page:
    """The page itself."""
    page = ElementTree.fromstring(text_of(config, **files))
    expect_alone(page)
    return page


def expect_alone(page: Page) -> None:
    """A page asks for no other file, and has no scripts."""
    expect("elements that are none of a page", {one.tag.rpartition("}")[2] for one in page.iter()} - ELEMENTS, set())
    attributes = {name for one in page.iter() for name in one.attrib}
    expect("attributes that ask for a file, or have scripts",
           {name for name in attributes if name in ASKING or name.startswith("on")}, set())
    style = page.findtext(f"{HTML}head/{HTML}style") or ""
    expect_that("the styles ask for a file", "@" not in style and "url" not in style)


def journal(entries: list[str], period: int = 0) -> str:
    """A journal of these entries."""
    form = f"ilp-journal 2 {period}" if period else "ilp-journal 1"
    return "\n".join([form, *entries, f"end {len(entries)}\n"])


def rows_of(page: Page, title: str) -> list[list[str]]:
    """The rows of the table behind a heading."""
    body = page.find(f"{HTML}body")
    headings = [place for place, part in enumerate(body) if part.text == title]
    expect(f"how many headings {title!r} there are", len(headings), 1)
    tables = [part for part in body[headings[0]:] if part.tag == f"{HTML}table"]
    return [[cell.text for cell in row] for row in tables[0].iter(f"{HTML}tr")][1:]


def texts_of(page: Page) -> list[str]:
    """All texts in drawings."""
    return [one.text for one in page.iter(f"{SVG}text")]


def lines_of(page: Page) -> list[list[tuple[int, int]]]:
    """The points of all lines."""
    return [[tuple(map(int, point.split(","))) for point in one.get("points").split()]
            for one in page.iter(f"{SVG}polyline")]


# ---- tries

def try_examples() -> None:
    """The examples in the modules come to what they say."""
    for module in (amounts_and_times, markup, charts, journal_figures):
        expect(f"the examples of {module.__name__} that fail", doctest.testmod(module).failed, 0)


def try_small() -> None:
    """A journal without entries, and one of one; what is no journal or no configuration is refused in one line."""
    empty = page_of(CONFIGURATION, journal=journal([]))
    expect("the peers of an empty journal", [row[0] for row in rows_of(empty, "Balances")], ["alice", "bob"])
    expect("its lines", lines_of(empty), [])
    one = page_of(configuration(("<a&b>\0",), 0).replace("\0", r"\u0000"),
                  journal=journal([f"{EVENING} 0 credited <a&b> 00 5 0 5"]))
    expect("a name that is escaped", rows_of(one, "Balances")[0][0], "<a&b>\ufffd")
    one = page_of(configuration(("alice",), 0), journal=journal([f"{EVENING} 0 credited alice 00 5 0 5"]))
    expect("the balance of one entry", rows_of(one, "Balances"),
           [["alice", "USD/0", "5", "0", "5", "0", "0", "-1000", "none"]])
    expect("how many lines it has", len(lines_of(one)), 1)
    text = CORRECTED.replace(" -a", " alice").replace(" -b", " bob")
    corrected = page_of(CONFIGURATION, journal=text)
    expect("corrected balances", [row[2] for row in rows_of(corrected, "Balances")], ["-16.00", "0.13"])
    for config, text, why in ((CONFIGURATION, FIRST[:-1], "it is not whole"), ("x", FIRST, "it is no configuration"),
                              ("run = 1", FIRST, "it is no configuration"), (CONFIGURATION, "", "its first line"),
                              (CONFIGURATION, FIRST.replace("released 2", "released 1"), "the entry 4 of the period 0"),
                              (CONFIGURATION, FIRST.replace("asked", "taken"), "the entry 7 of the period 0"),
                              (CONFIGURATION, FIRST.replace("asked bob ", f"asked bob {'9' * 257}"), "the entry 7 of"),
                              (CONFIGURATION, CORRECTED.replace("rises c", "raises c"), "the entry 4 of the period 1")):
        expect_refused(config, text, why)


def expect_refused(config: str, text: str, why: str) -> None:
    """A page can't be made, for this reason."""
    with tempfile.TemporaryDirectory() as folder:
        paths = [Path(folder, name) for name in ("hub.toml", "journal")]
        for path, octets in zip(paths, (config, text)):
            path.write_text(octets)
        expect_told(why, *map(str, paths))


def expect_told(why: str, *words: str) -> None:
    """With these arguments a page can't be made, which one line says, and why."""
    errors = io.StringIO()
    with contextlib.redirect_stderr(errors):
        status = report_page.main(list(words))
    said = errors.getvalue()
    expect(f"the status of what is refused as {why!r}, and its lines", (status, said.count("\n")), (2, 1))
    expect_that(f"{said!r} does not say {why!r}", why in said)


def try_configurations() -> None:
    """Levels and scales are whole numbers that a connector may have, and tables are nested as deep as one may read."""
    peer, none = CONFIGURATION + "threshold = ", "it is no configuration"
    deep, great = "[" * 9999 + "]" * 9999, f"0x1{'0' * 9999}"
    for value in ('"5"', "[5]", "{}", "5.0", "true", "2026-11-26", str(2**63), great, deep):
        expect_refused(f"{peer}{value}\n", FIRST, none)
        expect_refused(CONFIGURATION.replace("least = -1000", f"least = {value}", 1), FIRST, none)
        expect_refused(CONFIGURATION.replace("scale = 2", f"scale = {value}"), FIRST, none)
    for table in ("asset", "peer"):
        for value in ("1", '"USD"', "[1]", "[[]]", "{ name = 1 }", "true"):
            whole = CONFIGURATION.replace(f"[[{table}]]", "[[other]]")
            expect_refused(f"{table} = {value}\n{whole}", FIRST, none)
    expect_that("a level of a peer can't be the least", text_of(f"{peer}{-2**63}\n", journal=FIRST))
    expect_that("a mark of the order of octets is no configuration",
                text_of(f"\ufeff{CONFIGURATION}", journal=FIRST) == text_of(CONFIGURATION, journal=FIRST))


def try_places() -> None:
    """A journal that is not there, be it that its periods are, and one whose name is none, is told in one line."""
    kept = journal(FIRST.splitlines()[1:-1] + ENDED_LOG.splitlines()[2:])
    begun = f"ilp-log 1 0 {hashlib.sha256().hexdigest()}\nrun hub; peer alice USD 2; peer bob USD 2\n"
    with tempfile.TemporaryDirectory() as folder:
        config, path = Path(folder, "hub.toml"), Path(folder, "journal")
        config.write_text(CONFIGURATION)
        for kind, text in ((None, ""), ("0", kept), ("log", begun.replace("log 1 0 ", "log 1 0 0"))):
            if kind is not None:
                path.with_name(f"journal.{kind}").write_text(text)
            expect_told(f"{path} is not there", str(config), str(path))
        for name in (".", "/", ""):
            expect_told("is the name of a folder", str(config), name)
        expect_told("Is a directory", str(config), folder)
        expect_told("required: CONFIG, JOURNAL; usage: report_page.py [-h] CONFIG JOURNAL")
        path.with_name("journal.log").write_text(f"{begun}{FIRST.splitlines()[1]}\n")
        path.with_name("journal.0").unlink()
        expect_that("a log alone has no page", report_page.make_page(config, path))


def try_periods() -> None:
    """Two periods: hours, what is open, and where they begin. A log counts, and so does one that was set aside."""
    last = f"{EVENING + HOUR + 9} 0 hold alice bob 7 0 7 {EVENING + 2 * HOUR} {MET}"
    second = SECOND.replace("end 7", f"{last}\nend 8").replace("ilp-journal 2 3", "ilp-journal 2 1")
    begun = second[:second.index(last)] + "end 7\n"
    log = (f"ilp-log 1 7 {hashlib.sha256(begun.encode()).hexdigest()}\nrun hub; peer alice USD 2; peer bob USD 2\n"
           f"{last}\n{last[:9]}")
    kept = journal(FIRST.splitlines()[1:-1] + ENDED_LOG.splitlines()[2:])
    pages = [page_of(CONFIGURATION, kept_0=kept, journal=second),
             page_of(CONFIGURATION, kept_0=kept, journal=begun, log=log),
             page_of(CONFIGURATION, journal=FIRST, ended=ENDED_LOG, next=begun, log=log)]
    for page in pages:
        expect("the hours", rows_of(page, "Packets an hour"),
               [["2026-11-26T20:00:00.000Z", "4", "2", "1", "1"], ["2026-11-26T21:00:00.000Z", "1", "0", "0", "0"],
                ["all hours", "5", "2", "1", "1"]])
        expect("the periods", rows_of(page, "Periods"),
               [["0", "2026-11-26T20:00:00.000Z", "15", "0"], ["1", "2026-11-26T20:01:40.000Z", "8", "4"]])
        expect("the balances", [row[2:7] for row in rows_of(page, "Balances")],
               [["15.88", "0.00", "20.00", "0.07", "1"], ["-0.05", "-0.05", "4.95", "0.00", "0"]])
        expect("how many lines there are", len(lines_of(page)), 4)
        expect("how often each least is named", texts_of(page).count("least -10.00"), 2)
    try_odd_texts(kept, begun, log)
    open_ones = page_of(CONFIGURATION, kept_0=kept, journal=second[:second.index("1795723300001")] + "end 4\n")
    expect("what is open, and since when", rows_of(open_ones, "Open settlements"),
           [["hub-11", "bob", "0.05", "2026-11-26T20:00:01.000Z"]])


def try_odd_texts(kept: str, begun: str, log: str) -> None:
    """A log of an older text is passed over, and so is what stands behind a NUL; and a period may be missing."""
    for old in (log.replace("ilp-log 1 7 ", "ilp-log 1 7 0"), log.replace("hold alice", "hold\0 alice")):
        page = page_of(CONFIGURATION, kept_0=kept, journal=begun, log=old)
        expect("balances without the log's entry", [row[2] for row in rows_of(page, "Balances")], ["15.95", "-0.05"])
    gap = page_of(CONFIGURATION, kept_0=kept, journal=journal([f"{EVENING + HOUR} 0 credited bob 00 9 2 9"], 2))
    expect("balances behind a period that is missing", [row[2] for row in rows_of(gap, "Balances")], ["0.00", "0.09"])


def try_ends_meanwhile() -> None:
    """A period that ends, or a close, while the periods before are read: what is read of that period is whole."""
    forward, entry = (f"{EVENING + 9} 0 {what} bob {rest}"
                      for what, rest in (("opened", "5"), ("credited", "00 7 2 7")))
    texts = {".0": journal([f"{EVENING} 0 credited bob ff 5 2 5"]), "": journal([forward], 1)}
    texts[".log"] = log_behind(texts[""], entry)
    for ends in (end_period, close):
        with tempfile.TemporaryDirectory() as folder:
            files = Path(folder, "journal")
            for kind, text in texts.items():
                Path(f"{files}{kind}").write_text(text)
            found = []
            for part in journal_reading.parts_of(files):
                if part.period == 0:
                    ends(files, journal([forward, entry], 1))
                found.append((part.period, [one.what for one in journal_reading.entries_of(part)]))
        expect(f"the periods beside {ends.__name__}", found, [(0, ["credited"]), (1, ["opened", "credited"])])


def log_behind(text: str, *entries: str) -> str:
    """The log of these entries behind a text of one."""
    digest = hashlib.sha256(text.encode()).hexdigest()
    return "".join(f"{line}\n" for line in (f"ilp-log 1 1 {digest}", "run hub; peer bob USD 2", *entries))


def end_period(files: Path, whole: str) -> None:
    """The files of a connector that ends the period 1: its whole text is kept, and the next one's is the journal."""
    following = journal([f"{EVENING + 9} 0 opened bob 12"], 2)
    Path(f"{files}.next").write_text(following)
    Path(f"{files}.log").rename(f"{files}.ended")
    Path(f"{files}.log").write_text(log_behind(following))
    Path(f"{files}.1").write_text(whole)
    Path(f"{files}.next").rename(files)
    Path(f"{files}.ended").unlink()


def close(files: Path, whole: str) -> None:
    """Those of one that closes: the whole text is the journal, and the log goes."""
    Path(f"{files}.new").write_text(whole)
    Path(f"{files}.new").rename(files)
    Path(f"{files}.log").unlink()


def try_great() -> None:
    """Balances beyond 64 bits, and a level that lies far below them."""
    config = configuration(("alice",), 0).replace("least = -1000", "least = -9\nthreshold = 8")
    entries = [f"{EVENING + place} 0 credited alice {place:04x} {MOST} 0 {MOST}" for place in range(1000)]
    page = page_of(config, journal=journal(entries))
    expect("the balance", rows_of(page, "Balances")[0][2], str(1000 * MOST))
    expect("the levels", [text for text in texts_of(page) if "least" in text or "threshold" in text],
           ["least -9", "threshold 8"])
    entries = [f"{EVENING} 0 credited alice 00 5 0 5", f"{EVENING} 0 hold alice bob 3 0 3 0 {MET}"]
    page = page_of(configuration(("alice", "bob"), 0).replace("-1000", "-1000000"), journal=journal(entries))
    expect("a level far below", [text for text in texts_of(page) if "least" in text],
           ["least -1000000 lies below", "least -1000000"])


def try_many() -> None:
    """Forty peers with many entries: each has its line, in which the one packet that is much greater is seen."""
    chance, names = random.Random("many"), [f"peer{place:02}" for place in range(40)]
    entries = []
    for place in range(20_000):
        moment, number = EVENING + place * 999, len(entries)
        (sender, receiver), amount, end = chance.sample(names, 2), chance.randrange(9), f"fulfilled {number} {ZERO}"
        if place == 12_345:
            sender, receiver, amount, end = "peer07", "peer08", 10**6, f"released {number} Late"
        entries += [f"{moment} 0 hold {sender} {receiver} {amount} 0 {amount} {moment} {MET}", f"{moment + 1} 0 {end}"]
    page = page_of(configuration(names, 2), journal=journal(entries))
    lines = dict(zip([*names, "packets", "not fulfilled"], lines_of(page), strict=True))
    expect("how many packets there are", rows_of(page, "Packets an hour")[-1][1:], ["20000", "19999", "1"])
    heights = sorted({y for _, y in lines["peer07"]})
    expect_that("the greatest packet is not seen", heights[-1] - heights[-2] > 100)
    expect_that("there are too many points", max(map(len, lines.values())) <= 4 * 600 + 1)
    expect_that("the page is too long", len(ElementTree.tostring(page)) < 2_000_000)
    try_columns(chance)


def try_columns(chance: random.Random) -> None:
    """Columns keep the extremes of what lies in them, and the last of it."""
    moments = list(accumulate((chance.choice((0, 1, chance.randrange(1000))) for _ in range(5000)), initial=EVENING))
    numbers = [(moment, chance.randrange(-(2**127), 2**127)) for moment in moments]
    columns = columns_of(numbers)
    expect_that("there are too many columns", 25 <= len(columns.columns) <= 50)
    for begin, column in columns.over_time():
        inside = [number for when, number in numbers if begin <= when < begin + columns.span]
        expect("the extremes of a column, and its last number", (column.least, column.most, column.last),
               (min(inside), max(inside), inside[-1]))


def columns_of(numbers: list[tuple[int, int]]) -> Columns:
    """At most fifty columns of numbers, each with its moment."""
    columns = Columns(50)
    for moment, number in numbers:
        columns.note(moment, number)
    return columns
