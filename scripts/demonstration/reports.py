"""Reports (docs/PROTOCOL.md, "The report"): read, and held against the book that was reckoned beside."""
from demonstration.books import Book, Line
from demonstration.failing import Differs, expect

LABEL, NAME, NUMBER = slice(0, 10), slice(10, 30), slice(30, 60)


def read_report(whose: str, text: str) -> dict[Line, int]:
    """The numbers of a report, line by line."""
    try:
        return {(line[LABEL].strip(), line[NAME].strip()): int(line[NUMBER]) for line in text.splitlines()}
    except ValueError:
        raise Differs(f"what {whose} printed is no report: {text!r}") from None


def expect_report(whose: str, report: dict[Line, int], book: Book) -> None:
    """Each line of a report is as it was reckoned."""
    expect(f"{whose}'s report: its lines", list(report), book.lines())
    for label, name in book.lines():
        expect(f"{whose}'s report: {label} {name}".rstrip(), report[label, name], book.numbers[label, name])


def expect_balanced(whose: str, report: dict[Line, int], book: Book) -> None:
    """In each asset a report's balances and its books add up to what was settled."""
    one = book.configuration
    for asset in one.scales:
        balances = sum(report["balance", peer] for peer in one.peers if one.asset(peer) == asset)
        held, fees, bought, sold, settled = (report[label, asset]
                                             for label in ("held", "fees", "bought", "sold", "settled"))
        expect(f"{whose}'s report: the sum of {asset}", balances + held + fees + bought - sold, settled)


def expect_opposite(north: dict[Line, int], south: dict[Line, int]) -> None:
    """What north owes south by its book, it owes by south's."""
    expect("what north owes south by south's book", -south["balance", "north"], north["balance", "south"])
