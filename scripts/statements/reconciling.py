"""Whether examples/reconcile.py finds what differs in two books, and explains their balances to the unit."""
import dataclasses
import random
import tempfile
from collections.abc import Iterator
from pathlib import Path

import reconcile
import statement_matching as matching
from cases.case import expect, expect_that
from killing.period_books import book_of
from statement_matching import Comparison, compare
from statement_reading import read_statement
from statement_rows import MOVES, Row, Statement
from statements.by_hand import statement
from statements.mirrored import BEGIN, NAMES, RUNS, Books, books_by_chance, configuration

# How many books are made by chance.
MANY = 200


def csv_of(texts: dict[str, str], scale: int, *moments: int) -> dict[str, str]:
    """Both statements of two journals: ours of them, and theirs of us."""
    return {book: statement(configuration(NAMES[book], scale, RUNS[book]), text, None, NAMES[book][0], *moments)
            for book, text in texts.items()}


def read_both(texts: dict[str, str]) -> tuple[Statement, Statement]:
    """Both statements, as reconcile.py reads them."""
    with tempfile.TemporaryDirectory() as folder:
        for book, text in texts.items():
            Path(folder, book).write_text(text, encoding="ascii", newline="")
        return read_statement(Path(folder, "ours")), read_statement(Path(folder, "theirs"))


# ---- by chance

def expect_explained(comparison: Comparison) -> None:
    """The opening balances and the sums of all groups come to the closing balances, and each row is in one group."""
    sums = sum(comparison.sum(group) for group in matching.GROUPS)
    expect("the opening balances and all sums", comparison.opening + sums, comparison.closing)
    *_, come_to, closing, _ = reconcile.lines_of(comparison, ())
    expect("what the sums are told to come to", come_to.split()[2:], closing.split()[2:])
    listed = [(item.is_ours, row.entry) for matches in comparison.groups.values() for match in matches
              for item in match.items for row in item.rows]
    rows = [(is_ours, row.entry) for is_ours, one in ((True, comparison.ours), (False, comparison.theirs))
            for row in one.rows if row.what != "opened"]
    expect("the rows of all groups", sorted(listed), sorted(rows))


def expect_planted(what: str, books: Books, comparison: Comparison) -> None:
    """What was planted is found, each in its group and with its sum; and where nothing was, the books agree."""
    expect_explained(comparison)
    for group in matching.GROUPS:
        expect(f"{what}: how many are in {group}", len(comparison.groups[group]), books.counts[group])
        expect(f"{what}: the sum of {group}", comparison.sum(group), books.sums[group])
    expect(f"{what}: whether they agree", comparison.agrees,
           not any(books.counts[group] for group in matching.DISPUTED))


def try_planted() -> None:
    """What was planted is found in one period."""
    for seed in range(MANY):
        books = books_by_chance(seed, faults=seed % 2 == 1)
        expect_planted(f"books {seed}", books, compare(*read_both(csv_of(books.texts(), books.scale))))


def try_two_periods() -> None:
    """It is found in two periods too, whose statements stand in one file."""
    tried = 0
    for seed in range(2 * MANY):
        books = books_by_chance(seed, faults=seed % 2 == 1)
        texts = books.texts_of_periods()
        first = next(texts)
        if not any(book_of(text.encode()).holds for text in first.values()):
            parts = [csv_of(text, books.scale) for text in (first, next(texts))]
            joined = {book: parts[0][book] + parts[1][book] for book in NAMES}
            expect_planted(f"books {seed} in two periods", books, compare(*read_both(joined)))
            tried += 1
    expect_that(f"only {tried} books have two periods", tried > MANY // 4)


def told_of(one: Statement) -> list[object]:
    """What a statement tells that is the same in one period and in several."""
    moved = [(row.time, row.what, row.amount, row.balance) for row in one.rows if row.what != "opened"]
    return [one.opening.time, matching.opening_of(one), *moved, one.closing.time, one.closing.balance]


def try_times_of_periods() -> None:
    """Two periods tell of any time what one would that has all of both."""
    for seed in range(2 * MANY):
        books, chance = books_by_chance(seed, faults=seed % 2 == 1), random.Random(f"times {seed}")
        periods = list(books.texts_of_periods())
        if not any(book_of(text.encode()).holds for text in periods[0].values()):
            times = sorted(chance.choice((books.cut, chance.randrange(BEGIN - 10, books.moment + 99)))
                           for _ in range(chance.randrange(3)))
            parts = [csv_of(texts, books.scale, *times) for texts in periods]
            joined = read_both({book: parts[0][book] + parts[1][book] for book in NAMES})
            expect(f"books {seed} at {times}", [told_of(one) for one in joined],
                   [told_of(one) for one in read_both(csv_of(books.texts(), books.scale, *times))])
            expect_explained(matching.matched(*joined))


def try_parts() -> None:
    """Of books without faults that are cut while nothing ends, both parts agree; the later one not where something is
    open since before, of which it has no row. Behind each other they are the whole, be it with both headers or one."""
    for seed in range(MANY):
        books = books_by_chance(seed, faults=False)
        parts = [csv_of(books.texts(), books.scale, *cut) for cut in ((0, books.cut), (books.cut,))]
        earlier, later = (compare(*read_both(part)) for part in parts)
        expect(f"books {seed}: whether both parts agree", (earlier.agrees, later.agrees), (True, earlier.closing == 0))
        whole = read_both(csv_of(books.texts(), books.scale, 0))
        joined = {book: parts[0][book] + "".join(parts[1][book].splitlines(keepends=True)[seed % 2:]) for book in NAMES}
        expect(f"books {seed}: whether both parts are the whole", read_both(joined) == whole, True)


def varied(row: Row, chance: random.Random) -> list[Row]:
    """A row, or none, or two, or another one."""
    way = chance.randrange(12)
    if way == 2:
        row = dataclasses.replace(row, amount=row.amount + chance.randrange(-1, 3))
    if way == 3 and row.condition:
        row = dataclasses.replace(row, what=chance.choice(("sent", "paid", "returned", "received", "refused")))
    return [row] * {0: 0, 1: 2}.get(way, 1)


def changed(one: Statement, chance: random.Random) -> Statement:
    """A statement of which rows are left out, doubled or changed, and whose balances follow."""
    balance, followed = one.opening.balance, []
    for row in (row for old in one.rows for row in varied(old, chance)):
        moved = MOVES[row.what] * row.amount
        balance += moved
        followed.append(dataclasses.replace(row, moved=moved, balance=balance))
    return dataclasses.replace(one, rows=followed, closing=dataclasses.replace(one.closing, balance=balance))


def try_sums() -> None:
    """Whatever differs, and wherever a statement is cut, all is explained; also where conditions are not distinct."""
    for ours, theirs in (pair for seed in range(MANY) for pair in pairs_by_chance(seed)):
        expect_explained(compare(ours, theirs))


def pairs_by_chance(seed: int) -> Iterator[tuple[Statement, Statement]]:
    """Statements of some books that are whole, cut or changed."""
    chance = random.Random(f"sums {seed}")
    books = books_by_chance(seed, faults=chance.random() < 0.5, shared_conditions=chance.random() < 0.7)
    cut = sorted(chance.randrange(1_795_723_199_990, books.moment + 99) for _ in range(2))
    whole, part = (read_both(csv_of(books.texts(), books.scale, *moments)) for moments in ((), cut))
    yield from (whole, part, (whole[0], part[1]), (part[0], changed(part[1], chance)))
    yield changed(whole[0], chance), changed(whole[1], chance)
