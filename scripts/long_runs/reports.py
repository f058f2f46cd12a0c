"""The report of a book, and its trial balance."""
from long_runs.books import Asked, Book, Closed, Credited, Fulfilled


def line(label: str, name: str, number: int) -> str:
    return f"{label:<10}{name:<20}{number:>30}\n"


def settled(book: Book, asset: int) -> int:
    """What was credited and corrected in an asset, less what was asked for, and what came back of that."""
    peers = book.configuration.peers
    total = 0
    for entry in book.entries:
        if isinstance(entry, Credited) and peers[entry.peer].asset == asset:
            total += entry.moved
        asked, sign = entry, -1
        if isinstance(entry, Closed) and not entry.accepted:
            asked, sign = book.entries[entry.ask], 1
        if isinstance(asked, Asked) and peers[asked.peer].asset == asset:
            total += sign * asked.amount
    return total


def sums(book: Book, asset: int) -> dict[str, int]:
    """The five numbers of an asset."""
    peers = book.configuration.peers
    fulfilled = book.fulfilled_holds()
    sent = [hold for hold in fulfilled if peers[hold.sender].asset == asset]
    return {
        "held": sum(hold.amount for _, hold in book.open_holds()
                    if peers[hold.sender].asset == asset),
        "fees": sum(hold.fee for hold in sent),
        "bought": sum(hold.amount - hold.fee for hold in sent),
        "sold": sum(hold.out for hold in fulfilled if peers[hold.receiver].asset == asset),
        "settled": settled(book, asset)}


def report(book: Book) -> str:
    """The lines of the report."""
    one = book.configuration
    senders = [hold.sender for _, hold in book.open_holds()]
    lines = [line("balance", peer.name, book.balance(n)) for n, peer in enumerate(one.peers)]
    lines += [line("open", peer.name, senders.count(n)) for n, peer in enumerate(one.peers)]
    for n, asset in enumerate(one.assets):
        lines += [line(label, asset.name, number) for label, number in sums(book, n).items()]
    fulfilled = sum(isinstance(entry, Fulfilled) for entry in book.entries)
    return "".join(lines) + line("entries", "", len(book.entries)) + line("fulfilled", "", fulfilled)


def imbalance(book: Book, asset: int) -> int:
    """Balances, held, fees and bought less sold and settled: 0 in a book that balances."""
    one = book.configuration
    numbers = sums(book, asset)
    balances = sum(book.balance(n) for n, peer in enumerate(one.peers) if peer.asset == asset)
    return (balances + numbers["held"] + numbers["fees"] + numbers["bought"] - numbers["sold"]
            - numbers["settled"])
