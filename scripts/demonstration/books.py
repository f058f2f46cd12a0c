"""What a connector's book must come to, reckoned beside it from what was sent, credited and paid."""
from collections import Counter

from demonstration.amounts import Configuration

# A line of a report, by its label and its name.
Line = tuple[str, str]

OF_PEERS = ("balance", "open")
OF_ASSETS = ("held", "fees", "bought", "sold", "settled")
OF_ALL = ("entries", "fulfilled")


class Book:
    """The numbers of a report, in the end of a run in which nothing is held any more."""

    def __init__(self, configuration: Configuration) -> None:
        self.configuration = configuration
        self.numbers: Counter[Line] = Counter()

    def lines(self) -> list[Line]:
        """The lines of a report, in their order."""
        peers, assets = self.configuration.peers, self.configuration.scales
        return ([(label, peer) for label in OF_PEERS for peer in peers]
                + [(label, asset) for asset in assets for label in OF_ASSETS]
                + [(label, "") for label in OF_ALL])

    def balance(self, peer: str) -> int:
        """What the connector owes a peer."""
        return self.numbers["balance", peer]

    def due(self, peer: str) -> int:
        """What is to be settled with a peer, where it is owed its threshold or more."""
        levels = self.configuration.peers[peer]
        return self.balance(peer) - levels["settle_to"] if self.balance(peer) >= levels["threshold"] else 0

    def fulfilled(self, sender: str, receiver: str, amount: int) -> int:
        """A packet that was fulfilled, which takes two entries; the amount that went on."""
        one = self.configuration
        fee, out = one.fee(sender, amount), one.out(sender, receiver, amount)
        self.numbers["balance", sender] -= amount
        self.numbers["balance", receiver] += out
        self.numbers["fees", one.asset(sender)] += fee
        self.numbers["bought", one.asset(sender)] += amount - fee
        self.numbers["sold", one.asset(receiver)] += out
        self.numbers["entries", ""] += 2
        self.numbers["fulfilled", ""] += 1
        return out

    def released(self) -> None:
        """A packet that was held and given back, which takes two entries."""
        self.numbers["entries", ""] += 2

    def moved(self, peer: str, amount: int) -> None:
        """A balance that moves by what was settled."""
        self.numbers["balance", peer] += amount
        self.numbers["settled", self.configuration.asset(peer)] += amount
        self.numbers["entries", ""] += 1

    def credited(self, peer: str, amount: int) -> None:
        """A settlement from a peer."""
        self.moved(peer, amount)

    def asked(self, peer: str, amount: int) -> None:
        """A settlement to a peer: the amount leaves the balance as it is asked for."""
        self.moved(peer, -amount)

    def undone(self, peer: str, amount: int) -> None:
        """One that the engine refused: the amount comes back."""
        self.moved(peer, amount)

    def confirmed(self) -> None:
        """One that the engine accepted."""
        self.numbers["entries", ""] += 1
