"""What both books must come to, and what bob must have received: kept beside the network, step by step."""
from demonstration.books import Book, Line
from demonstration.failing import expect
from demonstration.network import CONNECTORS, Network
from demonstration.payments import PAID, Payment
from demonstration.reports import expect_balanced, expect_opposite, expect_report, read_report


class Reckoning:
    """A book beside each connector's, and how much bob fulfilled."""

    def __init__(self, network: Network) -> None:
        self.books = {name: Book(network.configurations[name]) for name in CONNECTORS}
        self.received = 0

    def sent(self, payments: list[Payment]) -> None:
        """Packets that ended as they must."""
        north, south = self.books["north"], self.books["south"]
        for payment in payments:
            if payment.outcome == PAID:
                self.received += south.fulfilled("north", "bob", north.fulfilled("alice", "south", payment.amount))
            else:
                for name in payment.outcome.held_by:
                    self.books[name].released()

    def paid_in(self, amount: int) -> None:
        """What alice paid north."""
        self.books["north"].credited("alice", amount)

    def asked(self, connector: str, peer: str) -> int:
        """A settlement that is due is asked for; its amount."""
        amount = self.books[connector].due(peer)
        self.books[connector].asked(peer, amount)
        return amount

    def paid(self, connector: str, amount: int) -> None:
        """It was paid; what north paid south credits."""
        self.books[connector].confirmed()
        if connector == "north":
            self.books["south"].credited("north", amount)

    def refused(self, connector: str, peer: str, amount: int) -> None:
        """One was asked for and refused."""
        self.books[connector].asked(peer, amount)
        self.books[connector].undone(peer, amount)

    # ---- what the network says

    def check_reports(self, texts: dict[str, str]) -> None:
        """Both reports are as they were reckoned, add up, and agree with each other."""
        reports: dict[str, dict[Line, int]] = {}
        for name in CONNECTORS:
            reports[name] = read_report(name, texts[name])
            expect_report(name, reports[name], self.books[name])
            expect_balanced(name, reports[name], self.books[name])
        expect_opposite(reports["north"], reports["south"])

    def check_journals(self, network: Network) -> None:
        """Both journals are saved as a whole."""
        for name in CONNECTORS:
            network.expect_saved(name, self.books[name].numbers["entries", ""])

    def check_receiver(self, network: Network) -> None:
        """Bob received what south counts as sold to him."""
        lines = network.children["receiver"].printed(r"fulfilled (\d+) to .+")
        expect("what bob received", sum(int(found[1]) for found in lines), self.received)
