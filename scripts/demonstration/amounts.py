"""What becomes of an amount, by a configuration's fees and prices alone (docs/PROTOCOL.md, "Prices and quotes")."""
import math
from fractions import Fraction
from typing import Any


class Configuration:
    """A connector's configuration, as its TOML has it."""

    def __init__(self, read: dict[str, Any]) -> None:
        self.address: str = read["address"]
        self.peers: dict[str, dict[str, Any]] = {peer["name"]: peer for peer in read["peer"]}
        self.scales = {f"{asset['code']}/{asset['scale']}": asset["scale"] for asset in read["asset"]}
        self.prices = {(price["from"], price["to"]): Fraction(price["p"], price["q"])
                       for price in read.get("price", [])}

    def asset(self, peer: str) -> str:
        """The asset of a peer's balance."""
        return str(self.peers[peer]["asset"])

    def fee(self, sender: str, amount: int) -> int:
        """What is taken of an amount, rounded up."""
        return math.ceil(Fraction(amount * self.peers[sender].get("fee_ppm", 0), 1_000_000))

    def out(self, sender: str, receiver: str, amount: int) -> int:
        """What goes on of an amount, rounded down."""
        net = amount - self.fee(sender, amount)
        source, target = self.asset(sender), self.asset(receiver)
        if source == target:
            return net
        whole = Fraction(net, 10 ** self.scales[source]) * self.prices[source, target]
        return math.floor(whole * 10 ** self.scales[target])


def shown(amount: int) -> str:
    """An amount at the scale 2, in whole units."""
    return f"{'-' * (amount < 0)}{abs(amount) // 100}.{abs(amount) % 100:02}"
