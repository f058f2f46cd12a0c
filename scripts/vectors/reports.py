#!/usr/bin/env python3
"""The reports of scripts, for crates/test_scripts/stdout and crates/connector/stdout.

Reckoned from the rules alone (docs/PROTOCOL.md: the quote, the effect of entries on balances, the
trial balance, the report). A line of a script and what is printed for it, as `entry 1 fulfilled 0`,
tell what was booked; at a line `report` all numbers are summed up from that. What stands there
already must come out the same: each amount out, each entry's number, and each line `balance`; and
the books of each asset must balance.

The argument `check` says whether the reports in both files are so, and `write` puts them there;
`fill CONFIGURATION SCRIPT PRINTED` prints what the file PRINTED has, with each report in whole. It
shares nothing with the crates.
"""
import re
import sys
import tomllib
from pathlib import Path
from typing import NamedTuple

CRATES = Path(__file__).resolve().parents[2] / "crates"
ROWS = CRATES / "test_scripts"
CONNECTOR = CRATES / "connector"

# In the order in which crates/test_scripts prints them.
SCRIPTS = ("two_peers", "dear_peer", "short_journal", "deep_credit", "deep_credit_short_journal",
           "small_packets", "three_assets", "settlements", "settlements_short_journal",
           "settlements_scales", "settlements_in_parts")
EXAMPLES = ("two_peers", "three_assets", "settlement")

OF_PEERS = ("balance", "open")
OF_ASSETS = ("held", "fees", "bought", "sold", "settled")
OF_ALL = ("entries", "fulfilled")


class Hold(NamedTuple):
    sender: str
    receiver: str
    amount: int
    fee: int
    out: int


class Moved(NamedTuple):
    """A credit, or below 0 an ask."""
    peer: str
    amount: int


class Ended(NamedTuple):
    """The end of a hold or of an ask: fulfilled, released, confirmed or undone."""
    how: str
    number: int


class Book:
    """What the lines of a script booked so far."""

    def __init__(self, configuration):
        self.peers = {peer["name"]: peer for peer in configuration["peer"]}
        self.scales = {f"{a['code']}/{a['scale']}": a["scale"] for a in configuration["asset"]}
        prices = configuration.get("price", [])
        self.prices = {(price["from"], price["to"]): (price["p"], price["q"]) for price in prices}
        self.entries = []

    def quote(self, sender, receiver, amount):
        """Fee and amount out."""
        fee = -(-amount * self.peers[sender].get("fee_ppm", 0) // 1_000_000)
        source, target = self.peers[sender]["asset"], self.peers[receiver]["asset"]
        if source == target:
            return fee, amount - fee
        p, q = self.prices[source, target]
        above = (amount - fee) * p * 10 ** self.scales[target]
        return fee, above // (q * 10 ** self.scales[source])

    def run(self, line, printed):
        """Books what a line did, by what was printed for it."""
        _, *fields = line.split(" ")
        match printed.split(" "):
            case ["held", number, "to", receiver, "out", out]:
                sender, amount = fields[1], amount_of(fields[2:])
                fee, quoted = self.quote(sender, receiver, amount)
                assert quoted == int(out), f"{printed}, where the quote is {quoted}"
                self.book(number, Hold(sender, receiver, amount, fee, quoted))
            case ["entry", number, "credited", amount]:
                self.book(number, Moved(fields[1], int(amount)))
            case ["entry", number, "asked", amount]:
                self.book(number, Moved(fields[1], -int(amount)))
            case ["entry", number, how, ended, *_]:
                self.book(number, Ended(how, int(ended)))

    def book(self, number, entry):
        assert int(number) == len(self.entries), f"{number}, where it is {len(self.entries)}"
        self.entries.append(entry)

    def all(self, kind):
        return [entry for entry in self.entries if isinstance(entry, kind)]

    def ended(self, how):
        """The entries that were ended so."""
        return [self.entries[end.number] for end in self.all(Ended) if end.how == how]

    def open_holds(self):
        ends = [end.number for end in self.all(Ended)]
        return [hold for number, hold in enumerate(self.entries)
                if isinstance(hold, Hold) and number not in ends]

    def balance(self, name):
        """What the connector owes a peer, by the effect of each kind of entries."""
        held = sum(hold.amount for hold in self.all(Hold) if hold.sender == name)
        released = sum(hold.amount for hold in self.ended("released") if hold.sender == name)
        received = sum(hold.out for hold in self.ended("fulfilled") if hold.receiver == name)
        moved = sum(moved.amount for moved in self.all(Moved) if moved.peer == name)
        undone = -sum(ask.amount for ask in self.ended("undone") if ask.peer == name)
        return released + received + moved + undone - held

    def sums(self, asset):
        """held, fees, bought, sold and settled of an asset."""
        here = [name for name, peer in self.peers.items() if peer["asset"] == asset]
        sent = [hold for hold in self.ended("fulfilled") if hold.sender in here]
        held = sum(hold.amount for hold in self.open_holds() if hold.sender in here)
        fees = sum(hold.fee for hold in sent)
        bought = sum(hold.amount - hold.fee for hold in sent)
        sold = sum(hold.out for hold in self.ended("fulfilled") if hold.receiver in here)
        moved = sum(moved.amount for moved in self.all(Moved) if moved.peer in here)
        settled = moved - sum(ask.amount for ask in self.ended("undone") if ask.peer in here)
        balances = sum(self.balance(name) for name in here)
        assert balances + held + fees + bought - sold == settled, f"{asset} does not balance"
        return held, fees, bought, sold, settled

    def report(self):
        """The lines of the report."""
        for name in self.peers:
            yield line_of("balance", name, self.balance(name))
        for name in self.peers:
            yield line_of("open", name, sum(hold.sender == name for hold in self.open_holds()))
        for asset in self.scales:
            for label, number in zip(OF_ASSETS, self.sums(asset)):
                yield line_of(label, asset, number)
        yield line_of("entries", "", len(self.entries))
        yield line_of("fulfilled", "", len(self.ended("fulfilled")))


def line_of(label, name, number):
    return f"{label:<10}{name:<20}{number:>30}"


def amount_of(packet):
    """The amount of a Prepare, in words or in hexadecimal."""
    if packet[0] == "{prepare":
        return int(packet[1])
    octets = bytes.fromhex(packet[0])
    start = 2 if octets[1] < 0x80 else 2 + (octets[1] & 0x7F)
    return int.from_bytes(octets[start:start + 8])


def is_of_report(printed):
    return len(printed) == 60 and printed[:10].rstrip() in OF_PEERS + OF_ASSETS + OF_ALL


def fill(configuration, script, printed):
    """What a script prints with each report in whole, and what is printed after it."""
    book, filled = Book(configuration), []
    for line in script:
        if line == "report":
            report = list(book.report())
            while printed and is_of_report(printed[0]):
                stood, *printed = printed
                assert not stood.startswith("balance") or stood in report, f"{stood!r}: {report}"
            filled += report
        elif line and not line.startswith("#"):
            book.run(line, printed[0])
            filled.append(printed[0])
            printed = printed[1:]
    return filled, printed


def lines_in(path):
    return path.read_bytes().decode("utf-8", "surrogateescape").split("\n")


def configuration_in(path):
    return tomllib.loads(path.read_bytes().decode())


def fill_scripts(name, printed):
    """The same of the scripts over a configuration, each after a line with its name."""
    configuration = configuration_in(ROWS / f"data/scripts/{name}.toml")
    scripts = "\n".join(lines_in(ROWS / f"data/scripts/{name}.scripts")).split("== ")
    filled = []
    for script in scripts[1:]:
        title, *script = script.split("\n")
        assert printed[0] == f"== {title}", f"{printed[0]!r} where {title!r} begins"
        lines, rest = fill(configuration, script, printed[1:])
        filled += [printed[0], *lines]
        printed = rest
    return filled, printed


def fill_example(name, printed):
    """The same of an example, whose name stands in the first line."""
    assert printed[0] == f"{name}.script:", printed[0]
    configuration = configuration_in(ROWS / f"data/examples/{name}.toml")
    script = lines_in(ROWS / f"data/examples/{name}.script")
    filled, rest = fill(configuration, script, printed[1:])
    return [printed[0], *filled], rest


def rows():
    """The stored lines of crates/test_scripts with each report in whole."""
    printed = lines_in(ROWS / "stdout")
    begin = printed.index("== a Prepare is fulfilled")
    filled, printed = printed[:begin], printed[begin:]
    for name in SCRIPTS:
        lines, printed = fill_scripts(name, printed)
        filled += lines
    begin = printed.index(f"{EXAMPLES[0]}.script:")
    filled, printed = filled + printed[:begin], printed[begin:]
    for name in EXAMPLES:
        lines, printed = fill_example(name, printed)
        filled += lines
    return filled + printed


def stored_run():
    """The stored lines of crates/connector, over the built-in configuration."""
    source = (CRATES / "ilp_config_file/src/built_in.rt").read_text()
    built_in = tomllib.loads(re.search(r'BUILT_IN: &str = r#"(.*?)"#;', source, re.DOTALL)[1])
    lines, rest = fill(built_in, lines_in(CONNECTOR / "stdin"), lines_in(CONNECTOR / "stdout"))
    return lines + rest


def main():
    match sys.argv[1:]:
        case ["check" | "write" as what]:
            for path, lines in ((ROWS / "stdout", rows()), (CONNECTOR / "stdout", stored_run())):
                octets = "\n".join(lines).encode("utf-8", "surrogateescape")
                if what == "write":
                    path.write_bytes(octets)
                elif path.read_bytes() != octets:
                    sys.exit(f"{path} has another report")
        case ["fill", *given] if len(given) == 3:
            configuration, script, printed = map(Path, given)
            lines, rest = fill(configuration_in(configuration), lines_in(script), lines_in(printed))
            print("\n".join(lines + rest), end="")
        case _:
            sys.exit("reports.py check | write | fill CONFIGURATION SCRIPT PRINTED")


if __name__ == "__main__":
    main()
