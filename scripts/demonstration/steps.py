"""What is done, step by step, each with a line that says it."""
from demonstration.amounts import shown
from demonstration.calls import close, credit, send_packet, switch
from demonstration.failing import expect
from demonstration.network import CONNECTORS, Network
from demonstration.payments import (FIRST, NO_MONEY, SECOND, SHOP, THIRD, Payment, counted, mixed, paid,
                                    preimages_of)
from demonstration.readme import expect_shown
from demonstration.reckoning import Reckoning
from demonstration.sending import AT_ONCE, send_all


class Demonstration:
    """The network, and the reckoning beside it."""

    def __init__(self, network: Network) -> None:
        self.network = network
        self.reckoning = Reckoning(network)
        self.first, self.second, self.third = mixed(FIRST), [paid(amount) for amount in SECOND], mixed(THIRD)
        self.runs = 0
        self.lines: list[str] = []

    def say(self, text: str) -> None:
        """The line of a step."""
        self.lines.append(f"{len(self.lines) + 1:>2}  {text}")
        print(self.lines[-1], flush=True)

    # ---- parts of steps

    def start_connectors(self) -> None:
        """Starts both connectors over their journals."""
        self.runs += 1
        for name in CONNECTORS:
            self.network.start_connector(name, self.runs)
        for name in CONNECTORS:
            self.network.await_connector(name)

    def send(self, payments: list[Payment]) -> str:
        """Sends packets, which end as they must; how many end in which way."""
        send_all(self.network.ports["north"], self.network.tokens["alice_to_north"], payments)
        self.reckoning.sent(payments)
        return counted(payments)

    def engine_did(self, connector: str, what: str, peer: str, amount: int) -> str:
        """The key of the next settlement with which a connector's engine did this; its amount must be this."""
        engine = self.network.children[f"{connector}_engine"]
        found = engine.await_printed(rf"{what} (\S+) to {peer}: (\d+) at scale 2")
        expect(f"what {connector} asked its engine to pay {peer}", int(found[2]), amount)
        return found[1]

    def pay(self, connector: str, peer: str, amount: int) -> str:
        """A settlement that was asked for is paid; its key."""
        key = self.engine_did(connector, "accepted", peer, amount)
        self.network.children[connector].await_told(rf"info settlement \d+ with {peer} of {amount}: confirmed")
        self.reckoning.paid(connector, amount)
        return key

    def settle(self, connector: str, peer: str) -> int:
        """A settlement that is due is asked for and paid; its amount."""
        amount = self.reckoning.asked(connector, peer)
        self.pay(connector, peer, amount)
        return amount

    # ---- the steps

    def start(self) -> None:
        """Everything is there, and nothing was booked."""
        self.network.start_receiver(preimages_of(self.first + self.second + self.third))
        self.network.start_engines()
        self.start_connectors()
        self.network.await_examples()
        ports = self.network.ports.values()
        self.say(f"Starts the connectors north (USD, EUR) and south (EUR), the receiver bob, and two engines, at "
                 f"ports {min(ports)} to {max(ports)}.")

    def send_without_money(self) -> None:
        """A packet is rejected, since alice has no credit."""
        what = f"rejected: {NO_MONEY.code} by {NO_MONEY.by}: {NO_MONEY.message}"
        expect("what comes back", send_packet(self.network, 1000, SHOP), what)
        self.say(f"Sends bob 10.00 USD as alice, who has paid in nothing: rejected, {NO_MONEY}.")

    def pay_in(self) -> None:
        """A settlement that is told twice is credited once."""
        for _ in range(2):
            credit(self.network, 100_000, "alice-1")
        self.reckoning.paid_in(100_000)
        self.say("Tells north twice, under one key, that alice paid in 1000.00 USD: credited once.")

    def send_hundred(self) -> None:
        """Packets of all kinds, between the halves of which north is killed."""
        half = len(self.first) // 2
        self.send_half(self.first[:half])
        self.kill_north()
        self.send_half(self.first[half:])

    def send_half(self, payments: list[Payment]) -> None:
        """Sends packets, and says how they end."""
        self.say(f"Sends {len(payments)} packets, {AT_ONCE} at a time: {self.send(payments)}.")

    def kill_north(self) -> None:
        """North goes on from its log. The last packet was fulfilled, so all that was booked is in there."""
        entries = self.reckoning.books["north"].numbers["entries", ""]
        self.network.children["north"].kill()
        self.runs += 1
        self.network.start_connector("north", self.runs)
        told = f"a connector stopped without saving it, and {entries} entries come from its log"
        self.network.children["north"].await_told(f"warn journal .+: {told}")
        self.network.await_connector("north")
        self.say(f"Kills north, and starts it again: it goes on with the {entries} entries of its log.")

    def settle_both(self) -> None:
        """Both connectors owe so much that they pay."""
        owed = self.reckoning.books["north"].balance("south")
        north, south = self.settle("north", "south"), self.settle("south", "bob")
        self.say(f"North owes south {shown(owed)} EUR: its engine pays {shown(north)}, which south credits. South's "
                 f"pays bob {shown(south)}.")

    def leave_open(self) -> tuple[str, int]:
        """A settlement that no engine answers stays open; its key and its amount."""
        switch(self.network, "south_engine", "down")
        outcome = self.send(self.second)
        amount = self.reckoning.asked("south", "bob")
        engine = self.network.children["south_engine"]
        key = engine.await_printed(r"no answer to /accounts/bob/settlements under (\S+)")[1]
        self.settle("north", "south")
        self.say(f"Sends {len(self.second)} packets while south's engine is down: {outcome}. Settlement {key} of "
                 f"{shown(amount)} EUR stays open.")
        return key, amount

    def close(self) -> dict[str, str]:
        """Both connectors end, and all is as it was reckoned; the reports that they printed."""
        for name in CONNECTORS:
            close(self.network, name)
        for name in CONNECTORS:
            self.network.children[name].end()
        texts = {name: self.network.children[name].output.read_text() for name in CONNECTORS}
        self.reckoning.check_reports(texts)
        self.reckoning.check_journals(self.network)
        self.reckoning.check_receiver(self.network)
        north, south = (self.reckoning.books[name].numbers["entries", ""] for name in CONNECTORS)
        self.say(f"Closes both: {north} and {south} entries are saved, both reports are as they were reckoned, and "
                 f"they agree.")
        return texts

    def start_again(self, key: str, amount: int) -> None:
        """The settlement that was open is paid once the engine is back, under its old key."""
        switch(self.network, "south_engine", "accept")
        self.start_connectors()
        expect("the key under which it is asked for again", self.pay("south", "bob", amount), key)
        self.say(f"Starts both again over their journals, with south's engine back: it is asked for {key} again, and "
                 f"pays it.")

    def pay_in_again(self) -> None:
        """An old settlement is known after the start, and a new one is credited."""
        credit(self.network, 100_000, "alice-1")
        credit(self.network, 50_000, "alice-2")
        self.reckoning.paid_in(50_000)
        self.say("Tells north again of the 1000.00 USD, under their key: not credited. Then of 500.00 USD more.")

    def send_more(self) -> None:
        """More packets of all kinds, and a settlement that is refused first."""
        switch(self.network, "south_engine", "refuse")
        self.say(f"Sends {len(self.third)} packets: {self.send(self.third)}.")
        self.settle("north", "south")
        amount = self.reckoning.asked("south", "bob")
        key = self.engine_did("south", "refused", "bob", amount)
        switch(self.network, "south_engine", "accept")
        self.pay("south", "bob", amount)
        self.take_up_refusals(amount)
        self.say(f"South's engine refused {key} at first: {shown(amount)} EUR came back, and were paid under another "
                 f"key.")

    def take_up_refusals(self, amount: int) -> None:
        """What south booked of each settlement that its engine refused: of more than one, where this machine was
        slow."""
        for _ in self.network.children["south_engine"].printed(r"refused \S+ to bob: .+"):
            self.reckoning.refused("south", "bob", amount)

    def compare(self) -> None:
        """The statements of both connectors' account with each other have the same packets and settlements."""
        owed = shown(self.reckoning.books["north"].balance("south"))
        said = self.network.reconciled()
        expect("what reconcile.py says", said, f"the books agree: {owed} and -{owed} come to 0.00")
        self.say(f"Holds north's statement of south against south's of north, entry by entry: {said}.")

    def play(self) -> None:
        """All steps, and what both connectors printed in the end."""
        self.start()
        self.send_without_money()
        self.pay_in()
        self.send_hundred()
        self.settle_both()
        key, amount = self.leave_open()
        self.close()
        self.start_again(key, amount)
        self.pay_in_again()
        self.send_more()
        texts = self.close()
        self.compare()
        expect_shown(self.lines)
        for name, text in texts.items():
            print(f"\n{name}:\n{text}", end="")
        print("\nBoth books agree with what was sent, and with each other.")
