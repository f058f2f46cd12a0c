"""A script's lines by the rules (docs/PROTOCOL.md, section "Scripts"): what is printed of each."""
import re
from collections import Counter
from dataclasses import dataclass, field

from long_runs.books import Book, Fulfilled, Refused, Released
from long_runs.configurations import Configuration
from long_runs.packets import FAULTS, Faulty, Packet, read_packet, read_prepare
from long_runs.quantities import BadQuantity, read_quantity
from long_runs.reports import report

# The Reject with which a hold is refused.
CODES = {"AmountTooLarge": "F08", "NoRoute": "F02", "BackToSender": "F02", "Expired": "R00",
         "TooShort": "R02", "NoPrice": "F02", "OutTooLarge": "F03", "RoundsToNothing": "R01",
         "Full": "T03", "TotalFull": "T04", "BelowLeast": "T04"}
NUMBERS = {"NotJson": 31, "BadAmount": 32, "BadScale": 33, "TooLarge": 34, "Full": 41, "KeyTaken": 46,
           "NotDue": 47, "StillOpen": 48}
NAMES = {number: name for name, number in NUMBERS.items()}

MOMENT, NUMBER = rb"[0-9]{1,15}", rb"[0-9]{1,9}"
HEX = rb"(?:[0-9A-Fa-f]{2})+"
HOLD = re.compile(rb"hold (%s) (\S+) (%s)" % (MOMENT, HEX))
ANSWER = re.compile(rb"answer (%s) (%s) (none|%s)" % (MOMENT, NUMBER, HEX))
EXPIRE = re.compile(rb"expire (%s)" % MOMENT)
CREDIT = re.compile(rb"credit (%s) (\S+) ([!-~]{1,128}) ([ -~]*)" % MOMENT)
ASK = re.compile(rb"ask (%s) (\S+)" % MOMENT)
CLOSE = re.compile(rb"close (%s) (%s) (yes|no)" % (MOMENT, NUMBER))
REPORT = re.compile(rb"report")

BAD_LINE = "bad line"


class Misfit(Exception):
    """A line that fits no form, or names an unknown peer."""


def with_numbers(name: str, refused: Refused) -> str:
    return " ".join([name, *map(str, refused.numbers)])


@dataclass
class Script:
    """A script that runs line by line; kinds count what its lines came to."""

    configuration: Configuration
    kinds: Counter[str] = field(default_factory=Counter)
    book: Book = field(init=False)

    def __post_init__(self) -> None:
        self.book = Book(self.configuration)

    def run(self, line: bytes) -> str:
        """What is printed of a line."""
        if not line or line.startswith(b"#"):
            self.kinds["nothing"] += 1
            return ""
        try:
            text = self.told(line)
        except Misfit:
            self.kinds[BAD_LINE] += 1
            return BAD_LINE + "\n"
        verb = line.split(b" ")[0].decode()
        self.kinds[f"{verb}: {kind_of(text)}"] += 1
        return text if verb == "report" else text + "\n"

    def told(self, line: bytes) -> str:
        """The same of a line that is to fit a form."""
        forms = ((HOLD, self.hold), (ANSWER, self.answer), (EXPIRE, self.expire),
                 (CREDIT, self.credit), (ASK, self.ask), (CLOSE, self.close),
                 (REPORT, self.report))
        for form, run in forms:
            if fitting := form.fullmatch(line):
                return run(*fitting.groups())
        raise Misfit

    def peer(self, name: bytes) -> int:
        found = self.configuration.peer_of(name.decode("latin-1"))
        if found is None:
            raise Misfit
        return found

    def hold(self, at: bytes, name: bytes, digits: bytes) -> str:
        sender = self.peer(name)
        try:
            prepare = read_prepare(bytes.fromhex(digits.decode()))
            number, hold = self.book.hold(sender, prepare, int(at))
        except Faulty as faulty:
            return f"bad packet {faulty.number} {FAULTS[faulty.number]}"
        except Refused as refused:
            return f"reject {CODES[refused.name]} {with_numbers(refused.name, refused)}"
        return f"held {number} to {self.configuration.peers[hold.receiver].name} out {hold.out}"

    def answer(self, at: bytes, digits: bytes, reply: bytes) -> str:
        packet: Packet | None = None
        if reply != b"none":
            try:
                packet = read_packet(bytes.fromhex(reply.decode()))
            except Faulty:
                self.kinds["an answer that can't be read"] += 1
        number = int(digits)
        try:
            place, entry = self.book.answer(number, packet, int(at))
        except Refused as refused:
            return self.not_open(number, refused)
        if isinstance(entry, Fulfilled):
            return f"entry {place} fulfilled {number}"
        assert isinstance(entry, Released)
        return f"entry {place} released {number} {entry.cause}"

    def not_open(self, number: int, refused: Refused) -> str:
        by = "".join(f" by {closer}" for closer in refused.numbers)
        return f"not open {number}{by}"

    def expire(self, at: bytes) -> str:
        try:
            place, number = self.book.expire(int(at))
        except Refused:
            return "none due"
        return f"entry {place} released {number} Late"

    def credit(self, at: bytes, name: bytes, key: bytes, text: bytes) -> str:
        peer = self.peer(name)
        try:
            quantity = read_quantity(text)
            place, units, fresh = self.book.credit(peer, key, quantity, int(at))
        except BadQuantity as bad:
            return f"refused {bad.number} {NAMES[bad.number]}"
        except Refused as refused:
            return self.refused(refused)
        return f"{'entry' if fresh else 'kept'} {place} credited {units}"

    def refused(self, refused: Refused) -> str:
        return f"refused {NUMBERS[refused.name]} {with_numbers(refused.name, refused)}"

    def ask(self, at: bytes, name: bytes) -> str:
        peer = self.peer(name)
        try:
            place, amount = self.book.ask(peer, int(at))
        except Refused as refused:
            return self.refused(refused)
        return f"entry {place} asked {amount}"

    def close(self, at: bytes, digits: bytes, answer: bytes) -> str:
        number = int(digits)
        try:
            place = self.book.close(number, answer == b"yes", int(at))
        except Refused as refused:
            return self.not_open(number, refused)
        return f"entry {place} {'confirmed' if answer == b'yes' else 'undone'} {number}"

    def report(self) -> str:
        return report(self.book)


def kind_of(text: str) -> str:
    """What a printed line says, without its numbers and names."""
    if text.startswith("balance"):
        return "report"
    words = re.sub(r"Peer [0-9a-f]{6}", "Peer", text).split(" ")
    if words[0] == "held":
        return "held"
    if words[0] in ("bad", "refused"):
        # The number is that of the refusal.
        return " ".join(words[:4] if words[0] == "bad" else words[:3])
    return " ".join(word for word in words if not re.fullmatch(r"-?[0-9]+", word))
