"""Random texts of quantities, and lines that fit no form of a script."""
import random

from long_runs.books import Book, Credited
from long_runs.configurations import Configuration
from long_runs.packets import MOST
from long_runs.quantities import Quantity

BLANKS = ("", "", "", " ", "  ")


def drawn_quantity(chance: random.Random, one: Configuration, peer: int, book: Book,
                   key: str) -> Quantity:
    """A quantity: the kept one of the key, one of equal worth, one just due, or any."""
    scale = one.asset_of(peer).scale
    kept = [entry.quantity for entry in book.entries
            if isinstance(entry, Credited) and entry.key == key.encode()]
    draw = chance.random()
    if kept and draw < 0.6:
        return kept[0]
    if kept and draw < 0.7 and kept[0].scale < 255:
        return Quantity(kept[0].amount * 10, kept[0].scale + 1)
    threshold = one.peers[peer].threshold
    if threshold is not None and draw < 0.85:
        due = threshold - book.balance(peer) + chance.choice([-1, 0, 0, 1])
        return Quantity(min(max(due, 0), MOST), scale)
    if draw < 0.9:
        return Quantity(chance.choice([0, 1, 999, chance.randint(0, 10**6)]), scale)
    return any_quantity(chance, scale)


def any_quantity(chance: random.Random, scale: int) -> Quantity:
    """Any amount at a scale near that of the account or far away, often about as much as there may be."""
    other = min(max(scale + chance.choice([-20, -3, -1, 0, 1, 2, 7, 19, 37]), 0), 255)
    if chance.random() < 0.4:
        most = MOST * 10**other // 10**scale + chance.choice([-1, 0, 1, 2])
        return Quantity(min(max(most, 0), 10**38 - 1), other)
    amount = chance.getrandbits(chance.choice([4, 30, 64, 126])) % 10**38
    return Quantity(amount, chance.choice([other, chance.randint(0, 255)]))


def as_text(chance: random.Random, quantity: Quantity) -> str:
    """One of the forms of a quantity."""
    digits = str(quantity.amount)
    if chance.random() < 0.1:
        digits = digits.zfill(chance.choice([3, 38]))
    amount = f'"{digits}"'
    if quantity.amount <= MOST and chance.random() < 0.2:
        amount = str(quantity.amount)
    elif chance.random() < 0.05:
        amount = '"' + "".join(rf"\u00{ord(digit):02x}" for digit in digits) + '"'
    members = [("amount", amount), ("scale", str(quantity.scale))]
    if chance.random() < 0.1:
        members.insert(chance.randint(0, 2), chance.choice(FURTHER))
    if chance.random() < 0.2:
        members.reverse()
    gap = chance.choice(BLANKS)
    inside = f"{gap},{gap}".join(f'"{name}"{gap}:{gap}{value}' for name, value in members)
    return f"{gap}{{{gap}{inside}{gap}}}{gap}"


# Members beside the two, some of which come first or last under the same name.
FURTHER = [("memo", '"x"'), ("memo", '{"amount":[1]}'), ("x", "-1.5e3"), ("x", "[[[]],{}]"),
           ("x", "null"), ("amount", "5"), ("scale", "9"), ("amount", '"x"'), ("scale", "256"),
           (r"\u0061mount", '"7"'), ("Amount", "1"), ("", '""'), ("x", r'"\"\\\/\b\f\n\r\t"')]

NOT_QUANTITIES = [
    "", " ", "[]", "null", '"5"', "7", "{", "}", "{}", "{]", "nonsense", '{"amount":"1","scale":2} x',
    '{"amount":"1","scale":2,}', '{"amount":"1" "scale":2}', "{'amount':1,'scale':2}",
    '{"amount":01,"scale":2}', '{"amount":+1,"scale":2}', '{"amount":NaN,"scale":2}',
    '{"amount":1,"scale":Infinity}', '{"amount":.5,"scale":2}', '{"amount":5.,"scale":2}',
    '{"amount":1,"scale":2}{}', '[{"amount":1,"scale":2}]', r'{"amount":"\x31","scale":2}',
    '{"amount":TRUE,"scale":2}', '{amount:1,scale:2}', '{"amount":1,"scale":-}', '{"scale":2}',
    '{"amount":"","scale":2}', '{"amount":"-1","scale":2}', '{"amount":"+1","scale":2}',
    '{"amount":"1.0","scale":2}', '{"amount":" 1","scale":2}', '{"amount":"1e3","scale":2}',
    '{"amount":5.0,"scale":2}', '{"amount":1e3,"scale":2}', '{"amount":-0,"scale":2}',
    '{"amount":-1,"scale":2}', '{"amount":18446744073709551616,"scale":2}',
    '{"amount":null,"scale":2}', '{"amount":true,"scale":2}', '{"amount":[1],"scale":2}',
    '{"amount":"' + "1" * 39 + '","scale":2}', '{"amount":"' + "0" * 39 + '","scale":2}',
    '{"amount":"1"}', '{"amount":"1","scale":256}', '{"amount":"1","scale":"2"}',
    '{"amount":"1","scale":2.0}', '{"amount":"1","scale":-1}', '{"amount":"1","scale":1e1}',
    '{"amount":"1","scale":null}', '{"amount":"1","scale":18446744073709551617}',
    '{"scale":256,"amount":"x"}', '{"amount":"1","SCALE":2}']


REASONS = ['"charged back"', '"charged back"', '"x"', '"' + "r" * 128 + '"', r'"\u00e4 \"=\u0080"', '" "', '"-1"']

# What is no reason, and members in which something else is wrong.
NOT_REASONS = ['""', "null", "5", '["x"]', '"' + "r" * 129 + '"', '"' + r"\u00e4" * 65 + '"', r'"a\tb"', r'"\u007f"',
               r'"\ud800"']
NOT_CORRECTIONS = [
    '{"amount":5,"scale":2,"reason":"x"}', '{"amount":-5,"scale":2,"reason":"x"}',
    '{"amount":"--5","scale":2,"reason":"x"}', '{"amount":"-","scale":2,"reason":"x"}',
    '{"amount":"+5","scale":2,"reason":"x"}', '{"amount":"- 5","scale":2,"reason":"x"}',
    '{"amount":"-' + "1" * 39 + '","scale":2,"reason":"x"}', '{"amount":"5","scale":256,"reason":"x"}',
    '{"scale":2,"reason":"x"}', '{"amount":"5","scale":2,"Reason":"x"}', '{"amount":"5","scale":2}', "[]", ""]


def correction_text(chance: random.Random, quantity: Quantity) -> str:
    """The text of a correction both ways, or of none."""
    if chance.random() < 0.1:
        return chance.choice(NOT_CORRECTIONS)
    sign = chance.choice(["-", "-", ""])
    reason = chance.choice(NOT_REASONS if chance.random() < 0.1 else REASONS)
    members = [f'"amount":"{sign}{quantity.amount}"', f'"scale":{quantity.scale}', f'"reason":{reason}']
    if chance.random() < 0.1:
        further = chance.choice(['"reason":"y"', '"reason":7', '"amount":"-1"', '"memo":[]'])
        members.insert(chance.randint(0, 3), further)
    if chance.random() < 0.2:
        chance.shuffle(members)
    gap = chance.choice(BLANKS)
    return f"{{{gap}{f'{gap},{gap}'.join(members)}{gap}}}"


def drawn_json(chance: random.Random, one: Configuration, peer: int, book: Book, key: str) -> str:
    """The text of a quantity, or of none."""
    if chance.random() < 0.12:
        return chance.choice(NOT_QUANTITIES)
    return as_text(chance, drawn_quantity(chance, one, peer, book, key))


# ---- lines that say nothing, or fit no form

def drawn_noise(chance: random.Random, one: Configuration, at: int) -> bytes:
    """A comment, an empty line, or a line that nearly fits."""
    name = one.peers[0].name
    fulfill = "0d21" + "00" * 33
    quantity = '{"amount":"1","scale":2}'
    return chance.choice([
        b"", b"", b"#", b"# a comment", b"#\t\0\xff\x7f", b"#hold", b" # late", b" ", b"\t", b"\r",
        b"nonsense", b"report ", b" report", b"Report", b"report\r", b"reports", b"report 1", b"\xff",
        b"hold", f"hold {at} {name}".encode(), f"hold {at} {name} ".encode(),
        f"hold {at} {name} 0".encode(), f"hold {at} {name} 0g".encode(), f"hold {at} {name} 0c0".encode(),
        f"hold {at} nobody 0c00".encode(), f"hold {at}  {name} 0c00".encode(),
        f"hold {at} {name} 0c00 ".encode(), f"hold {at} {name} 0c00 0c00".encode(),
        f"hold -1 {name} 0c00".encode(), f"hold 1{at:015} {name} 0c00".encode(),
        f"hold  {name} 0c00".encode(), f"hold {at}x {name} 0c00".encode(), f"HOLD {at} {name} 0c00".encode(),
        f"hold {at} {name.upper()}. 0c00".encode(), f"hold {at} {name}\t0c00".encode(),
        f"answer {at} 0".encode(), f"answer {at} 0 None".encode(), f"answer {at} 0 none ".encode(),
        f"answer {at} 0000000000 {fulfill}".encode(), f"answer {at} -1 none".encode(),
        f"answer {at} x none".encode(), f"answer {at} 0 {fulfill}0".encode(), f"answer {at} 0 ".encode(),
        f"answer {at}  none".encode(), f"answer {at} +0 none".encode(),
        b"expire", b"expire ", b"expire x", f"expire {at} 1".encode(), f"expire {at} ".encode(),
        f"expire 1{at:015}".encode(), f"expire +{at}".encode(), f"expire {at}\x7f".encode(),
        f"credit {at} {name} k".encode(), f"credit {at} {name}  {quantity}".encode(),
        f"credit {at} nobody k {quantity}".encode(), f"credit {at} {name} {'k' * 129} {quantity}".encode(),
        f"credit {at} {name} k\x7f {quantity}".encode(), f"credit {at} {name} k {quantity}\t".encode(),
        f"credit {at} {name} k {quantity}\r".encode(), f"credit x {name} k {quantity}".encode(),
        f"credit {at} {name} \u00e9 {quantity}".encode(),
        f"ask {at}".encode(), f"ask {at} nobody".encode(), f"ask {at} {name} ".encode(),
        f"ask {name} {at}".encode(), f"close {at} 0".encode(), f"close {at} 0 maybe".encode(),
        f"close {at} 0 YES".encode(), f"close {at} 1234567890 yes".encode(), f"close {at} 0 yes ".encode(),
        f"close {at}  yes".encode()])
