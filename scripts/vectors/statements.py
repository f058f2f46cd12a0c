#!/usr/bin/env python3
"""What crates/test_statements is to print of its data.

Written from the rules alone: an account is walked entry by entry, amounts are moved by the point as digits, moments
are told by Python's calendar. It shares nothing with the crates.

    statements.py > crates/test_statements/stdout
"""
import tomllib
from datetime import datetime, timedelta, timezone
from pathlib import Path
from re import fullmatch

DATA = Path(__file__).parents[2] / "crates/test_statements/data"
NOW = 1764187208000
LAST = 253402207200999
EPOCH = datetime(1970, 1, 1, tzinfo=timezone.utc)
HEADER = "run,period,peer,asset,time,entry,what,with,amount,in,out,balance,ends,cause,condition,key"
KINDS = "opened sent paid returned received refused credited corrected asked confirmed undone".split()


def amount(units, scale):
    digits = str(abs(units)).rjust(scale + 1, "0")
    point = len(digits) - scale
    return ("-" if units < 0 else "") + digits[:point] + ("." + digits[point:] if scale else "")


def moment(milliseconds):
    # Up to here each time zone can show it.
    if milliseconds > LAST:
        return str(milliseconds)
    try:
        at = EPOCH + timedelta(milliseconds=milliseconds)
    except OverflowError:
        return str(milliseconds)
    return at.strftime("%Y").rjust(4, "0") + at.strftime("-%m-%dT%H:%M:%S.") + f"{milliseconds % 1000:03}Z"


def moment_of(text):
    shape = r"(\d{4}-\d\d-\d\d)(T(\d\d:\d\d:\d\d)(\.\d{1,9})?Z)?"
    found = fullmatch(shape, text)
    if not found:
        return None
    day, _, time, fraction = found.groups()
    time = time or "00:00:00"
    if time.endswith(":60"):
        time = time[:-2] + "59"
    # Python's calendar begins a year later.
    year_0 = day.startswith("0000")
    try:
        at = datetime.fromisoformat(f"{day.replace('0000', '0400', 1) if year_0 else day}T{time}+00:00")
    except ValueError:
        return None
    if time.startswith("24"):
        return None
    milliseconds = (at - EPOCH) // timedelta(milliseconds=1) + int(((fraction or ".0")[1:] + "000")[:3])
    # 400 years have 146097 days.
    return milliseconds - (146097 * 86400000 if year_0 else 0)


def octets_text(octets, with_spaces):
    text = ""
    for place, octet in enumerate(octets):
        plain = 33 <= octet <= 126 and octet != 92 or octet == 32 and with_spaces
        if place == 0 and chr(octet) in "=+-@":
            plain = False
        text += chr(octet) if plain else f"\\x{octet:02x}"
    return text


def name_text(name):
    return octets_text(name.encode(), True)


class Book:
    def __init__(self, name):
        config = tomllib.loads((DATA / f"{name}.toml").read_text())
        self.run = config["run"]
        self.assets = {peer["name"]: peer["asset"] for peer in config["peer"]}
        lines = (DATA / f"{name}.journal").read_text().splitlines()
        head = lines[0].split()
        self.period = int(head[2]) if len(head) > 2 else 0
        self.entries = []
        for line in lines[1:-1]:
            at, _, *what = line.split()
            self.entries.append((int(at), what))
        self.end_open_holds()

    def end_open_holds(self):
        ended = {int(what[1]) for _, what in self.entries if what[0] in ("fulfilled", "released")}
        for number, (_, what) in list(enumerate(self.entries)):
            if what[0] == "hold" and number not in ended:
                cause = "Late" if int(what[6]) <= NOW else "Restart"
                self.entries.append((NOW, ["released", str(number), cause]))

    def key_of(self, number):
        what = self.entries[number][1]
        if what[0] == "pending":
            return bytes.fromhex(what[3])
        period = f".{self.period}" if self.period else ""
        return f"{self.run}{period}-{number}".encode()

    def row(self, peer, number):
        """What an entry is to a peer, with what it does to the balance; none where it is none of the peer's."""
        what = self.entries[number][1]
        row = dict(number=number, moment=self.entries[number][0], rise=0, fall=0, other=None, ends=None, cause=None, condition=None, key=None, reason=None)
        if what[0] == "opened" and what[1] == peer:
            units = int(what[2])
            return row | dict(kind="opened", amount=units, rise=max(units, 0), fall=max(-units, 0))
        if what[0] == "credited" and what[1] == peer:
            return row | dict(kind="credited", amount=int(what[5]), rise=int(what[5]), key=bytes.fromhex(what[2]))
        if what[0] == "corrected" and what[1] == peer:
            change = int(what[5]) * {"rises": 1, "falls": -1}[what[6]]
            row |= dict(kind="corrected", amount=change, rise=max(change, 0), fall=max(-change, 0))
            return row | dict(key=bytes.fromhex(what[2]), reason=bytes.fromhex(what[7]))
        if what[0] == "asked" and what[1] == peer:
            return row | dict(kind="asked", amount=int(what[2]), fall=int(what[2]), key=self.key_of(number))
        if what[0] in ("confirmed", "undone"):
            ask = int(what[1])
            asked = self.entries[ask][1]
            if asked[1] == peer:
                units = int(asked[2])
                rise = units if what[0] == "undone" else 0
                return row | dict(kind=what[0], amount=units, rise=rise, ends=ask, key=self.key_of(ask))
        if what[0] == "hold" and what[1] == peer:
            return row | dict(kind="sent", amount=int(what[3]), fall=int(what[3]), other=what[2], condition=what[7])
        if what[0] in ("fulfilled", "released"):
            hold = int(what[1])
            _, sender, receiver, units, _, out, _, condition = self.entries[hold][1]
            row |= dict(ends=hold, condition=condition)
            if what[0] == "released":
                row["cause"] = " ".join(what[2:])
            if sender == peer:
                back = int(units) if what[0] == "released" else 0
                return row | dict(kind="paid" if what[0] == "fulfilled" else "returned", amount=int(units), rise=back, other=receiver)
            if receiver == peer:
                got = int(out) if what[0] == "fulfilled" else 0
                return row | dict(kind="received" if what[0] == "fulfilled" else "refused", amount=int(out), rise=got, other=sender)
        return None


def is_sought(row, packet, key):
    if packet == key == "-":
        return True
    if row["condition"] is not None and packet != "-":
        return row["condition"].startswith(packet.lower())
    return row["key"] is not None and key != "-" and row["key"].hex() == key


def statement(book, asked):
    peer, first, behind, since, until, packet, key = asked.split()
    first, behind = int(first), int(behind)
    since, until = moment_of(since), moment_of(until)
    asset = book.assets[peer]
    scale = int(asset.split("/")[1])
    shown, totals, balances, balance = [], {}, {0: 0}, 0
    for number in range(len(book.entries)):
        row = book.row(peer, number)
        if row:
            balance += row["rise"] - row["fall"]
            row["balance"] = balance
            if first <= number < behind and is_sought(row, packet, key):
                shown.append(row)
                count, total = totals.get(row["kind"], (0, 0))
                totals[row["kind"]] = (count + 1, total + row["amount"])
        balances[number + 1] = balance
    at = lambda given: "" if given is None else moment(given)
    opening, closing = amount(balances[first], scale), amount(balances[behind], scale)
    names = f"statement {name_text(peer)} {asset} run {name_text(book.run)}"
    print(f"{names} period {book.period} from {at(since) or '-'} to {at(until) or '-'}")
    print(f"opening {first} {opening}")
    for row in shown:
        print(" ".join(field or "-" for field in fields(row, scale, False)))
    print(f"closing {behind} {closing}")
    for kind in KINDS:
        if kind in totals:
            print(f"total {kind} {totals[kind][0]} {amount(totals[kind][1], scale)}")
    account = [name_text(book.run), str(book.period), name_text(peer), asset]
    record(HEADER.split(","))
    record(account + [at(since), str(first), "opening", "", "", "", "", opening, "", "", "", ""])
    for row in shown:
        time, number, kind, other, units, rise, fall, left, ends, condition, key, cause = fields(row, scale, True)
        record(account + [time, number, kind, other, units, rise, fall, left, ends, cause, condition, key])
    record(account + [at(until), str(behind), "closing", "", "", "", "", closing, "", "", "", ""])


def fields(row, scale, with_spaces):
    moved = lambda units: amount(units, scale) if units else ""
    return [
        moment(row["moment"]), str(row["number"]), row["kind"], name_text(row["other"] or ""),
        amount(row["amount"], scale), moved(row["rise"]), moved(row["fall"]), amount(row["balance"], scale),
        "" if row["ends"] is None else str(row["ends"]), row["condition"] or "",
        octets_text(row["key"] or b"", with_spaces), row["cause"] or octets_text(row["reason"] or b"", with_spaces),
    ]


def record(values):
    quoted = ['"' + value.replace('"', '""') + '"' if set(value) & set(',"\r\n') else value for value in values]
    print(",".join(quoted) + "<CR>")


def lines(name):
    return (DATA / name).read_text().split("\n")[:-1]


def main():
    for line in lines("amounts.txt"):
        print(amount(*map(int, line.split())))
    for line in lines("moments.txt"):
        print(moment(int(line)))
    for line in lines("texts.txt"):
        named = moment_of(line)
        print(f"{line} is {'none' if named is None else named}")
    for name in ("hub", "later"):
        book = Book(name)
        for line in lines(f"{name}.rows"):
            print(f"== {line}")
            statement(book, line)


main()
