#!/usr/bin/env python3
"""A settlement engine that moves no money: it says yes to what it is asked to pay, or no, or nothing.

    engine.py
    engine.py --listen 127.0.0.1:7003 --refuse
    engine.py --down
    engine.py --tell bob=http://127.0.0.1:7771/accounts/alice/settlements
    curl -d refuse http://127.0.0.1:7003/switch

It speaks HTTP to a connector (RFC 0038), of which --listen is a peer's `engine`; without arguments it is bob's
of `connector serve -`. Each account and each settlement has a line on standard output. A settlement under a
key that is known is answered as before; with another quantity it is answered 409. Keys are forgotten when it
ends.

--refuse answers each new settlement 400, and --down closes each connection without a word; `refuse`, `down`
and `accept`, posted to /switch, change that while it runs.

--tell NAME=URL makes the books of two connectors agree: the other's connector is told what was paid to NAME,
under the same key, as the other's engine would once it saw the payment. Where that connector can't be told,
the settlement is answered 503, and is told when it is asked for again. It needs Python 3.9, and
http_serving.py beside it.
"""
from __future__ import annotations

import argparse
import json
import sys
import threading
import urllib.error
import urllib.request
from dataclasses import dataclass, field
from typing import Optional, Union

# Tests read this folder, so nothing is left in it.
sys.dont_write_bytecode = True

from http_serving import JSON, Request, Response, serve, tell  # noqa: E402

ACCEPT, REFUSE, DOWN = "accept", "refuse", "down"

# In seconds: a connector waits ten for an engine.
WITHIN = 5.0

# Never by way of a proxy.
DIRECT = urllib.request.build_opener(urllib.request.ProxyHandler({}))


@dataclass(frozen=True)
class Quantity:
    """So many units of 10 to the power of minus the scale."""

    amount: int
    scale: int

    def octets(self) -> bytes:
        """As it goes over the wire."""
        return json.dumps({"amount": str(self.amount), "scale": self.scale}).encode()


def quantity_of(body: bytes) -> Optional[Quantity]:
    """What is to be settled, if the body says that."""
    try:
        told = json.loads(body)
        one = Quantity(whole(told["amount"]), whole(told["scale"]))
    except (ValueError, KeyError, TypeError):
        return None
    return one if one.amount >= 0 and 0 <= one.scale <= 255 else None


def whole(number: Union[str, int]) -> int:
    """A whole number, which may be told as a text."""
    return int(str(number))


@dataclass
class Settlement:
    """What was asked for under a key, whether it was accepted, and whether the other side knows."""

    account: str
    key: str
    quantity: Quantity
    is_accepted: bool
    is_known: bool = False


@dataclass
class Engine:
    """What it does with settlements, where it tells of those to an account, and what it was asked for."""

    mode: str
    others: dict[str, str]
    settlements: dict[tuple[str, str], Settlement] = field(default_factory=dict)
    lock: threading.Lock = field(default_factory=threading.Lock)

    def answer(self, request: Request) -> Optional[Response]:
        """What a request is answered, if it is."""
        if request.target == "/switch":
            return self.switch(request.body.decode("latin-1").strip())
        if self.mode == DOWN:
            tell(f"no answer to {request.target}{under(request)}")
            return None
        parts = request.target.split("/")
        if parts == ["", "accounts"]:
            return account(request.body)
        if len(parts) == 4 and parts[:2] == ["", "accounts"] and parts[2]:
            if parts[3] == "settlements":
                return self.settle(parts[2], request)
            if parts[3] == "messages":
                tell(f"message to {parts[2]}: {len(request.body)} octets")
                return Response(201)
        return Response(404)

    def switch(self, mode: str) -> Response:
        """Does something else with settlements from now on."""
        if mode not in (ACCEPT, REFUSE, DOWN):
            return Response(400)
        self.mode = mode
        tell(f"switched to {mode}")
        return Response(200)

    def settle(self, name: str, request: Request) -> Response:
        """A settlement, which is accepted, refused, or answered as before."""
        key, quantity = request.fields.get("Idempotency-Key"), quantity_of(request.body)
        if not key or quantity is None:
            return Response(400)
        # One at a time, so that a key that comes twice at once is settled once.
        with self.lock:
            known = (name, key) in self.settlements
            new = Settlement(name, key, quantity, self.mode == ACCEPT)
            one = self.settlements.setdefault((name, key), new)
            if one.quantity != quantity:
                return Response(409)
            tell_of(one, known)
            return self.response(one)

    def response(self, one: Settlement) -> Response:
        """What a settlement is answered, now and again."""
        if not one.is_accepted:
            return Response(400)
        if one.account in self.others and not one.is_known:
            one.is_known = is_credited(self.others[one.account], one)
            if not one.is_known:
                return Response(503)
        return Response(201, one.quantity.octets(), JSON)


def account(body: bytes) -> Response:
    """An account that is there from now on: it is there for every name."""
    try:
        tell(f"account {json.loads(body)['id']}")
    except (ValueError, KeyError, TypeError):
        return Response(400)
    return Response(201)


def under(request: Request) -> str:
    """The key of a request, where it has one."""
    key = request.fields.get("Idempotency-Key")
    return f" under {key}" if key else ""


def tell_of(one: Settlement, known: bool) -> None:
    """The line of a settlement."""
    what = "accepted" if one.is_accepted else "refused"
    tell(f"{what}{' again' if known else ''} {one.key} to {one.account}: {one.quantity.amount} at scale "
         f"{one.quantity.scale}")


def is_credited(url: str, one: Settlement) -> bool:
    """Tells a connector what came, and whether it credited that."""
    fields = {"Content-Type": JSON, "Idempotency-Key": one.key}
    request = urllib.request.Request(url, one.quantity.octets(), fields, method="POST")
    try:
        with DIRECT.open(request, timeout=WITHIN) as response:
            status = response.status
    except urllib.error.HTTPError as fault:
        status = fault.code
    except OSError as fault:
        tell(f"can't tell {url} of {one.key}: {fault}")
        return False
    tell(f"told {url} of {one.key}: status {status}")
    return 200 <= status < 300


def told_to(text: str) -> tuple[str, str]:
    """The name and the URL of an argument."""
    name, found, url = text.partition("=")
    if not name or not found or not url.startswith("http://"):
        raise argparse.ArgumentTypeError("write NAME=http://IP:PORT/accounts/NAME/settlements")
    return name, url


def main(words: list[str]) -> int:
    parser = argparse.ArgumentParser(description="A settlement engine that moves no money.")
    parser.add_argument("--listen", default="127.0.0.1:7003", metavar="IP:PORT")
    which = parser.add_mutually_exclusive_group()
    which.add_argument("--refuse", dest="mode", action="store_const", const=REFUSE, default=ACCEPT,
                       help="refuse each settlement")
    which.add_argument("--down", dest="mode", action="store_const", const=DOWN, help="answer nothing")
    parser.add_argument("--tell", type=told_to, action="append", default=[], metavar="NAME=URL",
                        help="tell the other's connector what was paid to NAME")
    found = parser.parse_args(words)
    return serve(found.listen, Engine(found.mode, dict(found.tell)).answer)


if __name__ == "__main__":
    sys.exit(main(sys.argv[1:]))
