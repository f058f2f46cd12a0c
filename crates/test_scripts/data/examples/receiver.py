#!/usr/bin/env python3
"""A peer that receives: it fulfills each packet whose preimage it has, and rejects all others.

    receiver.py
    receiver.py --listen 127.0.0.1:7002 --token to-bob --address test.bob --preimage HEX --preimage HEX
    receiver.py --preimages FILE

It speaks HTTP to a connector (RFC 0035), whose `out_token` is --token and whose `host` is --listen; without
arguments it is bob of `connector serve -`. Preimages are 64 hexadecimal digits, in a file one a line; without
any it has the one of prepare.py, 32 octets 0. Each packet has a line on standard output. It looks neither at
amounts nor whether a packet came before, as who sells something would have to, and keeps no balance: what
came is the connector's debt. It needs Python 3.9, and ilp_packets.py and http_serving.py beside it.
"""
from __future__ import annotations

import argparse
import sys
import time
from dataclasses import dataclass

# Tests read this folder, so nothing is left in it.
sys.dont_write_bytecode = True

from http_serving import Request, Response, serve, tell  # noqa: E402
from ilp_packets import (BadPacket, Fulfill, Packet, Prepare, Reject, digest, preimage_of,  # noqa: E402
                         read_packet)


@dataclass(frozen=True)
class Receiver:
    """Who receives: where packets are posted, the token that is to be shown, the address, and the preimages
    by their conditions."""

    path: str
    token: str
    address: str
    preimages: dict[bytes, bytes]

    def answer(self, request: Request) -> Response:
        """What a request is answered."""
        if request.target != self.path:
            return Response(404)
        if request.fields.get("Authorization") != f"Bearer {self.token}":
            return Response(401)
        try:
            prepare = read_packet(request.body)
        except BadPacket:
            return Response(400)
        if not isinstance(prepare, Prepare):
            return Response(400)
        reply = self.reply(prepare)
        tell_of(prepare, reply)
        return Response(200, reply.octets())

    def reply(self, prepare: Prepare) -> Packet:
        """The Fulfill or the Reject of a Prepare."""
        if not f"{prepare.destination}.".startswith(f"{self.address}."):
            return self.reject("F02", "unreachable")
        if prepare.expires <= time.time_ns() // 1_000_000:
            return self.reject("R00", "timed out")
        if prepare.condition not in self.preimages:
            return self.reject("F05", "no preimage for this condition")
        return Fulfill(self.preimages[prepare.condition])

    def reject(self, code: str, message: str) -> Reject:
        """A Reject of its own."""
        return Reject(code, self.address, message)


def tell_of(prepare: Prepare, reply: Packet) -> None:
    """The line of a packet."""
    what = f"rejected {reply.code}" if isinstance(reply, Reject) else "fulfilled"
    tell(f"{what} {prepare.amount} to {prepare.destination}")


def preimages_in(file: str) -> list[bytes]:
    """The preimages of a file."""
    try:
        with open(file, encoding="ascii") as lines:
            return [preimage_of(line) for line in lines if line.strip()]
    except (OSError, ValueError) as fault:
        raise argparse.ArgumentTypeError(f"{file} can't be read: {fault}") from None


def receiver_of(found: argparse.Namespace) -> Receiver:
    """Who was asked for."""
    preimages = found.preimage + found.preimages or [bytes(32)]
    return Receiver(found.path, found.token, found.address, {digest(one): one for one in preimages})


def main(words: list[str]) -> int:
    parser = argparse.ArgumentParser(description="A peer that fulfills each packet whose preimage it has.")
    parser.add_argument("--listen", default="127.0.0.1:7002", metavar="IP:PORT")
    parser.add_argument("--path", default="/ilp", help="where packets are posted")
    parser.add_argument("--token", default="to-bob", help="what the connector shows")
    parser.add_argument("--address", default="test.bob", help="to which packets are sent, or below it")
    parser.add_argument("--preimage", type=preimage_of, action="append", default=[], metavar="HEX")
    parser.add_argument("--preimages", type=preimages_in, default=[], metavar="FILE")
    found = parser.parse_args(words)
    return serve(found.listen, receiver_of(found).answer)


if __name__ == "__main__":
    sys.exit(main(sys.argv[1:]))
