#!/usr/bin/env python3
"""Makes an ILPv4 Prepare (RFC 0027), for curl to post, and says in words what came back.

    prepare.py 100 test.bob | curl -s -H 'Authorization: Bearer a-token' --data-binary @- \\
        http://127.0.0.1:7768/ilp | prepare.py --reply
    prepare.py 100 test.bob --hex
    prepare.py 100 test.bob --seconds 5 --preimage HEX

The packet goes to standard output, raw or, with --hex, in hexadecimal digits. With --reply a Fulfill or a
Reject is read from standard input instead, in the same form; the exit status is 0 for a Fulfill whose
preimage is the right one, 1 for any other reply, and 2 where none came or the arguments are not
understood. It is 3 where standard output failed or was closed. It needs Python 3.9, and command_line.py and
ilp_packets.py beside it.
"""
from __future__ import annotations

import argparse
import math
import sys
import time

# Tests read this folder, so nothing is left in it.
sys.dont_write_bytecode = True

from command_line import NoOutput, NotUnderstood, Parser, tell_why, write_out  # noqa: E402
from ilp_packets import BadPacket, Fulfill, Prepare, Reject, digest, preimage_of, read_packet  # noqa: E402

FULFILLED, NOT_FULFILLED, NOT_UNDERSTOOD, NO_OUTPUT = 0, 1, 2, 3


def seconds_of(text: str) -> float:
    """A time in seconds, which may lie in the past."""
    try:
        seconds = float(text)
    except ValueError:
        seconds = math.nan
    if not math.isfinite(seconds):
        raise argparse.ArgumentTypeError("give a number of seconds")
    return seconds


def arguments_of(words: list[str]) -> argparse.Namespace:
    """What was asked for."""
    usage = ("%(prog)s AMOUNT DESTINATION [--seconds N] [--preimage HEX] [--data TEXT] [--hex], or "
             "%(prog)s --reply [--preimage HEX] [--hex]")
    parser = Parser(prog="prepare.py", description="Makes an ILPv4 Prepare, or says what came back.", usage=usage)
    parser.add_argument("amount", nargs="?", type=int, help="in units of the account's asset")
    parser.add_argument("destination", nargs="?", help="an ILP address, such as test.bob.shop")
    parser.add_argument("--seconds", type=seconds_of, default=30.0, metavar="N", help="until it expires (30)")
    parser.add_argument("--preimage", type=preimage_of, default=bytes(32), metavar="HEX",
                        help="whose digest is the condition (32 octets 0)")
    parser.add_argument("--data", default="", metavar="TEXT", help="what the receiver is told besides")
    parser.add_argument("--hex", action="store_true", help="hexadecimal digits in place of octets")
    parser.add_argument("--reply", action="store_true", help="read a reply from standard input")
    found = parser.parse_args(words)
    if found.reply == (found.amount is not None or found.destination is not None):
        parser.error("give an amount and a destination, or --reply alone")
    if not found.reply and found.destination is None:
        parser.error("give a destination behind the amount")
    return found


def made(found: argparse.Namespace) -> bytes:
    """The Prepare that was asked for."""
    expires = time.time_ns() // 1_000_000 + round(found.seconds * 1000)
    condition = digest(found.preimage)
    return Prepare(found.amount, expires, condition, found.destination, found.data.encode()).octets()


def read(in_digits: bool) -> bytes:
    """All octets of standard input."""
    octets = sys.stdin.buffer.read()
    if not in_digits:
        return octets
    try:
        return bytes.fromhex(octets.decode("ascii", "replace"))
    except ValueError:
        raise BadPacket("these are no hexadecimal digits") from None


def words_of(reject: Reject) -> str:
    """A Reject in words; one for too great an amount (F08) tells both amounts in its data."""
    text = f"rejected: {reject.code} by {reject.triggered_by or 'nobody'}"
    text += f": {reject.message}" if reject.message else ""
    if reject.code == "F08" and len(reject.data) == 16:
        received, most = (int.from_bytes(part, "big") for part in (reject.data[:8], reject.data[8:]))
        text += f" ({received} came, and {most} is the most)"
    return text


def told(octets: bytes, preimage: bytes) -> tuple[str, int]:
    """What a reply says, and the exit status."""
    if not octets:
        raise BadPacket("no packet came: see the response's status, as curl -i prints it")
    packet = read_packet(octets)
    if isinstance(packet, Reject):
        return words_of(packet), NOT_FULFILLED
    if not isinstance(packet, Fulfill):
        raise BadPacket("a Prepare came, which is no reply")
    if packet.preimage != preimage:
        return f"a Fulfill with another preimage: {packet.preimage.hex()}", NOT_FULFILLED
    return f"fulfilled: preimage {packet.preimage.hex()}", FULFILLED


def main(words: list[str]) -> int:
    try:
        found = arguments_of(words)
        if not found.reply:
            packet = made(found)
            write_out(packet.hex().encode() + b"\n" if found.hex else packet)
            return 0
        text, status = told(read(found.hex), found.preimage)
        write_out(f"{text}\n".encode())
        return status
    except (NotUnderstood, BadPacket, NoOutput) as fault:
        tell_why(f"prepare.py: {fault}")
        return NO_OUTPUT if isinstance(fault, NoOutput) else NOT_UNDERSTOOD


if __name__ == "__main__":
    sys.exit(main(sys.argv[1:]))
