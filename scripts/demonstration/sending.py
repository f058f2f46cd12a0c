"""Packets are sent as alice, over HTTP (RFC 0035), and each must end as it is to."""
from concurrent.futures import ThreadPoolExecutor
from http.client import HTTPConnection, HTTPException

from demonstration.failing import Differs, expect
from demonstration.network import HERE
from demonstration.payments import Payment
from ilp_packets import BadPacket, Fulfill, Packet, Reject, read_packet

# How many are sent at a time: more than a connector with four workers takes of one sender, so that some wait.
AT_ONCE = 4

# In seconds: how long a reply may take.
WITHIN = 30.0


def post(port: int, token: str, octets: bytes) -> bytes:
    """The body with which a connector answers a packet."""
    link = HTTPConnection(HERE, port, timeout=WITHIN)
    try:
        fields = {"Authorization": f"Bearer {token}", "Content-Type": "application/octet-stream"}
        link.request("POST", "/ilp", octets, fields)
        response = link.getresponse()
        body = response.read()
    except (OSError, HTTPException) as fault:
        raise Differs(f"a packet got no answer: {fault}") from None
    finally:
        link.close()
    expect("the status of a packet's answer", response.status, 200)
    return body


def told(reply: Packet, preimage: bytes) -> str:
    """What a reply says, as an outcome does."""
    if isinstance(reply, Reject):
        return f"{reply.code} {reply.message} by {reply.triggered_by}"
    is_right = isinstance(reply, Fulfill) and reply.preimage == preimage
    return "fulfilled" if is_right else "neither rejected nor fulfilled by its preimage"


def send(port: int, token: str, payment: Payment) -> None:
    """Sends a packet, which must end as it is to."""
    try:
        reply = read_packet(post(port, token, payment.prepare().octets()))
    except BadPacket as fault:
        raise Differs(f"what a packet was answered is none: {fault}") from None
    expect(f"a packet of {payment.amount} to {payment.destination}", told(reply, payment.preimage),
           str(payment.outcome))


def send_all(port: int, token: str, payments: list[Payment]) -> None:
    """Sends packets, so many at a time, and the last one when all others are answered."""
    with ThreadPoolExecutor(AT_ONCE) as pool:
        list(pool.map(lambda payment: send(port, token, payment), payments[:-1]))
    send(port, token, payments[-1])
