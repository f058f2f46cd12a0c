"""What scripts/try_front.sh tries, step by step."""
import http.client
import socket
import ssl
import subprocess
import sys
import threading
import time
from collections import Counter
from collections.abc import Iterator
from concurrent.futures import ThreadPoolExecutor
from pathlib import Path
from typing import BinaryIO

from cases.case import Differs, expect, expect_that
from cases.laboratory import Laboratory, post_close
from cases.messages import HERE, bearer, post, request, soon
from cases.program import Program
from deploying.programs import DIFFERED, EXAMPLES, HELD, MISSING, Missing, connector, expect_tools, say
from deploying.world import OUR_NAME, PEER_NAME, WITHIN, World
from scenes import FULFILL

PREPARE = [sys.executable, str(EXAMPLES / "prepare.py")]
TOOLS = {"nginx": "nginx-light", "curl": "curl", "openssl": "openssl"}

# Of nginx-peers.conf: how many packets of a sender may be open, and how many may come at once.
MOST_OPEN, MOST_AT_ONCE = 32, 51

# How many requests are sent at once with another token each, and how many of those an address may send at least.
MANY, MOST_OF_AN_ADDRESS = 960, 101

# The longest Prepare, and the first length that is too great for the front.
LONGEST, TOO_LONG = 33_857, 34 * 1024 + 1


# ---- requests

def context_of(world: World) -> ssl.SSLContext:
    """What a peer trusts."""
    return ssl.create_default_context(cafile=str(world.folder / f"{OUR_NAME}.crt"))


def link_to(world: World) -> ssl.SSLSocket:
    """A connection of a peer to the front."""
    return context_of(world).wrap_socket(socket.create_connection((HERE, world.port), WITHIN), server_hostname=OUR_NAME)


def curl(world: World, target: str, body: bytes, *words: str) -> tuple[str, bytes]:
    """The status and the body that curl gets through the front."""
    file = world.folder / "answer"
    done = subprocess.run(
        ["curl", "-q", "-sS", "--noproxy", "*", "--max-time", str(WITHIN), "--cacert",
         str(world.folder / f"{OUR_NAME}.crt"), "--resolve", f"{OUR_NAME}:{world.port}:{HERE}", "--path-as-is",
         "-o", str(file), "-w", "%{http_code}", "--data-binary", "@-", *words,
         f"https://{OUR_NAME}:{world.port}{target}"], input=body, capture_output=True)
    expect(f"curl's exit status ({done.stderr.decode(errors='replace').strip()})", done.returncode, 0)
    answer = file.read_bytes() if file.exists() else b""
    file.unlink(missing_ok=True)
    return done.stdout.decode(), answer


def send(world: World, peer: str, *words: str) -> str:
    """What prepare.py says of the answer to a packet of its own that alice sends."""
    packet = subprocess.run([*PREPARE, "100", f"test.{peer}"], capture_output=True, check=True).stdout
    status, answer = curl(world, "/ilp", packet, "-H", bearer(world.setup.token), *words)
    expect(f"the status of a packet to {peer}", status, "200")
    said = subprocess.run([*PREPARE, "--reply"], input=answer, capture_output=True).stdout
    return said.decode().strip()


def packet_request(world: World, peer: str) -> bytes:
    """The request of a packet of alice, whose connection stays open."""
    return request("/ilp", bearer(world.setup.token), body=soon(1, destination=f"test.{peer}".encode()))


def established(port: int) -> int:
    """How many connections to a port of this machine are open, at the side that has it."""
    lines = Path("/proc/net/tcp").read_text().splitlines()[1:]
    return sum(fields[1].endswith(f":{port:04X}") and fields[3] == "01" for fields in map(str.split, lines))


# ---- steps

def a_packet_goes_through(world: World) -> None:
    """A packet through both fronts is fulfilled, also one that is sent in chunks, or by who waits for a 100 first."""
    for words in ((), ("-H", "Transfer-Encoding: chunked"), ("-H", "Expect: 100-continue")):
        expect(f"a packet to bob {words}", send(world, "bob", *words), f"fulfilled: preimage {'00' * 32}")


def a_peer_that_sends_chunks(world: World) -> None:
    """A 200 in chunks is read all the same. The peer is asked for by its name."""
    expect("a packet to who sends chunks", send(world, "chunks"), f"fulfilled: preimage {'00' * 32}")
    peer = world.peers["chunks"]
    expect("the name in TLS", peer.names, [PEER_NAME])
    expect_that("the name in HTTP is another", f"Host: {PEER_NAME}\r\n".encode() in peer.received[0].octets)


def certificates_that_do_not_fit(world: World) -> None:
    """A peer that has no certificate of its name, or one that nobody vouches for, is sent nothing."""
    for peer, line in (("misnamed", "upstream SSL certificate does not match"),
                       ("stranger", "upstream SSL certificate verify error")):
        expect(f"a packet to {peer}", send(world, peer), "rejected: T01 by test.hub: peer unreachable")
        expect_that(f"nginx does not say {line!r}: {world.nginx_said()[-600:]!r}", line in world.nginx_said())
        expect(f"what {peer} received", len(world.peers[peer].received), 0)
        world.program.await_told(rf"warn peer {peer} at \S+: status 502")


def a_slow_sender(world: World) -> None:
    """A sender that takes its time reaches the connector when its request is whole, and not before."""
    port = world.setup.peers_port
    end = time.monotonic() + WITHIN
    while established(port):
        expect_that("connections to the connector stay open", time.monotonic() < end)
        time.sleep(0.01)
    octets = packet_request(world, "bob")
    with link_to(world) as link:
        for octet in octets[:-1]:
            link.sendall(bytes([octet]))
            expect("connections to the connector", established(port), 0)
            time.sleep(0.005)
        link.sendall(octets[-1:])
        answer = read_answers(link, 1)
    expect("the answer", (answer[0][0], answer[0][1] == FULFILL), (200, True))
    # That a connection would have been seen.
    with socket.create_connection((HERE, port)):
        expect("connections beside one that is made for it", established(port), 1)


def read_answers(link: ssl.SSLSocket, count: int) -> list[tuple[int, bytes]]:
    """The status and the body of each answer on a connection."""
    found = []
    for _ in range(count):
        answer = http.client.HTTPResponse(link)
        answer.begin()
        found.append((answer.status, answer.read()))
    return found


def too_many_at_once(world: World) -> None:
    """What is beyond the rate of a sender is answered 429."""
    octets = request("/ilp", bearer("nobody"), body=b"x") * 300
    with link_to(world) as link:
        writer = threading.Thread(target=link.sendall, args=(octets,))
        writer.start()
        with link.makefile("rb") as file:
            statuses = Counter(statuses_in(file, 300))
        writer.join()
    expect("the statuses", set(statuses), {401, 429})
    expect_that(f"{statuses[401]} of 300 went through", statuses[401] >= MOST_AT_ONCE)
    expect("another sender", send(world, "bob"), f"fulfilled: preimage {'00' * 32}")


def too_many_tokens(world: World) -> None:
    """So is what is beyond the rate of an address, though each request shows another token."""
    octets = b"".join(request("/ilp", bearer(f"nobody-{place}"), body=b"x") for place in range(MANY))
    with link_to(world) as link:
        writer = threading.Thread(target=link.sendall, args=(octets,))
        writer.start()
        with link.makefile("rb") as file:
            statuses = Counter(statuses_in(file, MANY))
        writer.join()
    expect("the statuses", set(statuses), {401, 429})
    expect_that(f"{statuses[401]} of {MANY} went through", statuses[401] >= MOST_OF_AN_ADDRESS)


def statuses_in(file: BinaryIO, count: int) -> Iterator[int]:
    """The statuses of answers that come one behind the other."""
    for _ in range(count):
        line = file.readline()
        length = 0
        while (field := file.readline()) not in (b"\r\n", b""):
            name, _, value = field.partition(b":")
            length = int(value) if name.lower() == b"content-length" else length
        file.read(length)
        yield int(line.split()[1])


def too_many_open(world: World) -> None:
    """A sender has so many packets open at most; another one is answered 429, and the connector sees nothing of it."""
    def status_of_one(_: int) -> int:
        with link_to(world) as link:
            link.sendall(packet_request(world, "held"))
            return read_answers(link, 1)[0][0]

    count = MOST_OPEN + 8
    with ThreadPoolExecutor(count) as pool:
        waiting = [pool.submit(status_of_one, place) for place in range(count)]
        end = time.monotonic() + WITHIN
        while sum(one.done() for one in waiting) < 8 or len(world.peers["held"].received) < MOST_OPEN:
            if time.monotonic() > end:
                break
            time.sleep(0.01)
        world.release.set()
        statuses = Counter(one.result() for one in waiting)
    expect("the statuses", statuses, Counter({200: MOST_OPEN, 429: 8}))
    expect("what the peer received", len(world.peers["held"].received), MOST_OPEN)


def lengths(world: World) -> None:
    """A body as long as the longest packet reaches the connector, and a longer one does not."""
    shown = ["-H", bearer(world.setup.token)]
    expect("the longest", curl(world, "/ilp", bytes(LONGEST), *shown), ("400", b""))
    expect("one that is too long", curl(world, "/ilp", bytes(TOO_LONG), *shown)[0], "413")


def what_is_not_served(world: World) -> None:
    """Nothing of the engine side is reached, whatever is asked for, and only who shows a token sends."""
    place = world.setup.engine_listen
    key = ["-H", "Idempotency-Key: k", "-H", bearer(world.setup.token)]
    for target in ("/close", "/report", "/accounts/alice/settlements", "/accounts/alice/pause", "//close",
                   "/ilp/../close", "/ilp/", "/ilp?close", "/%63lose"):
        status, _ = curl(world, target, b'{"amount":"7","scale":2}', *key, "-H", f"Host: {place}")
        expect(f"the status of {target}", status, "404")
    status, _ = curl(world, "/ilp", b'{"amount":"7","scale":2}', *key, "--request-target", f"http://{place}/close")
    expect("the status of a target with the place of the engine side", status, "404")
    expect("the status without a token", curl(world, "/ilp", b"")[0], "401")
    expect("the status of a GET", curl(world, "/ilp", b"", "-X", "GET")[0], "405")
    report = post(world.setup.engines_port, request("/report"))
    expect_that(f"something was settled: {report!r}", b"settled   USD/2                                            0\n"
                in report)


STEPS = (a_packet_goes_through, a_peer_that_sends_chunks, certificates_that_do_not_fit, a_slow_sender,
         too_many_at_once, too_many_open, too_many_tokens, lengths, what_is_not_served)

# What the steps above have fulfilled: four packets to the receiver, the slow one, one to who sends chunks, and those
# that were held.
FULFILLED = 4 + 1 + 1 + MOST_OPEN


# ---- the program

def expect_end(program: Program) -> None:
    """It closes, with what the steps have sent in its book, and nothing else."""
    post_close(program)
    expect("the exit status", program.end(WITHIN), 0)
    expect("how many packets were fulfilled", program.output().split()[-1], str(FULFILLED))


def play(binary: Path) -> None:
    """All steps, each of which is told."""
    with Laboratory(binary) as laboratory:
        world = World(laboratory)
        for step in STEPS:
            try:
                step(world)
            except (Differs, OSError) as differs:
                raise Differs(f"{step.__name__}: {differs}") from None
            print(f"{step.__name__}: held", flush=True)
        expect_end(world.program)
        laboratory.check_errors()


def main() -> int:
    try:
        expect_tools(TOOLS)
        play(connector())
    except Missing as missing:
        say("try_front.sh", str(missing))
        return MISSING
    except (Differs, OSError, subprocess.CalledProcessError) as differs:
        say("try_front.sh", str(differs))
        return DIFFERED
    return HELD


if __name__ == "__main__":
    sys.exit(main())
