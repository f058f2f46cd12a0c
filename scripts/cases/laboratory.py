"""Where a case is played: a folder, a program and its stand-ins, all of which end with it."""
import contextlib
import socket
import tempfile
import time
from pathlib import Path
from typing import Self

from cases.case import expect, expect_that
from cases.messages import bearer, connect, post, request, response, seconds_since, soon
from cases.program import DESCRIPTORS, Program, Setup, numbers_in
from cases.stand_ins import Behaviour, FullHouse, StandIn
from connections import quantity
from scenes import FULFILL

# In seconds: what is served at once, and the end after the last answer, each with what this machine
# may take beside other work.
AT_ONCE = 2.0
END = 2.5


class Laboratory:
    """The folders, the programs and the stand-ins of one case, the last ones under their names."""

    bob: StandIn
    engine: StandIn

    def __init__(self, binary: Path) -> None:
        self.binary = binary
        self.stack = contextlib.ExitStack()
        self.programs: list[Program] = []

    def __enter__(self) -> Self:
        return self

    def __exit__(self, *_: object) -> None:
        self.stack.close()

    def stand_in(self, behaviour: Behaviour) -> StandIn:
        """A server that behaves so."""
        one = StandIn(behaviour)
        self.stack.callback(one.close)
        return one

    def full_house(self) -> FullHouse:
        """A port that takes no connection."""
        one = FullHouse()
        self.stack.callback(one.close)
        return one

    def keep(self, link: socket.socket) -> socket.socket:
        """A connection that is closed with the case."""
        self.stack.callback(link.close)
        return link

    def connect(self, port: int) -> socket.socket:
        """A connection that is closed with the case, if it is not before."""
        return self.keep(connect(port))

    def folder(self) -> Path:
        """A new folder, which goes with the case."""
        return Path(self.stack.enter_context(tempfile.TemporaryDirectory(prefix="server-check-")))

    def start(self, setup: Setup, descriptors: int = DESCRIPTORS, errors: int | None = None,
              argument: str | None = None, output: int | None = None,
              threads: int | None = None, journal: Path | str | None = None) -> Program:
        """A program that was started, and may not listen yet."""
        return self.run(Program(self.binary, self.folder(), setup, descriptors, errors, argument, output,
                                threads, journal))

    def run(self, program: Program) -> Program:
        """The same, of one that was started elsewhere."""
        self.stack.callback(program.kill)
        self.programs.append(program)
        return program

    def serve(self, bob: Behaviour | int | None = None, engine: Behaviour | None = None,
              descriptors: int = DESCRIPTORS, levels: bool = True, settle_max: int | None = None,
              **top: int | str) -> Program:
        """A program that listens, beside bob's server and his engine, which behave so."""
        setup = Setup(top=top, levels=levels, settle_max=settle_max)
        if isinstance(bob, int):
            setup.bob = bob
        elif bob is not None:
            self.bob = self.stand_in(bob)
            setup.bob = self.bob.port
        if engine is not None:
            self.engine = self.stand_in(engine)
            setup.engine = self.engine.port
        program = self.start(setup, descriptors)
        program.await_listening()
        return program

    def told(self) -> list[str]:
        """The last lines that the programs said on standard error, and how those that ended did."""
        lines = []
        for program in self.programs:
            lines += [f"standard error: {line[:300]}" for line in program.error_lines()[-5:]]
            if program.has_ended():
                lines.append(f"it ended with status {program.child.returncode}")
        return lines

    def check_errors(self) -> None:
        """Standard error has lines of the rules, and no secret."""
        self.check_secrets()
        for program in self.programs:
            program.check_lines()

    def check_secrets(self) -> None:
        """No token and no key is ever on standard error, and no octet that is no text."""
        for program in self.programs:
            errors = program.errors()
            expect_that(f"a line on standard error is no text: {errors!r}",
                        errors.isascii() and all(map(str.isprintable, errors.splitlines())))
            for text in program.setup.secrets:
                expect_that(f"a token or a key is on standard error: {errors!r}",
                            text not in errors and text.encode().hex() not in errors.lower())


# ---- what cases do

def send_packet(program: Program, octets: bytes, within: float = 5.0, **how: bool) -> bytes:
    """What alice is answered to a packet."""
    setup = program.setup
    return post(setup.peers_port, packet_request(program, octets), within, **how)


def packet_request(program: Program, octets: bytes) -> bytes:
    """The request with which alice sends a packet."""
    return request("/ilp", bearer(program.setup.token), body=octets)


def expect_packet(what: str, program: Program, octets: bytes, reply: bytes,
                  within: float = 5.0) -> None:
    """Alice is answered 200 with this packet."""
    expect(what, send_packet(program, octets, within), response(200, reply))


def expect_served(program: Program, amount: int = 0) -> None:
    """A packet is fulfilled at once."""
    start = time.monotonic()
    expect_packet("a packet", program, soon(amount), FULFILL)
    took = seconds_since(start)
    expect_that(f"a packet took {took:.2f} seconds", took < AT_ONCE)


def credit(program: Program, amount: int, name: str = "bob", key: str | None = None) -> bytes:
    """What a peer's engine is answered to a settlement, at scale 2."""
    setup = program.setup
    return post(setup.engines_port,
                request(f"/accounts/{name}/settlements",
                        f"Idempotency-Key: {setup.key if key is None else key}",
                        body=quantity(amount, 2)))


def expect_report_at_once(program: Program) -> None:
    """A report is answered within a moment."""
    start = time.monotonic()
    octets = post(program.setup.engines_port, request("/report"))
    expect_that(f"no report came: {octets!r}", octets.startswith(b"HTTP/1.1 200 OK"))
    took = seconds_since(start)
    expect_that(f"a report took {took:.2f} seconds", took < AT_ONCE)


def post_close(program: Program) -> None:
    """The close is answered."""
    expect("/close", post(program.setup.engines_port, request("/close")), response(200))


def expect_end(program: Program, alice: int, bob: int, within: float = END) -> None:
    """It ends with status 0, and prints a report of these balances, which balances."""
    expect("the exit status", program.end(within), 0)
    numbers = numbers_in(program.output())
    expect("the balances", numbers[:2], [alice, bob])
    expect("what is open and held, and the fees", numbers[2:6], [0, 0, 0, 0])
    bought, sold, settled, _, _ = numbers[6:]
    expect("what was settled", settled, alice + bob + bought - sold)


def close(program: Program, alice: int = 0, bob: int = 0, within: float = END) -> None:
    """The close is answered, and the program ends with a report of these balances."""
    post_close(program)
    expect_end(program, alice, bob, within)
