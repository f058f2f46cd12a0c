"""Connectors to be run: their configurations, the peers and engines outside, and who sends."""
import random
from dataclasses import dataclass, field, replace

from cases.laboratory import Laboratory
from cases.messages import HERE
from cases.program import Program, Setup
from cases.stand_ins import StandIn, free_port

from long_runs.configurations import (MOST_PRICE, Asset, Configuration, Peer, as_toml, drawn_configuration)
from long_runs.exchanges import Model
from long_runs.outside import EngineStandIn, PeerStandIn, Seen
from long_runs.senders import MOST_AMOUNT, Sender

WINDOW, MAX_HOLD = 60_000, 30_000
DEEP = -2**62
RUN = "r1"

# Who sends of the peers of a wide world: all of the first at once, the last alone.
TOGETHER, APART, ALONE = ("alice", "bob", "carol", "dave"), "whale", "tight"
SENDERS = 6


@dataclass
class Arranged(Setup):
    """A configuration that is given as a text."""

    toml: str = ""
    tokens: list[str] = field(default_factory=list)

    def text(self) -> str:
        return self.toml

    @property
    def secrets(self) -> list[str]:
        return self.tokens


@dataclass
class World:
    """A connector, what is outside of it, and its senders."""

    model: Model
    seen: Seen
    engines: list[EngineStandIn]
    servers: list[StandIn]
    senders: list[Sender]
    toml: str
    setup: Arranged

    def start(self, laboratory: Laboratory) -> Program:
        """The program, which listens."""
        for server in self.servers:
            laboratory.stack.callback(server.close)
        program = laboratory.start(self.setup)
        program.await_listening()
        return program


def top(chance: random.Random) -> dict[str, int | str]:
    return {"listen": f"{HERE}:{free_port()}", "engine_listen": f"{HERE}:{free_port()}",
            "workers": chance.choice([1, 2, 4, 8, 16]), "sweep_ms": chance.choice([1, 100]),
            "settle_ms": chance.choice([1, 20])}


def outside(chance: random.Random, one: Configuration, away: str | None
            ) -> tuple[Configuration, Seen, list[EngineStandIn], list[StandIn]]:
    """The configuration with stand-ins as peers and engines; one peer may be away."""
    seen = Seen()
    engines: list[EngineStandIn] = []
    servers: list[StandIn] = []
    peers = []
    for peer in one.peers:
        host = f"{HERE}:{free_port()}"
        if peer.name != away:
            server = PeerStandIn(peer.name, seen, MAX_HOLD)
            servers.append(server.server)
            host = server.host
        if peer.engine is not None:
            engine = EngineStandIn(peer.name, one.assets[peer.asset].scale, one.run, seen)
            engines.append(engine)
            servers.append(engine.server)
            peer = replace(peer, engine=engine.host)
        peers.append(replace(peer, host=host, out_token=f"to-{peer.name}", out_path="/ilp"))
    return replace(one, peers=tuple(peers), top=top(chance)), seen, engines, servers


def arranged(chance: random.Random, one: Configuration) -> tuple[str, Arranged]:
    toml = as_toml(one, chance)
    setup = Arranged(listen=str(one.top["listen"]), engine_listen=str(one.top["engine_listen"]), toml=toml,
                     tokens=[token for peer in one.peers for token in (peer.token, peer.out_token)])
    return toml, setup


# ---- a connector with one sender, at all edges of its book

def narrow(chance: random.Random, messages: int) -> World:
    """A configuration as scripts have it, without levels, so that no entry comes by itself."""
    drawn = drawn_configuration(chance, messages)
    peers = tuple(replace(peer, threshold=None, settle_to=None, settle_max=None, settle_after_ms=None)
                  for peer in drawn.peers)
    journal = chance.randint(2, 200) if chance.random() < 0.5 else drawn.journal
    drawn = replace(drawn, peers=peers, journal=journal, window=WINDOW, max_hold=MAX_HOLD)
    away = chance.choice(peers).name if chance.random() < 0.3 else None
    one, seen, engines, servers = outside(chance, drawn, away)
    toml, setup = arranged(chance, one)
    model = Model(one, frozenset(peer.name for peer in one.peers if peer.name != away), seen,
                  has_one_sender=True)
    sender = Sender(chance, model, list(range(len(one.peers))), True, "k")
    return World(model, seen, engines, servers, [sender], toml, setup)


# ---- a connector with several senders at once

def wide_configuration(chance: random.Random) -> Configuration:
    """Peers that may send whatever they do, but for one, whose least is near, and which sends alone. No
    total comes near the most by what they send, but for that of the asset to which one alone sends."""
    def drawn(name: str, asset: int, least: int = DEEP, levels: bool = False) -> Peer:
        settle_to = chance.choice([0, 200, 5_000])
        return Peer(
            name, asset, token=f"{name}-{chance.getrandbits(64):x}", least=least,
            fee_ppm=chance.choice([0, 1, 10_000, 250_000]),
            max_packet=MOST_AMOUNT,
            engine="" if levels or name == "alice" else None,
            threshold=settle_to + chance.choice([1, 500, 100_000]) if levels else None,
            settle_to=settle_to if levels else None,
            settle_after_ms=chance.choice([None, 0, 30]) if levels else None)
    peers = (drawn("alice", 0), drawn("bob", 0, levels=True), drawn("carol", 1, levels=True),
             drawn("dave", 2), drawn(ALONE, 0, chance.choice([0, -1_000, -10**6])),
             drawn("away", 0), drawn(APART, 3))
    routes = {f"test.{peer.name}": n for n, peer in enumerate(peers) if peer.name != ALONE}
    routes |= {"test.bob.carol": 2, "test.bob.carol.dave": 3, "g": 1}
    if chance.random() < 0.5:
        routes[""] = 2
    prices = {(0, 1): (chance.randint(1, 9), chance.randint(1, 9)), (1, 0): (7, chance.randint(1, 99)),
              (0, 2): (1, chance.randint(1, 10**9)), (2, 0): (MOST_PRICE, 3), (0, 3): (MOST_PRICE, 1)}
    assets = (Asset("USD", 2), Asset("EUR", 4), Asset("XRP", 9), Asset("BIG", 11))
    return Configuration("test.hub", RUN, assets, peers, prices, routes, window=WINDOW, max_hold=MAX_HOLD)


def wide(chance: random.Random) -> World:
    one, seen, engines, servers = outside(chance, wide_configuration(chance), "away")
    toml, setup = arranged(chance, one)
    shared = frozenset(f"shared-by-all-{n}-{chance.getrandbits(64):x}".encode() for n in range(12))
    reachable = frozenset(peer.name for peer in one.peers if peer.name != "away")
    model = Model(one, reachable, seen, shared)
    places = {peer.name: n for n, peer in enumerate(one.peers)}
    apart = frozenset([places[APART]])
    senders = [Sender(random.Random(chance.getrandbits(64)), model, [places[name] for name in TOGETHER],
                      False, "abcdefgh"[n] * 9, apart) for n in range(SENDERS - 1)]
    senders.append(Sender(random.Random(chance.getrandbits(64)), model, [places[ALONE]], True, "z" * 9))
    return World(model, seen, engines, servers, senders, toml, setup)
