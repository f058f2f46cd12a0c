"""Valid configurations, drawn at random, and their text (docs/OPERATING.md)."""
import random
import string
from dataclasses import dataclass, field

from long_runs.packets import MOST, SCHEMES

LEAST_INTEGER, MOST_INTEGER = -2**63, 2**63 - 1
MOST_PRICE = 2**32 - 1
MOST_GAP = 9
# In milliseconds.
LONGEST_WAIT = 604_800_000
MOST_PEERS, MOST_ASSETS = 256, 64
# With one for each peer, and three more, there are at most 4,096.
MOST_FURTHER_ROUTES = 4_096 - MOST_PEERS - 3

# Of a pair of places of assets.
Prices = dict[tuple[int, int], tuple[int, int]]


@dataclass(frozen=True)
class Asset:
    code: str
    scale: int

    @property
    def name(self) -> str:
        return f"{self.code}/{self.scale}"


@dataclass(frozen=True)
class Peer:
    """A peer; its asset is a place among the configuration's."""

    name: str
    asset: int
    token: str = "token"
    out_token: str = "out-token"
    host: str = "127.0.0.1:1"
    out_path: str = "/ilp"
    least: int = 0
    fee_ppm: int = 0
    max_packet: int | None = None
    engine: str | None = None
    threshold: int | None = None
    settle_to: int | None = None
    settle_max: int | None = None
    settle_after_ms: int | None = None

    @property
    def greatest(self) -> int:
        """The greatest amount of a packet that it may send."""
        return MOST if self.max_packet is None else self.max_packet

    @property
    def most_settled(self) -> int:
        """The greatest amount of a settlement with it."""
        return MOST if self.settle_max is None else self.settle_max


@dataclass(frozen=True)
class Configuration:
    """Peers are named by their places."""

    address: str
    run: str
    assets: tuple[Asset, ...]
    peers: tuple[Peer, ...]
    prices: Prices = field(default_factory=dict)
    routes: dict[str, int] = field(default_factory=dict)
    journal: int = 65_536
    window: int = 1_000
    max_hold: int = 30_000
    # Further fields at the top, such as where it listens.
    top: dict[str, int | str] = field(default_factory=dict)

    def peer_of(self, name: str) -> int | None:
        """The peer of this name."""
        return next((n for n, peer in enumerate(self.peers) if peer.name == name), None)

    def asset_of(self, peer: int) -> Asset:
        return self.assets[self.peers[peer].asset]

    def route(self, destination: bytes) -> int | None:
        """To whom an address goes: of the prefixes that fit it the longest decides."""
        if destination.split(b".")[0] == b"peer":
            return None
        fitting = [prefix for prefix in self.routes if fits(prefix.encode(), destination)]
        return self.routes[max(fitting, key=len)] if fitting else None


def fits(prefix: bytes, address: bytes) -> bool:
    return prefix in (b"", address) or address.startswith(prefix + b".")


# ---- the text

def top_fields(one: Configuration) -> dict[str, int | str]:
    return {"address": one.address, "run": one.run, "journal": one.journal,
            "window_ms": one.window, "max_hold_ms": one.max_hold, **one.top}


def peer_fields(one: Configuration, peer: Peer) -> dict[str, int | str | None]:
    return {"name": peer.name, "asset": one.assets[peer.asset].name, "token": peer.token,
            "out_token": peer.out_token, "host": peer.host, "out_path": peer.out_path,
            "least": peer.least, "fee_ppm": peer.fee_ppm, "max_packet": peer.max_packet,
            "engine": peer.engine, "threshold": peer.threshold, "settle_to": peer.settle_to,
            "settle_max": peer.settle_max, "settle_after_ms": peer.settle_after_ms}


def integer(number: int, chance: random.Random) -> str:
    """One of the forms of a TOML integer."""
    form = chance.randrange(12)
    if form == 0 and number >= 0:
        return hex(number)
    return f"{number:_}" if form == 1 else f"{number:+}" if form == 2 else str(number)


def table(title: str, fields: dict[str, int | str | None], chance: random.Random) -> list[str]:
    """The lines of a table, whose fields may come in any order, beside one that is ignored."""
    lines = []
    for name, value in fields.items():
        if isinstance(value, str):
            lines.append(f"{name} = '{value}'" if chance.random() < 0.1 else f'{name} = "{value}"')
        elif value is not None:
            lines.append(f"{name} = {integer(value, chance)}")
    if chance.random() < 0.1:
        lines.append(f"colour = {chance.choice(['7', 'true', '[1, 2]', '3.5', chr(34) * 2])}")
    if chance.random() < 0.3:
        chance.shuffle(lines)
    return [title, *lines] if title else lines


def as_toml(one: Configuration, chance: random.Random) -> str:
    """The configuration's text."""
    tables = [table("[[asset]]", {"code": asset.code, "scale": asset.scale}, chance)
              for asset in one.assets]
    for (source, target), (p, q) in one.prices.items():
        fields = {"from": one.assets[source].name, "to": one.assets[target].name, "p": p, "q": q}
        tables.append(table("[[price]]", fields, chance))
    tables += [table("[[peer]]", peer_fields(one, peer), chance) for peer in one.peers]
    tables += [table("[[route]]", {"prefix": prefix, "peer": one.peers[peer].name}, chance)
               for prefix, peer in one.routes.items()]
    lines = table("", top_fields(one), chance) + [line for lines in tables for line in lines]
    return "\n".join(lines) + "\n"


# ---- drawn at random

def text_of(chance: random.Random, octets: str, most: int) -> str:
    return "".join(chance.choices(octets, k=chance.randint(1, most)))


def drawn_assets(chance: random.Random, count: int) -> tuple[Asset, ...]:
    """Assets, most of whose scales lie near each other."""
    middle = chance.choice([0, 2, 6, 9, 18, 240])
    assets: dict[str, Asset] = {}
    while len(assets) < count:
        code = chance.choice(["USD", "EUR", "XRP", text_of(chance, string.ascii_uppercase + string.digits, 12)])
        scale = middle + chance.choice([0, 1, 2, 4, 9])
        if chance.random() < 0.1:
            scale = chance.randint(0, 255)
        asset = Asset(code, scale)
        assets[asset.name] = asset
    return tuple(assets.values())


def drawn_price(chance: random.Random) -> int:
    return chance.choice([1, 1, 2, 2, 3, 7, 10, 1_000, MOST_PRICE, chance.randint(1, MOST_PRICE)])


def drawn_prices(chance: random.Random, assets: tuple[Asset, ...]) -> Prices:
    """Prices of most of the pairs that may have one."""
    pairs = [(a, b) for a in range(len(assets)) for b in range(len(assets))
             if a != b and abs(assets[a].scale - assets[b].scale) <= MOST_GAP]
    return {pair: (drawn_price(chance), drawn_price(chance)) for pair in pairs
            if chance.random() < 0.9}


def drawn_least(chance: random.Random, large: bool) -> int:
    if large:
        return chance.choice([0, -10**6, LEAST_INTEGER, LEAST_INTEGER, -2**62])
    return chance.choice([0, -1, -100, -1_000, -1_000, -10**6, -10**6, -10**12, LEAST_INTEGER])


def drawn_levels(chance: random.Random, least: int, large: bool) -> tuple[int, int]:
    """settle_to and threshold, near each other or far apart."""
    if chance.random() < 0.1:
        settle_to = least
    elif least < -50 and chance.random() < 0.2:
        settle_to = -chance.randint(1, 50)
    else:
        settle_to = chance.choice([0, 5, 200, chance.randint(0, 10**6)])
    gap = chance.choice([1, 10, 800, chance.randint(1, 10**4)])
    if large and chance.random() < 0.3:
        gap = 2**62
    return settle_to, min(settle_to + gap, MOST_INTEGER)


def drawn_peer(chance: random.Random, name: str, assets: int, large: bool) -> Peer:
    least = drawn_least(chance, large)
    greatest = chance.choice([0, 10, 100, 1_000, MOST_INTEGER, chance.randint(1, 10**9)])
    engine = "127.0.0.1:1" if chance.random() < 0.7 else None
    settle_to = threshold = settle_max = wait = None
    if engine is not None and chance.random() < 0.9:
        settle_to, threshold = drawn_levels(chance, least, large)
        if chance.random() < 0.5:
            settle_max = chance.choice([1, threshold - settle_to, MOST_INTEGER, chance.randint(1, 10**4)])
        # What is asked for in a script waits for nothing.
        wait = chance.choice([None, 0, LONGEST_WAIT])
    return Peer(
        name, chance.randrange(assets), token=f"{name}-{chance.getrandbits(64):x}", least=least,
        fee_ppm=chance.choice([0] * 4 + [1, 1, 10_000, 10_000, 500_000, 10**6, chance.randint(0, 10**6)]),
        max_packet=greatest if chance.random() < 0.15 else None,
        engine=engine, threshold=threshold, settle_to=settle_to,
        settle_max=settle_max, settle_after_ms=wait)


def drawn_routes(chance: random.Random, peers: int, further_ones: int) -> dict[str, int]:
    """One prefix for each peer, and further ones in these and beside them."""
    schemes = [scheme for scheme in SCHEMES if scheme != "peer"]
    own = {f"test.{string.ascii_lowercase[n] if n < 26 else f'p{n}'}": n for n in range(peers)}
    further = ["", "test", "test.a.b", "test.ab", "g"]
    prefixes = set(own) | set(chance.sample(further, chance.randint(0, 3)))
    begins = sorted(prefix for prefix in prefixes if prefix) + schemes
    for _ in range(further_ones):
        segment = text_of(chance, string.ascii_letters + string.digits + "_~-", chance.choice([1, 2, 9]))
        begins.append(f"{chance.choice(begins)}.{segment}"[:200].rstrip("."))
        prefixes.add(begins[-1])
    names = sorted(prefixes)
    chance.shuffle(names)
    return {name: own.get(name, chance.randrange(peers)) for name in names}


def drawn_configuration(chance: random.Random, steps: int, crowded: bool = False) -> Configuration:
    """A valid configuration of a few peers, or of as many as there may be, whose journal may fill within
    so many steps."""
    large = chance.random() < 0.3
    assets = drawn_assets(chance, MOST_ASSETS if crowded else chance.choice([1, 1, 2, 2, 2, 3, 4, 8]))
    count = MOST_PEERS if crowded else chance.choice([1] + [2, 3, 4] * 4 + [6, 12])
    further = MOST_FURTHER_ROUTES if crowded else chance.randint(0, 6)
    names: set[str] = set()
    while len(names) < count:
        names.add(chance.choice(["alice", "bob", text_of(chance, string.ascii_lowercase + "0189_-", 16)]))
    in_order = sorted(names)
    chance.shuffle(in_order)
    peers = tuple(drawn_peer(chance, name, len(assets), large) for name in in_order)
    short = chance.randint(2, max(steps, 3))
    journal = short if chance.random() < 0.3 else chance.choice([65_536, 16_777_216, 1_000])
    return Configuration(
        chance.choice(["test.hub", "g.hub.one", "private.x", "self.a-b_c~d"]),
        text_of(chance, string.ascii_letters + string.digits + "-", 32),
        assets, peers, drawn_prices(chance, assets), drawn_routes(chance, count, further), journal,
        chance.choice([0, 1, 1_000, 1_000, 3_600_000, chance.randint(0, 10_000)]),
        chance.choice([1, 30_000, 30_000, 30_000, 3_600_000, chance.randint(1, 60_000)]))
