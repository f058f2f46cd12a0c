#!/usr/bin/env python3
"""Routes and what they serve, for crates/test_rows/data/routes, made from the rule of routes alone.

A prefix matches octets where it is empty, equals them, or is followed in them by a dot. The longest
prefix that matches wins, and octets that begin with `peer.` have no route. Each prefix is compared
with the octets here, one after another. With the argument `rows` it prints the rows of routes.txt,
and with `lines` what that program is to print of them. It shares nothing with the crates.
"""
import random
import sys

TWO_PEERS = ["test.alice", "test.bob"]
TWO_PEERS_ASKED = ["test.bob", "test.bob.x", "test.bobby", "peer.bob", "test.alice.", "test.bo",
                   "test", "", "test.alicetest.bob", "Test.bob"]

NESTED = ["test.bob.x", "test", "private.bob", "", "test.bob", "test.bob.x.y.z", "peer.bob"]
NESTED_ASKED = ["test.bob.x.y.z.w", "test.bob.x.y.z", "test.bob.x.y.zz", "test.bob.x.y",
                "test.bob.xy", "test.bob.", "test.bobby", "test..bob", "test", "tes", "testing.bob",
                "private", "private.bob", "private.bobby", "", ".", ".test", "peer", "peer.",
                "peer.bob", "peers.bob", "g.us.bob"]

DOUBLE = ["test.alice", "", "test.alice", ""]
DOUBLE_ASKED = ["test.alice.x", "g"]


def matches(prefix, octets):
    return prefix == "" or octets == prefix or octets.startswith(prefix + ".")


def route(prefixes, octets):
    """The place of the longest prefix that matches, and None where there is none."""
    if octets.startswith("peer."):
        return None
    found = [place for place, prefix in enumerate(prefixes) if matches(prefix, octets)]
    return max(found, key=lambda place: len(prefixes[place]), default=None)


def drawn(rng, many, most):
    """So many texts of some segments, of which many begin alike."""
    texts = []
    while len(texts) < many:
        segments = [rng.choice(["a", "b", "ab"]) for _ in range(rng.randint(1, most))]
        text = ".".join(segments)
        if text not in texts:
            texts.append(text)
    return texts


def tables():
    """Prefixes, whose places are the peers of their routes, and octets that are asked for."""
    yield "two peers", TWO_PEERS, TWO_PEERS_ASKED
    yield "nested", NESTED, NESTED_ASKED
    rng = random.Random(30)
    yield "drawn", drawn(rng, 16, 4), drawn(rng, 24, 5)
    # The second of two equal prefixes is refused.
    yield "a prefix twice", DOUBLE, DOUBLE_ASKED


def rows():
    for name, prefixes, asked in tables():
        yield f"== {name}"
        yield from (f"+{prefix}" for prefix in prefixes)
        yield from (f"?{octets}" for octets in asked)


def lines():
    for name, prefixes, asked in tables():
        yield f"== {name}"
        for place, prefix in enumerate(prefixes):
            if prefix in prefixes[:place]:
                yield f"'{prefix}': it is there already"
        for octets in asked:
            place = route(prefixes, octets)
            yield f"'{octets}' to {'none' if place is None else place}"


def main():
    if sys.argv[1:] not in (["rows"], ["lines"]):
        sys.exit("routes.py rows | lines")
    for line in rows() if sys.argv[1] == "rows" else lines():
        print(line)


if __name__ == "__main__":
    main()
