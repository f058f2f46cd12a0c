#!/usr/bin/env python3
"""Draws the way of one packet through the two connectors of the demonstration, with the entries that each book
gains, and what each amount becomes by their fees and the price.

    scripts/drawing/way.py

It writes docs/way.svg, which is plain SVG without a font of its own, for light and for dark pages. The amounts
are reckoned from scripts/demonstration/*.toml.
"""
import sys
import tomllib
from pathlib import Path
from xml.sax.saxutils import escape

TOP = Path(__file__).resolve().parent.parent.parent
sys.path.append(str(TOP / "scripts"))

from demonstration.amounts import Configuration, shown  # noqa: E402

AMOUNT = 1000

WIDTH, HEIGHT = 960, 764

# Where each lifeline stands.
ALICE, NORTH, SOUTH, BOB = 95, 350, 610, 865
TOP_OF_LINES, END_OF_LINES = 78, 660

BOX_WIDTH, BOX_HEIGHT = 176, 46

STYLE = """
.page { fill: #ffffff; stroke: #d0d7de }
text { fill: #1f2328; font-family: sans-serif; font-size: 14px; text-anchor: middle }
.name { font-size: 16px; font-weight: bold }
.small { fill: #57606a; font-size: 12px }
.line { stroke: #57606a; stroke-width: 1.5; fill: none }
.tip { fill: #57606a }
.life { stroke: #8c959f; stroke-width: 1; stroke-dasharray: 4 4 }
.head { fill: #f6f8fa; stroke: #57606a }
.hold { fill: #fff8c5; stroke: #9a6700 }
.fulfilled { fill: #dafbe1; stroke: #1a7f37 }
@media (prefers-color-scheme: dark) {
.page { fill: #161b22; stroke: #30363d }
text { fill: #e6edf3 }
.small { fill: #9da7b3 }
.line { stroke: #9da7b3 }
.tip { fill: #9da7b3 }
.life { stroke: #6e7681 }
.head { fill: #21262d; stroke: #9da7b3 }
.hold { fill: #3a2d00; stroke: #d29922 }
.fulfilled { fill: #10301a; stroke: #3fb950 }
}
"""


def configuration(name: str) -> Configuration:
    """A connector's configuration."""
    return Configuration(tomllib.loads((TOP / f"scripts/demonstration/{name}.toml").read_text()))


# ---- parts of a drawing

def text(x: float, y: float, words: str, kind: str = "") -> str:
    """A line of words, its middle at x."""
    of_kind = f' class="{kind}"' if kind else ""
    return f'<text x="{x:g}" y="{y:g}"{of_kind}>{escape(words)}</text>'


def box(x: float, y: float, width: float, height: float, kind: str) -> str:
    """A box, the middle of its upper side at x, y."""
    return (f'<rect x="{x - width / 2:g}" y="{y:g}" width="{width:g}" height="{height:g}" rx="6" '
            f'class="{kind}"/>')


def head(x: float, name: str, what: str) -> list[str]:
    """Whose lifeline this is."""
    return [box(x, 24, 150, TOP_OF_LINES - 24, "head"), text(x, 46, name, "name"), text(x, 66, what, "small"),
            f'<path d="M{x:g} {TOP_OF_LINES}V{END_OF_LINES}" class="life"/>']


def arrow(start: float, end: float, y: float, above: str, below: str = "") -> list[str]:
    """A packet from one lifeline to another."""
    middle, back = (start + end) / 2, -9 if end > start else 9
    lines = [f'<path d="M{start:g} {y:g}H{end + back:g}" class="line"/>',
             f'<path d="M{end:g} {y:g}l{back} -5v10z" class="tip"/>', text(middle, y - 8, above)]
    return lines + ([text(middle, y + 17, below, "small")] if below else [])


def entry(x: float, y: float, number: int, what: str, effect: str) -> list[str]:
    """An entry that a connector's book gains."""
    return [box(x, y, BOX_WIDTH, BOX_HEIGHT, what), text(x, y + 19, f"entry {number}: {what}"),
            text(x, y + 37, effect, "small")]


def outcome(x: float, words: str, more: str) -> list[str]:
    """What somebody has in the end."""
    return [text(x, 690, words), text(x, 709, more, "small")]


# ---- the drawing

def lifelines() -> list[str]:
    """Who takes part."""
    return [*head(ALICE, "alice", "a peer, in USD"), *head(NORTH, "north", "a connector"),
            *head(SOUTH, "south", "a connector"), *head(BOB, "bob", "a peer, in EUR")]


def way_out(sent: str, on: str, received: str) -> list[str]:
    """The Prepares, and the holds."""
    return [*arrow(ALICE, NORTH, 120, f"Prepare {sent} USD", "expires in 30 s"),
            *entry(NORTH, 150, 0, "hold", f"alice \u2212{sent} USD"),
            *arrow(NORTH, SOUTH, 234, f"Prepare {on} EUR", "same condition, expires in 29 s"),
            *entry(SOUTH, 264, 0, "hold", f"north \u2212{on} EUR"),
            *arrow(SOUTH, BOB, 348, f"Prepare {received} EUR", "same condition, expires in 28 s")]


def way_back(on: str, received: str) -> list[str]:
    """The Fulfills, and the entries that end the holds."""
    return [*arrow(BOB, SOUTH, 420, "Fulfill", "the condition's preimage"),
            *entry(SOUTH, 450, 1, "fulfilled", f"bob +{received} EUR"),
            *arrow(SOUTH, NORTH, 534, "Fulfill", "the same octets"),
            *entry(NORTH, 564, 1, "fulfilled", f"south +{on} EUR"),
            *arrow(NORTH, ALICE, 640, "Fulfill", "the same octets")]


def outcomes(north: Configuration, south: Configuration, on: int, received: int) -> list[str]:
    """What each one has in the end."""
    price = float(north.prices["USD/2", "EUR/2"])
    return [*outcome(ALICE, f"{shown(AMOUNT)} USD less", "of her balance with north"),
            *outcome(NORTH, f"fee {shown(north.fee('alice', AMOUNT))} USD", f"price: 1 USD is {price:g} EUR"),
            *outcome(SOUTH, f"fee {shown(south.fee('north', on))} EUR", "which north pays"),
            *outcome(BOB, f"{shown(received)} EUR more", "of his balance with south"),
            text(WIDTH / 2, 742, "Where a Reject comes back, or nothing in time, each hold ends by an entry released, "
                 "and the amount is the sender's again.", "small")]


def drawing() -> str:
    """The whole of it."""
    north, south = configuration("north"), configuration("south")
    on = north.out("alice", "south", AMOUNT)
    received = south.out("north", "bob", on)
    lines = [f'<svg xmlns="http://www.w3.org/2000/svg" viewBox="0 0 {WIDTH} {HEIGHT}" width="{WIDTH}" '
             f'height="{HEIGHT}" role="img">',
             "<title>The way of one packet through two connectors, and what their books gain</title>",
             f"<style>{STYLE}</style>", box(WIDTH / 2, 1, WIDTH - 2, HEIGHT - 2, "page"), *lifelines(),
             *way_out(shown(AMOUNT), shown(on), shown(received)), *way_back(shown(on), shown(received)),
             *outcomes(north, south, on, received), "</svg>"]
    return "\n".join(lines) + "\n"


if __name__ == "__main__":
    (TOP / "docs/way.svg").write_text(drawing())
