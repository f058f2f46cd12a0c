#!/usr/bin/env python3
"""Draws the balances of a page of examples/report_page.py, one below the other, as one file.

    scripts/demo.sh --keep FOLDER
    scripts/drawing/balances.py FOLDER/north.toml FOLDER/north.journal

It writes docs/balances.svg, which is plain SVG without a font of its own, on white.
"""
import sys
from pathlib import Path
from xml.etree import ElementTree

TOP = Path(__file__).resolve().parent.parent.parent
sys.path.append(str(TOP / "examples"))

from report_page import make_page  # noqa: E402

HTML, SVG = "http://www.w3.org/1999/xhtml", "http://www.w3.org/2000/svg"
WIDTH, HEIGHT = 960, 240
# The room for the name of a peer above its drawing, and round all.
NAME, ROUND = 30, 12


def balances_of(page: ElementTree.Element) -> list[tuple[str, ElementTree.Element]]:
    """The drawing of each peer's balance, with the peer's name."""
    parts = list(page.iterfind(f"{{{HTML}}}body/*"))
    return [(one.text or "", drawing) for one, drawing in zip(parts, parts[1:]) if one.tag == f"{{{HTML}}}h3"]


def drawing_of(balances: list[tuple[str, ElementTree.Element]]) -> ElementTree.Element:
    """All of them in one."""
    wide, high = WIDTH + 2 * ROUND, len(balances) * (NAME + HEIGHT) + 2 * ROUND
    whole = ElementTree.Element(f"{{{SVG}}}svg", viewBox=f"{-ROUND} {-ROUND} {wide} {high}", width=str(wide),
                                height=str(high), role="img")
    ElementTree.SubElement(whole, f"{{{SVG}}}title").text = "; ".join(
        drawing.findtext(f"{{{SVG}}}title") or "" for _, drawing in balances)
    ElementTree.SubElement(whole, f"{{{SVG}}}rect", x=str(-ROUND), y=str(-ROUND), width=str(wide), height=str(high),
                           fill="white")
    for place, (name, drawing) in enumerate(balances):
        y = place * (NAME + HEIGHT)
        heading = {"x": "2", "y": str(y + 22), "font-family": "sans-serif", "font-size": "16", "font-weight": "bold"}
        ElementTree.SubElement(whole, f"{{{SVG}}}text", heading).text = name
        drawing.attrib |= {"y": str(y + NAME), "width": str(WIDTH), "height": str(HEIGHT)}
        whole.append(drawing)
    return whole


def main(words: list[str]) -> int:
    if len(words) != 2:
        print("usage: balances.py CONFIG JOURNAL", file=sys.stderr)
        return 2
    ElementTree.register_namespace("", SVG)
    page = ElementTree.fromstring(make_page(Path(words[0]), Path(words[1])))
    text = ElementTree.tostring(drawing_of(balances_of(page)), encoding="unicode")
    (TOP / "docs/balances.svg").write_text(text + "\n", encoding="utf-8")
    return 0


if __name__ == "__main__":
    sys.exit(main(sys.argv[1:]))
