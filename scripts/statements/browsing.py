"""Whether the page of examples/report_page.py can be read as it is shown: by a browser where one is there, else by
where its texts must lie."""
import html
import json
import os
import re
import shutil
import subprocess
import tempfile
from collections.abc import Iterator
from dataclasses import dataclass
from itertools import combinations
from pathlib import Path
from xml.etree import ElementTree

from cases.case import Differs, expect, expect_that
from charts import CHARACTER, HEIGHT, WIDTH
from statements.by_hand import CONFIGURATION, ENDED_LOG, FIRST, MET, ZERO
from statements.mirrored import configuration
from statements.pages import ASKING, EVENING, HOUR, MOST, SVG, Page, journal, text_of

PICTURE = Path(__file__).resolve().parent.parent.parent / "docs/balances.svg"

BROWSERS = ("chromium", "chromium-browser", "google-chrome", "google-chrome-stable")

# In seconds: how long a browser may take over a page.
SHOWN_WITHIN = 60

# In pixels: how high a text is, and how far two may lie on each other, since boxes are wider than letters.
HIGH, ABOVE, SLACK = 13, 10, 2

# Tells where a browser has put each text of each drawing.
MEASURING = """<script>
const told = [...document.querySelectorAll("svg")].map(drawing => [...drawing.querySelectorAll("text")].map(text => {
  const box = text.getBBox();
  return [box.x, box.y, box.x + box.width, box.y + box.height, text.textContent];
}));
const place = document.createElement("pre");
place.id = "told";
place.textContent = JSON.stringify(told);
document.body.append(place);
</script>
"""


@dataclass(frozen=True)
class Box:
    """Where a text lies in a drawing."""

    left: float
    top: float
    right: float
    bottom: float
    text: str

    def is_inside(self) -> bool:
        """Whether all of it is seen."""
        return self.left >= 0 and self.top >= 0 and self.right <= WIDTH and self.bottom <= HEIGHT

    def is_on(self, other: "Box") -> bool:
        """Whether it lies on another."""
        return (min(self.right, other.right) - max(self.left, other.left) > SLACK
                and min(self.bottom, other.bottom) - max(self.top, other.top) > SLACK)


# ---- pages

def hold(moment: int, number: int, amount: int) -> list[str]:
    """A packet that is fulfilled, as two entries of which the first has this number."""
    return [f"{moment} 0 hold alice bob {amount} 0 {amount} {moment + HOUR} {MET}",
            f"{moment + 1} 0 fulfilled {number} {ZERO}"]


def many_periods() -> str:
    """A page of periods an hour each, of two weeks."""
    texts = {f"kept_{period}": journal(hold(EVENING + period * HOUR, 0, period + 1), period) for period in range(336)}
    texts["journal"] = journal(hold(EVENING + 336 * HOUR, 0, 5), 336)
    return text_of(CONFIGURATION, **texts)


def pages() -> Iterator[tuple[str, str]]:
    """Pages of all kinds, with their names."""
    yield "two periods", text_of(CONFIGURATION, journal=FIRST, ended=ENDED_LOG, next=journal(
        [f"{EVENING + HOUR} 0 opened alice -100", f"{EVENING + HOUR} 0 opened bob 100"], 1))
    yield "some seconds", text_of(CONFIGURATION, journal=journal(
        [line for place in range(40) for line in hold(EVENING + 97 * place, 2 * place, place)]))
    yield "many periods", many_periods()
    great = configuration(("alice",), 9).replace("least = -1000", f"least = -{2**63}\nthreshold = {2**63 - 1}")
    credits = [f"{EVENING + 10**10 * place} 0 credited alice {place:04x} {MOST} 9 {MOST}" for place in range(100)]
    yield "great balances", text_of(great, journal=journal(credits))
    yield "no entries", text_of(CONFIGURATION, journal=journal([]))


# ---- where texts lie

def browser() -> str | None:
    """A browser of this machine."""
    return next(filter(None, map(shutil.which, BROWSERS)), None)


def shown_by(program: str, page: Path, *words: str) -> str:
    """What a browser without a window says of a page."""
    with tempfile.TemporaryDirectory() as room:
        # The kernel's walls around a browser are not for root.
        own = ["--no-sandbox"] if os.geteuid() == 0 else []
        try:
            done = subprocess.run([program, "--headless", "--disable-gpu", f"--user-data-dir={room}", *own, *words,
                                   page.as_uri()], capture_output=True, text=True, timeout=SHOWN_WITHIN, cwd=room)
        except subprocess.TimeoutExpired:
            raise Differs(f"{program} has not shown the page within {SHOWN_WITHIN} seconds") from None
    expect_that(f"{program} ended with {done.returncode}: {done.stderr[-500:]}", done.returncode == 0)
    return done.stdout


def boxes_shown(program: str, text: str) -> list[list[Box]]:
    """Where a browser has the texts of each drawing."""
    with tempfile.TemporaryDirectory() as folder:
        page = Path(folder, "page.html")
        page.write_text(text.replace("</body>", f"{MEASURING}</body>"), encoding="utf-8")
        found = re.search('<pre id="told">(.*?)</pre>', shown_by(program, page, "--dump-dom"))
    expect_that("the browser told of no drawing", found is not None)
    return [[Box(*one) for one in drawing] for drawing in json.loads(html.unescape(found[1] if found else "[]"))]


def boxes_reckoned(text: str) -> list[list[Box]]:
    """Where the texts must lie, if letters are as wide as charts.py takes them to be."""
    page: Page = ElementTree.fromstring(text)
    return [[reckoned(one) for one in drawing.iter(f"{SVG}text")] for drawing in page.iter(f"{SVG}svg")]


def reckoned(one: Page) -> Box:
    """Where one of them must lie."""
    x, y, says = int(one.get("x", "")), int(one.get("y", "")), one.text or ""
    wide = CHARACTER * len(says)
    left = x - {"start": 0, "middle": wide // 2, "end": wide}[one.get("text-anchor", "")]
    return Box(left, y - ABOVE, left + wide, y - ABOVE + HIGH, says)


def expect_readable(name: str, drawings: list[list[Box]]) -> None:
    """All texts of each drawing are seen, and none lies on another."""
    for boxes in drawings:
        expect(f"{name}: texts that are cut", [box for box in boxes if not box.is_inside()], [])
        expect(f"{name}: texts on others", [pair for pair in combinations(boxes, 2) if pair[0].is_on(pair[1])], [])


# ---- what is seen

def picture_of(program: str, text: str) -> bytes:
    """What a browser shows, as a PNG."""
    with tempfile.TemporaryDirectory() as folder:
        page, picture = Path(folder, "page.html"), Path(folder, "page.png")
        page.write_text(text, encoding="utf-8")
        shown_by(program, page, f"--screenshot={picture}", "--window-size=1100,1800", "--hide-scrollbars")
        return picture.read_bytes()


def expect_seen(program: str, text: str) -> None:
    """A browser draws much of a page: its picture is far longer than that of nothing."""
    nothing, picture = (len(picture_of(program, one)) for one in ("<!DOCTYPE html><title>nothing</title>", text))
    expect_that(f"a picture of {picture} octets, beside one of nothing of {nothing}", picture > 4 * nothing)


# ---- tries

def try_shown() -> None:
    """Texts in drawings are seen, and not on each other, in a browser if there is one."""
    program = browser()
    for name, text in pages():
        reckoned_ones = boxes_reckoned(text)
        expect_readable(name, reckoned_ones)
        if program is not None:
            shown = boxes_shown(program, text)
            expect(f"{name}: the texts", [[box.text for box in boxes] for boxes in shown],
                   [[box.text for box in boxes] for boxes in reckoned_ones])
            expect_readable(name, shown)
    if program is not None:
        expect_seen(program, many_periods())


def try_picture() -> None:
    """The picture in the documents asks for no other file, and is short."""
    text = PICTURE.read_text(encoding="utf-8")
    picture = ElementTree.fromstring(text)
    expect("its elements", {one.tag.removeprefix(SVG) for one in picture.iter()} - {"rect"},
           {"svg", "title", "text", "line", "polyline"})
    expect("attributes that ask for a file, or have scripts",
           {name for one in picture.iter() for name in one.attrib if name in ASKING or name.startswith("on")}, set())
    expect_that(f"it has {len(text)} octets", len(text) < 100_000)
