"""Numbers over time as drawings in SVG, which are readable without colour. report_page.py uses it.

Amounts are whole numbers of any size, and no float is made of them. It needs Python 3.11, and
amounts_and_times.py and markup.py beside it.
"""
from __future__ import annotations

from collections.abc import Iterable, Iterator
from dataclasses import dataclass, field
from itertools import count

from amounts_and_times import moment_of, shown
from markup import element, escaped

NAMESPACE = "http://www.w3.org/2000/svg"
WIDTH, HEIGHT = 960, 240
# Right of the drawing half a time has room.
TOP, BOTTOM, RIGHT = 34, 200, 918
# In pixels: the least room for labels at the left, a character of one, and the least distances of labels and of marks
# of periods.
LEAST_LEFT, CHARACTER, BETWEEN_LABELS, BETWEEN_MARKS = 64, 7, 110, 4
MOST_TICKS = 5
# A level is drawn where the line still has this part of the height with it.
PART = 10

SECOND, MINUTE, HOUR, DAY = 1000, 60_000, 3_600_000, 86_400_000
TIME_STEPS = (1, 5, 20, 100, 500, SECOND, 5 * SECOND, 15 * SECOND, MINUTE, 5 * MINUTE, 15 * MINUTE, HOUR, 3 * HOUR,
              6 * HOUR, 12 * HOUR, DAY, 2 * DAY, 7 * DAY, 28 * DAY, 91 * DAY, 365 * DAY, 3650 * DAY, 36500 * DAY,
              365000 * DAY)

# How lines are drawn, by what they are.
STYLES = {"line": {}, "second": {"stroke_dasharray": "6 3"}, "least": {"stroke_dasharray": "12 4"},
          "threshold": {"stroke_dasharray": "2 3"}, "mark": {"stroke_dasharray": "1 5"}, "grid": {"stroke": "#ccc"}}


# ---- numbers over time

@dataclass
class Column:
    """The extremes of a number in a span of time, and its last one."""

    least: int
    most: int
    last: int

    def join(self, later: Column) -> None:
        """Takes up what comes behind."""
        self.least, self.most = min(self.least, later.least), max(self.most, later.most)
        self.last = later.last


class Columns:
    """A number over time, which keeps the extremes of each of some columns, however often it changes."""

    def __init__(self, most: int) -> None:
        self.most = most
        self.span = 1
        # By the place in time, in spans; in order of time.
        self.columns: dict[int, Column] = {}

    def note(self, moment: int, number: int) -> None:
        """The number from a moment on, which is not before the last one."""
        place, column = moment // self.span, Column(number, number, number)
        if place in self.columns:
            self.columns[place].join(column)
        else:
            self.columns[place] = column
            while place - next(iter(self.columns)) >= self.most:
                self.widen()
                place //= 2

    def widen(self) -> None:
        """Joins the columns two by two."""
        self.span *= 2
        before, self.columns = self.columns, {}
        for place, column in before.items():
            if place // 2 in self.columns:
                self.columns[place // 2].join(column)
            else:
                self.columns[place // 2] = column

    def over_time(self) -> Iterator[tuple[int, Column]]:
        """The columns, each with the moment at which it begins."""
        return ((place * self.span, column) for place, column in self.columns.items())


# ---- drawings

@dataclass
class Chart:
    """What is drawn: numbers over time, each with its style; levels by their styles; and the periods' beginnings."""

    title: str
    unit: str
    scale: int
    begin: int
    end: int
    lines: list[tuple[str, Columns]]
    levels: dict[str, int] = field(default_factory=dict)
    marks: list[tuple[int, str]] = field(default_factory=list)


def step_of(span: int) -> int:
    """The distance of round numbers, of which at most five or so lie in a span.

    >>> [step_of(span) for span in (1, 7, 12, 99, 2**128)]
    [1, 2, 5, 20, 100000000000000000000000000000000000000]
    """
    return next(step for power in count() for step in (10**power, 2 * 10**power, 5 * 10**power)
                if span <= step * MOST_TICKS)


class Plane:
    """Where moments and numbers lie in a drawing."""

    def __init__(self, chart: Chart) -> None:
        self.begin, self.time = chart.begin, max(chart.end - chart.begin, 1)
        self.least, self.most = range_of(chart)
        self.span = self.most - self.least
        step = step_of(self.span)
        first = -(-self.least // step) * step
        self.ticks = {tick: shown(tick, chart.scale) for tick in range(first, self.most + 1, step)}
        self.left = max(CHARACTER * max(map(len, self.ticks.values()), default=0) + 16, LEAST_LEFT)

    def x(self, moment: int) -> int:
        """The place of a moment; one before the first lies there."""
        return self.left + max(moment - self.begin, 0) * (RIGHT - self.left) // self.time

    def y(self, number: int) -> int:
        """The place of a number."""
        return TOP + (self.most - number) * (BOTTOM - TOP) // self.span


def range_of(chart: Chart) -> tuple[int, int]:
    """The least and the greatest number that are drawn: all that the lines have, a little more, and 0 and the levels
    where the lines do not become flat by them."""
    columns = [column for _, line in chart.lines for _, column in line.over_time()]
    low = min((column.least for column in columns), default=0)
    high = max((column.most for column in columns), default=0)
    reach = (high - low) * PART or None
    for level in (0, *sorted(chart.levels.values(), key=abs)):
        wider = min(low, level), max(high, level)
        if reach is None or wider[1] - wider[0] <= reach:
            low, high = wider
    room = max((high - low) // 16, 1)
    return low - room, high + room


def points_of(line: Columns, plane: Plane) -> list[str]:
    """The points of a line, which is level between its changes."""
    points: list[str] = []
    last: int | None = None
    for moment, column in line.over_time():
        x, before = plane.x(moment), column.least if last is None else last
        points += [f"{x},{plane.y(number)}" for number in (before, column.least, column.most, column.last)]
        last = column.last
    # Of points that are the same, one behind the other, the first is kept.
    kept = [point for point, before in zip(points, ["", *points]) if point != before]
    return kept if last is None else [*kept, f"{RIGHT},{plane.y(last)}"]


def label(x: int, y: int, text: str, anchor: str = "start") -> str:
    """A text in a drawing, which is readable over lines."""
    return element("text", escaped(text), x=x, y=y, text_anchor=anchor, fill="black", stroke="white", stroke_width=3,
                   paint_order="stroke")


def straight(style: str, x1: int, y1: int, x2: int, y2: int) -> str:
    """A straight line."""
    return element("line", x1=x1, y1=y1, x2=x2, y2=y2, **STYLES[style])


def numbers_drawn(chart: Chart, plane: Plane) -> Iterator[str]:
    """The upright axis, and what it counts."""
    yield label(plane.left, TOP - 22, chart.unit)
    for tick, text in plane.ticks.items():
        yield straight("grid", plane.left, plane.y(tick), RIGHT, plane.y(tick))
        yield label(plane.left - 6, plane.y(tick) + 4, text, "end")


def times_drawn(plane: Plane) -> Iterator[str]:
    """The level axis, with times in UTC."""
    most = max((RIGHT - plane.left) // BETWEEN_LABELS, 1)
    step = next((step for step in TIME_STEPS if plane.time <= step * most), TIME_STEPS[-1])
    precision = "minutes" if step >= MINUTE else "seconds" if step >= SECOND else "milliseconds"
    for moment in range(-(-plane.begin // step) * step, plane.begin + plane.time + 1, step):
        x, time = plane.x(moment), moment_of(moment)
        yield straight("line", x, BOTTOM, x, BOTTOM + 5)
        yield label(x, BOTTOM + 18, time.time().isoformat(timespec=precision), "middle")
        yield label(x, BOTTOM + 32, time.date().isoformat(), "middle")
    yield straight("line", plane.left, BOTTOM, RIGHT, BOTTOM)
    yield label(2, BOTTOM + 18, "UTC")


def level_drawn(style: str, number: int, chart: Chart, plane: Plane) -> Iterator[str]:
    """A level with its name, or where it lies."""
    x, anchor = (plane.left + 6, "start") if style == "least" else (RIGHT - 6, "end")
    says = f"{style} {shown(number, chart.scale)}"
    if number < plane.least:
        yield label(x, BOTTOM - 6, f"{says} lies below", anchor)
    elif number > plane.most:
        yield label(x, TOP + 12, f"{says} lies above", anchor)
    else:
        y = plane.y(number)
        yield straight(style, plane.left, y, RIGHT, y)
        yield label(x, y - 5, says, anchor)


def marks_drawn(chart: Chart, plane: Plane) -> Iterator[str]:
    """Where periods begin; names that would lie on each other are left out."""
    drawn, named = -WIDTH, -WIDTH
    for moment, name in chart.marks:
        x = plane.x(moment)
        if x - drawn >= BETWEEN_MARKS:
            yield straight("mark", x, TOP, x, BOTTOM)
            drawn = x
        left = min(x, RIGHT - CHARACTER * len(name))
        if left - named >= BETWEEN_LABELS:
            yield label(left, TOP - 6, name)
            named = left


def lines_drawn(chart: Chart, plane: Plane) -> Iterator[str]:
    """The numbers."""
    for style, line in chart.lines:
        if points := points_of(line, plane):
            yield element("polyline", points=" ".join(points), **STYLES[style])


def drawing_of(chart: Chart) -> str:
    """The whole drawing. What is written stands above what is drawn."""
    plane = Plane(chart)
    levels = (part for style, number in chart.levels.items() for part in level_drawn(style, number, chart, plane))
    parts: Iterable[str] = (*numbers_drawn(chart, plane), *times_drawn(plane), *marks_drawn(chart, plane),
                            *lines_drawn(chart, plane), *levels)
    return element("svg", element("title", escaped(chart.title)), "\n", "\n".join(parts), "\n", xmlns=NAMESPACE,
                   viewBox=f"0 0 {WIDTH} {HEIGHT}", role="img", stroke="black", fill="none", font_size=11,
                   font_family="sans-serif")
