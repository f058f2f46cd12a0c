"""The lines of the demonstration that README.md shows."""
import re

from demonstration.failing import TOP, expect

# A line of a step; a key, whose number depends on which of two entries came first.
A_LINE, A_KEY = re.compile(r"^[ \d]\d  [A-Z].+$", re.MULTILINE), re.compile(r"\b(north|south)-\d+")


def expect_shown(lines: list[str]) -> None:
    """README shows lines that were printed, in their order."""
    shown = [A_KEY.sub(r"\1-N", line) for line in A_LINE.findall((TOP / "README.md").read_text(encoding="utf-8"))]
    printed = [A_KEY.sub(r"\1-N", line) for line in lines]
    expect("whether README shows lines of the demonstration", bool(shown), True)
    expect("the lines of README", shown, [line for line in printed if line in shown])
