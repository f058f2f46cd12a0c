#!/usr/bin/env python3
"""Writes what README.md and docs/ARCHITECTURE.md show of the crates, from crates.txt and the crates' first lines.

    scripts/drawing/layers.py
    scripts/drawing/layers.py --check

In crates.txt a line `# == NAME` begins a layer, the lowest first. README gets a line for each layer, and
ARCHITECTURE a line for each crate, with what its lib.rt or main.rt says first; both show the highest first.
What is written stands between two comments in the page, and nothing else of it is touched. With --check nothing
is written: the exit status is 1 where a page shows something else, where a crate stands above one that it uses,
or where one has no folder or no line.
"""
import re
import sys
from pathlib import Path

TOP = Path(__file__).resolve().parent.parent.parent
BEGIN, END = "<!-- layers: scripts/drawing/layers.py -->", "<!-- end of layers -->"

Layers = list[tuple[str, list[str]]]


class Fault(Exception):
    """Why the crates can't be shown."""


def layers(text: str) -> tuple[Layers, dict[str, list[str]]]:
    """The layers that crates.txt names, the lowest first, and what each crate uses of the repository's own."""
    found: Layers = []
    uses: dict[str, list[str]] = {}
    for line in text.splitlines():
        if named := re.fullmatch(r"# == (.+)", line):
            found.append((named[1], []))
        elif line and not line.startswith("#"):
            head, _, rest = line.partition(":")
            name = head.split()[0]
            if not found:
                raise Fault(f"{name} stands in no layer")
            if name in uses:
                raise Fault(f"{name} has two lines")
            found[-1][1].append(name)
            uses[name] = rest.split()
    return found, {name: [low for low in lows if low in uses] for name, lows in uses.items()}


def expect_order(found: Layers, uses: dict[str, list[str]]) -> None:
    """Refuses a crate that stands above one that uses it, and one without a folder, or a folder without a line."""
    seen: set[str] = set()
    for _, names in found:
        for name in names:
            if above := [low for low in uses[name] if low not in seen]:
                raise Fault(f"{name} stands before {' and '.join(above)}, which it uses")
            seen.add(name)
    folders = {path.name for path in (TOP / "crates").iterdir() if (path / "src").is_dir()}
    if folders != seen:
        raise Fault(f"crates.txt and crates/ differ by {' '.join(sorted(folders ^ seen))}")


def first_sentence(name: str) -> str:
    """What a crate says of itself first."""
    for root in ("src/lib.rt", "src/main.rt"):
        path = TOP / "crates" / name / root
        if path.is_file():
            lines = []
            for line in path.read_text(encoding="utf-8").splitlines():
                if not line.startswith("//! "):
                    break
                lines.append(line[4:])
            return re.split(r"(?<=[.])\s|:\s", " ".join(lines))[0].rstrip(".")
    raise Fault(f"{name} has neither lib.rt nor main.rt")


def of_readme(found: Layers) -> str:
    """A line for each layer, the highest first."""
    width = max(len(layer) for layer, _ in found)
    lines = []
    for layer, names in reversed(found):
        if not layer.startswith("tests"):
            lines.append(f"{layer:<{width}}  {', '.join(names)}")
    return "\n".join(["```", *lines, "```"])


def of_architecture(found: Layers) -> str:
    """A line for each crate, the highest first."""
    names = [name for layer, names in reversed(found) if not layer.startswith("tests") for name in reversed(names)]
    width = max(len(name) for name in names)
    return "\n".join(["```", *(f"{name:<{width}}  {first_sentence(name)}" for name in names), "```"])


def with_block(page: str, block: str, path: Path) -> str:
    """The page with this block in its place."""
    before, begin, rest = page.partition(BEGIN)
    _, end, after = rest.partition(END)
    if not begin or not end:
        raise Fault(f"{path} has no place for the layers")
    return f"{before}{BEGIN}\n{block}\n{END}{after}"


def main(arguments: list[str]) -> int:
    if arguments not in ([], ["--check"]):
        print(__doc__.strip(), file=sys.stderr)
        return 2
    try:
        found, uses = layers((TOP / "crates.txt").read_text(encoding="utf-8"))
        expect_order(found, uses)
        faults = []
        for path, block in ((TOP / "README.md", of_readme(found)), (TOP / "docs/ARCHITECTURE.md", of_architecture(found))):
            page = path.read_text(encoding="utf-8")
            wanted = with_block(page, block, path)
            if arguments and page != wanted:
                faults.append(f"{path.relative_to(TOP)} does not show the crates as they are: run scripts/drawing/layers.py")
            elif page != wanted:
                path.write_text(wanted, encoding="utf-8")
    except Fault as fault:
        faults = [str(fault)]
    print("\n".join(faults) or "ok")
    return 1 if faults else 0


if __name__ == "__main__":
    sys.exit(main(sys.argv[1:]))
