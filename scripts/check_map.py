#!/usr/bin/env python3
"""Holds the documents against the files that they name: each path in backquotes is there, and in docs/MAP.md each
name behind a path stands in that file.

    scripts/check_map.py

Paths are below crates/, or at the top. The exit status is 1 where one is not so.
"""
import re
import sys
from pathlib import Path

TOP = Path(__file__).resolve().parent.parent
PAGES = ["README.md", "CONTRIBUTING.md", "SECURITY.md", *sorted(f"docs/{it.name}" for it in (TOP / "docs").glob("*.md"))]
# What stands for any crate's, and what an operator makes.
ANY = re.compile(r"[A-Z]{3,}|^(?:src|specs|proofs|hub)/")
A_PATH = re.compile(r"(?:[\w.-]+/)+[\w.-]*\.(?:rt|antt|py|sh|toml|rs|in|txt|md)$|(?:ilp|test)_\w+/[\w/.-]+$")


def place(path: str, crate: str) -> Path | None:
    """The file of a path, below crates/, in the crate that was named last, or at the top."""
    own = TOP / "crates" / crate
    for root in (TOP / "crates", own, own / "src", TOP, TOP / "docs"):
        if (root / path).exists():
            return root / path
    return None


def faults_of(page: str) -> list[str]:
    """What a page names that isn't there."""
    found = []
    for number, line in enumerate((TOP / page).read_text(encoding="utf-8").splitlines(), 1):
        crate, file = "", None
        for span in re.findall(r"`([^`]+)`", line):
            if A_PATH.match(span) and not ANY.search(span):
                crate = span.split("/")[0] if span.split("/")[0].startswith(("ilp_", "test_", "connector")) else crate
                file = place(span, crate)
                if file is None:
                    found.append(f"{page}:{number}: no {span}")
            elif page == "docs/MAP.md" and file is not None and file.is_file() and re.fullmatch(r"\w+(?:::\w+)*", span):
                if span.split("::")[-1] not in file.read_text(encoding="utf-8"):
                    found.append(f"{page}:{number}: no {span} in {file.relative_to(TOP)}")
    return found


def main() -> int:
    faults = [fault for page in PAGES for fault in faults_of(page)]
    print("\n".join(faults) or f"ok {len(PAGES)} pages")
    return 1 if faults else 0


if __name__ == "__main__":
    sys.exit(main())
