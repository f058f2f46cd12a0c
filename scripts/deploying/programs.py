"""Which programs are tried, and what they are told by."""
import os
import shutil
import sys
from pathlib import Path

TOP = Path(__file__).resolve().parent.parent.parent
PROVED = TOP / "crates/connector/out/connector"
EXAMPLES = TOP / "examples"
DEPLOY = EXAMPLES / "deploy"

HELD, DIFFERED, MISSING = 0, 1, 2


class Missing(Exception):
    """Something that a trial needs is not there."""


def connector() -> Path:
    """The connector that CONNECTOR names, or the one of scripts/build.sh."""
    name = os.environ.get("CONNECTOR")
    path = Path(name) if name else PROVED
    if path.is_file() and os.access(path, os.X_OK):
        return path.resolve()
    raise Missing(f"CONNECTOR names no program: {path}" if name else
                  "no connector is there: run scripts/build.sh, or name one by CONNECTOR=PATH")


def expect_tools(packages: dict[str, str]) -> None:
    """Refuses a machine without one of these programs; each has the package that brings it."""
    for name, package in packages.items():
        if shutil.which(name, path=f"{os.environ.get('PATH', os.defpath)}:/usr/sbin:/sbin") is None:
            raise Missing(f"{name} is not on the path: install it (Debian's package {package})")


def say(script: str, line: str) -> None:
    """A line on standard error."""
    print(f"{script}: {line}", file=sys.stderr)
