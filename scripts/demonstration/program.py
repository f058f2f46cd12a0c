"""Which program is demonstrated."""
import os
from pathlib import Path

from demonstration.failing import TOP, BadInput
from demonstration.quick_build import build, expect_kit

PROVED = TOP / "crates/connector/out/connector"
QUICK = TOP / "out/connector-unproved"


def is_program(path: Path) -> bool:
    """Whether a file is there that may be run."""
    return path.is_file() and os.access(path, os.X_OK)


def shown(path: Path) -> str:
    """A path, as it is below the top if it is there."""
    return str(path.relative_to(TOP)) if path.is_relative_to(TOP) else str(path)


def quick() -> Path:
    """The program that is built now, without a proof."""
    expect_kit()
    print("Builds the program without a proof (rt try), which takes a minute or two on four idle cores.", flush=True)
    build(QUICK)
    print(f"It is {shown(QUICK)}, and checks as it runs. CONNECTOR={shown(QUICK)} runs it again.", flush=True)
    return QUICK


def named(path: Path) -> Path:
    """The program that the environment names."""
    if not is_program(path):
        raise BadInput(f"CONNECTOR names no program: {path} is not there or may not be run")
    return path.resolve()


def proved() -> Path:
    """The program that scripts/build.sh left."""
    if not is_program(PROVED):
        raise BadInput("no program is there: run scripts/build.sh, which proves it, give --quick, which doesn't, or "
                       "name one by CONNECTOR=PATH")
    print(f"The program is {shown(PROVED)}, of scripts/build.sh.", flush=True)
    return PROVED


def program_of(is_quick: bool) -> Path:
    """The program that was asked for."""
    name = os.environ.get("CONNECTOR")
    if is_quick and name:
        raise BadInput("--quick builds a program, and CONNECTOR names one: leave one of them away")
    return quick() if is_quick else named(Path(name)) if name else proved()
