#!/usr/bin/env python3
"""Runs a network of two connectors, and holds their books against what was sent through it.

    scripts/demonstrate.py [--quick] [--ports FIRST] [--keep FOLDER]

scripts/demo.sh says what that does; it looks for what this needs, and runs it.
"""
import argparse
import contextlib
import os
import shutil
import signal
import sys
import tempfile
from pathlib import Path
from typing import NoReturn

from demonstration.failing import BadInput, Differs
from demonstration.network import PLACES, Network, expect_ports
from demonstration.program import program_of
from demonstration.steps import Demonstration

USAGE = "usage: scripts/demo.sh [--quick] [--ports FIRST] [--keep FOLDER]"
FIRST_PORT, MOST_PORT = 7810, 65_536 - len(PLACES)

AGREED, DIFFERED, BAD_INPUT, INTERRUPTED = 0, 1, 2, 130


class Parser(argparse.ArgumentParser):
    """One that tells a fault in one line."""

    def error(self, message: str) -> NoReturn:
        raise BadInput(f"{message}; {USAGE}")


def port_of(text: str) -> int:
    """The first port of several."""
    if not (text.isascii() and text.isdigit()) or not 1024 <= int(text) <= MOST_PORT:
        raise argparse.ArgumentTypeError(f"give a number from 1024 to {MOST_PORT}")
    return int(text)


def arguments_of(words: list[str]) -> argparse.Namespace:
    """What was asked for."""
    parser = Parser(prog="scripts/demo.sh", usage=USAGE.removeprefix("usage: "), description="A network of two connectors.")
    parser.add_argument("--quick", action="store_true", help="build the program without a proof, by rt try")
    parser.add_argument("--ports", type=port_of, default=FIRST_PORT, metavar="FIRST",
                        help=f"the first of {len(PLACES)} ports ({FIRST_PORT})")
    parser.add_argument("--keep", type=Path, metavar="FOLDER", help="leave configurations, journals and lines there")
    return parser.parse_args(words)


def expect_new(keep: Path | None) -> None:
    """Refuses a folder that has something in it."""
    if keep is not None and keep.exists() and (not keep.is_dir() or os.listdir(keep)):
        raise BadInput(f"{keep} is there, and is no empty folder: name a new one")


def folder_of(keep: Path | None) -> Path:
    """Where the files go."""
    if keep is None:
        return Path(tempfile.mkdtemp(prefix="demonstration-"))
    keep.mkdir(parents=True, exist_ok=True)
    return keep.resolve()


def play(program: Path, folder: Path, first: int) -> None:
    """The whole demonstration; what it started ends with it."""
    with contextlib.ExitStack() as stack:
        network = Network(program, folder, first, stack)
        network.expect_connector()
        Demonstration(network).play()


def run(found: argparse.Namespace) -> None:
    """The demonstration in its folder, which stays where something differs."""
    expect_new(found.keep)
    expect_ports(found.ports)
    program = program_of(found.quick)
    folder = folder_of(found.keep)
    try:
        play(program, folder, found.ports)
    except Differs as differs:
        found.keep = folder
        raise Differs(f"{differs}; {folder} has all that was written") from None
    finally:
        if found.keep is None:
            shutil.rmtree(folder)
    if found.keep is not None:
        print(f"{folder} has configurations, journals and all that was written.")


def main(words: list[str]) -> int:
    signal.signal(signal.SIGTERM, signal.default_int_handler)
    try:
        run(arguments_of(words))
        return AGREED
    except BadInput as fault:
        line, status = str(fault), BAD_INPUT
    except (Differs, OSError) as fault:
        line, status = str(fault), DIFFERED
    except KeyboardInterrupt:
        line, status = "interrupted", INTERRUPTED
    print(f"demo.sh: {line}", file=sys.stderr)
    return status


if __name__ == "__main__":
    sys.exit(main(sys.argv[1:]))
