"""The arguments and the standard streams of the programs beside it. It needs Python 3.9 and nothing else."""
from __future__ import annotations

import argparse
import contextlib
import sys
from typing import NoReturn


class NotUnderstood(Exception):
    """Why arguments are not understood."""


class NoOutput(Exception):
    """Why standard output can't be written."""


class Parser(argparse.ArgumentParser):
    """One that tells a fault in one line, and whose help may fail as any other output."""

    def error(self, message: str) -> NoReturn:
        raise NotUnderstood(" ".join(f"{message}; {self.format_usage()}".split()))

    def print_help(self, file: object = None) -> None:
        write_out(self.format_help().encode())


def tell_why(line: str) -> None:
    """A line on standard error. Where that fails, the exit status is all that tells."""
    if sys.stderr is None:
        return
    try:
        print(line, file=sys.stderr, flush=True)
    except OSError:
        # Else what is left would be tried once more at the program's end, which has another status then.
        with contextlib.suppress(OSError):
            sys.stderr.close()


def write_out(octets: bytes) -> None:
    """Hands octets to standard output, all of them."""
    if sys.stdout is None:
        raise NoOutput("standard output is closed")
    try:
        sys.stdout.buffer.write(octets)
        sys.stdout.buffer.flush()
    except OSError as why:
        # Else what is left would be tried once more at the program's end, and told by a traceback.
        with contextlib.suppress(OSError):
            sys.stdout.close()
        raise NoOutput(f"standard output failed: {why.strerror}") from None
