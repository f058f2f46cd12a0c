#!/usr/bin/env python3
"""Runs the connector's server as an operator would, beside stand-ins for peers and engines.

    scripts/check.py PATH/TO/connector [CASE ..]
    scripts/check.py --list
    scripts/check.py --help

Each case has a configuration, ports and tokens of its own, runs `connector serve` over real sockets
on 127.0.0.1, and is told as `ok` or by what differed from the rules (docs/PROTOCOL.md,
docs/OPERATING.md). At its end each line on standard error is to have one of the forms of
scripts/cases/lines.py. The exit status is 1 where one differs, and 2 where the arguments are not
understood. Without names all cases are played, which takes some ten minutes. It needs Linux, Python
3.11, at least 12,288 open files (with 18,460 a case has all of its 4,096 packets in flight), and for some cases
a C compiler, and shares nothing with the crates.
"""
import signal
import subprocess
import sys
import time
from pathlib import Path

from cases import (advice, backups, bodies, chains, clients, commands, conversations, corrections, ending, engines, in_flight,
                   journal_files, journal_texts, journals, links, log_faults, logs, memory, operating, pages, payouts,
                   periods, reloading, remembered, running_periods, statements, strangers, telling,
                   telling_of_the_book, waiting)
from cases.case import CASES, Case, Differs
from cases.laboratory import Laboratory

# Each of them lists its cases as it is read.
PARTS = (commands, pages, conversations, links, engines, payouts, corrections, clients, strangers, bodies, operating,
         memory, journals, journal_files, backups, advice, journal_texts, logs, log_faults, periods, running_periods,
         chains, statements, reloading, remembered, telling, telling_of_the_book, waiting, in_flight, ending)

# In seconds; the longest case takes a minute and some.
MOST_OF_A_CASE = 90


def too_long(*_: object) -> None:
    """What the alarm of a case does."""
    raise Differs(f"the case took longer than {MOST_OF_A_CASE} seconds")


def play(binary: Path, case: Case) -> tuple[str | None, list[str]]:
    """What differed, if anything did, and what its programs had said and come to then."""
    signal.alarm(MOST_OF_A_CASE)
    with Laboratory(binary) as laboratory:
        try:
            case(laboratory)
            laboratory.check_errors()
            return None, []
        except (Differs, OSError) as differs:
            what = str(differs) if isinstance(differs, Differs) else f"a connection: {differs!r}"
            return what, laboratory.told()
        except subprocess.TimeoutExpired as late:
            return str(late), laboratory.told()
        finally:
            signal.alarm(0)


def play_all(binary: Path, names: list[str]) -> int:
    """Plays the cases, prints a line of each, and answers how many differed."""
    differed = 0
    for name in names:
        start = time.monotonic()
        what, told = play(binary, CASES[name])
        took = time.monotonic() - start
        print(f"{name}: {'ok' if what is None else what} ({took:.1f} s)", flush=True)
        for line in told:
            print(f"    {line}", flush=True)
        differed += what is not None
    print(f"{len(names) - differed} ok, {differed} differ")
    return differed


def main(arguments: list[str]) -> int:
    if arguments == ["--help"]:
        print(__doc__)
        return 0
    if arguments == ["--list"]:
        for name, one in CASES.items():
            print(f"{name}: {' '.join((one.__doc__ or '').split())}")
        return 0
    names = arguments[1:] or list(CASES)
    unknown = [name for name in names if name not in CASES]
    if not arguments or unknown or not operating.is_program(Path(arguments[0])):
        print("usage: check.py PATH/TO/connector [CASE ..], check.py --list, check.py --help",
              file=sys.stderr)
        return 2
    operating.raise_own_limit()
    signal.signal(signal.SIGALRM, too_long)
    return 1 if play_all(Path(arguments[0]).resolve(), names) else 0


if __name__ == "__main__":
    sys.exit(main(sys.argv[1:]))
