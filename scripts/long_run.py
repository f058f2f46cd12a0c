#!/usr/bin/env python3
"""Runs the connector over long random input, beside a model that is written from the rules alone.

    scripts/long_run.py PATH/TO/connector [--steps N] [--messages N] [--seed S] [--jobs J]
    scripts/long_run.py --self-test

There are two kinds of runs. In the first `connector replay` runs random scripts over random
configurations, N steps in all (1,000,000 by default); each printed line is compared with what a model
prints, which keeps a plain list of entries and sums it up by walks. In the second `connector serve`
gets N random messages over loopback (20,000 by default), whole, cut, doubled, joined, mangled and junk,
beside stand-ins for peers and engines; each answer is to be what the rules (docs/PROTOCOL.md) give for
the octets that were sent, others are to be sent what follows from that, and the report that is printed
after the close is to be that of all that was answered. With 0 a kind is left out.

Scripts and conversations have the seeds S, S + 1 and so on, so `--seed S --steps N` with the seed of
one begins with that one. Which of several senders is served first is not repeated. A run is spread
over J processes, by default as many as there are processors.

The exit status is 0 where all is equal, 1 where something differs or a kind of reply never came up in
a long run, and 2 where the arguments are not understood. What differs is told and kept in a folder.
It needs Linux and Python 3.11, and shares nothing with the crates.
"""
import argparse
import os
import sys
import time
from collections import Counter
from collections.abc import Callable, Iterable
from concurrent.futures import ProcessPoolExecutor
from pathlib import Path

# First, since it lets the modules of scripts/vectors be found.
from cases.operating import is_program, raise_own_limit

from long_runs import replays, serving
from long_runs.replays import Outcome
from long_runs.rows import Wrong, check_rows

Run = Callable[[replays.Plan], Outcome] | Callable[[serving.Conversation], Outcome]


def number(text: str) -> int:
    """A whole number that is not below 0."""
    if not text.isascii() or not text.isdigit():
        raise argparse.ArgumentTypeError(f"{text!r} is no number")
    return int(text)


def read_arguments(arguments: list[str]) -> argparse.Namespace:
    parser = argparse.ArgumentParser(prog="long_run.py", description=__doc__,
                                     formatter_class=argparse.RawDescriptionHelpFormatter)
    parser.add_argument("connector", nargs="?", type=Path)
    parser.add_argument("--steps", type=number, default=1_000_000)
    parser.add_argument("--messages", type=number, default=20_000)
    parser.add_argument("--seed", type=number, default=time.time_ns() // 1_000_000 % 10**9)
    parser.add_argument("--jobs", type=number, default=os.cpu_count() or 1)
    parser.add_argument("--self-test", action="store_true")
    chosen = parser.parse_args(arguments)
    if not chosen.self_test and (chosen.connector is None or not is_program(chosen.connector)):
        parser.error("the path of the connector is missing, or is no program")
    if chosen.jobs == 0:
        parser.error("--jobs is at least 1")
    return chosen


def play(run: Run, plans: Iterable[object], jobs: int) -> tuple[int, Counter[str], list[str]]:
    """Runs all plans: how many steps they had, what came up, and what differed first."""
    steps, kinds = 0, Counter[str]()
    with ProcessPoolExecutor(jobs) as pool:
        for outcome in pool.map(run, plans):
            steps += outcome.steps
            kinds += outcome.kinds
            if outcome.difference is not None:
                pool.shutdown(cancel_futures=True)
                return steps, kinds, [outcome.difference]
    return steps, kinds, []


def tell(what: str, steps: int, kinds: Counter[str], seconds: float, differences: list[str]) -> None:
    print(f"{what}: {steps} in {seconds:.0f} seconds, {'all equal' if not differences else 'a difference'}")
    for kind, count in sorted(kinds.items()):
        print(f"    {count:>9} {kind}")
    for difference in differences:
        print(difference)
    sys.stdout.flush()


def all_came_up(kinds: Counter[str], wanted: list[str]) -> bool:
    """Whether each kind of reply that is wanted came up; those that did not are told."""
    missing = [kind for kind in wanted if not kinds[kind]]
    for kind in missing:
        print(f"never came up: {kind}")
    return not missing


def play_scripts(chosen: argparse.Namespace) -> bool:
    """Whether the first kind of runs went well."""
    start = time.monotonic()
    plans = replays.plans(chosen.connector.resolve(), chosen.seed, chosen.steps)
    steps, kinds, differences = play(replays.run, plans, chosen.jobs)
    tell("steps of scripts", steps, kinds, time.monotonic() - start, differences)
    return not differences and (steps < replays.LONG_RUN or all_came_up(kinds, replays.KINDS))


def play_conversations(chosen: argparse.Namespace) -> bool:
    """Whether the second kind did."""
    start = time.monotonic()
    plans = serving.conversations(chosen.connector.resolve(), chosen.seed, chosen.messages)
    steps, kinds, differences = play(serving.run, plans, chosen.jobs)
    tell("messages", steps, kinds, time.monotonic() - start, differences)
    return not differences and (steps < serving.LONG_RUN or all_came_up(kinds, serving.KINDS))


def main(arguments: list[str]) -> int:
    chosen = read_arguments(arguments)
    try:
        check_rows()
    except Wrong as wrong:
        print(f"the model differs from a row that was worked out by hand: {wrong}")
        return 1
    if chosen.self_test:
        print("the model is as the rows have it")
        return 0
    raise_own_limit()
    print(f"seed {chosen.seed}", flush=True)
    went_well = play_scripts(chosen) if chosen.steps else True
    if chosen.messages:
        went_well = play_conversations(chosen) and went_well
    return 0 if went_well else 1


if __name__ == "__main__":
    sys.exit(main(sys.argv[1:]))
