#!/usr/bin/env python3
"""Prints the table of instructions of scripts/bench.sh: how many instructions a turn of each row
takes, as valgrind's callgrind counts them. Its arguments are the rows' file, the Rattle program and
the Rust program. A line of the file has a row's name, how many turns are timed, and what else the
row needs. Each program runs each row twice, the second time with twice as many turns, and the
difference counts, so what comes before and after the turns does not."""
import re
import subprocess
import sys
import tempfile


def count(program, row):
    """The instructions of one run."""
    with tempfile.NamedTemporaryFile() as profile:
        told = subprocess.run(
            ["valgrind", "--tool=callgrind", f"--callgrind-out-file={profile.name}", program],
            input=row.encode("ascii"), capture_output=True, check=True)
    return int(re.search(rb"Collected : (\d+)", told.stderr)[1])


def of_a_turn(program, name, turns, rest):
    one, two = (count(program, " ".join([name, str(n), *rest]) + "\n") for n in (turns, 2 * turns))
    return (two - one) / turns


rows, *programs = sys.argv[1:]
print(f"{'':30} {'Rattle':>12} {'Rust':>12} {'ratio':>6}")
for line in open(rows, encoding="ascii"):
    name, timed, *rest = line.split()
    turns = max(2, min(50_000, int(timed) // 4))
    rattle, rust = (of_a_turn(program, name, turns, rest) for program in programs)
    print(f"{name:30} {rattle:12,.1f} {rust:12,.1f} {rattle / rust:6.2f}", flush=True)
