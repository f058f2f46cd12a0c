#!/usr/bin/env python3
"""Proves a crate's libraries, each as soon as those below it are there, side by side on all processors.
First come those with the longest chain of others above them, and what stands alone gets all processors.

    scripts/building/prove.py connector

A command of the kit keeps all others out of the crates that its own stands on. So each proof runs in
one of several copies of the sources, into which what was proved of the libraries below is linked; and
so is what it proved into this repository. What is proved already is not proved again. A line on
standard error tells of each crate. Where a proof fails, what it said is printed, no more are begun, and
the exit status is 1.
"""
import concurrent.futures
import os
import queue
import shutil
import subprocess
import sys
import tempfile
import time

TOP = os.path.dirname(os.path.dirname(os.path.dirname(os.path.abspath(__file__))))
LANES = len(os.sched_getaffinity(0))


def crates():
    """What each crate of the repository stands on, of the repository's own, by crates.txt."""
    below = {}
    with open(f"{TOP}/crates.txt", encoding="utf-8") as lines:
        for line in lines:
            head, colon, rest = line.partition("#")[0].partition(":")
            if colon:
                below[head.split()[0]] = rest.split()
    return {name: [low for low in lows if low in below] for name, lows in below.items()}


def libraries(below, name):
    """All that the crate stands on."""
    found, left = set(), list(below[name])
    while left:
        low = left.pop()
        if low not in found:
            found.add(low)
            left += below[low]
    return found


def chains(below, names):
    """How many lines are to be proved in the longest chain of these that begins with each."""
    def lines(name):
        return sum(
            len(open(f"{folder}/{file}", "rb").readlines())
            for part in ("src", "specs", "proofs")
            for folder, _, files in os.walk(f"{TOP}/crates/{name}/{part}")
            for file in files
        )

    lengths = {}
    while len(lengths) < len(names):
        for name in names - lengths.keys():
            above = {high for high in names if name in below[high]}
            if above <= lengths.keys():
                lengths[name] = lines(name) + max((lengths[high] for high in above), default=0)
    return lengths


def lane(room, number):
    """A copy of the sources."""
    to = f"{room}/{number}"
    shutil.copytree(f"{TOP}/crates", f"{to}/crates", ignore=shutil.ignore_patterns("out"), symlinks=True)
    for name in ("crates.txt", "HANDLES"):
        shutil.copy(f"{TOP}/{name}", to)
    return to


def link(source, target):
    """One file in two places, or a copy where they lie on two file systems."""
    try:
        os.link(source, target)
    except OSError:
        shutil.copy2(source, target)


def hand_on(name, source, target, give=link):
    """Gives one copy of the sources what another has proved of a library."""
    proved, room = (f"{place}/crates/{name}/out" for place in (source, target))
    if os.path.isdir(proved):
        shutil.rmtree(room, ignore_errors=True)
        shutil.copytree(proved, room, copy_function=give)


def prove(lanes, lows, name, jobs):
    """Proves one library, whose own libraries are there, in a lane that is free, on so many processors."""
    place, begun = lanes.get(), time.monotonic()
    words = ["rt", "lib", "--jobs", str(jobs)]
    try:
        for low in lows:
            if not os.path.isdir(f"{place}/crates/{low}/out"):
                hand_on(low, TOP, place)
        # a check writes here: so nothing of it is linked
        hand_on(name, TOP, place, give=shutil.copy2)
        proof = subprocess.run(words, cwd=f"{place}/crates/{name}", capture_output=True, text=True)
        # of a proof that failed too: what it has of its functions is not proved again
        hand_on(name, place, TOP)
    finally:
        lanes.put(place)
    return proof, time.monotonic() - begun


def prove_all(below, left, lanes):
    """Proves the libraries, lowest first, and gives those that are. Where one is not, no more are begun."""
    chain, running, idle = chains(below, left), {}, LANES
    done = set()
    with concurrent.futures.ThreadPoolExecutor(LANES) as pool:
        while left or running:
            ready = sorted((name for name in left if done.issuperset(below[name])), key=lambda name: -chain[name])
            for place, name in enumerate(ready[:idle]):
                jobs = max(1, idle // (len(ready) - place))
                running[pool.submit(prove, lanes, libraries(below, name), name, jobs)] = name, jobs
                left.remove(name)
                idle -= jobs
            ended, _ = concurrent.futures.wait(running, return_when=concurrent.futures.FIRST_COMPLETED)
            for proof in ended:
                name, jobs = running.pop(proof)
                idle += jobs
                result, seconds = proof.result()
                if result.returncode:
                    print(f"{result.stdout}{result.stderr}prove.py: {name} is not proved", file=sys.stderr)
                    left.clear()
                    continue
                print(f"{name}: {seconds:.0f} seconds", file=sys.stderr)
                done.add(name)
    return done


def main():
    below = crates()
    if len(sys.argv) != 2 or sys.argv[1] not in below:
        sys.exit("usage: scripts/building/prove.py CRATE")
    left = libraries(below, sys.argv[1])
    count = len(left)
    with tempfile.TemporaryDirectory(prefix="prove-") as room:
        lanes = queue.Queue()
        for number in range(min(LANES, count)):
            lanes.put(lane(room, number))
        if len(prove_all(below, left, lanes)) < count:
            sys.exit(1)


if __name__ == "__main__":
    main()
