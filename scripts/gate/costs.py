#!/usr/bin/env python3
"""Runs the gate on a clean clone of what is committed, and prints what each part of it cost: the
table of docs/GATE.md, in processor seconds, which depend less on what else runs than minutes do.

    scripts/gate/costs.py             one row a crate, of what was not kept from earlier gates
    scripts/gate/costs.py --anew      from nothing
    scripts/gate/costs.py --edits     each wrong body as well, dearest first
    scripts/gate/costs.py NAME ..     of these crates and those below them alone

It watches the prover's processes in /proc while the gate runs, so that what a process spent in its
last half second is missed, and what a copy of it spent that ended then; the line of the whole is what
the system counted. "Proof" counts building too. The gate's own output goes to standard error. The
exit status is the gate's.
"""
import collections
import os
import re
import resource
import subprocess
import sys
import tempfile
import time

TICK = os.sysconf("SC_CLK_TCK")
PROVER = re.compile(r"\S*/rattle (check|build) --crate-name (\w+) ")


def of_session(session):
    """The processes of the session, in the order of their start: identity, parent, command line,
    folder and processor seconds."""
    found = []
    for pid in filter(str.isdigit, os.listdir("/proc")):
        try:
            with open(f"/proc/{pid}/stat") as it:
                fields = it.read().rpartition(")")[2].split()
            if int(fields[3]) != session:
                continue
            with open(f"/proc/{pid}/cmdline") as it:
                line = it.read().replace("\0", " ")
            folder = os.readlink(f"/proc/{pid}/cwd")
        except (OSError, IndexError):
            continue
        # with what its own ended children spent
        spent = sum(int(field) for field in fields[11:15]) / TICK
        found.append(((pid, int(fields[19])), fields[1], line, folder, spent))
    return sorted(found, key=lambda it: it[0][1])


def watch(gate):
    """What each of the prover's processes was, and what it spent, in the order of their start. A
    prover forks copies, whose time it has itself once they ended."""
    seen, copies = {}, set()
    while gate.poll() is None:
        now = of_session(gate.pid)
        provers = {key[0] for key, _, line, *_ in now if PROVER.match(line)}
        for key, parent, line, folder, spent in now:
            found = PROVER.match(line)
            if not found or key in copies:
                continue
            if key not in seen and parent in provers:
                copies.add(key)
            else:
                seen[key] = (found[2], kind_of(line, folder), folder, spent)
        time.sleep(0.5)
    return list(seen.values())


def kind_of(line, folder):
    if "/rt-edit" in folder:
        return "edit"
    return "tests" if " --test" in line else "proof"


def names_of(clone, crate):
    folder = f"{clone}/crates/{crate}/must-fail"
    names = os.listdir(folder) if os.path.isdir(folder) else []
    return sorted(name.removesuffix(".edit") for name in names if name.endswith(".edit"))


def table(clone, seen):
    costs = collections.defaultdict(lambda: collections.defaultdict(list))
    for crate, kind, _, spent in seen:
        costs[crate][kind].append(spent)
    print("| Crate | proof | tests proved | wrong bodies | their checks | in all |")
    print("|---|---:|---:|---:|---:|---:|")
    whole = collections.Counter()
    for crate, kinds in costs.items():
        row = [sum(kinds[kind]) for kind in ("proof", "tests", "edit")]
        count = len(names_of(clone, crate))
        print(f"| {crate} | {row[0]:.0f} | {row[1]:.0f} | {count} | {row[2]:.0f} | {sum(row):.0f} |")
        whole.update(proof=row[0], tests=row[1], edit=row[2], count=count)
    told = whole["proof"], whole["tests"], whole["count"], whole["edit"]
    sums = whole["proof"] + whole["tests"] + whole["edit"]
    print("| all | {:.0f} | {:.0f} | {} | {:.0f} | {:.0f} |".format(*told, sums))
    return {crate: sum(sum(spent) for spent in kinds.values()) for crate, kinds in costs.items()}


def crates_below(clone):
    """What each crate stands on, by crates.txt."""
    with open(f"{clone}/crates.txt", encoding="utf-8") as lines:
        parts = [line.partition("#")[0].partition(":") for line in lines]
    below = {head.split()[0]: set(rest.split()) for head, colon, rest in parts if colon}
    for _ in below:
        for lows in below.values():
            lows.update(*(below.get(low, ()) for low in list(lows)))
    return below


def changes(clone, costs):
    """A change of a crate costs its own row and those of all crates above it."""
    below = crates_below(clone)
    print("\n| A change of | processor minutes |\n|---|---:|")
    for crate in costs:
        seconds = sum(spent for other, spent in costs.items() if other == crate or crate in below.get(other, ()))
        print(f"| {crate} | {seconds / 60:.0f} |")


def edits(clone, seen):
    """The wrong bodies of a crate are tried in the order of their names; a last check of the crate as
    it is follows, and those that were not refused are tried again."""
    rows = []
    for crate in dict.fromkeys(crate for crate, *_ in seen):
        spent = [it for name, kind, _, it in seen if (name, kind) == (crate, "edit")]
        names = names_of(clone, crate) + ["(the crate as it is)"]
        if spent and len(spent) < len(names):
            print(f"names of {crate} unknown: {[round(it) for it in spent]}")
            continue
        names += ["(again)"] * (len(spent) - len(names))
        rows += [(it, crate, name) for it, name in zip(spent, names)]
    for it, crate, name in sorted(rows, reverse=True):
        print(f"{it:7.1f} {crate} {name}")


def main():
    top = os.path.dirname(os.path.dirname(os.path.dirname(os.path.abspath(__file__))))
    with tempfile.TemporaryDirectory() as room:
        clone = f"{room}/clone"
        subprocess.run(["git", "clone", "-q", top, clone], check=True)
        began = time.time()
        passed_on = [word for word in sys.argv[1:] if word != "--edits"]
        gate = subprocess.Popen(["rt", "ci", *passed_on], cwd=clone, stdout=sys.stderr, start_new_session=True)
        try:
            seen = watch(gate)
        finally:
            gate.terminate()
            gate.wait()
        spent = resource.getrusage(resource.RUSAGE_CHILDREN)
        costs = table(clone, seen)
        changes(clone, costs)
        minutes = (spent.ru_utime + spent.ru_stime) / 60
        print(f"\n{minutes:.1f} processor minutes in {(time.time() - began) / 60:.1f} minutes, on {os.cpu_count()} cores.")
        if "--edits" in sys.argv[1:]:
            edits(clone, seen)
    return gate.returncode


if __name__ == "__main__":
    sys.exit(main())
