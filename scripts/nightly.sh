#!/bin/sh
# Runs all that the gate leaves out, one after the other, over the proved program, and prints a line for each with its time.
#
#     scripts/nightly.sh
#     scripts/nightly.sh PATH/TO/connector
#
# The program is that of scripts/build.sh where none is named. A person or a timer starts it; it takes hours, most of
# them for the benchmarks, whose programs are proved first. What each run said stays in a folder, which the last line
# names. A run whose tools this machine lacks is told as `left out`. The exit status is 0 where every run held, 1 where
# one failed, and 2 where the program isn't there.
#
# SKIP names runs that are not wanted, as SKIP='benchmarks fronts'.
set -u

[ $# -le 1 ] || { echo "usage: scripts/nightly.sh [PATH/TO/connector]" >&2; exit 2; }
top=$(CDPATH='' cd -- "$(dirname -- "$0")/.." && pwd)
program=${1:-$top/crates/connector/out/connector}
case $program in /*) ;; *) program=$PWD/$program ;; esac
[ -x "$program" ] || { echo "nightly.sh: no program at $program: run scripts/build.sh first" >&2; exit 2; }
export CONNECTOR="$program"
cd "$top" || exit 2
said=$(mktemp -d "${TMPDIR:-/tmp}/nightly-XXXXXX")
failed=0

# NAME, what it needs on the path ('-': nothing), and the command.
run() {
    name=$1; needs=$2; shift 2
    case " ${SKIP:-} " in *" $name "*) return ;; esac
    for tool in $needs; do
        [ "$tool" = - ] || command -v "$tool" >/dev/null || { echo "$name: left out, since $tool is not on the path"; return; }
    done
    began=$(date +%s)
    if "$@" >"$said/$name" 2>&1; then what=held; else what="FAILED with $?"; failed=1; fi
    echo "$name: $what ($(($(date +%s) - began)) s)"
}

# What `rt run` builds of the crates that these runs take from crates/*/out.
built() {
    for crate in connector test_http test_scenes; do
        [ -x "crates/$crate/out/$crate" ] || (cd "crates/$crate" && rt run </dev/null) || return 1
    done
}
denied_growths() { built && scripts/gate/denied_growths.py; }
benchmarks() {
    for name in packets quote quantity http journal book carried desk answer report; do
        scripts/bench.sh "$name" || return 1
    done
}

run watching python3 scripts/check_watching.py
run demonstration "python3 curl" scripts/demo.sh
run cases python3 scripts/check.py "$program"
run statements python3 scripts/statements/try_statements.py
run kills python3 scripts/kills.py "$program"
run kill_periods python3 scripts/kill_periods.py "$program"
run long_run python3 scripts/long_run.py "$program"
run hub_hour python3 scripts/hub_hour.py "$program"
run denied_growths "rt cc python3" denied_growths
run wrapper "python3 curl unshare" scripts/try_wrapper.py
run fronts "python3 nginx curl openssl" scripts/try_front.sh
run wrong_bodies rt scripts/gate/wrong_bodies.sh
run load "wrk nginx rustc python3" scripts/bench.sh serve
run log "wrk rustc python3" scripts/bench.sh log
run period "wrk rustc python3" env PAUSES=3 scripts/bench.sh period
run benchmarks "rt rustc python3 valgrind" benchmarks
echo "what each said: $said"
exit $failed
