#!/bin/sh
# Runs the benchmark bench/NAME: main.rt.in, a Rattle program over this repository's crates, and
# bench/baselines/NAME.rs, the same work in plain Rust. Prints the nanoseconds of a turn and their
# ratio, and then the instructions of a turn, which don't move with the machine (but for `desk` and
# `journal`, whose rows are no input). For `desk` it prints forwards a second too, and for `journal` the
# same of one `Vec` in Rust, in rows that begin with `vec_`.
#
#     scripts/bench.sh packets
#     scripts/bench.sh quote
#     scripts/bench.sh quantity
#     scripts/bench.sh http
#     scripts/bench.sh journal
#     scripts/bench.sh book
#     scripts/bench.sh carried
#     scripts/bench.sh periods
#     scripts/bench.sh desk
#     scripts/bench.sh answer
#     scripts/bench.sh report
#     scripts/bench.sh serve
#     scripts/bench.sh log
#     scripts/bench.sh period
#
# The last three are another thing: the whole connector, proved and built by scripts/build.sh (or the program
# that CONNECTOR names), under load beside nginx and plain Rust, and `log` beside PostgreSQL and SQLite too; and
# how long it pauses between two periods, and what it takes over many. They need wrk, and the first two nginx;
# bench/serve/serve.py, scripts/benching/log.py and scripts/benching/period.py say what they print and take.
#
# A turn of `carried` is an entry that is saved or carried over. `periods` has no baseline: it prints how many
# entries and keys the books have that are closed, and the nanoseconds that bringing them forward takes.
#
# With LARGE=1 in the environment `book`, `carried` and `periods` have their rows of 16,000,000 entries alone,
# which take 4 to 6 GB, and count no instructions; `log` has as many before its starts.
#
# It works on a copy of the repository in a temporary folder (TMPDIR says where). It needs rt, rustc
# and python3, and valgrind for the instructions. The Rattle program is proved before it is built
# (`rt run`): a build without proof (`rt try`) has checks in it and is slower. In a fresh clone that
# takes some minutes. ROUNDS is how often each program runs; of each row the least time counts, since
# other work on the machine can only add to it. With ROUNDS=0 only the instructions are counted.
set -eu

name=${1:?usage: scripts/bench.sh NAME}
rounds=${ROUNDS:-15}
top=$(cd "$(dirname "$0")/.." && pwd)
bench="$top/bench/$name"
work=$(mktemp -d)
trap 'rm -rf "$work"' EXIT

if [ "$name" = serve ] || [ "$name" = log ] || [ "$name" = period ]; then
    case $name in
        serve) baseline=$top/bench/baselines/serve.rs; script=$bench/serve.py ;;
        log) baseline=$top/scripts/benching/appending.rs; script=$top/scripts/benching/log.py ;;
        period) baseline=; script=$top/scripts/benching/period.py ;;
    esac
    [ -z "$baseline" ] || rustc --edition 2024 -O "$baseline" -o "$work/baseline"
    rustc --edition 2024 -O "$top/bench/baselines/peer.rs" -o "$work/peer"
    if [ -z "${CONNECTOR:-}" ]; then
        "$top/scripts/build.sh" "$work/bin" >&2
        CONNECTOR="$work/bin/connector"
    fi
    python3 "$script" "$CONNECTOR" ${baseline:+"$work/baseline"} "$work/peer"
    exit
fi

copy="$work/repository"
mkdir "$copy"
cp -r "$top/crates" "$top/crates.txt" "$top/HANDLES" "$copy"
mkdir -p "$copy/crates/bench_$name/src"
cp "$bench/main.rt.in" "$copy/crates/bench_$name/src/main.rt"
if [ -d "$bench/proofs" ]; then
    cp -r "$bench/proofs" "$copy/crates/bench_$name"
    find "$copy/crates/bench_$name/proofs" -name '*.in' | while read -r file; do mv "$file" "${file%.in}"; done
fi
printf '\nbench_%s: %s\n' "$name" "$(cat "$bench/uses")" >>"$copy/crates.txt"
if [ -f "$bench/$name.py" ]; then python3 "$bench/$name.py"; fi >"$work/input"

echo "proves and builds the Rattle program (rt run) ..." >&2
cd "$copy/crates/bench_$name"
rt run <"$work/input" >"$work/first" 2>"$work/log" || { cat "$work/log" >&2; exit 1; }
if [ "$name" = periods ]; then
    cat "$work/first"
    exit
fi
cpu=$(sed -n 's/^logic=.* cpu=\([^ ]*\).*/\1/p' "$work/log" | tail -n 1)
rustc --edition 2024 -O -C "target-cpu=$cpu" "$top/bench/baselines/$name.rs" -o "$work/baseline"

echo "Rattle: proved and built by rt run, for $cpu. Rust: rustc -O for $cpu, std alone."
if [ "$rounds" -gt 0 ]; then
    for _ in $(seq "$rounds"); do
        "out/bench_$name" <"$work/input" | sed 's/^/rattle /'
        "$work/baseline" <"$work/input" | sed 's/^/rust /'
    done >"$work/rows"
    echo "Nanoseconds of a turn, the least of $rounds rounds."
    python3 "$top/scripts/benching/table.py" "$work/rows"
    if [ "$name" = desk ]; then
        echo "Forwards a second, the most of $rounds rounds."
        awk '{ row = $1 " " $2; rate = $3 * 1e9 / $4; if (!(row in most)) rows[++n] = row
            if (rate > most[row]) most[row] = rate }
            END { for (i = 1; i <= n; i++) printf "%-30s %10d\n", rows[i], most[rows[i]] }' "$work/rows"
    fi
fi
if [ -s "$work/input" ] && [ -z "${LARGE:-}" ] && command -v valgrind >/dev/null; then
    echo "Instructions of a turn, by callgrind."
    python3 "$top/scripts/benching/instructions.py" "$work/input" "out/bench_$name" "$work/baseline"
fi
