#!/bin/sh
# Proves the connector with every crate that it stands on, builds it, and says where the program
# lies. Where a folder is named, it is installed there.
#
#     scripts/build.sh
#     scripts/build.sh ~/.local/bin
#
# It needs rt and python3. In a fresh clone the proofs take an hour; building/prove.py has them run
# side by side. What was proved is kept in crates/*/out, so that a second build takes a minute or two. Where a
# proof fails, no program is built or installed, and one of an earlier build stays as it was.
set -eu

if [ $# -gt 1 ]; then
    echo "usage: scripts/build.sh [FOLDER]" >&2
    exit 2
fi
folder=${1:-}
case $folder in
-*) echo "usage: scripts/build.sh [FOLDER]" >&2; exit 2 ;;
"" | /*) ;;
*) folder=$PWD/$folder ;;
esac

crate=$(CDPATH= cd -- "$(dirname -- "$0")/../crates/connector" && pwd)
cd "$crate"
../../scripts/building/prove.py connector
told=$(mktemp)
trap 'rm -f "$told"' EXIT
trap 'exit 1' INT TERM
rt run -- replay - <stdin >"$told"
cmp "$told" stdout || { echo "build.sh: the built program does not print what it should" >&2; exit 1; }
program=$crate/out/connector
if [ -n "$folder" ]; then
    mkdir -p "$folder"
    install -m 755 "$program" "$folder/connector"
    program=$folder/connector
fi
echo "proved and built: $program"
