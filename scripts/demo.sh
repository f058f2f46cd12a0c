#!/bin/sh
# A network in ten seconds: two connectors, a receiver and two settlement engines on this machine.
#
#     scripts/demo.sh [--quick] [--ports FIRST] [--keep FOLDER]
#
# It sends packets through both connectors, some of which must be rejected, kills one of them and starts it again,
# lets settlements be made, refused and lost, closes both, starts both again over their journals, and sends more.
# A line says what each step does; in the end their statements of each other are held against each other, and both
# reports are printed. What both books must come to is reckoned
# beside them, from what was sent and from the fees and prices of scripts/demonstration/*.toml. The exit status is
# 0 only where both reports are just that, and agree with each other; 1 where something differs, and 2 where
# something is missing.
#
# It takes the program of scripts/build.sh, or the one that CONNECTOR names. With --quick it builds one without
# a proof first, by the kit's rt. It needs Python 3.11 and curl, and eight free ports from FIRST (7810) on. With
# --keep the configurations, the journals and the lines of all programs stay in a folder, which must be new.
set -eu

if ! command -v python3 >/dev/null; then
    echo "demo.sh: python3 is not on the path: install Python 3.11 or later" >&2
    exit 2
fi
if ! python3 -c 'import sys; sys.exit(sys.version_info < (3, 11))'; then
    echo "demo.sh: $(python3 -V) is too old: put Python 3.11 or later on the path as python3" >&2
    exit 2
fi
if ! command -v curl >/dev/null; then
    echo "demo.sh: curl is not on the path: install it" >&2
    exit 2
fi

scripts=$(CDPATH='' cd -- "$(dirname -- "$0")" && pwd)
exec python3 "$scripts/demonstrate.py" "$@"
