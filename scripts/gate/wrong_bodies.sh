#!/bin/sh
# Tries the wrong bodies that the gate leaves out: those of crates/NAME/wrong-bodies/, beside those of
# must-fail/, which the gate tries too. The prover must refuse each. Run it for a crate that changed.
#
#     scripts/gate/wrong_bodies.sh
#     scripts/gate/wrong_bodies.sh ilp_oer ilp_book
#
# Each takes as long as a check of its crate. While it runs they lie in must-fail/, and at the end they
# are put back. The exit status is 0 where each was refused.
set -eu
cd "$(dirname "$0")/../.."

[ $# -gt 0 ] || set -- $(cd crates && ls -d */wrong-bodies | cut -d / -f 1)
put_back() {
    for name; do
        for edit in "crates/$name/wrong-bodies"/*.edit; do
            rm -f "crates/$name/must-fail/$(basename "$edit")"
        done
        rmdir "crates/$name/must-fail" 2>/dev/null || true
    done
}
trap 'put_back "$@"' EXIT
trap 'exit 1' INT TERM
for name; do
    mkdir -p "crates/$name/must-fail"
    cp "crates/$name/wrong-bodies"/*.edit "crates/$name/must-fail"
done
rt must-fail "$@"
