#!/bin/sh
# Tries the fronts of examples/deploy (nginx-peers.conf, nginx-outbound.conf) around a connector.
#
#     scripts/try_front.sh
#
# nginx, the connector, a receiver and stand-ins for peers run as ordinary processes at free ports of this machine,
# with certificates that are made for it. Of the two files only ports, names and paths are replaced. A packet goes
# through both fronts and is fulfilled, also where a peer answers in chunks; a slow sender, too many packets and too
# long ones never reach the connector; a peer whose certificate doesn't fit is sent nothing; and the engine side is
# not reached. Each is told in a line.
#
# It takes the program of scripts/build.sh, or the one that CONNECTOR names. It needs nginx, curl, openssl and Python
# 3.11. The exit status is 0 where all of it held, 1 where something differed, and 2 where something is missing.
set -eu

if ! python3 -c 'import sys; sys.exit(sys.version_info < (3, 11))' 2>/dev/null; then
    echo "try_front.sh: put Python 3.11 or later on the path as python3" >&2
    exit 2
fi
if [ $# -gt 0 ]; then
    echo "usage: scripts/try_front.sh" >&2
    exit 2
fi
cd "$(dirname "$0")"
exec python3 -m deploying.front
