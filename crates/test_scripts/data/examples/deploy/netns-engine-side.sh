#!/bin/sh
# Keeps the engine side apart by a network namespace, which this makes, or removes: the connector and its engines run
# in it and have a loopback of their own, so no other program reaches engine_listen at 127.0.0.1:7769.
#
#     netns-engine-side.sh up
#     netns-engine-side.sh down
#
# It needs root and iproute2. The namespace is joined to the machine by one link, which has 10.77.0.2 within and
# 10.77.0.1 outside. So the configuration has `listen = "10.77.0.2:7768"`, nginx-peers.conf passes to that address, and
# the servers of nginx-outbound.conf listen at 10.77.0.1, where each `host` points. Programs get into the namespace by
# `NetworkNamespacePath=/run/netns/ilp` in their unit (then IPAddressAllow needs 10.77.0.0/30), or by hand by
# `ip netns exec ilp PROGRAM`. Nothing in it reaches beyond that link: an engine that has to needs a proxy at 10.77.0.1.
set -eu

case ${1:-} in
up)
    ip netns add ilp
    ip link add ilp-outside type veth peer name ilp-within netns ilp
    ip address add 10.77.0.1/30 dev ilp-outside
    ip link set ilp-outside up
    ip -n ilp address add 10.77.0.2/30 dev ilp-within
    ip -n ilp link set ilp-within up
    ip -n ilp link set lo up
    ;;
down)
    ip netns delete ilp
    ;;
*)
    echo "usage: netns-engine-side.sh up|down" >&2
    exit 2
    ;;
esac
