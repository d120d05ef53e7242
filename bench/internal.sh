#!/bin/sh
# Internal BGP: routers of one AS over OSPF in a ring, with sessions between loopbacks, each to each or through two
# reflectors, and two of them with an external peer. The question is whether a router's packets to an address outside can
# leave to the first peer; and, with internal routes alone, whether they reach the subnet of the first router. A line for
# each question: beside.sh says what stands in it. SIZES (4 8 16) and FAILURES (0 1) may be set, and PROGRAM and
# LIMIT as there. With FILES the networks are written into that empty folder and nothing is timed.
set -eu
here=$(cd -P -- "$(dirname -- "$0")" && pwd -P)
if [ -n "${FILES-}" ]; then
    dir=$FILES
else
    dir=$(mktemp -d)
    trap 'rm -rf "$dir"' EXIT
fi
python3 - "$dir" ${SIZES:-4 8 16} <<'END'
import os
import sys

def neighbour(n, *more):
    at = f"10.255.0.{n + 1}"
    lines = [f" neighbor {at} remote-as 65000", f" neighbor {at} update-source Loopback0"]
    return lines + [f" neighbor {at} {word}" for word in more]

def router(n, count, reflected, peers):
    lines = [f"hostname N{n + 1}", "interface Loopback0", f" ip address 10.255.0.{n + 1} 255.255.255.255"]
    for at, link, host in ((0, n, 1), (1, (n - 1) % count, 2)):
        lines += [f"interface GigabitEthernet0/{at}", f" ip address 10.0.{link}.{host} 255.255.255.252"]
    external = peers and n in (0, count // 2)
    if external:
        lines += ["interface GigabitEthernet0/2", f" ip address 192.0.{n}.1 255.255.255.252"]
    elif n == 0:
        lines += ["interface GigabitEthernet0/2", " ip address 172.16.0.1 255.255.255.0"]
    lines += ["router ospf 1", " network 10.0.0.0 0.255.255.255 area 0", "router bgp 65000"]
    if external:
        lines += [f" neighbor 192.0.{n}.2 remote-as {64500 + n}"]
    elif n == 0:
        lines += [" network 172.16.0.0 mask 255.255.255.0"]
    own = ["next-hop-self"] if n in (0, count // 2) else []
    for m in range(count):
        if m == n or reflected and n not in (1, 2) and m not in (1, 2):
            continue
        client = ["route-reflector-client"] if reflected and n in (1, 2) and m not in (1, 2) else []
        lines += neighbour(m, *own, *client)
    return lines

top = sys.argv[1]
for count in map(int, sys.argv[2:]):
    for reflected in (False, True):
        for peers in (False, True):
            name = f"{'reflected' if reflected else 'mesh'}-{count}-{'peers' if peers else 'inside'}"
            os.mkdir(os.path.join(top, name))
            for n in range(count):
                with open(os.path.join(top, name, f"r{n + 1}.cfg"), "w") as file:
                    file.write("\n".join(router(n, count, reflected, peers)) + "\n")
            for k in range(9):
                ask = (f"q isolate from N4 to peer N1 192.0.0.2 packets ip any any 203.0.113.9/32 any failures {k}" if peers
                       else f"q reach from N4 to router N1 packets icmp any any 172.16.0.1/32 any failures {k}")
                with open(os.path.join(top, name, f"q{k}"), "w") as file:
                    file.write(ask + "\n")
END
[ -z "${FILES-}" ] || exit 0
for net in "$dir"/*; do
    for k in ${FAILURES:-0 1}; do
        "$here/beside.sh" "$(basename "$net"), failures $k" "$net/q$k" "$net"/*.cfg
    done
done
