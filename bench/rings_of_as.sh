#!/bin/sh
# External BGP: rings of 4, 8 and 16 AS of one router each, each with a peer outside, no failed link and any one. The first
# AS announces a network of its own, and no router takes 10.0.0.0/8 or what is inside from its peer. Asked is whether
# packets from the AS opposite come to that network, which holds; and whether packets to an address outside can leave to
# the first peer, which is broken. A line for each question: beside.sh says what stands in it. SIZES (4 8 16) and FAILURES
# (0 1) may be set, and PROGRAM and LIMIT as there.
set -eu
here=$(cd -P -- "$(dirname -- "$0")" && pwd -P)
nets=$(mktemp -d)
trap 'rm -rf "$nets"' EXIT
python3 - "$nets" ${SIZES:-4 8 16} <<'END'
import os
import sys

def router(n, count):
    """The AS of that place: its two links, its peer, and a network where it is the first."""
    lines = [f"hostname N{n + 1}"]
    for at, link, host in ((0, n, 1), (1, (n - 1) % count, 2)):
        lines += [f"interface GigabitEthernet0/{at}", f" ip address 10.0.{link}.{host} 255.255.255.252"]
    lines += ["interface GigabitEthernet0/2", f" ip address 192.0.{n}.1 255.255.255.252"]
    if n == 0:
        lines += ["interface Loopback0", " ip address 10.50.0.1 255.255.255.0"]
    lines += [f"router bgp {65001 + n}"]
    if n == 0:
        lines += [" network 10.50.0.0 mask 255.255.255.0"]
    lines += [f" neighbor 10.0.{n}.2 remote-as {65001 + (n + 1) % count}"]
    lines += [f" neighbor 10.0.{(n - 1) % count}.1 remote-as {65001 + (n - 1) % count}"]
    lines += [f" neighbor 192.0.{n}.2 remote-as {64501 + n}", f" neighbor 192.0.{n}.2 prefix-list OURS in"]
    return lines + ["ip prefix-list OURS seq 5 deny 10.0.0.0/8 le 32", "ip prefix-list OURS seq 10 permit 0.0.0.0/0 le 32"]

top = sys.argv[1]
for count in map(int, sys.argv[2:]):
    name = os.path.join(top, f"{count:02}")
    os.mkdir(name)
    for n in range(count):
        with open(os.path.join(name, f"r{n + 1:02}.cfg"), "w") as file:
            file.write("\n".join(router(n, count)) + "\n")
    opposite = count // 2 + 1
    for k in range(9):
        with open(os.path.join(name, f"inside{k}"), "w") as file:
            file.write(f"q reach from N{opposite} to router N1 packets icmp any any 10.50.0.1/32 any failures {k}\n")
        with open(os.path.join(name, f"outside{k}"), "w") as file:
            file.write(f"q isolate from N{opposite} to peer N1 192.0.0.2 packets ip any any 203.0.113.9/32 any failures {k}\n")
END
for net in "$nets"/*; do
    for what in inside outside; do
        for k in ${FAILURES:-0 1}; do
            "$here/beside.sh" "ring of $(basename "$net") AS, $what, failures $k" "$net/$what$k" "$net"/*.cfg
        done
    done
done
