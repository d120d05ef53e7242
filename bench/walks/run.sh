#!/bin/sh
# Prints how many nodes the walks of two questions take as terms, beside the variables, and in what time, where slots hold
# routes at one prefix length alone: rings of 8, 16, 32 and 64 routers and a full mesh of 8, all with OSPF. The first question
# looks for walks of one hop, the second for walks of as many hops as there are routers. Behind them stand the nodes of the
# second divided by the routers times the hops, and those that it has more than the first, divided likewise: for n routers
# with so many interfaces each and m hops the terms grow as n times m.
# The program is built without proof in a folder of its own, from a copy of the crates; PROGRAM names one that was built
# before.
# Needs Python 3.
set -e
top=$(cd "$(dirname "$0")/../.." && pwd)
if [ -z "${PROGRAM:-}" ]; then
    work=$(mktemp -d)
    trap 'rm -rf "$work"' EXIT
    walks=$work/crates/walk_nodes
    mkdir -p "$walks/src" "$work/crates/random_networks/src"
    # The crates that the program and its networks name, and all that they stand on.
    known=$("$top/bench/below.sh" sym_walk question_lang sym_rib sym_policy ios_reader)
    for crate in $known; do
        cp -r "$top/crates/$crate" "$work/crates/$crate"
        rm -rf "$work/crates/$crate/out"
        grep "^$crate:" "$top/crates.txt" >> "$work/crates.txt"
    done
    for file in "$top"/bench/random/networks/*.rt.in; do
        cp "$file" "$work/crates/random_networks/src/$(basename "$file" .in)"
    done
    # The world of new variables.
    cp "$top/bench/random/worlds/symbolic.rt.in" "$walks/src/symbolic.rt"
    cp "$top/bench/walks/main.rt.in" "$walks/src/main.rt"
    echo random_networks: $known >> "$work/crates.txt"
    echo walk_nodes: random_networks $known >> "$work/crates.txt"
    "$top/tools/optimised_build.sh" "$walks" "$work/walk_nodes"
    PROGRAM=$work/walk_nodes
fi
for network in 'ring 8' 'ring 16' 'ring 32' 'ring 64' 'mesh 8'; do
    python3 - $network <<'END' | "$PROGRAM"
import sys

shape, count = sys.argv[1], int(sys.argv[2])
if shape == "ring":
    links = [(r, (r + 1) % count) for r in range(count)]
else:
    links = [(a, b) for a in range(count) for b in range(a + 1, count)]
held = {}
for link, (a, b) in enumerate(links):
    held.setdefault(a, []).append((link, 1))
    held.setdefault(b, []).append((link, 2))
for router in range(count):
    print("%")
    print(f"hostname R{router}")
    for at, (link, side) in enumerate(held[router]):
        print(f"interface GigabitEthernet0/{at}")
        print(f" ip address 10.200.{link}.{side} 255.255.255.252")
    print("interface Loopback0")
    print(f" ip address 10.100.{router}.1 255.255.255.255")
    print("router ospf 1")
    print(" network 10.0.0.0 0.255.255.255 area 0")
END
done
