#!/bin/sh
# Prints how long the interior distances of a network take, for each of its links failed: rings of 16, 32 and 64 routers in
# which each router has a second link to the one behind the next, all with OSPF, so 64, 128 and 256 adjacencies.
# The program is proved and built in a folder of its own, from a copy of the crates. Needs Python 3.
set -e
here=$(cd "$(dirname "$0")" && pwd)
work=$(mktemp -d)
trap 'rm -rf "$work"' EXIT
mkdir -p "$work/crates/time_distances/src"
for crate in $("$here/../below.sh" proto_ospf ios_reader); do
    cp -r "$here/../../crates/$crate" "$work/crates/$crate"
    grep "^$crate:" "$here/../../crates.txt" >> "$work/crates.txt"
done
cp "$here/main.rt.in" "$work/crates/time_distances/src/main.rt"
printf 'time_distances: proto_ospf net_model ios_reader ios_policy_reader ios_ast route_record mw_text\n' >> "$work/crates.txt"
cd "$work/crates/time_distances"
rt run > "$work/log" 2>&1 < /dev/null || { cat "$work/log"; exit 1; }
for count in 16 32 64; do
    python3 - "$count" <<'END' | ./out/time_distances
import sys

count = int(sys.argv[1])
links = [(r, (r + 1) % count) for r in range(count)] + [(r, (r + 2) % count) for r in range(count)]
held = {}
for link, (a, b) in enumerate(links):
    held.setdefault(a, []).append((link, 1))
    held.setdefault(b, []).append((link, 2))
for router in range(count):
    print("%")
    print(f"hostname R{router}")
    for at, (link, side) in enumerate(held[router]):
        print(f"interface GigabitEthernet0/{at}")
        print(f" ip address 10.200.{link}.{side} 255.255.255.252")
    print("interface Loopback0")
    print(f" ip address 10.100.{router}.1 255.255.255.255")
    print("router ospf 1")
    print(" network 10.0.0.0 0.255.255.255 area 0")
END
done
