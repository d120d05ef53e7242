#!/bin/sh
# Times the proved program on counterexamples over rings of 16, 32 and 64 routers that run OSPF, with 100 external BGP peers
# at two of them. One router redistributes a static route of each prefix length from 1 to 32, and originates the default
# route, so that every router has an OSPF route at each of the 33 lengths; all tables are tested. Needs the proved program
# (.ci/run or ./mw --proved), Python 3 and GNU time.
set -eu
top=$(cd -P -- "$(dirname -- "$0")/.." && pwd -P)
program=${PROGRAM:-$top/crates/mw_cli/out/mw_cli}
[ -x "$program" ] || { echo "prove the program first: ./mw --proved" >&2; exit 1; }
dir=$(mktemp -d)
trap 'rm -rf "$dir"' EXIT
python3 - "$dir" <<'END'
import ipaddress
import json
import os
import sys

top = sys.argv[1]
destination = ipaddress.ip_address("203.0.113.9")

def put(name, text):
    with open(os.path.join(top, name), "w") as file:
        file.write(text + "\n")

def peers_of(r):
    """The addresses of the external peers of a router, each on its own subnet."""
    return [f"192.168.{100 * r + at}.2" for at in range(50)] if r < 2 else []

def router(r, count):
    lines = [f"hostname Ring{r}"]
    for at in range(2):
        lines += [f"interface GigabitEthernet0/{at}", f" ip address 10.200.{(r + at) % count}.{2 - at} 255.255.255.252"]
    for at, peer in enumerate(peers_of(r)):
        lines += [f"interface GigabitEthernet1/{at}", f" ip address {peer[:-1]}1 255.255.255.252"]
    lines += ["router ospf 1", " network 10.200.0.0 0.0.255.255 area 0"]
    if r == 0:
        lines += [" redistribute static subnets", " default-information originate always"]
    if peers_of(r):
        lines += [f"router bgp {65000 + r}"]
        lines += [f" neighbor {peer} remote-as {64000 + at}" for at, peer in enumerate(peers_of(r))]
    if r == 0:
        for length in range(1, 33):
            net = ipaddress.ip_network(f"{destination}/{length}", strict=False)
            lines.append(f"ip route {net.network_address} {net.netmask} Null0")
    return "\n".join(lines)

def slot(r, length, count):
    hops = min(r, count - r)
    metric = 20 if length else 1
    slot = {"len": length, "ospf": {"cost": hops, "kind": "ext2", "metric": metric}, "router": f"Ring{r}"}
    if r:
        slot["rib"] = {"distance": 110, "source": "ospf"}
    elif length:
        slot["rib"] = {"distance": 1, "source": "static"}
    return slot

def ring(count):
    for r in range(count):
        put(f"ring{count}-{r}.cfg", router(r, count))
    peers = [
        {"address": peer, "asn": 64000 + at, "id": "1.1.1.1", "router": f"Ring{r}"}
        for r in range(2)
        for at, peer in enumerate(peers_of(r))
    ]
    told = {
        "announcements": [],
        "failures": [],
        "format": 2,
        "packet": {"dport": 0, "dst": str(destination), "proto": 1, "sport": 0, "src": "10.200.0.1"},
        "peers": peers,
        "question": "q1",
        "tables": [slot(r, length, count) for r in range(count) for length in range(33)],
        "walk": {"end": "discarded", "hops": [{"router": "Ring1"}, {"in": "GigabitEthernet0/1", "router": "Ring0"}]},
    }
    put(f"ring{count}.json", json.dumps(told, separators=(",", ":"), sort_keys=True))

for count in (16, 32, 64):
    ring(count)
put("q.txt", f"q1 noblackhole from Ring1 packets icmp any any {destination}/32 any failures 0")
END
run() {
    files=$(cd "$dir" && ls "$1"-*.cfg | sort -V)
    printed=$(cd "$dir" && /usr/bin/time -f "%e s, %M KB" -o figures "$program" replay "$1.json" q.txt $files | cut -c 1-160)
    echo "$1: $printed, $(tail -n 1 "$dir/figures")"
}
for set in ring16 ring32 ring64; do
    run "$set"
done
