"""Prints a question, a counterexample to it and a ring of routers with full tables, each behind a line %."""
import json
import sys

count = int(sys.argv[1])
packet = {"dport": 0, "dst": "203.0.113.9", "proto": 1, "sport": 0, "src": "10.200.0.1"}

print("%")
print("q1 noblackhole from Ring1 packets icmp 10.200.0.1/32 any 203.0.113.9/32 any failures 0")


def slot(router, length):
    return {
        "bgp": {
            "clusters": ["1.2.3.4", "5.6.7.8"],
            "communities": [6553600 + length + 100 * at for at in range(8)],
            "from": "local",
            "localpref": 100,
            "med": 7,
            "nexthop": "0.0.0.0",
            "origin": "incomplete",
            "originator": "9.9.9.9",
            "path": [65001 + at for at in range(9)] + [4200000000],
            "weight": 32768,
        },
        "len": length,
        "ospf": {"cost": 1 + router, "kind": "ext2", "metric": 20},
        "rib": {"distance": 110, "source": "ospf"},
        "router": f"Ring{router}",
    }


told = {
    "announcements": [],
    "failures": [],
    "format": 2,
    "packet": packet,
    "peers": [],
    "question": "q1",
    "tables": [slot(router, length) for router in range(count) for length in range(33)],
    "walk": {"end": "noroute", "hops": [{"router": "Ring1"}]},
}
print("%")
print(json.dumps(told, separators=(",", ":"), sort_keys=True))
for router in range(count):
    print("%")
    print(f"hostname Ring{router}")
    for at in range(2):
        print(f"interface GigabitEthernet0/{at}")
        print(f" ip address 10.200.{(router + at) % count}.{2 - at} 255.255.255.252")
    print("router ospf 1")
    print(" network 10.200.0.0 0.0.255.255 area 0")
    print(f"router bgp {65000 + router}")
