#!/bin/sh
# Times the proved program on questions of every kind over OSPF networks without BGP: rings of 8 to 64 routers, grids of 4 by 4 to 8 by 8 with
# equal costs and with costs from 1 to 100, a full mesh of 8, a fat tree of 4 ports (20 routers) and sparse random networks of 16, 32 and 48; with
# as many failed links as FAILURES says (any one), to one address, to a /24 and from anywhere to anywhere. Prints for each run the verdicts, the
# seconds of processor of the program, its clauses and those learnt, and the seconds that minisat and z3, those that are there, take for the same
# clauses of all its questions, one after another. A run of more than two minutes is cut. Needs the proved program (.ci/run or ./mw --proved) or
# PROGRAM, Python 3 and GNU time. NAME.. are the networks, all where none is given.
set -eu
top=$(cd -P -- "$(dirname -- "$0")/.." && pwd -P)
program=${PROGRAM:-$top/crates/mw_cli/out/mw_cli}
[ -x "$program" ] || { echo "prove the program first: ./mw --proved" >&2; exit 1; }
dir=$(mktemp -d)
trap 'rm -rf "$dir"' EXIT
python3 - "$dir" <<'END'
import os
import random
import sys

top = sys.argv[1]
failures = os.environ.get("FAILURES", "1")

def network(name, ends, last, cost=lambda link: None):
    """Routers with a loopback and a LAN each, a link for each pair, and files of questions."""
    os.mkdir(os.path.join(top, name))
    interfaces = {}
    for link, (a, b) in enumerate(ends):
        interfaces.setdefault(a, []).append((link, 1))
        interfaces.setdefault(b, []).append((link, 2))
    for router, held in interfaces.items():
        lines = [f"hostname N{router}"]
        for at, (link, side) in enumerate(held):
            lines.append(f"interface GigabitEthernet0/{at}")
            lines.append(f" ip address 10.200.{link}.{side} 255.255.255.252")
            if cost(link):
                lines.append(f" ip ospf cost {cost(link)}")
        lines += ["interface Loopback0", f" ip address 10.100.{router}.1 255.255.255.255"]
        lines += ["interface Vlan10", f" ip address 10.150.{router}.1 255.255.255.0"]
        lines += ["router ospf 1", " passive-interface Vlan10", " network 10.0.0.0 0.255.255.255 area 0"]
        with open(os.path.join(top, name, f"r{router:02}.cfg"), "w") as file:
            file.write("\n".join(lines) + "\n")
    for to, packets in (("address", f"10.100.{last}.1/32"), ("lan", f"10.150.{last}.0/24"), ("any", "any")):
        set_of = f"packets ip any any {packets} any failures {failures}"
        kinds = [
            f"reach from N0 to router N{last}",
            f"isolate from N0 to router N{last}",
            f"waypoint from N0 to router N{last} via N1",
            "noloop from N0",
            "noblackhole from N0",
            f"within {min(63, 2 * len(interfaces))} from N0",
            f"alike N0 N1 to router N{last}",
        ]
        for kind in kinds:
            with open(os.path.join(top, name, f"{to}-{kind.split()[0]}.q"), "w") as file:
                file.write(f"q {kind} {set_of}\n")

def grid(side):
    right = [(side * y + x, side * y + x + 1) for y in range(side) for x in range(side - 1)]
    down = [(side * y + x, side * y + x + side) for y in range(side - 1) for x in range(side)]
    return right + down

def sparse(count):
    """A tree with half as many links beside it."""
    chance = random.Random(count)
    tree = [(chance.randrange(at), at) for at in range(1, count)]
    more = set(tree)
    while len(more) < count - 1 + count // 2:
        a, b = sorted(chance.sample(range(count), 2))
        more.add((a, b))
    return sorted(more)

for count in (8, 16, 32, 64):
    network(f"ring-{count:02}", [(r, (r + 1) % count) for r in range(count)], count // 2)
for side in (4, 6, 8):
    chance = random.Random(side)
    costs = [chance.randint(1, 100) for _ in grid(side)]
    network(f"grid-{side}", grid(side), side * side - 1)
    network(f"costed-{side}", grid(side), side * side - 1, lambda link: costs[link])
network("mesh-08", [(a, b) for a in range(8) for b in range(a + 1, 8)], 7)
tree = []
for pod in range(4):
    for up in range(2):
        tree += [(4 + 4 * pod + up, 2 * up), (4 + 4 * pod + up, 2 * up + 1)]
        tree += [(4 + 4 * pod + up, 4 + 4 * pod + 2), (4 + 4 * pod + up, 4 + 4 * pod + 3)]
network("fat-tree", tree, 18)
for count in (16, 32, 48):
    network(f"sparse-{count}", sparse(count), count - 1)
END
# The clauses of a log, in the form that other solvers read.
clauses() {
    awk '/^i / { count++; for (at = 3; at < NF; at++) { v = $at < 0 ? -$at : $at; if (v > vars) vars = v }
            $1 = ""; $2 = ""; lines[count] = substr($0, 3) }
        END { print "p cnf " vars + 0, count + 0; for (at = 1; at <= count; at++) print lines[at] }' "$1"
}

# The seconds that a solver takes for the clauses.
solved() {
    if command -v "$1" >/dev/null; then
        timeout 120 /usr/bin/time -o "$dir/time" -f '%U' "$@" >/dev/null 2>&1 || true
        printf ', %s %s s' "$1" "$(tail -n 1 "$dir/time")"
    fi
}

[ $# -gt 0 ] || set -- $(cd "$dir" && ls -d */ | tr -d /)
for name do
    for asked in "$dir/$name"/*.q; do
        what=$(basename "$asked" .q)
        said=$(timeout 120 /usr/bin/time -o "$dir/time" -f '%U' "$program" --log "$dir/log" verify "$asked" "$dir/$name"/*.cfg | cut -c1-8) || true
        case $said in '{'*) said=broken ;; '') said=cut ;; *) said=${said%% *} ;; esac
        clauses "$dir/log" >"$dir/cnf"
        printf '%s %s: %s, %s s, %s clauses, %s learnt' "$name" "$what" "$said" "$(tail -n 1 "$dir/time")" \
            "$(grep -c '^i ' "$dir/log")" "$(grep -c '^a ' "$dir/log")"
        solved minisat -verb=0 "$dir/cnf"
        solved z3 -dimacs "$dir/cnf"
        echo
    done
done
