#!/bin/sh
# Times the proved program on a question about any one failed link, or as many as FAILURES says, over rings of 4 to 64 routers, a full mesh of 8, and grids
# of 3 by 3, 4 by 4 and 8 by 8 that run OSPF; the same with one learnt clause at most, which is the encoding; and minisat, cadical
# and z3, those that are there, on the same clauses, in seconds of processor. A run of more than two minutes is cut. Needs the proved program (.ci/run
# or ./mw --proved), Python 3 and GNU time.
set -eu
top=$(cd -P -- "$(dirname -- "$0")/.." && pwd -P)
program=${PROGRAM:-$top/crates/mw_cli/out/mw_cli}
[ -x "$program" ] || { echo "prove the program first: ./mw --proved" >&2; exit 1; }
dir=$(mktemp -d)
trap 'rm -rf "$dir"' EXIT
python3 - "$dir" <<'END'
import os
import sys

top = sys.argv[1]
failures = os.environ.get("FAILURES", "1")

def network(name, ends, last):
    """Routers with a loopback each, and a link of cost 1 for each pair of routers."""
    os.mkdir(os.path.join(top, name))
    interfaces = {}
    for link, (a, b) in enumerate(ends):
        interfaces.setdefault(a, []).append((link, 1))
        interfaces.setdefault(b, []).append((link, 2))
    for router, held in interfaces.items():
        lines = [f"hostname R{router}"]
        for at, (link, side) in enumerate(held):
            lines.append(f"interface GigabitEthernet0/{at}")
            lines.append(f" ip address 10.200.{link}.{side} 255.255.255.252")
        lines += ["interface Loopback0", f" ip address 10.100.{router}.1 255.255.255.255"]
        lines += ["router ospf 1", " network 10.0.0.0 0.255.255.255 area 0"]
        with open(os.path.join(top, name, f"r{router:02}.cfg"), "w") as file:
            file.write("\n".join(lines) + "\n")
    with open(os.path.join(top, name, "questions.txt"), "w") as file:
        file.write(f"g1 reach from R0 to router R{last} packets ip any any 10.100.{last}.1/32 any failures {failures}\n")

for count in (4, 8, 16, 32, 64):
    network(f"ring-{count:02}", [(r, (r + 1) % count) for r in range(count)], count // 2)
network("mesh-08", [(a, b) for a in range(8) for b in range(a + 1, 8)], 7)
for side in (3, 4, 8):
    right = [(side * y + x, side * y + x + 1) for y in range(side) for x in range(side - 1)]
    down = [(side * y + x, side * y + x + side) for y in range(side - 1) for x in range(side)]
    network(f"grid-{side}x{side}", right + down, side * side - 1)
END
# The clauses of a log, in the form that other solvers read.
clauses() {
    awk '/^i / { count++; for (at = 3; at < NF; at++) { v = $at < 0 ? -$at : $at; if (v > vars) vars = v }
            $1 = ""; $2 = ""; lines[count] = substr($0, 3) }
        END { print "p cnf " vars, count; for (at = 1; at <= count; at++) print lines[at] }' "$1"
}

# The seconds that a solver takes for the clauses.
solved() {
    if command -v "$1" >/dev/null; then
        timeout 120 /usr/bin/time -o "$dir/time" -f '%U s' "$@" >/dev/null 2>&1 || true
        printf ', %s %s' "$1" "$(tail -n 1 "$dir/time")"
    fi
}

for network in "$dir"/*; do
    printf '%s: ' "$(basename "$network")"
    timeout 120 /usr/bin/time -f '%U s, %M KB' "$program" --log "$network/log" verify "$network/questions.txt" \
        "$network"/*.cfg 2>&1 | grep -v '^{' | tr '\n' ' '
    /usr/bin/time -o "$dir/time" -f '%U s' "$program" verify --conflicts 1 "$network/questions.txt" "$network"/*.cfg \
        >/dev/null || true
    printf 'encoded in %s, ' "$(tail -n 1 "$dir/time")"
    printf '%s clauses, %s learnt' "$(grep -c '^i' "$network/log")" "$(grep -c '^a' "$network/log")"
    clauses "$network/log" >"$network/cnf"
    solved minisat "$network/cnf"
    solved cadical -q "$network/cnf"
    solved z3 -dimacs "$network/cnf"
    echo
    rm "$network/log"
done
