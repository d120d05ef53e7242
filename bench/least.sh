#!/bin/sh
# Times the command `least` of the second program over rings of 4 to 32 routers, grids of 3 by 3, 4 by 4 and 5 by 5, and a full
# mesh of 6 that run OSPF, each asked with how few failed links, up to as many as FAILURES says (4), its first router no
# longer reaches its last. Prints the answer, the seconds of processor, the peak of memory, and how many clauses were learnt
# for each number that was tried. A run of more than two minutes is cut. Needs the program (PROGRAM, or the proved
# crates/mw_extra/out/mw_extra), Python 3 and GNU time.
set -eu
top=$(cd -P -- "$(dirname -- "$0")/.." && pwd -P)
program=${PROGRAM:-$top/crates/mw_extra/out/mw_extra}
[ -x "$program" ] || { echo "no program at $program" >&2; exit 1; }
dir=$(mktemp -d)
trap 'rm -rf "$dir"' EXIT
python3 - "$dir" "${FAILURES:-4}" <<'END'
import os
import sys

top, failures = sys.argv[1:]

def network(name, ends, last):
    """Routers with a loopback each, and a link of cost 1 for each pair of routers."""
    os.mkdir(os.path.join(top, name))
    interfaces = {}
    for link, (a, b) in enumerate(ends):
        interfaces.setdefault(a, []).append((link, 1))
        interfaces.setdefault(b, []).append((link, 2))
    for router, held in interfaces.items():
        lines = [f"hostname R{router}"]
        for at, (link, side) in enumerate(held):
            lines.append(f"interface GigabitEthernet0/{at}")
            lines.append(f" ip address 10.200.{link}.{side} 255.255.255.252")
        lines += ["interface Loopback0", f" ip address 10.100.{router}.1 255.255.255.255"]
        lines += ["router ospf 1", " network 10.0.0.0 0.255.255.255 area 0"]
        with open(os.path.join(top, name, f"r{router:02}.cfg"), "w") as file:
            file.write("\n".join(lines) + "\n")
    with open(os.path.join(top, name, "questions.txt"), "w") as file:
        file.write(f"q reach from R0 to router R{last} packets ip any any 10.100.{last}.1/32 any failures {failures}\n")

for count in (4, 8, 16, 32):
    network(f"ring-{count:02}", [(r, (r + 1) % count) for r in range(count)], count // 2)
for side in (3, 4, 5):
    right = [(side * y + x, side * y + x + 1) for y in range(side) for x in range(side - 1)]
    down = [(side * y + x, side * y + x + side) for y in range(side - 1) for x in range(side)]
    network(f"grid-{side}x{side}", right + down, side * side - 1)
network("mesh-06", [(a, b) for a in range(6) for b in range(a + 1, 6)], 5)
END
for folder in "$dir"/*/; do
    name=$(basename "$folder")
    status=0
    timeout 120 /usr/bin/time -o "$dir/time" -f '%U s, %M KiB' "$program" --log "$dir/log" least "$folder/questions.txt" \
        "$folder"*.cfg >"$dir/out" || status=$?
    learnt=$(awk '/^q / { if (NR > 1) printf "%d ", n; n = 0 } /^a / { n++ } END { print n }' "$dir/log")
    printf '%s: status %s, %s: %s; learnt %s\n' "$name" "$status" "$(tail -n 1 "$dir/time")" \
        "$(grep -v '^{' "$dir/out" || true)" "$learnt"
done
