#!/bin/sh
# Times the command `compare` of the second program: whether packets have the same fates in two networks, over
# examples/change-review; examples/office against itself; rings of 8, 16 and 32 OSPF routers, of which the second has one
# cost more at one interface; and full meshes and two reflectors among 8 (bench/internal.sh) against themselves, without and
# with external peers; each for as many failed links as FAILURES says (0 1). Prints the answer, the clauses, how many were
# learnt, the seconds of processor and the peak of memory. A run of more than two minutes is cut.
# Needs the program (PROGRAM, or the proved crates/mw_extra/out/mw_extra), Python 3 and GNU time.
set -eu
top=$(cd -P -- "$(dirname -- "$0")/.." && pwd -P)
program=${PROGRAM:-$top/crates/mw_extra/out/mw_extra}
[ -x "$program" ] || { echo "no program at $program" >&2; exit 1; }
dir=$(mktemp -d)
trap 'rm -rf "$dir"' EXIT
mkdir "$dir/nets"
FILES=$dir/nets SIZES=8 "$top/bench/internal.sh"

# compared NAME ASK LEFT RIGHT: one line for the ask about the networks of two folders.
compared() {
    printf '%s\n' "$2" >"$dir/asks"
    status=0
    timeout 120 /usr/bin/time -o "$dir/time" -f '%U s, %M KiB' "$program" --log "$dir/log" \
        compare "$(find "$3/" -maxdepth 1 -name '*.cfg' | wc -l)" "$dir/asks" "$3"/*.cfg "$4"/*.cfg >"$dir/out" || status=$?
    printf '%s: status %s, %s; %s clauses, %s learnt; %s\n' "$1" "$status" "$(grep -E '^(same|different) ' "$dir/out" || true)" \
        "$(grep -c '^i ' "$dir/log" || true)" "$(grep -c '^a ' "$dir/log" || true)" "$(tail -n 1 "$dir/time")"
}

# ring N: a ring of OSPF routers, and the same with one cost more at the first interface of the first router.
ring() {
    sh "$top/tools/ring_files.sh" "$1" "$dir/ring-$1"
    cp -r "$dir/ring-$1" "$dir/dear-$1"
    for f in "$dir/dear-$1"/g1.cfg "$dir/dear-$1"/g01.cfg; do
        if [ -f "$f" ]; then sed -i '3a\ ip ospf cost 2' "$f"; fi
    done
}

for k in ${FAILURES:-0 1}; do
    for from in LAB CORE; do
        compared "change-review, from $from, failures $k" \
            "q same from $from packets ip any any 192.0.2.0/24 any failures $k" \
            "$top/examples/change-review/old" "$top/examples/change-review/new"
    done
    compared "office against itself, failures $k" "q same from DESK packets ip any any any any failures $k" \
        "$top/examples/office" "$top/examples/office"
    for n in 8 16 32; do
        [ -d "$dir/ring-$n" ] || ring "$n"
        compared "ring of $n, one cost more, failures $k" \
            "q same from G1 packets icmp 10.200.1.1/32 any 10.200.$((n / 2)).1/32 any failures $k" \
            "$dir/ring-$n" "$dir/dear-$n"
    done
    for core in mesh-8 reflected-8; do
        compared "$core against itself, failures $k" "q same from N2 packets ip any any 10.255.0.8/32 any failures $k" \
            "$dir/nets/$core-inside" "$dir/nets/$core-inside"
        compared "$core with peers against itself, failures $k" "q same from N2 packets ip any any 198.18.0.0/24 any failures $k" \
            "$dir/nets/$core-peers" "$dir/nets/$core-peers"
    done
done
