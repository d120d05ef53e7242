#!/bin/sh
# Times the proved program on networks in which OSPF takes routes from a router's own table: the office of examples/office
# with its twelve questions, and a ring of 16 routers of which one redistributes a static route, asked about a loopback and
# about that route, each with any one failed link. Prints seconds of processor, memory, and the clauses of the questions and
# those learnt, as the log has them. Needs the proved program, or PROGRAM, and GNU time.
set -eu
top=$(cd -P -- "$(dirname -- "$0")/.." && pwd -P)
program=${PROGRAM:-$top/crates/mw_cli/out/mw_cli}
[ -x "$program" ] || { echo "prove the program first: ./mw --proved" >&2; exit 1; }
dir=$(mktemp -d)
trap 'rm -rf "$dir"' EXIT

# measured WHAT WORD..: what one run takes, and what its log holds.
measured() {
    what=$1
    shift
    /usr/bin/time -o "$dir/time" -f '%U s, %M kB' "$program" verify "$@" >/dev/null || true
    "$program" --log "$dir/log" verify "$@" >/dev/null || true
    echo "$what: $(tail -n 1 "$dir/time"); $(grep -c '^i' "$dir/log") clauses, $(grep -c '^a' "$dir/log") learnt"
}

office=$top/examples/office
measured "the office, twelve questions" "$office/questions.txt" "$office/edge.cfg" "$office/core.cfg" "$office/desk.cfg" "$office/depot.cfg"

mkdir "$dir/ring"
for at in $(seq 0 15); do
    {
        printf 'hostname ring-%s\n' "$at"
        for side in 1 2; do
            link=$(((at + 16 + 1 - side) % 16))
            printf 'interface GigabitEthernet0/%s\n ip address 10.200.%s.%s 255.255.255.252\n' "$side" "$link" "$side"
        done
        printf 'interface Loopback0\n ip address 10.100.%s.1 255.255.255.255\n' "$at"
        if [ "$at" -eq 0 ]; then
            printf 'interface GigabitEthernet0/3\n ip address 10.201.0.1 255.255.255.0\n'
            printf 'ip route 172.16.0.0 255.255.0.0 10.201.0.2\n'
        fi
        printf 'router ospf 1\n'
        if [ "$at" -eq 0 ]; then printf ' redistribute static subnets\n'; fi
        printf ' network 10.0.0.0 0.255.255.255 area 0\n'
    } >"$dir/ring/r$(printf %02d "$at").cfg"
done
echo 'g1 reach from ring-1 to router ring-8 packets ip any any 10.100.8.1/32 any failures 1' >"$dir/loopback"
echo 'g1 noblackhole from ring-8 packets ip any any 172.16.0.0/16 any failures 1' >"$dir/static"
measured "the ring of 16, to a loopback" "$dir/loopback" "$dir"/ring/*.cfg
measured "the ring of 16, to the redistributed route" "$dir/static" "$dir"/ring/*.cfg
