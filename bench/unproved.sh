#!/bin/sh
# Times the build without proof that `./mw` makes (tools/optimised_build.sh), and then that program and the proved one in
# turn on a question about any one failed link over a ring of 64 routers that run OSPF: the least seconds of processor of
# ROUNDS runs each (10), and how many times the proved program's that is. Needs the proved program, or PROGRAM, and GNU
# time. UNPROVED names a build that was made before.
set -eu
top=$(cd -P -- "$(dirname -- "$0")/.." && pwd -P)
program=${PROGRAM:-$top/crates/mw_cli/out/mw_cli}
[ -x "$program" ] || { echo "prove the program first: ./mw --proved" >&2; exit 1; }
dir=$(mktemp -d)
trap 'rm -rf "$dir"' EXIT
unproved=${UNPROVED-}
if [ -z "$unproved" ]; then
    unproved=$dir/unproved
    began=$(date +%s)
    MW_QUIET=1 "$top/tools/optimised_build.sh" "$top/crates/mw_cli" "$unproved"
    echo "the build: $(($(date +%s) - began)) s by the clock"
fi

mkdir "$dir/ring"
for at in $(seq 0 63); do
    {
        printf 'hostname R%s\n' "$at"
        for side in 1 2; do
            link=$(((at + 64 + 1 - side) % 64))
            printf 'interface GigabitEthernet0/%s\n ip address 10.200.%s.%s 255.255.255.252\n' "$side" "$link" "$side"
        done
        printf 'interface Loopback0\n ip address 10.100.%s.1 255.255.255.255\n' "$at"
        printf 'router ospf 1\n network 10.0.0.0 0.255.255.255 area 0\n'
    } >"$dir/ring/r$(printf %02d "$at").cfg"
done
echo 'g1 reach from R0 to router R32 packets ip any any 10.100.32.1/32 any failures 1' >"$dir/questions"

for _ in $(seq "${ROUNDS:-10}"); do
    for which in proved unproved; do
        if [ "$which" = proved ]; then run=$program; else run=$unproved; fi
        /usr/bin/time -o "$dir/time" -f '%U' "$run" verify "$dir/questions" "$dir"/ring/*.cfg >"$dir/$which.out"
        echo "$which $(cat "$dir/time")"
    done
done >"$dir/times"
cmp "$dir/proved.out" "$dir/unproved.out"
awk '!($1 in least) || $2 < least[$1] { least[$1] = $2 }
    END { print "the ring of 64: " least["proved"] " s proved, " least["unproved"] " s without proof, " \
        sprintf("%.1f", least["unproved"] / least["proved"]) " times" }' "$dir/times"
