#!/bin/sh
# Times `simulate`: rings of 8, 32 and 64 routers that run OSPF, from the start to the quiet state of one destination, by
# events that come by themselves; then rings of routers of as many AS, each of which speaks external BGP with both
# neighbours. Prints for each how many events that takes, the seconds of processor of a run beyond those of a run of one
# event, as the mean of ROUNDS (20), and how many events a second that is. Needs the proved program (.ci/run or ./mw --proved), or the one that PROGRAM names, and GNU
# time. SIZES names other rings.
set -eu
top=$(cd -P -- "$(dirname -- "$0")/.." && pwd -P)
program=${PROGRAM:-$top/crates/mw_cli/out/mw_cli}
[ -x "$program" ] || { echo "prove the program first: ./mw --proved" >&2; exit 1; }
work=$(mktemp -d)
trap 'rm -rf "$work"' EXIT
cd "$work"

# router KIND COUNT AT: a router of the ring, with a link to each neighbour.
router() {
    printf 'hostname R%s\n' "$3"
    for side in 1 2; do
        link=$((($3 + $2 + 1 - side) % $2))
        printf 'interface GigabitEthernet0/%s\n ip address 10.200.%s.%s 255.255.255.252\n' "$side" "$link" "$side"
    done
    printf 'interface Loopback0\n ip address 10.100.%s.1 255.255.255.255\n' "$3"
    if [ "$1" = ospf ]; then
        printf 'router ospf 1\n network 10.0.0.0 0.255.255.255 area 0\n'
    else
        printf 'router bgp %s\n network 10.100.%s.1 mask 255.255.255.255\n' $((65000 + $3)) "$3"
        printf ' neighbor 10.200.%s.2 remote-as %s\n' "$3" $((65000 + ($3 + 1) % $2))
        printf ' neighbor 10.200.%s.1 remote-as %s\n' $((($3 + $2 - 1) % $2)) $((65000 + ($3 + $2 - 1) % $2))
    fi
}

# after COUNT: what the network says after so many events.
after() {
    printf 'dst 10.100.0.1\nrun %s\n' "$1" >events
    "$program" simulate events ring/*.cfg | head -n 1
}

# seconds COUNT: those of ROUNDS runs of so many events.
seconds() {
    printf 'dst 10.100.0.1\nrun %s\n' "$1" >events
    # shellcheck disable=SC2016
    /usr/bin/time -o times -f '%U' sh -c 'for _ in $(seq "$1"); do "$2" simulate events ring/*.cfg >said; done; true' \
        sh "${ROUNDS:-20}" "$program"
    tail -n 1 times
}

for kind in ospf bgp; do
    for size in ${SIZES:-8 32 64}; do
        rm -rf ring
        mkdir ring
        for at in $(seq 0 $((size - 1))); do router "$kind" "$size" "$at" >"ring/r$(printf %02d "$at").cfg"; done
        # The least number of events after which it is quiet, between one that is too small and one that is not.
        few=0 many=1
        while [ "$(after "$many")" != quiet ]; do few=$many many=$((many * 2)); done
        while [ $((many - few)) -gt 1 ]; do
            middle=$(((few + many) / 2))
            if [ "$(after "$middle")" = quiet ]; then many=$middle; else few=$middle; fi
        done
        echo "$(seconds 1) $(seconds "$many")" | awk -v kind="$kind" -v size="$size" -v events="$many" \
            -v rounds="${ROUNDS:-20}" '{
            spent = ($2 - $1) / rounds
            print "a ring of " size " routers, " kind ": " events " events, " spent " s, " \
                (spent > 0 ? int((events - 1) / spent) : "many") " a second" }'
    done
done
