#!/bin/sh
# Prints how many nodes and clauses access lists of 64 to 512 entries and route maps of 16 to 64 entries take, over records
# of new variables, and in what time, the fastest of twenty rounds; and how many packets and routes a second go through the
# plain list and map.
# The program is built without proof in a folder of its own, from a copy of the crates; PROGRAM names one that was built
# before.
set -e
top=$(cd "$(dirname "$0")/../.." && pwd)
if [ -z "${PROGRAM:-}" ]; then
    work=$(mktemp -d)
    trap 'rm -rf "$work"' EXIT
    nodes=$work/crates/policy_nodes
    mkdir -p "$nodes/src"
    for crate in $("$top/bench/below.sh" sym_policy policy_eval ios_reader cnf_blaster); do
        cp -r "$top/crates/$crate" "$work/crates/$crate"
        rm -rf "$work/crates/$crate/out"
        grep "^$crate:" "$top/crates.txt" >> "$work/crates.txt"
    done
    cp "$top/bench/policies/main.rt.in" "$nodes/src/main.rt"
    cp "$top/bench/policies/records.rt.in" "$nodes/src/records.rt"
    echo 'policy_nodes: sym_policy policy_eval ios_reader cnf_blaster term_arith term_store ios_ast route_record mw_text' \
        >> "$work/crates.txt"
    "$top/tools/optimised_build.sh" "$nodes" "$work/policy_nodes"
    PROGRAM=$work/policy_nodes
fi
# A list of so many entries: TCP from one network of 256 addresses to one of 64, at a range of ports, other ones in each.
list() {
    awk -v count="$1" 'BEGIN {
        print "hostname L"
        for (i = 0; i < count; i++)
            printf "access-list 101 %s tcp 10.%d.%d.0 0.0.0.255 172.16.%d.%d 0.0.0.63 range %d %d\n",
                i % 2 ? "deny" : "permit", i / 256, i % 256, i / 4, i % 4 * 64, i, i + 1000
    }'
}
# A map of so many entries, each with a list of its own: an access list of two entries and one of three community lists, or
# a prefix list and one of three lists of paths.
map() {
    awk -v count="$1" 'BEGIN {
        print "hostname M"
        for (i = 0; i < 3; i++) {
            printf "ip community-list %d permit %d\n", i + 1, 10 * i + 10
            printf "ip as-path access-list %d permit _%d_\n", i + 1, i + 5
        }
        for (i = 0; i < count; i++) {
            if (i % 2) {
                printf "ip prefix-list P%d permit 10.%d.0.0/16 le 24\n", i, i
                match_list = "prefix-list P" i
            } else {
                printf "access-list %d deny 10.%d.1.0 0.0.0.255\n", i + 1, i
                printf "access-list %d permit 10.%d.0.0 0.0.255.255\n", i + 1, i
                match_list = i + 1
            }
            entry[i] = sprintf(" match ip address %s\n match %s %d\n set %s\n", match_list,
                i % 2 ? "as-path" : "community", i % 3 + 1,
                i % 3 == 2 ? "community 10 99 additive" : (i % 3 ? "metric " : "local-preference ") i)
        }
        for (i = 0; i < count; i++)
            printf "route-map M %s %d\n%s", i % 5 ? "permit" : "deny", i, entry[i]
    }'
}
for count in 64 128 256 512; do
    list $count | "$PROGRAM"
done
for count in 16 32 64; do
    map $count | "$PROGRAM"
done
