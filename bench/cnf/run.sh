#!/bin/sh
# Prints how many nodes a second become clauses at 10,000, 100,000 and 1,000,000 nodes, in the fastest of some rounds; the peak
# of memory for a clause; and for 1,000,000 nodes the speed by the processor's time. Then the nodes and the clauses of a sum,
# a comparison and an equality of two numbers of 32 bits.
# The program is built in a folder of its own, from a copy of the crates.
set -e
here=$(cd "$(dirname "$0")" && pwd)
work=$(mktemp -d)
trap 'rm -rf "$work"' EXIT
mkdir -p "$work/crates/blast_nodes/src" "$work/crates/numbers_as_clauses/src"
for crate in mw_text term_store term_arith resolution_check cnf_blaster; do
    cp -r "$here/../../crates/$crate" "$work/crates/$crate"
    grep "^$crate:" "$here/../../crates.txt" >> "$work/crates.txt"
done
cp "$here/main.rt.in" "$work/crates/blast_nodes/src/main.rt"
cp "$here/numbers.rt.in" "$work/crates/numbers_as_clauses/src/main.rt"
printf 'blast_nodes: cnf_blaster term_store mw_text\n' >> "$work/crates.txt"
printf 'numbers_as_clauses: cnf_blaster term_arith term_store mw_text\n' >> "$work/crates.txt"
cd "$work/crates/blast_nodes"
rt run -- 10000 100000 1000000 2> "$work/log" || { cat "$work/log"; exit 1; }
# Seconds of the processor and the peak of memory in KiB, of one run.
used() {
    /usr/bin/time -f '%U %S %M' ./out/blast_nodes "$1" "$2" 2>&1 > "$work/count"
}
for count in 10000 100000 1000000; do
    terms=$(used "$count" terms)
    all=$(used "$count" clauses)
    clauses=$(cut -d' ' -f1 < "$work/count")
    echo "$terms $all" | awk -v count="$count" -v clauses="$clauses" '{
        printf "%d nodes: peak of %d bytes a clause, of which the terms %d\n", count, $6 * 1024 / clauses, $3 * 1024 / clauses
        seconds = $4 + $5 - $1 - $2
        if (count >= 1000000 && seconds > 0) printf "%d nodes a second of the processor, fresh memory included\n", count / seconds
    }'
done
# This one only counts, so it is run without proof.
cd "$work/crates/numbers_as_clauses"
rt try > "$work/log" 2>&1 < /dev/null || { cat "$work/log"; exit 1; }
grep ' nodes, ' "$work/log"
