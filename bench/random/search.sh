#!/bin/sh
# Holds the search and what it stands on against plain computations on random and large inputs: random clauses under all
# assignments, pigeons in holes with clauses deleted, choices by score, the clauses of gates against truth tables, numbers
# as terms against plain numbers, a long chain of gates and a long line of a log. Prints seeds, how many cases there were
# and how many differ. The program is run unproved, in a temporary folder, over a copy of the crates; it wants rt.
set -e
here=$(cd "$(dirname "$0")" && pwd)
top=$(cd "$here/../.." && pwd)
work=$(mktemp -d)
trap 'rm -rf "$work"' EXIT
mkdir -p "$work/crates/random_search/src"
for crate in mw_text term_store term_arith mw_outside resolution_check cnf_blaster clause_arena deciders conflict_analysis \
    watched_search cdcl_search; do
    mkdir "$work/crates/$crate"
    for part in src specs proofs; do
        if [ -d "$top/crates/$crate/$part" ]; then cp -r "$top/crates/$crate/$part" "$work/crates/$crate/"; fi
    done
    grep "^$crate:" "$top/crates.txt" >> "$work/crates.txt"
done
for file in "$here"/search/*.rt.in; do
    name=$(basename "$file" .rt.in)
    cp "$file" "$work/crates/random_search/src/$name.rt"
done
printf 'random_search: cdcl_search deciders cnf_blaster term_arith term_store resolution_check mw_outside mw_text\n' \
    >> "$work/crates.txt"
cd "$work/crates/random_search"
rt try --seconds 900 > "$work/out" 2> "$work/log" < /dev/null || { cat "$work/out" "$work/log"; exit 1; }
cat "$work/out"
