#!/bin/sh
# Prints how long a counterexample takes to be read and to be written, and the next hops of all routers: rings of 16, 32 and
# 64 routers that run OSPF and BGP, every router with an OSPF route, a BGP route and an entry at each of the 33 lengths.
# The program is proved and built in a folder of its own, from a copy of the crates. Needs Python 3.
set -e
here=$(cd "$(dirname "$0")" && pwd)
work=$(mktemp -d)
trap 'rm -rf "$work"' EXIT
mkdir -p "$work/crates/time_texts/src"
for crate in $("$here/../below.sh" walk_def cex_json ios_reader); do
    cp -r "$here/../../crates/$crate" "$work/crates/$crate"
    grep "^$crate:" "$here/../../crates.txt" >> "$work/crates.txt"
done
cp "$here/main.rt.in" "$work/crates/time_texts/src/main.rt"
printf 'time_texts: walk_def cex_json question_lang net_model ios_reader ios_ast route_record mw_text\n' >> "$work/crates.txt"
cd "$work/crates/time_texts"
rt run > "$work/log" 2>&1 < /dev/null || { cat "$work/log"; exit 1; }
for count in 16 32 64; do
    python3 "$here/ring.py" "$count" | ./out/time_texts
done
