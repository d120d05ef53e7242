#!/bin/sh
# Prints the speed of the store of terms at 10,000, 100,000 and 1,000,000 nodes, and its bytes a node.
# The program is built in a folder of its own, from a copy of the crate.
set -e
here=$(cd "$(dirname "$0")" && pwd)
work=$(mktemp -d)
trap 'rm -rf "$work"' EXIT
mkdir -p "$work/crates/add_nodes/src"
cp -r "$here/../../crates/term_store" "$work/crates/term_store"
cp "$here/main.rt.in" "$work/crates/add_nodes/src/main.rt"
printf 'term_store: indexmap\nadd_nodes: term_store\n' > "$work/crates.txt"
cd "$work/crates/add_nodes"
rt run -- 10000 100000 1000000 2> "$work/log" || { cat "$work/log"; exit 1; }
few=$( { /usr/bin/time -f %M ./out/add_nodes 1000 > "$work/log"; } 2>&1 )
many=$( { /usr/bin/time -f %M ./out/add_nodes 1000000 > "$work/log"; } 2>&1 )
echo "bytes a node at 1000000 nodes: $(( (many - few) * 1024 / 1000000 ))"
