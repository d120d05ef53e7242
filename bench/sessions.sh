#!/bin/sh
# Prints how many nodes export and import take over a session (a bare one, one with lists and a map of ten entries in both
# directions, a reflected one), and the decision process among 1 to 16 candidates, over routes of new variables.
# examples_symbols is built without proof and reads bench/sessions/script.txt, which asks for numbers and says none.
set -e
top=$(cd "$(dirname "$0")/.." && pwd)
cd "$top/crates/examples_symbols"
rt try < "$top/bench/sessions/script.txt" 2> /dev/null | sed -n 's/^differs //p'
