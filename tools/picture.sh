#!/bin/sh
# Draws docs/customer-leak.svg, the picture in README.md: the first counterexample of tests/explained/leak.printed, by
# `./mw explain --svg`. It wants Graphviz, of which 2.42 drew what stands there.
set -eu
top=$(cd -P -- "$(dirname -- "$0")/.." && pwd -P)
work=$(mktemp -d)
trap 'rm -rf "$work"' EXIT
head -n 2 "$top/tests/explained/leak.printed" >"$work/printed"
cd "$top/examples/customer-leak"
"$top/mw" explain --svg "$work/printed" questions.txt leak.cfg east.cfg west.cfg >"$work/svg"
mv "$work/svg" "$top/docs/customer-leak.svg"
