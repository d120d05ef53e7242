#!/bin/sh
# Runs the networks of tests/networks.txt with the built program, and compares with tests/networks.expected, whose lines
# were worked out by hand. Their logs are larger than the sinks in memory of the test programs, so they run here without.
#
# `%file NAME` begins a file, whose lines follow; `%clear` forgets all files. `%replayed NAMES` runs `verify` with these
# names, without the lines of counterexamples, and then `replay` of each counterexample. `% TEXT` is printed.
# The program is the proved one that `rt ci` leaves, or the one that PROGRAM names.
set -u
top=$(cd -P -- "$(dirname -- "$0")/.." && pwd -P)
program=${PROGRAM:-$top/crates/mw_cli/out/mw_cli}
[ -x "$program" ] || { echo "there is no program at $program" >&2; exit 1; }
work=$(mktemp -d)
trap 'rm -rf "$work"' EXIT
mkdir "$work/files" && cd "$work/files" || exit 1

# replayed NAMES: a run of `verify`, and one of `replay` for each of its counterexamples.
replayed() {
    "$program" verify $1 >../printed
    echo "verify $1: status $?"
    grep -v '^{' ../printed
    grep '^{' ../printed >../told
    while IFS= read -r cex <&3; do
        printf '%s\n' "$cex" >counterexample.json
        "$program" replay counterexample.json $1 >../replayed
        echo "replay counterexample.json $1: status $?"
        cat ../replayed
    done 3<../told
}

while IFS= read -r line; do
    case $line in
    %clear) rm -f ./* ;;
    '%file '*) file=${line#%file } && : >"$file" ;;
    '%replayed '*) replayed "${line#%replayed }" ;;
    '% '*) printf '%s\n' "$line" ;;
    *) printf '%s\n' "$line" >>"$file" ;;
    esac
done <"$top/tests/networks.txt" >"$work/output"

if cmp -s "$work/output" "$top/tests/networks.expected"; then
    echo "ok: $(grep -c '^%replayed' "$top/tests/networks.txt") runs over networks, each counterexample replayed"
else
    diff "$work/output" "$top/tests/networks.expected"
    echo "FAILED: runs over networks"
    exit 1
fi
