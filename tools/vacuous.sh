#!/bin/sh
# Questions that hold since the network has no stable routing for their packets and failures, a line each. The program is
# asked `nostable` once for each different end of a question, from its `packets` on.
#   vacuous.sh PROGRAM QUESTIONS CONFIG...
set -u
LC_ALL=C
export LC_ALL
program=$1
questions=$2
shift 2
work=$(mktemp -d) || exit 72
trap 'rm -rf "$work"' EXIT
trap 'exit 130' INT HUP TERM
tr -d '\r' <"$questions" | awk -v asked="$work/asked" -v names="$work/names" '
    /^[ \t]*(!|$)/ || NF < 10 { next }
    tolower($2) != "nostable" {
        end = ""
        for (at = NF - 7; at <= NF; at++) end = end " " $at
        if (!(end in number)) {
            number[end] = ++count
            print "e" count " nostable" end >asked
        }
        print "e" number[end], $1 >names
    }'
[ -f "$work/asked" ] || exit 0
"$program" verify "$work/asked" "$@" 2>/dev/null | sed -n 's/^holds //p' >"$work/held"
awk 'NR == FNR { held[$1] = 1; next } $1 in held { print $2 ": no routing of this network is stable, so the question holds of none" }' \
    "$work/held" "$work/names"
