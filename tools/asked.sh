#!/bin/sh
# Explains what `advert` printed: each counterexample as one of the question that it is of, `NAME nostable packets ip any any
# P/L any failures K`, and then the way of each route that goes out, back over the sessions over which it was learnt.
#   asked.sh PROGRAM [--dot] PRINTED ASKS CONFIG...
# Ends as PROGRAM, which is mw_show, does. With --dot the graph stands alone.
set -u
LC_ALL=C
export LC_ALL
tools=$(cd -P -- "$(dirname -- "$0")" && pwd -P)
program=$1
shift
drawn=''
if [ "$1" = --dot ]; then drawn=--dot && shift; fi
printed=$1
asks=$2
shift 2
work=$(mktemp -d) || exit 72
trap 'rm -rf "$work"' EXIT
trap 'exit 130' INT HUP TERM

tr -d '\r' <"$asks" | awk '
    /^[ \t]*(!|$)/ { next }
    tolower($2) ~ /^no(export|leak)$/ {
        for (at = 3; at < NF; at++) if (tolower($at) == "prefixes") prefix = $(at + 1)
        print $1, "nostable packets ip any any", prefix, "any failures", $NF
    }' >"$work/questions"
sed 's/^\(broken [^ ]*\) [0-9]*$/\1/' <"$printed" >"$work/printed"
status=0
if [ -n "$drawn" ]; then
    "$program" --dot "$work/printed" "$work/questions" "$@" || status=$?
    exit "$status"
fi
"$program" "$work/printed" "$work/questions" "$@" >"$work/said" || status=$?
sed 's/^  wanted: no stable routing$/  wanted: no route of the ask goes out/' "$work/said"
if [ "$status" != 0 ]; then exit "$status"; fi

"$tools/facts.sh" "$@" >"$work/facts"
awk '
    function number(a,    part) { split(a, part, "."); return ((part[1] * 256 + part[2]) * 256 + part[3]) * 256 + part[4] }
    function dotted(n) { return int(n / 16777216) "." int(n / 65536) % 256 "." int(n / 256) % 256 "." n % 256 }
    function prefix_of(a, len,    size) { size = 2 ^ (32 - len); return dotted(int(number(a) / size) * size) "/" len }
    # The text after the first mark in a text, up to the next quote.
    function word_after(text, mark,    at) {
        at = index(text, mark)
        if (!at) return ""
        text = substr(text, at + length(mark))
        return substr(text, 1, index(text, "\"") - 1)
    }
    FILENAME == ARGV[1] { if ($1 == "subnet") owner[$5] = $2; next }
    FILENAME == ARGV[2] {
        for (at = 3; at < NF; at++) if (tolower($at) == "to") { sender[$1] = $(at + 1); peer[$1] = $(at + 2) }
        next
    }
    $1 == "broken" { name = $2; len = $3; next }
    name != "" && /^\{/ {
        split("", from)
        count = split($0, entry, /\{"bgp":\{/)
        for (at = 2; at <= count; at++) {
            end = index(entry[at], "}")
            rest = substr(entry[at], end)
            match(rest, /"len":[0-9]+/)
            if (substr(rest, RSTART + 6, RLENGTH - 6) + 0 == len)
                from[word_after(rest, "\"router\":\"")] = word_after(substr(entry[at], 1, end), "\"from\":\"")
        }
        router = sender[name]
        print name ": the route for " prefix_of(word_after($0, "\"dst\":\""), len) " goes out from " router " to " peer[name]
        for (step = 0; step < 64; step++) {
            if (from[router] !~ /^[0-9.]+$/) { print "  " router " originates it"; break }
            if (!(from[router] in owner)) { print "  " router " learnt it from " from[router] ", outside"; break }
            print "  " router " learnt it from " owner[from[router]] ", " from[router]
            router = owner[from[router]]
        }
        name = ""
    }' "$work/facts" "$asks" "$printed"
exit 0
