#!/bin/sh
# What `check` takes for a log, beside a checker of the same chains in C, bench/check/checker.c, which takes the inputs as
# they are and reads nothing else.
#   check.sh NAME QUESTIONS CONFIG...
# Prints NAME, the lines of the log that `verify` writes for these words, its bytes, the seconds of processor of `check`, its
# lines a second and its peak of memory, and the same of the checker in C. PROGRAM names another program than the proved
# one. Needs GNU time and a C compiler.
set -eu
top=$(cd -P -- "$(dirname -- "$0")/.." && pwd -P)
program=${PROGRAM:-$top/crates/mw_cli/out/mw_cli}
[ -x "$program" ] || { echo "prove the program first: ./mw --proved" >&2; exit 1; }
name=$1
shift
dir=$(mktemp -d)
trap 'rm -rf "$dir"' EXIT
"${CC:-cc}" -O2 -o "$dir/checker" "$top/bench/check/checker.c"
"$program" --log "$dir/log" verify "$@" >"$dir/verdicts"
lines=$(wc -l <"$dir/log")

# taken WHAT WORDS: runs the words, and prints what they took.
taken() {
    what=$1
    shift
    /usr/bin/time -q -o "$dir/time" -f '%U %M' "$@" >"$dir/out" || { echo "$what says: $(cat "$dir/out")" >&2; exit 1; }
    awk -v what="$what" -v lines="$lines" \
        '{ printf " | %s %s s, %d lines a second, %d MB", what, $1, lines / ($1 > 0 ? $1 : 0.01), $2 / 1024 }' "$dir/time"
}

printf '%s | %s lines, %s bytes' "$name" "$lines" "$(wc -c <"$dir/log")"
taken check "$program" check "$dir/log" "$@"
taken C "$dir/checker" "$dir/log"
echo
