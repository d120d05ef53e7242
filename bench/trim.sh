#!/bin/sh
# What `trim` makes of a log, and what `check` then takes for both.
#   trim.sh NAME QUESTIONS CONFIG...
# Prints NAME, the lines and bytes of the log that `verify` writes for these words and of its trimmed form, how many of the
# additions stay, the seconds of processor and the peak of memory of `trim`, and the seconds of `check` for both. PROGRAM
# and EXTRA name other programs than the proved ones. Needs GNU time.
set -eu
top=$(cd -P -- "$(dirname -- "$0")/.." && pwd -P)
program=${PROGRAM:-$top/crates/mw_cli/out/mw_cli}
extra=${EXTRA:-$top/crates/mw_extra/out/mw_extra}
for each in "$program" "$extra"; do
    [ -x "$each" ] || { echo "prove the programs first: ./mw --proved" >&2; exit 1; }
done
name=$1
shift
dir=$(mktemp -d)
trap 'rm -rf "$dir"' EXIT
"$program" --log "$dir/log" verify "$@" >"$dir/verdicts" || { echo "not every question holds" >&2; exit 1; }
/usr/bin/time -q -o "$dir/time" -f '%U s, %M' "$extra" trim "$dir/log" >"$dir/trimmed"

additions() { grep -c '^a ' "$1" || true; }

printf '%s | %s lines, %s bytes, trimmed %s and %s | %s of %s additions' "$name" "$(wc -l <"$dir/log")" \
    "$(wc -c <"$dir/log")" "$(wc -l <"$dir/trimmed")" "$(wc -c <"$dir/trimmed")" "$(additions "$dir/trimmed")" \
    "$(additions "$dir/log")"
awk '{ printf " | trim %s %s %d MB", $1, $2, $3 / 1024 }' "$dir/time"
for log in log trimmed; do
    /usr/bin/time -q -o "$dir/time" -f '%U' "$program" check "$dir/$log" "$@" >"$dir/out" ||
        { echo "check says of the $log: $(cat "$dir/out")" >&2; exit 1; }
    printf ' | check of the %s %s s' "$log" "$(cat "$dir/time")"
done
echo
