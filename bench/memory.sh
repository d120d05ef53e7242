#!/bin/sh
# What four runs leave where memory is refused, one allocation at a time: a question that holds, one that is broken, one over
# external BGP that is, and the search on three pigeons in two holes. A run of the first three has to end with 7, having
# printed a front of what it prints with ample memory; or with 5 and nothing printed, where a file was not opened for want of
# memory; or as with ample memory. The search answers that memory is wanting, and shows a front of its log; or the program
# around it ends with 1. Prints a line a run, and ends with 1 where one was not so (bench/memory/refused.c). Of a run with
# more than 5,000 allocations every EACH-th (20) is refused after these. PROGRAM and SEARCH name other programs than the
# proved ones. Needs a C compiler, Linux and glibc.
set -eu
top=$(cd -P -- "$(dirname -- "$0")/.." && pwd -P)
program=${PROGRAM:-$top/crates/mw_cli/out/mw_cli}
search=${SEARCH:-$top/crates/examples_search/out/examples_search}
for each in "$program" "$search"; do
    [ -x "$each" ] || { echo "there is no program at $each" >&2; exit 1; }
done
dir=$(mktemp -d)
trap 'rm -rf "$dir"' EXIT
EACH=${EACH:-20} && export EACH
"${CC:-cc}" -O2 -shared -fPIC -o "$dir/refused.so" "$top/bench/memory/refused.c"
sed -n '/^# three pigeons in two holes/,/^cnf proper/p' "$top/crates/examples_search/stdin" >"$dir/pigeons"
echo 'cnf solve 2 0' >>"$dir/pigeons"

# tried NAME INPUT WORD...: with each allocation refused once.
failed=0
tried() {
    name=$1
    input=$2
    shift 2
    status=0
    "$@" <"$input" >"$dir/whole" || status=$?
    env WHOLE="$dir/whole" STATUS="$status" TRIED="$dir/tried" LD_PRELOAD="$dir/refused.so" "$@" \
        <"$input" >"$dir/printed" 2>"$dir/said" || true
    cmp -s "$dir/whole" "$dir/printed" || { echo "$name: another output"; failed=1; }
    grep -v '^Error: ' "$dir/said" | sed "s/^/$name: /"
    grep -q ' 0 not as is due$' "$dir/said" || failed=1
}

cd "$top/examples"
tried "a static route that reaches" /dev/null "$program" verify two-routers/questions.txt two-routers/n1.cfg two-routers/n2.cfg
tried "a static route that is missing" /dev/null "$program" verify two-routers/questions.txt two-routers/n1-broken.cfg \
    two-routers/n2.cfg
tried "two external peers" /dev/null "$program" verify dual-homed/questions.txt dual-homed/open.cfg
WANTING=1 MEMORY='out of memory' && export WANTING MEMORY
tried "pigeons in holes" "$dir/pigeons" "$search"
exit "$failed"
