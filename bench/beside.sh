#!/bin/sh
# One line of a table: what the program takes for one question, and other solvers on the same clauses.
#   beside.sh NAME QUESTIONS CONFIG...
# Prints NAME, the verdict, variables, clauses, the seconds of processor of the encoding (a run with one learnt clause at
# most) and of the rest, the learnt clauses, the peak of memory, and the seconds and conflicts of minisat and of z3, where
# they are there. QUESTIONS has one question. PROGRAM names another program than the proved one, LIMIT (100) the seconds
# after which a run is cut. Needs GNU time.
set -eu
top=$(cd -P -- "$(dirname -- "$0")/.." && pwd -P)
program=${PROGRAM:-$top/crates/mw_cli/out/mw_cli}
limit=${LIMIT:-100}
[ -x "$program" ] || { echo "prove the program first: ./mw --proved" >&2; exit 1; }
name=$1
shift
dir=$(mktemp -d)
trap 'rm -rf "$dir"' EXIT

# The clauses of a log, in the form that other solvers read.
clauses() {
    awk '/^i / { count++; for (at = 3; at < NF; at++) { v = $at < 0 ? -$at : $at; if (v > vars) vars = v }
            $1 = ""; $2 = ""; print substr($0, 3) >lines }
        /^a / { learnt++ }
        END { print "p cnf " vars + 0, count + 0 >head; print vars + 0, count + 0, learnt + 0 }' \
        lines="$dir/lines" head="$dir/head" "$1"
}

# So many seconds of processor and KB, of the last run.
taken() { tail -n 1 "$dir/time"; }

# Runs the words, and ends with 1 only where the time was up.
run() {
    code=0
    timeout "$limit" /usr/bin/time -q -o "$dir/time" -f '%U %M' "$@" >"$dir/out" 2>/dev/null || code=$?
    [ "$code" != 124 ]
}

solved() {
    if ! command -v "$1" >/dev/null; then return; fi
    if ! run "$@"; then
        printf ' | %s cut' "$1"
        return
    fi
    case $1 in
    minisat) conflicts=$(sed -n 's/^conflicts *: *\([0-9]*\).*/\1/p' "$dir/out") ;;
    *) conflicts=$(sed -n 's/.*:sat-conflicts *\([0-9]*\).*/\1/p' "$dir/out") ;;
    esac
    printf ' | %s %s s, %s' "$1" "$(taken | cut -d' ' -f1)" "${conflicts:-0}"
}

whole=yes
run "$program" --log "$dir/log" verify "$@" || whole=
verdict=$(sed -n '1s/ .*//p' "$dir/out")
both=$(taken)
run "$program" verify --conflicts 1 "$@" || true
encoded=$(taken | cut -d' ' -f1)
set -- $(clauses "$dir/log")
cat "$dir/head" "$dir/lines" >"$dir/cnf"
if [ -n "$whole" ]; then
    printf '%s | %s | %s | %s | %s s | %s s | %s | %s MB' "$name" "$verdict" "$1" "$2" "$encoded" \
        "$(echo "$both $encoded" | awk '{ printf "%.2f", $1 - $3 }')" "$3" "$(echo "$both" | awk '{ printf "%d", $2 / 1024 }')"
else
    printf '%s | cut, the clauses so far: | %s | %s | %s s | | %s |\n' "$name" "$1" "$2" "$encoded" "$3"
    exit
fi
solved minisat "$dir/cnf"
solved z3 -dimacs -st "$dir/cnf"
echo
