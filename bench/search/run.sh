#!/bin/sh
# Prints the outcome, the time of the search and the clauses added and deleted on sets of clauses that formulas.py writes:
# random clauses of three literals, pigeons in holes, products of two numbers, and one clause of 200,000 literals; and the
# processor time and the peak of memory of the whole run. Beside each stand the conflicts and propagations of minisat and
# of cadical, where they are there, with the same two. A run longer than two minutes is cut. The program is built in a
# folder of its own, from a copy of the crates; PROGRAM names one that was built before. Needs Python 3 and GNU time.
# Words choose formulas by the beginnings of their names: `bench/search/run.sh pigeons commutes`.
set -e
top=$(cd "$(dirname "$0")/../.." && pwd)
work=$(mktemp -d)
trap 'rm -rf "$work"' EXIT
if [ -z "${PROGRAM:-}" ]; then
    mkdir -p "$work/crates/search_speed/src"
    names='mw_text|term_store|mw_outside|resolution_check|cnf_blaster|clause_arena|deciders|conflict_analysis'
    names="$names|watched_search|cdcl_search"
    for crate in $(echo "$names" | tr '|' ' '); do
        cp -r "$top/crates/$crate" "$work/crates/$crate"
    done
    speed=$work/crates/search_speed
    cp "$top/bench/search/main.rt.in" "$speed/src/main.rt"
    grep -E "^($names):" "$top/crates.txt" > "$work/crates.txt"
    echo 'search_speed: cdcl_search deciders cnf_blaster resolution_check mw_outside mw_text' >> "$work/crates.txt"
    (cd "$speed" && rt run < /dev/null > "$work/log" 2>&1) || { cat "$work/log"; exit 1; }
    PROGRAM=$speed/out/search_speed
fi
mkdir "$work/cnf"
python3 "$top/bench/search/formulas.py" "$work/cnf"

# The conflicts and propagations that a solver prints, on one line.
figures() {
    awk '/^(c )?(conflicts|propagations) *:/ { gsub(/^c /, ""); gsub(/:/, " "); printf ", %s %s", $2, $1 }'
}

# Runs a program, and notes its processor time and the peak of its memory.
measured() {
    /usr/bin/time -o "$work/time" -f '%U s, %M KB' timeout 120 "$@" 2> /dev/null || true
}

for file in "$work"/cnf/*.cnf; do
    name=$(basename "$file" .cnf)
    case " $* " in
        "  ") ;;
        *" ${name%%-*} "*) ;;
        *) continue ;;
    esac
    vars=$(sed -n 's/^p cnf \([0-9]*\) .*/\1/p' "$file")
    awk '!/^[cp]/ { print "i", ++count, $0 }' "$file" > "$work/lines"
    printf '%s: ' "$name"
    measured "$PROGRAM" "$vars" < "$work/lines" | tr -d '\n'
    printf ', %s' "$(tail -n 1 "$work/time")"
    for solver in minisat cadical; do
        if command -v "$solver" > /dev/null; then
            printf '; %s' "$solver"
            measured "$solver" "$file" | figures
            printf ', %s' "$(tail -n 1 "$work/time")"
        fi
    done
    echo
done
