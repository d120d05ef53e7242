#!/bin/sh
# Holds calls against plain programs, and against the calls that they are meant to mirror, on random lists, maps,
# configurations and small networks:
#   policies   access lists, prefix lists and route maps as terms, against the plain answers
#   files      configurations written as text and read back
#   twins      interior distances, resolution, sessions and entries of tables as terms, against the plain calls
#   events     quiet states of machines after random lists of events, against the test of stable routings
#   worlds     originated and redistributed routes, walks and loops as terms, against the plain calls
#   run.sh [NAME...]
# These programs are tested, not proved: each is built without proof, over copies of the crates that it stands on, in a
# folder of its own, and prints its seeds, its counts and how many agree. Ends with 1 where one does not agree in all.
set -e
top=$(cd "$(dirname "$0")/../.." && pwd)
work=$(mktemp -d)
trap 'rm -rf "$work"' EXIT

# The crates that a program names.
networks='sym_rib sym_ospf sym_policy term_arith term_store proto_rib proto_ospf net_model ios_reader ios_ast route_record'
named_by() {
    case $1 in
    policies) echo 'sym_policy policy_eval term_arith term_store ios_ast route_record mw_text' ;;
    files) echo 'ios_reader ios_ast mw_text' ;;
    twins) echo "$networks" ;;
    worlds) echo "$networks walk_finder sym_walk walk_def question_lang" ;;
    events) echo "$networks async_machine stable_replay net_parts mw_text" ;;
    esac
}

lines_of() {
    case $1 in
    policies) printf 'access 1 900\nprefix 2 200\nmap 3 900\n' ;;
    files) echo 400 ;;
    twins) printf 'triangle\nigp 7 100\nresolve 7 100\nsession 7 100\nentry 7 100\n' ;;
    events) printf 'events 7 20\nevents 8 20\n' ;;
    worlds) printf 'originate 7 100\nredistribute 7 100\nbreaks 7 20\nloops 7 20\n' ;;
    esac
}

# lay FOLDER CRATE DEP...: a crate of these files.
lay() {
    mkdir -p "$work/crates/$2/src"
    for file in "$top/bench/random/$1"/*.rt.in; do
        cp "$file" "$work/crates/$2/src/$(basename "$file" .in)"
    done
    crate=$2
    shift 2
    echo "$crate: $*" >>"$work/crates.txt"
}

run() {
    named=$(named_by "$1")
    [ -n "$named" ] || { echo "no such program: $1" >&2; exit 64; }
    known=$("$top/bench/below.sh" $named)
    rm -rf "$work/crates" "$work/crates.txt"
    mkdir "$work/crates"
    for crate in $known; do
        cp -r "$top/crates/$crate" "$work/crates/$crate"
        rm -rf "$work/crates/$crate/out"
        grep "^$crate:" "$top/crates.txt" >>"$work/crates.txt"
    done
    case $1 in
    twins | worlds | events)
        lay networks random_networks $known
        lay "$1" "random_$1" random_networks $known
        ;;
    *) lay "$1" "random_$1" $known ;;
    esac
    "$top/tools/optimised_build.sh" "$work/crates/random_$1" "$work/program"
    echo "$1:"
    lines_of "$1" | "$work/program" >"$work/said"
    cat "$work/said"
    awk '/ of [0-9]+ / { for (i = 2; i < NF; i++) if ($i == "of" && $(i - 1) ~ /^[0-9]+$/ && $(i + 1) ~ /^[0-9]+$/ &&
        $(i - 1) != $(i + 1) && !/broken in/) failed = 1 } END { exit failed }' "$work/said"
}

for name in ${*:-policies files twins worlds events}; do run "$name"; done
