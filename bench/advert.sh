#!/bin/sh
# Times the command `advert` of the second program: whether a route of one provider goes out to the other, and whether any
# goes out to one, over examples/dual-homed, examples/route-leak and cores of 8 routers with two external peers, full
# meshes and two reflectors (bench/internal.sh), each for as many failed links as FAILURES says (0 1). Prints the answer,
# the clauses, how many were learnt, the seconds of processor and the peak of memory. A run of more than two minutes is cut.
# Needs the program (PROGRAM, or the proved crates/mw_extra/out/mw_extra), Python 3 and GNU time.
set -eu
top=$(cd -P -- "$(dirname -- "$0")/.." && pwd -P)
program=${PROGRAM:-$top/crates/mw_extra/out/mw_extra}
[ -x "$program" ] || { echo "no program at $program" >&2; exit 1; }
dir=$(mktemp -d)
trap 'rm -rf "$dir"' EXIT
mkdir "$dir/nets"
FILES=$dir/nets SIZES=8 "$top/bench/internal.sh"

# asked NAME ASK CONFIG..: one line for the ask.
asked() {
    name=$1
    printf '%s\n' "$2" >"$dir/asks"
    shift 2
    status=0
    timeout 120 /usr/bin/time -o "$dir/time" -f '%U s, %M KiB' "$program" --log "$dir/log" advert "$dir/asks" "$@" \
        >"$dir/out" || status=$?
    printf '%s: status %s, %s; %s clauses, %s learnt; %s\n' "$name" "$status" "$(grep -v '^{' "$dir/out" || true)" \
        "$(grep -c '^i ' "$dir/log" || true)" "$(grep -c '^a ' "$dir/log" || true)" "$(tail -n 1 "$dir/time")"
}

all='prefixes 0.0.0.0/0 le 32 failures'
for k in ${FAILURES:-0 1}; do
    for kind in open filtered; do
        asked "dual-homed, $kind, failures $k" "q noleak from B1 192.0.2.2 to B1 192.0.2.6 $all $k" \
            "$top/examples/dual-homed/$kind.cfg"
    done
    for kind in '' -sends; do
        asked "route-leak$kind, failures $k" "q noleak from WEST 192.0.2.2 to EAST 198.51.100.2 $all $k" \
            "$top/examples/route-leak/west$kind.cfg" "$top/examples/route-leak/east$kind.cfg"
    done
    for core in mesh reflected; do
        asked "$core core of 8, leak, failures $k" "q noleak from N1 192.0.0.2 to N5 192.0.4.2 $all $k" \
            "$dir/nets/$core-8-peers"/r*.cfg
        asked "$core core of 8, default, failures $k" "q noexport to N1 192.0.0.2 prefixes 0.0.0.0/0 failures $k" \
            "$dir/nets/$core-8-peers"/r*.cfg
    done
done
