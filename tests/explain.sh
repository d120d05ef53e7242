#!/bin/sh
# Explains what `verify` printed about networks of examples/, which stands in tests/explained/NAME.printed, with the built
# program, and holds each explanation against NAME.expected; and what is said of words, files and counterexamples that are
# not as they should be. The program is the proved one that `rt ci` leaves, or that in the folder that PROGRAMS names.
set -u
top=$(cd -P -- "$(dirname -- "$0")/.." && pwd -P)
work=$(mktemp -d)
trap 'rm -rf "$work"' EXIT
failed=0
stored=$top/tests/explained
if [ -n "${PROGRAMS-}" ]; then show=$PROGRAMS/mw_show; else show=$top/crates/mw_show/out/mw_show; fi
[ -x "$show" ] || { echo "there is no program at $show" >&2; exit 1; }

# same WHAT EXPECTED FOUND: the two files are the same.
same() {
    if cmp -s "$2" "$3"; then
        echo "ok: $1"
    else
        diff "$2" "$3" | head -n 20
        echo "FAILED: $1"
        failed=1
    fi
}

# explained WHAT NAME QUESTIONS CONFIG..: the explanation of what is stored under that name.
explained() {
    what=$1
    name=$2
    shift 2
    {
        "$show" "$stored/$name.printed" "$@"
        echo "status $?"
    } >"$work/$name"
    same "$what" "$stored/$name.expected" "$work/$name"
}

# ended WHAT STATUS LINE WORD..: the program prints that line and ends so.
ended() {
    what=$1
    printf '%s\nstatus %s\n' "$3" "$2" >"$work/wanted"
    shift 3
    {
        "$show" "$@"
        echo "status $?"
    } >"$work/found"
    same "$what" "$work/wanted" "$work/found"
}

cd "$top/examples" || exit 1
explained "a missing static route" static two-routers/questions.txt two-routers/n1-broken.cfg two-routers/n2.cfg
explained "an access list" access-list access-list/questions.txt access-list/n1.cfg access-list/n2.cfg
explained "OSPF with two failed links" ospf ospf-triangle/two-failures.txt ospf-triangle/k1.cfg ospf-triangle/k2.cfg \
    ospf-triangle/k3.cfg
explained "other questions over OSPF" kinds ospf-triangle/kinds.txt ospf-triangle/k1.cfg ospf-triangle/k2.cfg \
    ospf-triangle/k3.cfg
explained "a customer's leak" leak customer-leak/questions.txt customer-leak/leak.cfg customer-leak/east.cfg \
    customer-leak/west.cfg
explained "a route that comes over reflectors" reflected internal-core/questions.txt internal-core/west.cfg \
    internal-core/east.cfg internal-core/rr1.cfg internal-core/rr2.cfg
explained "the entry of a route map" map "$stored/map.questions" internal-core/west.cfg internal-core/east.cfg \
    internal-core/rr1.cfg internal-core/rr2.cfg
explained "a loop of redistribution" redistribution two-way-redistribution/questions.txt two-way-redistribution/x.cfg \
    two-way-redistribution/y.cfg

# asked WHAT NAME ASKS CONFIG..: of what `advert` printed, with the ways of the routes that go out.
asked() {
    what=$1
    name=$2
    shift 2
    {
        "$top/tools/asked.sh" "$show" "$stored/$name.printed" "$@"
        echo "status $?"
    } >"$work/$name"
    same "$what" "$stored/$name.expected" "$work/$name"
}
asked "a route of one provider that goes out to the other" advert route-leak/asks.txt route-leak/west.cfg \
    route-leak/east.cfg

# drawn WHAT NAME QUESTIONS CONFIG..: the same as a graph.
drawn() {
    what=$1
    name=$2
    shift 2
    {
        "$show" --dot "$stored/$name.printed" "$@"
        echo "status $?"
    } >"$work/$name"
    same "$what" "$stored/$name.dot.expected" "$work/$name"
}
drawn "a customer's leak as a graph" leak customer-leak/questions.txt customer-leak/leak.cfg customer-leak/east.cfg \
    customer-leak/west.cfg
drawn "failed links as a graph" ospf ospf-triangle/two-failures.txt ospf-triangle/k1.cfg ospf-triangle/k2.cfg \
    ospf-triangle/k3.cfg

questions=two-routers/questions.txt
cfgs="two-routers/n1-broken.cfg two-routers/n2.cfg"
# shellcheck disable=SC2086
{
    ended "no word" 3 "usage: mw_show [--dot] PRINTED QUESTIONS CONFIG..."
    ended "no configuration" 3 "usage: mw_show [--dot] PRINTED QUESTIONS CONFIG..." "$stored/static.printed" $questions
    echo "holds q1" >"$work/holds.txt"
    ended "nothing is broken" 0 "nothing is broken" "$work/holds.txt" $questions $cfgs
    echo "no JSON" >"$work/other.txt"
    ended "no counterexample" 4 "refused $work/other.txt:1 18 NotJson" "$work/other.txt" $questions $cfgs
    sed -n 2p "$stored/static.printed" >"$work/alone.json"
    "$show" "$work/alone.json" $questions $cfgs >"$work/alone"
    "$show" "$stored/static.printed" $questions $cfgs >"$work/all"
    same "one counterexample alone" "$work/all" "$work/alone"
    sed 's/"router":"N1"/"router":"N9"/' "$stored/static.printed" >"$work/unknown.txt"
    ended "of other routers" 4 "refused $work/unknown.txt:2:1 19 Field walk/hops/0/router" "$work/unknown.txt" $questions $cfgs
    ended "of other configurations" 1 \
        'no differs N1 32 rib held null wanted {"distance":1,"source":"static"}' \
        "$stored/static.printed" $questions two-routers/n1.cfg two-routers/n2.cfg
}
exit "$failed"
