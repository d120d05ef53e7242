#!/bin/sh
# Runs the built program once for each exit status that comes, and once with more configurations than a network has.
# The program is the proved one that `rt ci` leaves, or the one that PROGRAM names.
set -u
top=$(cd -P -- "$(dirname -- "$0")/.." && pwd -P)
program=${PROGRAM:-$top/crates/mw_cli/out/mw_cli}
[ -x "$program" ] || { echo "there is no program at $program" >&2; exit 1; }
work=$(mktemp -d)
trap 'rm -rf "$work"' EXIT
cp "$top"/examples/two-routers/* "$work"
cd "$work" || exit 1
failed=0

# ended WHAT STATUS TEXT: what the last run ended with, and what it wrote to `printed`.
ended() {
    if [ "$status" -eq "$2" ] && [ "$(head -n 1 printed)" = "$3" ]; then
        echo "ok: $1"
    else
        echo "FAILED: $1: status $status and '$(head -n 1 printed)', not $2 and '$3'"
        failed=1
    fi
}

run() {
    "$program" "$@" >printed
    status=$?
}

run verify questions.txt n1.cfg n2.cfg
ended "0, every verdict is holds" 0 "holds q1"

run verify questions.txt n1-broken.cfg n2.cfg
ended "1, some verdict is broken" 1 "broken q1"

network="$top/examples/ospf-bgp"
set -- "$network/questions.txt" "$network/e1.cfg" "$network/e2.cfg"
run replay "$network/counterexample.json" "$@"
ended "0, a counterexample is true" 0 "yes"
run replay "$network/unstable.json" "$@"
ended "1, a counterexample is not true" 1 'no differs E2 24 bgp held null wanted [{"clusters":[],"communities":[],"from":"10.255.0.1","localpref":100,"med":0,"nexthop":"10.255.0.1","origin":"igp","path":[65001],"weight":0}]'

run verify "$@"
ended "1, a provider's route goes over an internal session" 1 "broken q1"
tail -n 1 printed >counterexample.json
run replay counterexample.json "$@"
ended "0, that counterexample is true" 0 "yes"
grep -v next-hop-self "$network/e1.cfg" >e1.cfg
run verify "$network/questions.txt" e1.cfg "$network/e2.cfg"
ended "0, its next hop is not known inside" 0 "holds q1"

core="$top/examples/internal-core"
set -- "$core/questions.txt" "$core/west.cfg" "$core/east.cfg" "$core/rr1.cfg" "$core/rr2.cfg"
run verify "$@"
verdicts=$(grep -v '^{' printed | tr '\n' ' ')
if [ "$status" -eq 1 ] && [ "$verdicts" = "broken servers holds west broken east " ]; then
    echo "ok: a core with two reflectors has the verdicts that its README gives"
else
    echo "FAILED: the core's verdicts are $verdicts"
    failed=1
fi
grep '^{' printed | while read -r line; do
    printf '%s\n' "$line" >counterexample.json
    "$program" replay counterexample.json "$@"
done >replayed
if [ "$(sort -u replayed)" = yes ] && [ "$(wc -l <replayed)" -eq 2 ]; then
    echo "ok: both its counterexamples are true"
else
    echo "FAILED: a counterexample about the core is not true"
    failed=1
fi

triangle="$top/examples/ospf-triangle"
set -- "$triangle/k1.cfg" "$triangle/k2.cfg" "$triangle/k3.cfg"
run verify "$triangle/one-failure.txt" "$@"
ended "0, a question about any failed link holds" 0 "holds q1"
run verify --conflicts 1 "$triangle/one-failure.txt" "$@"
ended "2, some verdict is unknown" 2 "unknown q1 after 1 conflicts"
run verify "$triangle/two-failures.txt" "$@"
ended "1, a question about any two failed links is broken" 1 "broken q1"
tail -n 1 printed >counterexample.json
run replay counterexample.json "$triangle/two-failures.txt" "$@"
ended "0, that counterexample is true" 0 "yes"
run verify "$triangle/kinds.txt" "$@"
verdicts=$(grep -v '^{' printed | tr '\n' ' ')
ended "1, questions of other kinds" 1 "holds q1"
if [ "$verdicts" = "holds q1 broken q2 broken q3 holds q4 holds q5 holds q6 " ]; then
    echo "ok: each has its verdict"
else
    echo "FAILED: the verdicts are $verdicts"
    failed=1
fi

homed="$top/examples/dual-homed"
run verify "$homed/questions.txt" "$homed/open.cfg"
ended "1, a provider may announce what breaks a question" 1 "broken q1"
tail -n 1 printed >counterexample.json
run replay counterexample.json "$homed/questions.txt" "$homed/open.cfg"
ended "0, that counterexample with its announcements is true" 0 "yes"
run verify "$homed/questions.txt" "$homed/filtered.cfg"
ended "0, nothing is taken from that provider" 0 "holds q1"
short="$top/examples/short-prefix"
run verify "$short/questions.txt" "$short/b1.cfg" "$short/c1.cfg"
ended "1, a shorter prefix gets through a filter" 1 "broken q1"
tail -n 1 printed >counterexample.json
run replay counterexample.json "$short/questions.txt" "$short/b1.cfg" "$short/c1.cfg"
ended "0, that counterexample is true" 0 "yes"

both="$top/examples/two-way-redistribution"
run verify "$both/questions.txt" "$both/x.cfg" "$both/y.cfg"
ended "1, a route that supports itself loops" 1 "broken q1"
tail -n 1 printed >counterexample.json
run replay counterexample.json "$both/questions.txt" "$both/x.cfg" "$both/y.cfg"
ended "0, that counterexample is true" 0 "yes"

office="$top/examples/office"
run verify "$office/questions.txt" "$office/edge.cfg" "$office/core.cfg" "$office/desk.cfg" "$office/depot.cfg"
ended "1, twelve questions about an office" 1 "holds web"
verdicts=$(grep -v '^{' printed | tr '\n' ' ')
if [ "$verdicts" = "holds web broken ssh holds ssh-servers holds spoofed holds internet holds warehouse broken edge broken through-core broken hops holds same holds loops broken unrouted " ]; then
    echo "ok: each has the verdict that its README gives"
else
    echo "FAILED: the office's verdicts are $verdicts"
    failed=1
fi
grep '^{' printed | while read -r line; do
    printf '%s\n' "$line" >counterexample.json
    "$program" replay counterexample.json "$office/questions.txt" "$office/edge.cfg" "$office/core.cfg" "$office/desk.cfg" "$office/depot.cfg"
done >replayed
if [ "$(sort -u replayed)" = yes ] && [ "$(wc -l <replayed)" -eq 5 ]; then
    echo "ok: each of its five counterexamples is true"
else
    echo "FAILED: a counterexample about the office is not true"
    failed=1
fi
run verify "$top/examples/ring-of-four/questions.txt" "$top"/examples/ring-of-four/g*.cfg
ended "0, a ring with access lists" 0 "holds g1"
run --log log.txt verify "$triangle/one-failure.txt" "$@"
ended "0, with a log" 0 "holds q1"
if [ "$(head -n 1 log.txt)" = "q q1" ] && [ "$(tail -n 1 log.txt)" = "e" ] && grep -q '^a [0-9]* 0 ' log.txt; then
    echo "ok: the log has the section of the question, and the empty clause in it"
else
    echo "FAILED: the log has no such section"
    failed=1
fi

# checked WHAT STATUS TEXT LOG: what `check` says of that log of the triangle.
checked() {
    run check "$4" "$triangle/one-failure.txt" "$triangle/k1.cfg" "$triangle/k2.cfg" "$triangle/k3.cfg"
    ended "$1" "$2" "$3"
}
"$program" --log k.log verify "$triangle/one-failure.txt" "$@" >/dev/null
last=$(grep -n '^a ' k.log | tail -n 1 | cut -d : -f 1)
first=$(grep -n '^a ' k.log | head -n 1 | cut -d : -f 1)
checked "0, the log of a question that holds" 0 yes k.log
sed "${last}s/[0-9]* 0\$/999999999 0/" k.log >other.log
checked "1, a number that was never given" 1 "no other.log:$last 31 UnknownId" other.log
sed '$d' k.log >other.log
checked "1, the last line is missing" 1 "no other.log:$(wc -l <k.log) 39 Missing" other.log
sed "${first}s/ 0\$//" k.log >other.log
checked "1, an addition without its end" 1 "no other.log:$first 36 BadLine" other.log
wanted=$(sed -n '2s/^i 1 //p' k.log)
sed '2s/^i 1 -/i 1 /;t;2s/^i 1 /i 1 -/' k.log >other.log
checked "1, a literal of an input is negated" 1 "no other.log:2 37 InputDiffers $wanted" other.log
sed '1s/.*/q q2/' k.log >other.log
checked "1, the section of another question" 1 "no other.log:1 36 BadLine" other.log
sed "${first}s/.*/e/" k.log >other.log
checked "1, the end directly after the inputs" 1 "no other.log:$first 38 NotRefuted" other.log
checked "5, no log" 5 "" absent.log
"$program" --log other.log verify --conflicts 1 "$triangle/one-failure.txt" "$@" >/dev/null
checked "1, the log of a search that gave up" 1 "no other.log:$(wc -l <other.log) 38 NotRefuted" other.log
"$program" --log other.log verify questions.txt n1.cfg n2.cfg >/dev/null
run check other.log "$triangle/one-failure.txt" "$@"
if [ "$status" -eq 1 ] && grep -q '^no other.log:[0-9]* 3[67] ' printed; then
    echo "ok: 1, the log of another network"
else
    echo "FAILED: the log of another network: status $status and '$(cat printed)'"
    failed=1
fi
grep '^q[345] ' "$triangle/kinds.txt" | sed '1d' >two.txt
"$program" --log two.log verify two.txt "$@" >/dev/null
run check two.log two.txt "$@"
ended "0, the log of two questions" 0 yes
{ sed '1,/^e$/d' two.log && sed '/^e$/q' two.log; } >other.log
run check other.log two.txt "$@"
ended "1, their sections are exchanged" 1 "no other.log:1 36 BadLine"
: >none.txt
: >none.log
run check none.log none.txt "$@"
ended "0, no question and an empty log" 0 yes
run check k.log none.txt "$@"
ended "1, no question and a log" 1 "no k.log:1 36 BadLine"
run check none.log "$triangle/one-failure.txt" "$@"
ended "1, an empty log" 1 "no none.log:1 39 Missing"

orders="$top/examples/two-orders"
set -- "$orders/o.cfg" "$orders/a1.cfg" "$orders/a2.cfg"
# routes FROM...: from whom each router of the last simulation has its route.
routes() {
    found=$(tail -n 1 printed | grep -o '"from":"[^"]*"' | tr '\n' ' ')
    wanted=$(for from in "$@"; do printf '"from":"%s" ' "$from"; done)
    if [ "$found" = "$wanted" ]; then
        echo "ok: its tables"
    else
        echo "FAILED: its routes are from $found, not from $wanted"
        failed=1
    fi
}
run simulate "$orders/a1-first.txt" "$@"
ended "0, an order of messages" 0 quiet
routes local 10.1.0.1 10.12.0.1
run simulate "$orders/a2-first.txt" "$@"
ended "0, another order" 0 quiet
routes local 10.12.0.2 10.2.0.1
run simulate "$orders/link-cut.txt" "$@"
ended "0, the first order, and a link that failed for a while" 0 quiet
routes local 10.12.0.2 10.2.0.1
grep -v '^!' "$orders/a1-first.txt" >e.txt
sed '/^run/d' e.txt >busy.txt
run simulate busy.txt "$@"
ended "1, messages are on their way" 1 busy
routes local 10.1.0.1 10.12.0.1
sed '4p' e.txt >twice.txt
run simulate twice.txt "$@"
ended "4, no message is on its way" 4 "refused twice.txt:5 21 NothingToDeliver"
sed '2i decide O 33' e.txt >other.txt
run simulate other.txt "$@"
ended "4, no such length" 4 "refused other.txt:2 2 BadWord 3"
sed '2i cut 10.77.0.0/30' e.txt >other.txt
run simulate other.txt "$@"
ended "4, no such link" 4 "refused other.txt:2 22 UnknownName"
printf 'dst 10.9.9.7\nmend 10.1.0.0/30\n' >other.txt
run simulate other.txt "$@"
ended "4, a link that works" 4 "refused other.txt:2 23 AlreadySo"
: >other.txt
run simulate other.txt "$@"
ended "4, no destination" 4 "refused other.txt:1 5 OutOfPlace"
run simulate absent.txt "$@"
ended "5, no events" 5 ""

# The formula of the two routers with a filter has 237,256 clauses where each prefix length has a slot of its own, and that
# of the router with two providers, which holds, 85,859.
set -- "$short/questions.txt" "$short/b1.cfg" "$short/c1.cfg"
run --log short.log verify "$@"
ended "1, a shorter prefix gets through a filter, with a log" 1 "broken q1"
if [ "$(grep -c '^i ' short.log)" -lt 237256 ]; then
    echo "ok: its log has fewer clauses than one with a slot at each length"
else
    echo "FAILED: its log has $(grep -c '^i ' short.log) clauses"
    failed=1
fi
set -- "$homed/questions.txt" "$homed/filtered.cfg"
run --log homed.log verify "$@"
ended "0, nothing is taken from that provider, with a log" 0 "holds q1"
if [ "$(grep -c '^i ' homed.log)" -lt 85859 ]; then
    echo "ok: its log has fewer clauses than one with a slot at each length"
else
    echo "FAILED: its log has $(grep -c '^i ' homed.log) clauses"
    failed=1
fi
run check homed.log "$@"
ended "0, that log of length classes" 0 yes

for count in 3 4 64; do
    run --log made.log gen "$count"
    ended "0, a ring of $count" 0 "routers $count links $count"
    if [ "$(tail -n 1 printed)" = "holds g1" ]; then
        echo "ok: its question holds"
    else
        echo "FAILED: $(tail -n 1 printed)"
        failed=1
    fi
    "$top/tools/ring_files.sh" "$count" ring
    run --log read.log verify ring/questions.txt ring/g*.cfg
    ended "0, the files of a ring of $count" 0 "holds g1"
    if cmp -s made.log read.log; then
        echo "ok: its log is that of the ring made in memory"
    else
        echo "FAILED: the files of a ring of $count have another log"
        failed=1
    fi
    rm -rf ring
done
run
ended "3, no words" 3 "usage: mw_cli verify, check, replay, simulate or gen"
usage="usage: mw_cli verify, check, replay, simulate or gen"
for words in "verify questions.txt" "check" "sniff" "gen 2" "gen 65" "gen" "gen 3 4" "gen --conflicts 0 3" \
    "verify --conflicts 0 questions.txt n1.cfg n2.cfg" "verify --conflicts 1000000001 questions.txt n1.cfg n2.cfg" \
    "verify --conflicts 5 --conflicts 5 questions.txt n1.cfg n2.cfg" "verify --help" "verify -q questions.txt n1.cfg" \
    "simulate" "simulate e.txt" "simulate --conflicts 5 e.txt n1.cfg"; do
    # shellcheck disable=SC2086
    run $words
    ended "3, $words" 3 "$usage"
done
run verify --conflicts=5 questions.txt n1.cfg n2.cfg
ended "0, the limit of conflicts behind a sign" 0 "holds q1"
run verify questions.txt n1.cfg n2.cfg --conflicts 5
ended "0, the limit of conflicts as the last words" 0 "holds q1"
cp questions.txt ./-q.txt
run verify -- -q.txt n1.cfg n2.cfg
ended "0, a name that begins with a dash, after two dashes" 0 "holds q1"

printf 'hostname N1\n!\nrouter eigrp 1\n' >other.cfg
run verify questions.txt other.cfg n2.cfg
ended "4, a file is refused" 4 "refused other.cfg:3 1 UnknownCommand"

set --
for router in $(seq 65); do
    printf 'hostname N%s\n' "$router" >"r$router.cfg"
    set -- "$@" "r$router.cfg"
done
run verify questions.txt "$@"
ended "4, 65 configurations" 4 "refused r65.cfg:1 14 NetLimit"

run verify questions.txt n1.cfg absent.cfg
ended "5, a file that is not there" 5 ""
run verify . n1.cfg n2.cfg
ended "5, a folder for a file" 5 ""

printf 'dst 10.0.0.1\n' >other.txt
for words in "verify questions.txt n1.cfg n2.cfg" "verify questions.txt n1-broken.cfg n2.cfg" "simulate other.txt n1.cfg n2.cfg" \
    "verify"; do
    : >printed
    # shellcheck disable=SC2086
    "$program" $words >/dev/full
    status=$?
    ended "6, the output is full: $words" 6 ""
done

exit "$failed"
