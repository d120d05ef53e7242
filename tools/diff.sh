#!/bin/sh
# Reviews a change before it goes live: whether packets have the same fates in the network of one folder and in that of
# another, from each router that both have, or from those that are named.
#   diff.sh MW OLD NEW [FROM..]
# MW is the script mw; OLD and NEW are folders with *.cfg. Asked is of the packets to each connected subnet of either, with
# no failed link and with one, and of all packets where some router has an external peer. `compare` answers, in files of at
# most 64 asks. Of each difference stand its ask, the fate that one network alone has, a walk in each by the counterexample
# of that network, in words, and at the end the lines of the files that differ. The walks are found hop by hop: each is
# one that `replay` takes. Ends with the greatest of the statuses 0, 1 and 2 in which an answer ends, of which 1, something
# is different, counts most; with that of `compare` where it answers nothing; with 64 where the words are wrong.
set -u
LC_ALL=C
export LC_ALL
tools=$(cd -P -- "$(dirname -- "$0")" && pwd -P)
mw=$1
shift
if [ $# -lt 2 ] || [ ! -d "$1" ] || [ ! -d "$2" ]; then
    echo "mw: diff takes the folder of the old configurations, that of the new ones, and routers to begin at" >&2
    exit 64
fi
old=$1
new=$2
shift 2
work=$(mktemp -d) || exit 72
trap 'rm -rf "$work"' EXIT
trap 'exit 130' INT HUP TERM
"$tools/facts.sh" "${old%/}"/*.cfg >"$work/old.facts"
"$tools/facts.sh" "${new%/}"/*.cfg >"$work/new.facts"
count=$(find "${old%/}/" -maxdepth 1 -name '*.cfg' | wc -l)

# The asks, one a line: from each router of both, or from those that are named.
for from in "$@"; do echo "$from"; done >"$work/from"
awk '
    FILENAME == ARGV[1] { named[$1] = 1; some = 1; next }
    FILENAME == ARGV[2] && $1 == "router" { first[$2] = 1 }
    FILENAME == ARGV[3] && $1 == "router" && ($2 in first) && (!some || ($2 in named)) { routers[++count] = $2 }
    $1 == "subnet" { own[$5] = 1; if (!($4 in seen)) { seen[$4] = 1; subnets[++many] = $4 } }
    $1 == "peer" { peers[$3] = 1 }
    END {
        for (p in peers) if (!(p in own)) outside = 1
        if (outside) subnets[++many] = "0.0.0.0/0"
        for (r = 1; r <= count; r++)
            for (s = 1; s <= many; s++)
                for (k = 0; k <= 1; k++) {
                    if (k == 1 && subnets[s] == "0.0.0.0/0") continue
                    print "d" (++asked) " same from " routers[r] " packets ip any any " subnets[s] " any failures " k
                }
    }' "$work/from" "$work/old.facts" "$work/new.facts" >"$work/asks"
if [ ! -s "$work/asks" ]; then
    echo "mw: the two networks have no router of that name in common" >&2
    exit 64
fi
split -l 64 -a 4 "$work/asks" "$work/part."

# told QUESTION: whether the counterexample in cex.json is one of that question of the side, by its configurations.
told() {
    echo "$1" >"$work/question"
    [ "$("$mw" -q replay "$work/cex.json" "$work/question" "$side" </dev/null)" = yes ]
}

# with_walk HOPS END: the counterexample with that walk.
with_walk() {
    sed "s|}\$|,\"walk\":{\"end\":\"$2\",\"hops\":[$1]}}|" "$work/bare.json" >"$work/cex.json"
}

# ends_here HOPS ROUTER: whether a walk over these may end there so that it breaks a question which is asked of it: the
# fate, if the side has one of its own, and else any.
ends_here() {
    case $wanted in
    "delivered $2") with_walk "$1" delivered && told "$name isolate from $from to router $2 $packets" && return ;;
    "left $2 "*) with_walk "$1" "left ${wanted##* }" && told "$name isolate from $from to peer $2 ${wanted##* } $packets" && return ;;
    blackhole)
        for end in noroute discarded; do
            with_walk "$1" $end && told "$name noblackhole from $from $packets" && return
        done
        ;;
    any)
        with_walk "$1" delivered && told "$name isolate from $from to router $2 $packets" && return
        for end in noroute discarded; do
            with_walk "$1" $end && told "$name noblackhole from $from $packets" && return
        done
        for end in $(awk -v router="$2" '$1 == "hop" && $2 == router { print $3 }' "$work/hops"); do
            with_walk "$1" "left $end" && told "$name isolate from $from to peer $2 $end $packets" && return
        done
        ;;
    esac
    case $wanted in
    loop | any) with_walk "$1" loop && told "$name noloop from $from $packets" && return ;;
    esac
    return 1
}

# walk HOPS ROUTER DEPTH: goes on from a router by each hop that the tables lead over, until a walk ends as it is wanted.
# The walk found stands in cex.json, and what it breaks in question.
walk() {
    ends_here "$1" "$2" && return
    [ "$3" -lt "$most" ] || return 1
    awk -v router="$2" '
        $1 == "subnet" && $2 == router { mine[$4] = 1 }
        $1 == "subnet" && $2 != router { other[$2 " " $3] = $4 }
        END { for (o in other) if (other[o] in mine) print o }' "$facts" | sort >"$work/next.$3"
    while read -r there by; do
        with_walk "$1,{\"in\":\"$by\",\"router\":\"$there\"}" open
        if told "$name within $3 from $from $packets"; then
            walk "$1,{\"in\":\"$by\",\"router\":\"$there\"}" "$there" $(($3 + 1)) && return
        fi
    done <"$work/next.$3"
    return 1
}

# one_side TITLE FOLDER FACTS LINE WANTED: tells the counterexample of that line of the answers with a walk.
one_side() {
    side=$2
    facts=$3
    wanted=$5
    most=$(grep -c '^router ' "$facts")
    awk '
        $1 == "peer" { print "hop", $2, $3 }' "$facts" >"$work/hops"
    for file in "${side%/}"/*.cfg; do
        awk '
            tolower($1) == "hostname" { router = $2 }
            tolower($1) == "ip" && tolower($2) == "route" && $NF ~ /^[0-9.]+$/ { print "hop", router, $NF }
            tolower($1) == "ip" && tolower($2) == "route" && $(NF - 1) ~ /^[0-9.]+$/ { print "hop", router, $(NF - 1) }
        ' "$file"
    done >>"$work/hops"
    sed -n "$4p" "$work/answers" >"$work/bare.json"
    echo "$1"
    if walk "{\"router\":\"$from\"}" "$from" 0; then
        {
            echo "broken $name"
            cat "$work/cex.json"
        } >"$work/printed"
    else
        echo "$name nostable $packets" >"$work/question"
        {
            echo "broken $name"
            cat "$work/bare.json"
        } >"$work/printed"
    fi
    "$mw" -q explain "$work/printed" "$work/question" "$side" </dev/null | sed -e '/^broken /d' -e '/^  wanted: /d'
}

# Each answer: what is the same is counted alone.
same=0 different=0 unknown=0
for part in "$work"/part.*; do
    "$mw" -q compare "$count" "$part" "$old" "$new" >"$work/answers"
    status=$?
    if [ "$status" -gt 2 ]; then
        cat "$work/answers"
        exit "$status"
    fi
    place=0
    while IFS= read -r line; do
        place=$((place + 1))
        case $line in
        'same '*) same=$((same + 1)) ;;
        'unknown '*) unknown=$((unknown + 1)) && echo "$line: $(grep "^$(echo "$line" | cut -d ' ' -f 2) " "$part")" ;;
        'different '*)
            different=$((different + 1))
            name=${line#different }
            ask=$(grep "^$name " "$part")
            from=$(echo "$ask" | cut -d ' ' -f 4)
            packets=${ask#*"from $from "}
            only=$(sed -n "$((place + 3))p" "$work/answers")
            fate=${only#only }
            echo "different: ${ask#* same }"
            case $fate in
            left\ *) echo "  in the old network alone: ${fate#left }" ;;
            *) echo "  in the new network alone: ${fate#right }" ;;
            esac
            case $fate in
            left\ *)
                one_side "in the old network" "$old" "$work/old.facts" $((place + 1)) "${fate#left }"
                one_side "in the new network" "$new" "$work/new.facts" $((place + 2)) any
                ;;
            *)
                one_side "in the old network" "$old" "$work/old.facts" $((place + 1)) any
                one_side "in the new network" "$new" "$work/new.facts" $((place + 2)) "${fate#right }"
                ;;
            esac
            ;;
        esac
    done <"$work/answers"
done
echo "$same the same, $different different, $unknown unknown"
if [ "$different" -gt 0 ]; then
    diff -r -U 1 "$old" "$new" | grep -v '^Only in .*[^g]$'
    exit 1
fi
if [ "$unknown" -gt 0 ]; then exit 2; fi
exit 0
