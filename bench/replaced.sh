#!/bin/sh
# Replaces a configuration of 1 MB while the program reads it, a thousand times each way, and counts what the program
# says. Of the two versions the first has no route, and the second one near its start that leads astray and one at its end
# that leads there: about each of them the question is broken, and only about a mixture it holds. Ends with 1 where some run says that it holds.
#   bench/replaced.sh [REPLACEMENTS]
# The program is the proved one, or the one that PROGRAM names.
set -u
top=$(cd -P -- "$(dirname -- "$0")/.." && pwd -P)
program=${PROGRAM:-$top/crates/mw_cli/out/mw_cli}
[ -x "$program" ] || { echo "there is no program at $program" >&2; exit 1; }
wanted=${1:-1000}
work=$(mktemp -d)
trap 'rm -rf "$work"' EXIT
cp "$top"/examples/two-routers/questions.txt "$top"/examples/two-routers/n2.cfg "$work"
cd "$work" || exit 1

# A version of N1: a line near its start, a megabyte of comments, a line at its end.
version() {
    printf 'hostname N1\ninterface GigabitEthernet0/0\n ip address 10.0.0.1 255.255.255.252\n'
    printf 'interface GigabitEthernet0/1\n ip address 10.7.0.1 255.255.255.252\n%s\n' "$1"
    awk 'BEGIN { for (n = 0; n < 15000; n++) print "! ---------------------------------------------------------------" }'
    printf '%s\n' "$2"
}
astray='ip route 10.2.0.1 255.255.255.255 10.7.0.2'
there='ip route 10.2.0.1 255.255.255.255 10.0.0.2'
version "!$astray" "!$there" >first
version "$astray " "$there " >second
version "!$astray" "$there " >both

# Replaces the file by each version in turn until told to stop: by a rename, or by writing over it with a pause longer
# than a tick of the file system's clock.
replace() {
    count=0
    while [ ! -e stop ]; do
        for other in first second; do
            if [ "$1" = renamed ]; then
                ln -f "$other" next && mv -f next n1.cfg
            else
                cat "$other" >n1.cfg
                sleep 0.02
            fi
            count=$((count + 1))
        done
        echo "$count" >counted
        mv -f counted count
    done
}

# Counts the statuses of runs while the file is replaced in this way, a run for ten replacements at least.
watch() {
    rm -f stop
    : >statuses
    echo 0 >count
    cp first n1.cfg
    replace "$1" &
    writer=$!
    runs=0
    while [ "$(cat count)" -lt "$wanted" ] || [ "$runs" -lt $((wanted / 10)) ]; do
        "$program" verify questions.txt n1.cfg n2.cfg >printed
        status=$?
        echo "$status $(head -c 5 printed)" >>statuses
        runs=$((runs + 1))
    done
    : >stop
    wait "$writer"
    echo "$1 $(cat count) times: $(sort statuses | uniq -c |
        awk '{ printf "%s%d runs with status %s %s", (NR > 1 ? ", " : ""), $1, $2, $3 }')"
    ! grep -q holds statuses
}

cp both n1.cfg
"$program" verify questions.txt n1.cfg n2.cfg >printed
[ "$(cat printed)" = "holds q1" ] || { echo "the mixture is not what was meant: $(head -n 1 printed)" >&2; exit 1; }
rm -f n1.cfg
watch renamed && watch written
