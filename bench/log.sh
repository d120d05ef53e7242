#!/bin/sh
# Times the checker on logs of additions with chains of ten, of which some stay held: on entries, and on lines of text;
# and on additions with chains of two after one of a wide clause. Proves and builds the program bench/log/main.rt.in in
# a temporary folder, and prints for each run the additions, how many are held at most, the seconds, and the peak of
# memory. Needs rt and GNU time.
set -e
top=$(cd "$(dirname "$0")/.." && pwd)
work=$(mktemp -d)
trap 'rm -rf "$work"' EXIT
git -C "$work" init -q
mkdir -p "$work/crates/bench_log"
for crate in mw_text resolution_check; do
    mkdir "$work/crates/$crate"
    for part in src specs proofs; do
        if [ -d "$top/crates/$crate/$part" ]; then cp -r "$top/crates/$crate/$part" "$work/crates/$crate/"; fi
    done
done
mkdir "$work/crates/bench_log/src"
cp "$top/bench/log/main.rt.in" "$work/crates/bench_log/src/main.rt"
echo '0 additions accepted' > "$work/crates/bench_log/stdout"
cp "$top/HANDLES" "$work/"
grep -E '^(mw_text|resolution_check):' "$top/crates.txt" > "$work/crates.txt"
echo 'bench_log: mw_text resolution_check' >> "$work/crates.txt"
cd "$work"
rt all check > "$work/check.txt" 2>&1 || { tail -20 "$work/check.txt"; exit 1; }
for crate in mw_text resolution_check; do (cd "crates/$crate" && rt lib > /dev/null); done
cd crates/bench_log
rt run < /dev/null > run.txt 2>&1 || { tail -20 run.txt; exit 1; }
for count in 1000000 10000000; do
    for held in 1000 1000000; do
        printf '%s additions, %s held: ' "$count" "$held"
        /usr/bin/time -f '%e s, %M KiB' ./out/bench_log "$count" "$held" > /dev/null
    done
done
for width in 10 20000 200000; do
    printf '100000 additions of two steps after a clause of %s literals: ' "$width"
    /usr/bin/time -f '%e s, %M KiB' ./out/bench_log 100000 1000 "$width" > /dev/null
done
for width in 60000 200000; do
    printf 'one addition of %s literals whose variables are far apart: ' "$width"
    /usr/bin/time -f '%e s, %M KiB' ./out/bench_log 1 1000 "$width" > /dev/null
done
# the same entries as text
lines() {
    awk -v count="$1" -v held="$2" 'BEGIN {
        side = " 2001 2002 2003 2004 2005 0";
        for (i = 0; i < 1000; i++) print "i " (i + 1) " -" (i + 1) " " (i + 2) side;
        for (n = 0; n < count; n++) {
            from = n % 900; chain = "";
            for (i = 1; i <= 10; i++) chain = chain " " (from + i);
            print "a " (n + 1001) " -" (from + 1) " " (from + 11) side chain " 0";
            if (n >= held) print "d " (n - held + 1001);
        }
        print "e";
    }'
}
lines 1000000 1000 > "$work/log.txt"
printf '%s lines, %s bytes: ' "$(wc -l < "$work/log.txt")" "$(wc -c < "$work/log.txt")"
/usr/bin/time -f '%e s, %M KiB' ./out/bench_log < "$work/log.txt" > /dev/null
