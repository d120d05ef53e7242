#!/bin/sh
# Times the proved program: one question over a configuration of 1 MiB and a small second router, then over chains of
# 32 routers of 8, 16 and 32 KiB each with 32 static hops; then over 1 MiB of mixed lines, and over 20,000 lines of one
# prefix list, which is refused at its 513th entry. Prints for each the verdict, the seconds and the peak of memory. Needs the proved program (.ci/run or ./mw --proved) and GNU time.
set -e
top=$(cd "$(dirname "$0")/.." && pwd)
program=$top/crates/mw_cli/out/mw_cli
[ -x "$program" ] || { echo "prove the program first: ./mw --proved verify" >&2; exit 1; }
work=$(mktemp -d)
trap 'rm -rf "$work"' EXIT
cd "$work"

# A router of the chain: an interface to the one before, one to the one after, a default to the latter, and routes that
# lead there too, up to about so many bytes.
router() {
    awk -v me="$1" -v last="$2" -v size="$3" 'BEGIN {
        line = "hostname Hop" me; bytes = length(line) + 1; print line;
        if (me > 1) add("interface Ethernet0\n ip address 10.0." (me - 1) ".2 255.255.255.252");
        if (me < last) add("interface Ethernet1\n ip address 10.0." me ".1 255.255.255.252");
        if (me == last) add("interface Loopback0\n ip address 10.9.0.1 255.255.255.255");
        if (me < last) {
            add("ip route 10.9.0.0 255.255.0.0 10.0." me ".2");
            for (n = 0; bytes + 52 < size && n < 19900; n++)
                add("ip route 172." (16 + int(n / 65536)) "." (int(n / 256) % 256) "." (n % 256) " 255.255.255.255 10.0." me ".2");
        }
        pad = "!"; while (length(pad) < size - bytes - 1) pad = pad (size - bytes - length(pad) > 65 ? "xxxxxxxxxxxxxxxxxxxxxxxxxxxxxxxxxxxxxxxxxxxxxxxxxxxxxxxxxxxxxxxx" : "x");
        print pad;
    }
    function add(text) { print text; bytes += length(text) + 1; }'
}

timed() {
    printf '%s: ' "$1"
    shift
    /usr/bin/time -f '%e s, %M KiB' "$program" verify questions "$@"
}

echo 'q1 reach from Hop1 to router Hop2 packets icmp 10.0.1.1/32 any 10.9.0.1/32 any failures 0' > questions
router 1 2 1048576 > first
router 2 2 100 > second
timed "$(wc -c < first) bytes, $(wc -l < first) lines" first second

for size in 8192 16384 32768; do
    names=''
    for me in $(seq 32); do
        router "$me" 32 "$size" > "r$me"
        names="$names r$me"
    done
    echo 'q1 reach from Hop1 to router Hop32 packets icmp 10.0.1.1/32 any 10.9.0.1/32 any failures 0' > questions
    timed "32 files of $size bytes" $names
done

# A router of about 1 MiB of mixed lines: 64 interfaces, 512 entries of lists and maps, routes, and lines without effect.
mixed() {
    awk 'BEGIN {
        print "hostname Hop1"; bytes = 14;
        add("interface Ethernet1\n ip address 10.0.1.1 255.255.255.252");
        for (n = 2; n <= 64; n++)
            add("interface GigabitEthernet0/" n "\n description link number " n "\n ip address 10.1." n ".1 255.255.255.0\n duplex auto\n speed auto\n ip ospf cost " n);
        for (n = 1; n <= 200; n++) add("ip prefix-list LIST" (n % 20) " permit 10." n ".0.0/16 ge 20 le 28");
        for (n = 1; n <= 200; n++) add("access-list " (100 + n % 20) " permit tcp 10." n ".0.0 0.0.255.255 any range 1000 2000 log");
        for (n = 1; n <= 100; n++) add("route-map MAP" n " permit 10\n match ip address prefix-list LIST" (n % 20) "\n set local-preference " n "\n set community 65000:" (n % 60) " additive");
        add("ip route 10.9.0.0 255.255.0.0 10.0.1.2");
        for (n = 0; n < 17000 && bytes + 100 < 1048576; n++)
            add("ip route 172." (16 + int(n / 65536)) "." (int(n / 256) % 256) "." (n % 256) " 255.255.255.255 Ethernet1 10.0.1.2 " (1 + n % 200));
        pad = "!"; while (length(pad) < 1048576 - bytes - 1) pad = pad (1048576 - bytes - length(pad) > 65 ? "xxxxxxxxxxxxxxxxxxxxxxxxxxxxxxxxxxxxxxxxxxxxxxxxxxxxxxxxxxxxxxxx" : "x");
        print pad;
    }
    function add(text) { print text; bytes += length(text) + 1; }'
}
echo 'q1 reach from Hop1 to router Hop2 packets icmp 10.0.1.1/32 any 10.9.0.1/32 any failures 0' > questions
mixed > first
router 2 2 100 > second
timed "$(wc -c < first) bytes of mixed lines, $(wc -l < first) lines" first second

awk 'BEGIN { print "hostname Hop1"; for (n = 1; n < 20000; n++) print "ip prefix-list LIST permit 10." (n % 256) ".0.0/16" }' > first
timed "$(wc -l < first) lines of one prefix list" first second || true
